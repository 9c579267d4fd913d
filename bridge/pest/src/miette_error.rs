//! Errors as diagnostics of the crate miette.

use alloc::boxed::Box;
use alloc::string::ToString;
use core::{fmt, iter};

use miette::{Diagnostic, LabeledSpan, SourceCode};

use crate::error::{Error, LineColLocation};
use crate::RuleType;

/// An error whose line is shown with a label.
#[derive(Debug)]
pub(crate) struct Diagnosed<R: RuleType>(pub(crate) Error<R>);

impl<R: RuleType> Diagnostic for Diagnosed<R> {
    fn source_code(&self) -> Option<&dyn SourceCode> {
        Some(self.0.line_of_error())
    }

    fn labels(&self) -> Option<Box<dyn Iterator<Item = LabeledSpan> + '_>> {
        let (start, len) = match self.0.line_col {
            LineColLocation::Pos((_, column)) => (column - 1, 1),
            // The end may be in another line, at a column before that of the start.
            LineColLocation::Span((_, start), (_, end)) => (start - 1, (end + 1).saturating_sub(start)),
        };
        let label = LabeledSpan::new(Some(self.0.variant.message().to_string()), start, len);
        Some(Box::new(iter::once(label)))
    }

    fn help<'a>(&'a self) -> Option<Box<dyn fmt::Display + 'a>> {
        Some(Box::new(self.0.variant.message()))
    }
}

impl<R: RuleType> fmt::Display for Diagnosed<R> {
    fn fmt(&self, f: &mut fmt::Formatter<'_>) -> fmt::Result {
        write!(f, "Failure to parse at {:?}", self.0.line_col)
    }
}

impl<R: RuleType> core::error::Error for Diagnosed<R> {}
