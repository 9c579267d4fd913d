//! The diagnostics of a grammar, with helps and fixes, as in the program pest-lint. This module is no part of
//! the original's interface.
//!
//! ```
//! use pest_meta::diagnostics::diagnose;
//!
//! let grammar = r#"a = { "x" "y" }"#;
//! let error = diagnose(grammar).swap_remove(0);
//! assert_eq!((&error.code[..], error.line, error.column), ("pest::syntax", 1, 11));
//! assert_eq!(error.help.as_deref(), Some("a sequence is written with `~`"));
//! assert_eq!(error.fix.unwrap().apply(grammar), r#"a = { "x" ~ "y" }"#);
//! ```

use std::fmt;
use std::ops::Range;

use crate::answers;
use crate::json::{Malformed, Reader, Reading};

/// What a diagnostic says about the grammar.
#[derive(Clone, Copy, Debug, PartialEq, Eq)]
pub enum Severity {
    /// The grammar is refused.
    Error,
    /// The grammar is accepted.
    Warning,
}

/// An error or a warning of a grammar. Lines and columns count from 1, and a column is a character.
#[derive(Clone, Debug, PartialEq, Eq)]
#[non_exhaustive]
pub struct Diagnostic {
    /// Whether it is an error.
    pub severity: Severity,
    /// The code, such as `pest::left_recursion`. `pest-lint --explain CODE` prints a page about it.
    pub code: String,
    /// What is wrong.
    pub message: String,
    /// The bytes of the grammar that it is about; an empty range is a position.
    pub span: Range<usize>,
    /// The line on which the span starts.
    pub line: usize,
    /// The column at which the span starts.
    pub column: usize,
    /// How to fix it, if that is known.
    pub help: Option<String>,
    /// The change that fixes it, if one is known.
    pub fix: Option<Fix>,
    /// Other parts of the grammar that matter to it.
    pub related: Vec<Related>,
    /// The signs and words that were expected at a syntax error, as a message names them, such as `` `~` ``.
    pub expected: Vec<String>,
}

/// A change of a grammar that fixes a diagnostic.
#[derive(Clone, Debug, PartialEq, Eq)]
pub struct Fix {
    /// The bytes of the grammar that are replaced.
    pub span: Range<usize>,
    /// The text in their place.
    pub replacement: String,
    /// Whether pest-lint applies it by `--fix`. An unsafe fix can change what the rules match.
    pub is_safe: bool,
}

/// A part of a grammar that matters to a diagnostic.
#[derive(Clone, Debug, PartialEq, Eq)]
pub struct Related {
    /// The reason why the part matters.
    pub message: String,
    /// The bytes of the part.
    pub span: Range<usize>,
    /// The line on which the span starts.
    pub line: usize,
    /// The column at which the span starts.
    pub column: usize,
}

/// Returns the errors of a grammar, or its warnings if it has no errors, in the order of pest-lint.
///
/// Tags and literal pushes are accepted here without the feature `grammar-extras`, too.
///
/// # Panics
/// If the library cannot allocate, or if it is of a later release and returns what this crate does not know.
pub fn diagnose(grammar: &str) -> Vec<Diagnostic> {
    answers::diagnostics(grammar, diagnostic).unwrap_or_else(|why| panic!("pest_meta: {why}"))
}

impl Fix {
    /// Returns the grammar with the change. After it, other fixes of the grammar no longer fit, since their
    /// bytes have moved.
    ///
    /// # Panics
    /// If the text does not have these bytes, and so is not the grammar.
    pub fn apply(&self, grammar: &str) -> String {
        let mut fixed = grammar.to_owned();
        fixed.replace_range(self.span.clone(), &self.replacement);
        fixed
    }
}

impl fmt::Display for Severity {
    fn fmt(&self, f: &mut fmt::Formatter<'_>) -> fmt::Result {
        f.write_str(match self {
            Severity::Error => "error",
            Severity::Warning => "warning",
        })
    }
}

/// Writes the position, the severity, the code and the message, in one line.
impl fmt::Display for Diagnostic {
    fn fmt(&self, f: &mut fmt::Formatter<'_>) -> fmt::Result {
        write!(f, "{}:{}: {}[{}]: {}", self.line, self.column, self.severity, self.code, self.message)
    }
}

/// Reads a diagnostic.
fn diagnostic(reader: &mut Reader<'_>) -> Reading<Diagnostic> {
    let mut kind = None;
    let mut found = Diagnostic {
        severity: Severity::Error,
        code: String::new(),
        message: String::new(),
        span: 0..0,
        line: 1,
        column: 1,
        help: None,
        fix: None,
        related: Vec::new(),
        expected: Vec::new(),
    };
    reader.object(|reader, member| match member {
        "kind" => severity(reader).map(|it| kind = Some(it)),
        "code" => reader.text().map(|it| found.code = it),
        "message" => reader.text().map(|it| found.message = it),
        "start" => reader.place().map(|it| found.span.start = it),
        "end" => reader.place().map(|it| found.span.end = it),
        "line" => reader.place().map(|it| found.line = it),
        "column" => reader.place().map(|it| found.column = it),
        "help" => unless_null(reader, Reader::text).map(|it| found.help = it),
        "fix" => unless_null(reader, fix).map(|it| found.fix = it),
        "related" => reader.list(related).map(|it| found.related = it),
        "expected" => reader.list(Reader::text).map(|it| found.expected = it),
        _ => reader.pass(),
    })?;
    match kind {
        Some(severity) => Ok(Diagnostic { severity, ..found }),
        None => reader.wanted("a diagnostic with its kind"),
    }
}

/// Reads a severity.
fn severity(reader: &mut Reader<'_>) -> Reading<Severity> {
    match &reader.borrowed_text()?[..] {
        "error" => Ok(Severity::Error),
        "warning" => Ok(Severity::Warning),
        other => Err(Malformed::Unknown { what: "kind of diagnostics", name: other.to_owned() }),
    }
}

/// Reads a value that may be null.
fn unless_null<'a, T>(
    reader: &mut Reader<'a>,
    value: impl FnOnce(&mut Reader<'a>) -> Reading<T>,
) -> Reading<Option<T>> {
    match reader.takes_null() {
        true => Ok(None),
        false => value(reader).map(Some),
    }
}

/// Reads a fix.
fn fix(reader: &mut Reader<'_>) -> Reading<Fix> {
    let mut fix = Fix { span: 0..0, replacement: String::new(), is_safe: false };
    reader.object(|reader, member| match member {
        "start" => reader.place().map(|it| fix.span.start = it),
        "end" => reader.place().map(|it| fix.span.end = it),
        "replacement" => reader.text().map(|it| fix.replacement = it),
        "applicability" => reader.text().map(|it| fix.is_safe = it == "safe"),
        _ => reader.pass(),
    })?;
    Ok(fix)
}

/// Reads a part of a grammar.
fn related(reader: &mut Reader<'_>) -> Reading<Related> {
    let mut part = Related { message: String::new(), span: 0..0, line: 1, column: 1 };
    reader.object(|reader, member| match member {
        "message" => reader.text().map(|it| part.message = it),
        "start" => reader.place().map(|it| part.span.start = it),
        "end" => reader.place().map(|it| part.span.end = it),
        "line" => reader.place().map(|it| part.line = it),
        "column" => reader.place().map(|it| part.column = it),
        _ => reader.pass(),
    })?;
    Ok(part)
}

#[cfg(test)]
mod tests {
    use super::*;
    use crate::json;

    #[test]
    fn new_members_are_passed_over_and_new_kinds_are_errors() {
        let line = r#"{"code":"pest::new","fix":null,"hints":[{}],"kind":"warning","message":"m","start":3,"end":4}"#;
        let found = json::read(line, diagnostic).unwrap();
        assert_eq!((found.severity, found.span.clone(), found.fix), (Severity::Warning, 3..4, None));
        let hint = json::read(r#"{"kind":"hint"}"#, diagnostic).unwrap_err();
        assert_eq!(hint, Malformed::Unknown { what: "kind of diagnostics", name: "hint".to_owned() });
        assert!(json::read(r#"{"code":"pest::new"}"#, diagnostic).is_err());
    }
}
