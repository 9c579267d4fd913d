//! Errors of parsers, and errors that a program reports in the same form.

use alloc::borrow::{Cow, ToOwned};
use alloc::boxed::Box;
use alloc::collections::BTreeMap;
use alloc::format;
use alloc::string::{String, ToString};
use alloc::vec::Vec;
use core::fmt;

use crate::attempts::{ParseAttempts, RulesCallStack};
use crate::{Position, RuleType, Span};

/// An error at a position or a span of a text.
#[derive(Clone, Debug, Eq, Hash, PartialEq)]
pub struct Error<R> {
    /// What is wrong.
    pub variant: ErrorVariant<R>,
    /// The position or the span in the text, in bytes.
    pub location: InputLocation,
    /// The position or the span in the text, as lines and columns.
    pub line_col: LineColLocation,
    shown: Box<Shown<R>>,
}

/// What is printed of an error besides its position and its message. It is in a box, so that errors are small.
#[derive(Clone, Debug, Eq, Hash, PartialEq)]
struct Shown<R> {
    path: Option<String>,
    line: String,
    /// The last line, if a span has several.
    continued_line: Option<String>,
    attempts: Option<ParseAttempts<R>>,
}

/// A function that returns the words for a rule in a message.
pub type RuleToMessageFn<R> = Box<dyn Fn(&R) -> Option<String>>;

/// A function that returns whether a token is whitespace.
pub type IsWhitespaceFn = Box<dyn Fn(String) -> bool>;

/// What is wrong.
#[derive(Clone, Debug, Eq, Hash, PartialEq)]
pub enum ErrorVariant<R> {
    /// A parser's failure.
    ParsingError {
        /// The rules that were expected.
        positives: Vec<R>,
        /// The rules that were not expected: those that matched below a `!`.
        negatives: Vec<R>,
    },
    /// Another error.
    CustomError {
        /// The message of the error.
        message: String,
    },
}

/// A position or a span in a text, in bytes.
#[derive(Clone, Debug, Eq, Hash, PartialEq)]
pub enum InputLocation {
    /// A position.
    Pos(usize),
    /// The start and the end of a span.
    Span((usize, usize)),
}

/// A position or a span in a text, as lines and columns from 1.
#[derive(Clone, Debug, Eq, Hash, PartialEq)]
pub enum LineColLocation {
    /// A position.
    Pos((usize, usize)),
    /// The start and the end of a span.
    Span((usize, usize), (usize, usize)),
}

impl From<Position<'_>> for LineColLocation {
    fn from(pos: Position<'_>) -> Self {
        LineColLocation::Pos(pos.line_col())
    }
}

impl From<Span<'_>> for LineColLocation {
    fn from(span: Span<'_>) -> Self {
        LineColLocation::Span(span.start_pos().line_col(), span.end_pos().line_col())
    }
}

impl<R: RuleType> Error<R> {
    /// Makes an error at a position.
    pub fn new_from_pos(variant: ErrorVariant<R>, pos: Position<'_>) -> Error<R> {
        let line = match pos.is_at_line_break() {
            true => with_visible_breaks(pos.line_of()),
            false => without_breaks(pos.line_of()),
        };
        Error {
            variant,
            location: InputLocation::Pos(pos.pos()),
            line_col: LineColLocation::from(pos),
            shown: Box::new(Shown { path: None, line, continued_line: None, attempts: None }),
        }
    }

    /// Makes an error at a span.
    pub fn new_from_span(variant: ErrorVariant<R>, span: Span<'_>) -> Error<R> {
        let text = span.as_str();
        let has_break_at_bound = text.starts_with(['\n', '\r']) || ends_with_break(text);
        let mut lines = span.lines();
        let first = lines.next().unwrap_or_default();
        let last = lines.last();
        let (line, continued_line) = match has_break_at_bound {
            true => (with_visible_breaks(first), last.map(str::to_owned)),
            false => (without_breaks(first), last.map(with_visible_breaks)),
        };
        Error {
            variant,
            location: InputLocation::Span((span.start(), span.end())),
            line_col: LineColLocation::Span(span.start_pos().line_col(), shown_end(span.end_pos())),
            shown: Box::new(Shown { path: None, line, continued_line, attempts: None }),
        }
    }

    /// Gives the error the path of a file, which is printed before the position.
    pub fn with_path(mut self, path: &str) -> Error<R> {
        self.shown.path = Some(path.to_owned());
        self
    }

    /// Adds what a parser tried to the error.
    pub(crate) fn with_attempts(mut self, attempts: ParseAttempts<R>) -> Error<R> {
        self.shown.attempts = Some(attempts);
        self
    }

    /// Returns the path of [`Error::with_path`].
    pub fn path(&self) -> Option<&str> {
        self.shown.path.as_deref()
    }

    /// Returns the line of the error, as it is printed.
    pub fn line(&self) -> &str {
        &self.shown.line
    }

    /// Turns the error of a parser into one with a message. In the message, rules have the names that `f` returns.
    pub fn renamed_rules<F>(self, f: F) -> Error<R>
    where
        F: FnMut(&R) -> String,
    {
        let variant = match self.variant {
            ErrorVariant::ParsingError { positives, negatives } => {
                ErrorVariant::CustomError { message: parser_message(&positives, &negatives, f) }
            }
            custom => custom,
        };
        Error { variant, ..self }
    }

    /// Returns what a parser tried at the furthest position, if [`set_error_detail`](crate::set_error_detail) had it
    /// kept.
    pub fn parse_attempts(&self) -> Option<ParseAttempts<R>> {
        self.shown.attempts.clone()
    }

    /// Returns an error with what was tried: the tokens, and the words that a function returns for the rules. Returns
    /// `None` if nothing was kept.
    ///
    /// # Panics
    /// If the text is another one, and does not have the position.
    pub fn parse_attempts_error(
        &self,
        input: &str,
        rule_to_message: &RuleToMessageFn<R>,
        is_whitespace: &IsWhitespaceFn,
    ) -> Option<Error<R>> {
        let attempts = self.shown.attempts.as_ref()?;
        let blanks = " ".repeat(self.width() + 3);
        let mut lines = alloc::vec!["error: parsing error occurred.".to_owned()];
        lines.extend(attempts.token_notes(is_whitespace, &blanks));
        let mut groups: BTreeMap<Option<R>, Vec<RulesCallStack<R>>> = BTreeMap::new();
        for path in attempts.call_stacks() {
            groups.entry(path.parent).or_default().push(path);
        }
        for (parent, paths) in groups {
            let told = paths.iter().filter_map(|path| rule_to_message(path.deepest.get_rule()?));
            let Some(parent) = parent else {
                lines.extend(told.map(|message| format!("{blanks}help: {message}")));
                continue;
            };
            let (told, parent) = (told.collect::<Vec<_>>(), rule_to_message(&parent));
            if parent.is_some() || !told.is_empty() {
                lines.push(format!("{blanks}help: {}", parent.as_deref().unwrap_or("[Unknown parent rule]")));
                lines.extend(told.iter().map(|message| format!("{blanks}      - {message}")));
            }
        }
        let pos =
            Position::new(input, attempts.max_position).expect("the text that was parsed has the position");
        Some(Error::new_from_pos(ErrorVariant::CustomError { message: lines.join("\n") }, pos))
    }

    /// The line, as what shows a diagnostic asks for it.
    #[cfg(feature = "miette-error")]
    pub(crate) fn line_of_error(&self) -> &String {
        &self.shown.line
    }

    /// Makes a [miette](https://docs.rs/miette) diagnostic of the error.
    #[cfg(feature = "miette-error")]
    pub fn into_miette(self) -> impl ::miette::Diagnostic {
        crate::miette_error::Diagnosed(self)
    }

    /// The digits of the greatest line.
    fn width(&self) -> usize {
        let line = match self.line_col {
            LineColLocation::Pos((line, _)) => line,
            LineColLocation::Span((start, _), (end, _)) => start.max(end),
        };
        line.to_string().len()
    }

    /// The marks below the line.
    fn marks(&self) -> String {
        let (start, end) = match self.line_col {
            LineColLocation::Pos((_, column)) => (column, None),
            // A span that ends in another line may end at a column before that where it starts.
            LineColLocation::Span((_, start), (_, end)) if start > end => (end - 1, Some(start + 1)),
            LineColLocation::Span((_, start), (_, end)) => (start, Some(end)),
        };
        let blank = |character| if character == '\t' { '\t' } else { ' ' };
        let mut marks: String = self.shown.line.chars().take(start.saturating_sub(1)).map(blank).collect();
        match end.map(|end| end - start) {
            None => marks.push_str("^---"),
            Some(0 | 1) => marks.push('^'),
            Some(width) => {
                marks.push('^');
                marks.extend((2..width).map(|_| '-'));
                marks.push('^');
            }
        }
        marks
    }
}

/// The line and the column that are shown for the end of a span: after a line break, the place of the break.
fn shown_end(end: Position<'_>) -> (usize, usize) {
    match end.line_col() {
        (_, 1) => {
            let (line, column) = end.character_before().line_col();
            (line, column + 1)
        }
        place => place,
    }
}

/// Whether a text ends with a line break that is not its first character.
fn ends_with_break(text: &str) -> bool {
    let mut characters = text.chars();
    characters.next();
    matches!(characters.next_back(), Some('\n' | '\r'))
}

fn without_breaks(line: &str) -> String {
    line.replace(['\r', '\n'], "")
}

fn with_visible_breaks(line: &str) -> String {
    line.replace('\r', "␍").replace('\n', "␊")
}

/// The message of a parser's error.
fn parser_message<R>(positives: &[R], negatives: &[R], mut f: impl FnMut(&R) -> String) -> String {
    let mut names = |rules: &[R]| enumeration(rules.iter().map(&mut f).collect());
    match (negatives.is_empty(), positives.is_empty()) {
        (true, true) => "unknown parsing error".to_owned(),
        (true, false) => format!("expected {}", names(positives)),
        (false, true) => format!("unexpected {}", names(negatives)),
        (false, false) => {
            let unexpected = names(negatives);
            format!("unexpected {unexpected}; expected {}", names(positives))
        }
    }
}

/// Names in one text: `a`, `a or b`, `a, b, or c`.
fn enumeration(mut names: Vec<String>) -> String {
    let last = names.pop().unwrap_or_default();
    match &names[..] {
        [] => last,
        [first] => format!("{first} or {last}"),
        _ => format!("{}, or {last}", names.join(", ")),
    }
}

impl<R: RuleType> ErrorVariant<R> {
    /// Returns the message. For a failure of a parser, it has the rules that were expected.
    pub fn message(&self) -> Cow<'_, str> {
        match self {
            ErrorVariant::CustomError { message } => Cow::Borrowed(message),
            ErrorVariant::ParsingError { positives, negatives } => {
                Cow::Owned(parser_message(positives, negatives, |rule| format!("{rule:?}")))
            }
        }
    }
}

/// Prints the position, the line with marks below it, and the message.
impl<R: RuleType> fmt::Display for Error<R> {
    fn fmt(&self, f: &mut fmt::Formatter<'_>) -> fmt::Result {
        let ((start, column), end) = match self.line_col {
            LineColLocation::Pos(start) => (start, start.0),
            LineColLocation::Span(start, end) => (start, end.0),
        };
        let width = self.width();
        let margin = " ".repeat(width);
        let path = self.shown.path.as_ref().map(|path| format!("{path}:")).unwrap_or_default();
        writeln!(f, "{margin}--> {path}{start}:{column}\n{margin} |")?;
        writeln!(f, "{start:width$} | {}", self.shown.line)?;
        if let Some(continued_line) = &self.shown.continued_line {
            if end.saturating_sub(start) > 1 {
                writeln!(f, "{margin} | ...")?;
            }
            writeln!(f, "{end:width$} | {continued_line}")?;
        }
        write!(f, "{margin} | {}\n{margin} |\n{margin} = {}", self.marks(), self.variant.message())
    }
}

impl<R: RuleType> fmt::Display for ErrorVariant<R> {
    fn fmt(&self, f: &mut fmt::Formatter<'_>) -> fmt::Result {
        match self {
            ErrorVariant::ParsingError { .. } => write!(f, "parsing error: {}", self.message()),
            ErrorVariant::CustomError { message } => f.write_str(message),
        }
    }
}

impl<R: RuleType> core::error::Error for Error<R> {}

impl<R: RuleType> core::error::Error for ErrorVariant<R> {}
