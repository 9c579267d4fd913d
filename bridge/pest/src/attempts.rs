//! What a parser tried at the furthest position that it came to, as its error tells in detail.

use alloc::borrow::ToOwned;
use alloc::collections::BTreeSet;
use alloc::format;
use alloc::string::String;
use alloc::vec::Vec;
use core::fmt;
use core::sync::atomic::{AtomicBool, Ordering};

use crate::error::IsWhitespaceFn;
use crate::RuleType;

/// So many attempts inside a rule are told as the rule alone.
const MANY: usize = 4;

static IS_DETAILED: AtomicBool = AtomicBool::new(false);

/// Sets whether parsers keep what they tried, for [`Error::parse_attempts`](crate::error::Error::parse_attempts). That
/// takes time. A parser by hand keeps it in each parse. If a parser of a grammar fails, its rules run once more.
pub fn set_error_detail(enabled: bool) {
    IS_DETAILED.store(enabled, Ordering::Relaxed);
}

/// Whether parsers keep what they tried.
pub(crate) fn is_detailed() -> bool {
    IS_DETAILED.load(Ordering::Relaxed)
}

/// A rule or a token that failed at a position.
#[derive(Clone, Debug, Eq, Hash, Ord, PartialEq, PartialOrd)]
pub enum ParseAttempt<R> {
    /// A rule.
    Rule(R),
    /// A token that is in no rule.
    Token,
}

impl<R> ParseAttempt<R> {
    /// Returns the rule, if it is one.
    pub fn get_rule(&self) -> Option<&R> {
        match self {
            ParseAttempt::Rule(rule) => Some(rule),
            ParseAttempt::Token => None,
        }
    }
}

/// The ends of a path of calls to what failed.
#[derive(Clone, Debug, Eq, Hash, Ord, PartialEq, PartialOrd)]
pub struct RulesCallStack<R> {
    /// The innermost rule.
    pub deepest: ParseAttempt<R>,
    /// The outermost rule around it.
    pub parent: Option<R>,
}

impl<R> RulesCallStack<R> {
    fn of(deepest: ParseAttempt<R>) -> RulesCallStack<R> {
        RulesCallStack { deepest, parent: None }
    }

    fn is_token(&self) -> bool {
        matches!(self.deepest, ParseAttempt::Token)
    }
}

/// A token that a parser looked for.
#[derive(Clone, Debug, Eq, Hash, Ord, PartialEq, PartialOrd)]
pub enum ParsingToken {
    /// A text.
    Sensitive {
        /// The text.
        token: String,
    },
    /// A text, with ASCII letters of either case.
    Insensitive {
        /// The text.
        token: String,
    },
    /// A character of a range.
    Range {
        /// The first character.
        start: char,
        /// The last character.
        end: char,
    },
    /// A character that a function accepts.
    BuiltInRule,
}

impl ParsingToken {
    /// Returns whether the token is a text that the function says is whitespace.
    pub fn is_whitespace(&self, is_whitespace: &IsWhitespaceFn) -> bool {
        match self {
            ParsingToken::Sensitive { token } | ParsingToken::Insensitive { token } => {
                is_whitespace(token.clone())
            }
            ParsingToken::Range { .. } | ParsingToken::BuiltInRule => false,
        }
    }
}

impl fmt::Display for ParsingToken {
    fn fmt(&self, f: &mut fmt::Formatter<'_>) -> fmt::Result {
        match self {
            ParsingToken::Sensitive { token } => f.write_str(token),
            ParsingToken::Insensitive { token } => f.write_str(&token.to_uppercase()),
            ParsingToken::Range { start, end } => write!(f, "{start}..{end}"),
            ParsingToken::BuiltInRule => f.write_str("BUILTIN_RULE"),
        }
    }
}

/// What a parser tried at the furthest position that it came to.
#[derive(Clone, Debug, Eq, Hash, Ord, PartialEq, PartialOrd)]
pub struct ParseAttempts<R> {
    pub(crate) is_enabled: bool,
    /// The paths of calls to what failed there.
    pub call_stacks: Vec<RulesCallStack<R>>,
    expected: Vec<ParsingToken>,
    unexpected: Vec<ParsingToken>,
    /// The position, in bytes.
    pub max_position: usize,
}

impl<R: RuleType> ParseAttempts<R> {
    /// Makes empty attempts. Whether something is kept is what [`set_error_detail`] has set at this time.
    pub fn new() -> ParseAttempts<R> {
        ParseAttempts {
            is_enabled: is_detailed(),
            call_stacks: Vec::new(),
            expected: Vec::new(),
            unexpected: Vec::new(),
            max_position: 0,
        }
    }

    /// Returns the tokens that would have let the parser continue, each once, in order.
    pub fn expected_tokens(&self) -> Vec<ParsingToken> {
        each_once(&self.expected)
    }

    /// Returns the tokens that were there and are not allowed, each once, in order.
    pub fn unexpected_tokens(&self) -> Vec<ParsingToken> {
        each_once(&self.unexpected)
    }

    /// Returns the paths of calls, each once, in order.
    pub fn call_stacks(&self) -> Vec<RulesCallStack<R>> {
        each_once(&self.call_stacks)
    }

    /// Where paths of calls that begin now will stand.
    pub(crate) fn mark(&self) -> (usize, usize) {
        (self.call_stacks.len(), self.max_position)
    }

    /// Puts a rule around the paths that began after its mark.
    pub(crate) fn enclose(&mut self, rule: R, (from, max_position): (usize, usize)) {
        // What was there before is gone where a token was passed since.
        let from = if self.max_position > max_position { 0 } else { from };
        // A token alone tells nothing beside a rule.
        let mut inside = self.call_stacks.split_off(from.min(self.call_stacks.len()));
        let len = inside.len();
        inside.retain(|path| !path.is_token());
        if inside.is_empty() && len > 0 {
            inside.push(RulesCallStack::of(ParseAttempt::Token));
        }
        if inside.len() >= MANY {
            inside = alloc::vec![RulesCallStack::of(ParseAttempt::Rule(rule))];
        } else {
            for path in &mut inside {
                match path.is_token() {
                    true => path.deepest = ParseAttempt::Rule(rule),
                    false => path.parent = Some(rule),
                }
            }
        }
        self.call_stacks.append(&mut inside);
    }

    /// Keeps a token that a parser looked for at `start`, and that it passed if it is now at `pos` beyond it. Below a `!`
    /// it should not be there.
    pub(crate) fn keep(
        &mut self,
        token: ParsingToken,
        start: usize,
        pos: usize,
        is_passed: bool,
        is_negative: bool,
    ) {
        match (is_passed, is_negative) {
            (true, true) => self.keep_unexpected(token, start, pos),
            (true, false) if pos > self.max_position => self.go_on(pos),
            (false, false) if pos >= self.max_position => {
                // As in pest, the first token after a skip is not told.
                match pos > self.max_position {
                    true => self.go_on(pos),
                    false => self.expected.push(token),
                }
                self.call_stacks.push(RulesCallStack::of(ParseAttempt::Token));
            }
            _ => {}
        }
    }

    fn keep_unexpected(&mut self, token: ParsingToken, start: usize, pos: usize) {
        // Of a sequence the first token is told.
        let is_told = pos == self.max_position || pos > self.max_position && start <= self.max_position;
        if is_told {
            self.unexpected.push(token);
        }
        if pos == self.max_position {
            self.call_stacks.push(RulesCallStack::of(ParseAttempt::Token));
        }
    }

    fn go_on(&mut self, pos: usize) {
        self.call_stacks.clear();
        self.expected.clear();
        self.unexpected.clear();
        self.max_position = pos;
    }

    /// The lines of a message on the tokens, each after some blanks.
    pub(crate) fn token_notes(&self, is_whitespace: &IsWhitespaceFn, blanks: &str) -> Vec<String> {
        let lists = [(self.expected_tokens(), "expected"), (self.unexpected_tokens(), "unexpected")];
        let notes = lists.iter().filter(|(tokens, _)| !tokens.is_empty()).map(|(tokens, what)| {
            let name = |token: &ParsingToken| match token.is_whitespace(is_whitespace) {
                true => "WHITESPACE".to_owned(),
                false => format!("`{token}`"),
            };
            let names: BTreeSet<String> = tokens.iter().map(name).collect();
            let names = names.into_iter().collect::<Vec<_>>().join(", ");
            let kind = if tokens.len() == 1 { "token" } else { "one of tokens" };
            format!("{blanks}note: {what} {kind}: {names}")
        });
        notes.collect()
    }
}

impl<R: RuleType> Default for ParseAttempts<R> {
    fn default() -> Self {
        ParseAttempts::new()
    }
}

fn each_once<T: Clone + Ord>(items: &[T]) -> Vec<T> {
    items.iter().cloned().collect::<BTreeSet<_>>().into_iter().collect()
}
