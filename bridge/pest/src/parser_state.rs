//! Parsers by hand: functions that take a state and return it, after a match or a failure.

use alloc::borrow::{Cow, ToOwned};
use alloc::boxed::Box;
use alloc::vec::Vec;
use core::num::NonZeroUsize;
use core::ops::Range;
use core::sync::atomic::{AtomicUsize, Ordering};

use kingorewa_library::code::{Node, Nodes};

use crate::attempts::{ParseAttempts, ParsingToken};
use crate::error::{Error, ErrorVariant};
use crate::iterators::{Pairs, Rules, Tree};
use crate::stack::Stack;
use crate::{Position, RuleType};

/// Whether a state is inside a predicate.
#[derive(Clone, Copy, Debug, Eq, PartialEq)]
pub enum Lookahead {
    /// Inside `&`, or inside a `!` in another `!`.
    Positive,
    /// Inside `!`.
    Negative,
    /// Inside no predicate.
    None,
}

/// Whether implicit whitespace is skipped in a rule, and whether the rules inside it make pairs.
#[derive(Clone, Copy, Debug, Eq, PartialEq)]
pub enum Atomicity {
    /// Nothing is skipped, and rules inside make no pairs.
    Atomic,
    /// Nothing is skipped, and rules inside make pairs.
    CompoundAtomic,
    /// Whitespace and comments are skipped.
    NonAtomic,
}

/// A state that matched, or one that failed.
pub type ParseResult<S> = Result<S, S>;

/// The order in which entries of the stack are matched.
#[derive(Clone, Copy, Debug, Eq, PartialEq)]
pub enum MatchDir {
    /// The entry that was pushed first is the first one.
    BottomToTop,
    /// The entry that was pushed last is the first one.
    TopToBottom,
}

/// The limit of calls; 0 if there is none.
static CALL_LIMIT: AtomicUsize = AtomicUsize::new(0);

/// Sets the greatest number of calls of a parser, for all parsers of the program. A parser that comes to the limit
/// fails with the error "call limit reached".
///
/// The calls of a parser by hand are those of its state that take a function. For a parser of a grammar a call counts as
/// [`STEPS_OF_A_CALL`] steps of the machine.
pub fn set_call_limit(limit: Option<NonZeroUsize>) {
    CALL_LIMIT.store(limit.map_or(0, NonZeroUsize::get), Ordering::Relaxed);
}

/// The number of steps of the machine that count as one call for [`set_call_limit`]. They take about as long as a call.
pub const STEPS_OF_A_CALL: u64 = 16;

/// The limit of [`set_call_limit`].
pub(crate) fn call_limit() -> Option<usize> {
    NonZeroUsize::new(CALL_LIMIT.load(Ordering::Relaxed)).map(NonZeroUsize::get)
}

/// The message of an error of a parser that came to the limit.
pub(crate) const LIMIT_REACHED: &str = "call limit reached";

/// A bound of a pair.
#[derive(Debug)]
enum Bound<'i, R> {
    /// Its start at a byte, with the index of its end once that is known.
    Start { end: usize, pos: usize },
    /// Its end at a byte.
    End { rule: R, tag: Option<&'i str>, pos: usize },
}

/// The rules that failed at the furthest position, and those that matched there below a `!`.
#[derive(Debug)]
struct Failures<R> {
    pos: usize,
    positives: Vec<R>,
    negatives: Vec<R>,
}

impl<R: RuleType> Failures<R> {
    /// How many of both there are at a position.
    fn mark(&self, pos: usize) -> (usize, usize) {
        if pos == self.pos {
            (self.positives.len(), self.negatives.len())
        } else {
            (0, 0)
        }
    }

    /// Adds a rule that began at a position, where so many failures stood then. It stands for those inside it, but for one
    /// alone, which says more.
    fn add(&mut self, rule: R, pos: usize, (positives, negatives): (usize, usize), is_negative: bool) {
        let (more_positives, more_negatives) = self.mark(pos);
        if more_positives + more_negatives == positives + negatives + 1 || pos < self.pos {
            return;
        }
        self.positives.truncate(positives);
        self.negatives.truncate(negatives);
        self.pos = pos;
        if is_negative {
            self.negatives.push(rule)
        } else {
            self.positives.push(rule)
        }
    }
}

/// The state of a parser by hand: its position in the text, the pairs that it made, and its stack.
///
/// ```
/// use pest::{state, Atomicity, ParseResult, ParserState};
///
/// #[derive(Clone, Copy, Debug, Eq, Hash, Ord, PartialEq, PartialOrd)]
/// enum Rule { list, item }
///
/// fn item(state: Box<ParserState<'_, Rule>>) -> ParseResult<Box<ParserState<'_, Rule>>> {
///     state.rule(Rule::item, |state| state.match_range('a'..'z'))
/// }
///
/// let pairs = state("a,b", |state| {
///     state.rule(Rule::list, |state| {
///         item(state)?.repeat(|state| state.sequence(|state| item(state.match_string(",")?)))
///     })
/// });
/// assert_eq!(pairs.unwrap().next().unwrap().into_inner().count(), 2);
/// ```
#[derive(Debug)]
pub struct ParserState<'i, R: RuleType> {
    position: Position<'i>,
    bounds: Vec<Bound<'i, R>>,
    lookahead: Lookahead,
    atomicity: Atomicity,
    failures: Failures<R>,
    attempts: ParseAttempts<R>,
    stack: Stack<Cow<'i, str>>,
    /// How many calls it may make still, if there is a limit.
    calls: Option<usize>,
}

/// Runs a parser by hand on a text. Returns its pairs.
///
/// # Errors
/// An error at the furthest position at which a rule failed, if the parser fails.
///
/// # Panics
/// If the text has 4 GiB or more.
pub fn state<'i, R: RuleType, F>(input: &'i str, f: F) -> Result<Pairs<'i, R>, Error<R>>
where
    F: FnOnce(Box<ParserState<'i, R>>) -> ParseResult<Box<ParserState<'i, R>>>,
{
    match f(ParserState::new(input)) {
        Ok(state) => Ok(pairs_of(input, &state.bounds)),
        Err(state) => Err(error_of(input, *state)),
    }
}

/// The pairs between some bounds.
fn pairs_of<'i, R: RuleType>(text: &'i str, bounds: &[Bound<'i, R>]) -> Pairs<'i, R> {
    assert!(u32::try_from(text.len()).is_ok(), "texts of 4 GiB and more are not parsed");
    let (mut nodes, mut rules, mut tags) = (Vec::new(), Vec::new(), Vec::new());
    let mut open = Vec::new();
    for bound in bounds {
        match bound {
            Bound::Start { end, pos } => {
                let Bound::End { rule, tag, .. } = &bounds[*end] else { unreachable!("a start has its end") };
                open.push(nodes.len());
                nodes.push(Node { row: nodes.len() as u32, start: *pos as u32, end: 0, after: 0 });
                rules.push(*rule);
                tags.push(*tag);
            }
            Bound::End { pos, .. } => {
                let at: usize = open.pop().expect("an end has its start");
                nodes[at] = Node { end: *pos as u32, after: nodes.len() as u32, ..nodes[at] };
            }
        }
    }
    let tree = Tree::new(text, Nodes::from(nodes), Rules::List(rules.into()), tags);
    let len = tree.len();
    Pairs::new(tree, 0, len)
}

/// The error of a state that failed.
fn error_of<R: RuleType>(text: &str, state: ParserState<'_, R>) -> Error<R> {
    let is_limited = state.is_out_of_calls();
    let Failures { pos, mut positives, mut negatives } = state.failures;
    let variant = if is_limited {
        ErrorVariant::CustomError { message: LIMIT_REACHED.to_owned() }
    } else {
        for rules in [&mut positives, &mut negatives] {
            rules.sort_unstable();
            rules.dedup();
        }
        ErrorVariant::ParsingError { positives, negatives }
    };
    let error = Error::new_from_pos(variant, Position::at(text, pos));
    if state.attempts.is_enabled {
        error.with_attempts(state.attempts)
    } else {
        error
    }
}

impl<'i, R: RuleType> ParserState<'i, R> {
    /// Makes a state at the start of a text.
    pub fn new(input: &'i str) -> Box<Self> {
        Box::new(ParserState {
            position: Position::from_start(input),
            bounds: Vec::new(),
            lookahead: Lookahead::None,
            atomicity: Atomicity::NonAtomic,
            failures: Failures { pos: 0, positives: Vec::new(), negatives: Vec::new() },
            attempts: ParseAttempts::new(),
            stack: Stack::new(),
            calls: call_limit(),
        })
    }

    /// Returns what was tried at the furthest position. There is something only after
    /// [`set_error_detail`](crate::set_error_detail).
    pub fn get_parse_attempts(&self) -> &ParseAttempts<R> {
        &self.attempts
    }

    /// Returns the position of the state.
    pub fn position(&self) -> &Position<'i> {
        &self.position
    }

    /// Returns the mode of the innermost rule that sets one.
    pub fn atomicity(&self) -> Atomicity {
        self.atomicity
    }

    /// Counts a call, or fails where there may be none.
    fn called(mut self: Box<Self>) -> ParseResult<Box<Self>> {
        match &mut self.calls {
            Some(0) => return Err(self),
            Some(calls) => *calls -= 1,
            None => {}
        }
        Ok(self)
    }

    /// Sets how many calls it may make.
    pub(crate) fn set_calls(&mut self, calls: usize) {
        self.calls = Some(calls);
    }

    /// Returns whether it may make no call more.
    pub(crate) fn is_out_of_calls(&self) -> bool {
        self.calls == Some(0)
    }

    /// Returns whether its stack is empty.
    pub(crate) fn has_empty_stack(&self) -> bool {
        self.stack.is_empty()
    }

    fn is_negative(&self) -> bool {
        self.lookahead == Lookahead::Negative
    }

    /// Whether rules make pairs.
    fn makes_pairs(&self) -> bool {
        self.lookahead == Lookahead::None && self.atomicity != Atomicity::Atomic
    }

    /// Makes a pair of the rule from what the function matches. If the function fails, an error names the rule.
    pub fn rule<F>(self: Box<Self>, rule: R, f: F) -> ParseResult<Box<Self>>
    where
        F: FnOnce(Box<Self>) -> ParseResult<Box<Self>>,
    {
        let mut state = self.called()?;
        let (start, first) = (state.position.pos(), state.bounds.len());
        let (failures, attempts) = (state.failures.mark(start), state.attempts.mark());
        if state.makes_pairs() {
            state.bounds.push(Bound::Start { end: 0, pos: start });
        }
        let result = f(state);
        let is_match = result.is_ok();
        let mut state = result.unwrap_or_else(|state| state);
        let is_named = state.atomicity != Atomicity::Atomic;
        // What matches counts as a failure below a `!`, and only there.
        if is_named && is_match == state.is_negative() {
            let is_negative = state.is_negative();
            state.failures.add(rule, start, failures, is_negative);
        }
        if is_named && state.attempts.is_enabled && (is_match || !state.is_negative()) {
            state.attempts.enclose(rule, attempts);
        }
        if state.makes_pairs() {
            match is_match {
                true => state.end_pair(rule, first),
                false => state.bounds.truncate(first),
            }
        }
        if is_match {
            Ok(state)
        } else {
            Err(state)
        }
    }

    /// Ends the pair whose start has an index.
    fn end_pair(&mut self, rule: R, first: usize) {
        let (index, pos) = (self.bounds.len(), self.position.pos());
        let Some(Bound::Start { end, .. }) = self.bounds.get_mut(first) else {
            unreachable!("the function of a rule keeps the pairs before it")
        };
        *end = index;
        self.bounds.push(Bound::End { rule, tag: None, pos });
    }

    /// Gives a tag to the pair that ended last, if no pair has begun since.
    pub fn tag_node(mut self: Box<Self>, tag: &'i str) -> ParseResult<Box<Self>> {
        if self.lookahead == Lookahead::None {
            if let Some(Bound::End { tag: old, .. }) = self.bounds.last_mut() {
                *old = Some(tag);
            }
        }
        Ok(self)
    }

    /// Matches what the function matches. If the function fails, the state is as before.
    pub fn sequence<F>(self: Box<Self>, f: F) -> ParseResult<Box<Self>>
    where
        F: FnOnce(Box<Self>) -> ParseResult<Box<Self>>,
    {
        let state = self.called()?;
        let (position, len) = (state.position, state.bounds.len());
        state.restore_on_err(f).map_err(|mut state| {
            state.position = position;
            state.bounds.truncate(len);
            state
        })
    }

    /// Repeats the function as long as it matches.
    pub fn repeat<F>(self: Box<Self>, mut f: F) -> ParseResult<Box<Self>>
    where
        F: FnMut(Box<Self>) -> ParseResult<Box<Self>>,
    {
        let mut state = self.called()?;
        loop {
            match f(state) {
                Ok(next) => state = next,
                Err(last) => return Ok(last),
            }
        }
    }

    /// Matches what the function matches, or nothing.
    pub fn optional<F>(self: Box<Self>, f: F) -> ParseResult<Box<Self>>
    where
        F: FnOnce(Box<Self>) -> ParseResult<Box<Self>>,
    {
        f(self.called()?).or_else(Ok)
    }

    /// Ends a call that looked for a token from a byte on.
    fn with_token(
        mut self: Box<Self>,
        start: usize,
        is_match: bool,
        token: impl FnOnce() -> ParsingToken,
    ) -> ParseResult<Box<Self>> {
        if self.attempts.is_enabled {
            let (pos, is_negative) = (self.position.pos(), self.is_negative());
            self.attempts.keep(token(), start, pos, is_match, is_negative);
        }
        if is_match {
            Ok(self)
        } else {
            Err(self)
        }
    }

    /// Matches a character that the function accepts.
    pub fn match_char_by<F>(mut self: Box<Self>, f: F) -> ParseResult<Box<Self>>
    where
        F: FnOnce(char) -> bool,
    {
        let start = self.position.pos();
        let is_match = self.position.take_char(f);
        self.with_token(start, is_match, || ParsingToken::BuiltInRule)
    }

    /// Matches a text.
    pub fn match_string(mut self: Box<Self>, string: &str) -> ParseResult<Box<Self>> {
        let start = self.position.pos();
        let is_match = self.position.take(string.len(), |text| text == string);
        self.with_token(start, is_match, || ParsingToken::Sensitive { token: string.to_owned() })
    }

    /// Matches a text, with ASCII letters of either case.
    pub fn match_insensitive(mut self: Box<Self>, string: &str) -> ParseResult<Box<Self>> {
        let start = self.position.pos();
        let is_match = self.position.take(string.len(), |text| text.eq_ignore_ascii_case(string));
        self.with_token(start, is_match, || ParsingToken::Insensitive { token: string.to_owned() })
    }

    /// Matches a character from the first of a range to the last, which is in it.
    pub fn match_range(mut self: Box<Self>, range: Range<char>) -> ParseResult<Box<Self>> {
        let start = self.position.pos();
        let is_match =
            self.position.take_char(|character| range.start <= character && character <= range.end);
        self.with_token(start, is_match, || ParsingToken::Range { start: range.start, end: range.end })
    }

    /// Matches `n` characters.
    pub fn skip(mut self: Box<Self>, n: usize) -> ParseResult<Box<Self>> {
        if self.position.skip(n) {
            Ok(self)
        } else {
            Err(self)
        }
    }

    /// Moves the state to the next position at which one of the texts begins, or to the end.
    pub fn skip_until(mut self: Box<Self>, strings: &[&str]) -> ParseResult<Box<Self>> {
        self.position.skip_until(strings);
        Ok(self)
    }

    /// Succeeds at the start of the text, and matches nothing.
    pub fn start_of_input(self: Box<Self>) -> ParseResult<Box<Self>> {
        if self.position.pos() == 0 {
            Ok(self)
        } else {
            Err(self)
        }
    }

    /// Succeeds at the end of the text, and matches nothing.
    pub fn end_of_input(self: Box<Self>) -> ParseResult<Box<Self>> {
        if self.position.is_at_end() {
            Ok(self)
        } else {
            Err(self)
        }
    }

    /// Succeeds and matches nothing, if the function matches. If `is_positive` is false, it succeeds if the function
    /// fails. The stack is as before.
    pub fn lookahead<F>(self: Box<Self>, is_positive: bool, f: F) -> ParseResult<Box<Self>>
    where
        F: FnOnce(Box<Self>) -> ParseResult<Box<Self>>,
    {
        let mut state = self.called()?;
        let (lookahead, position) = (state.lookahead, state.position);
        state.lookahead = match (lookahead, is_positive) {
            (Lookahead::Negative, true) | (Lookahead::None | Lookahead::Positive, false) => {
                Lookahead::Negative
            }
            (Lookahead::Negative, false) | (Lookahead::None | Lookahead::Positive, true) => {
                Lookahead::Positive
            }
        };
        state.stack.snapshot();
        let result = f(state);
        let is_match = result.is_ok() == is_positive;
        let mut state = result.unwrap_or_else(|state| state);
        state.stack.restore();
        (state.lookahead, state.position) = (lookahead, position);
        if is_match {
            Ok(state)
        } else {
            Err(state)
        }
    }

    /// Runs the function in a mode.
    pub fn atomic<F>(self: Box<Self>, atomicity: Atomicity, f: F) -> ParseResult<Box<Self>>
    where
        F: FnOnce(Box<Self>) -> ParseResult<Box<Self>>,
    {
        let mut state = self.called()?;
        let before = core::mem::replace(&mut state.atomicity, atomicity);
        let back = |mut state: Box<Self>| {
            state.atomicity = before;
            state
        };
        f(state).map(back).map_err(back)
    }

    /// Pushes the text that the function matches on the stack.
    pub fn stack_push<F>(self: Box<Self>, f: F) -> ParseResult<Box<Self>>
    where
        F: FnOnce(Box<Self>) -> ParseResult<Box<Self>>,
    {
        let state = self.called()?;
        let start = state.position;
        let mut state = f(state)?;
        let text = start.span(&state.position).as_str();
        state.stack.push(Cow::Borrowed(text));
        Ok(state)
    }

    /// Pushes a text on the stack.
    pub fn stack_push_literal(
        mut self: Box<Self>,
        string: impl Into<Cow<'static, str>>,
    ) -> ParseResult<Box<Self>> {
        self.stack.push(string.into());
        Ok(self)
    }

    /// Matches the text on top of the stack.
    ///
    /// # Panics
    /// If the stack is empty.
    pub fn stack_peek(self: Box<Self>) -> ParseResult<Box<Self>> {
        let text = self.stack.peek().expect("peek was called on empty stack").clone();
        self.match_string(&text)
    }

    /// Takes the text from the top of the stack and matches it.
    ///
    /// # Panics
    /// Where the stack is empty.
    pub fn stack_pop(mut self: Box<Self>) -> ParseResult<Box<Self>> {
        let text = self.stack.pop().expect("pop was called on empty stack");
        self.match_string(&text)
    }

    /// Matches entries of the stack from one to before another, counted from the bottom, or from the top where negative.
    pub fn stack_match_peek_slice(
        mut self: Box<Self>,
        start: i32,
        end: Option<i32>,
        match_dir: MatchDir,
    ) -> ParseResult<Box<Self>> {
        let len = self.stack.len();
        let (Some(start), Some(end)) =
            (index_in(start, len), end.map_or(Some(len), |end| index_in(end, len)))
        else {
            return Err(self);
        };
        if end <= start {
            return Ok(self);
        }
        let mut position = self.position;
        let mut is_next = |text: &Cow<'_, str>| position.take(text.len(), |next| next == text);
        let mut texts = self.stack[start..end].iter();
        let is_match = match match_dir {
            MatchDir::BottomToTop => texts.all(&mut is_next),
            MatchDir::TopToBottom => texts.rev().all(is_next),
        };
        if !is_match {
            return Err(self);
        }
        self.position = position;
        Ok(self)
    }

    /// Matches all entries of the stack, from the top.
    pub fn stack_match_peek(self: Box<Self>) -> ParseResult<Box<Self>> {
        self.stack_match_peek_slice(0, None, MatchDir::TopToBottom)
    }

    /// Takes all entries from the stack, and matches them from the top.
    pub fn stack_match_pop(mut self: Box<Self>) -> ParseResult<Box<Self>> {
        let mut position = self.position;
        while let Some(text) = self.stack.pop() {
            if !position.take(text.len(), |next| next == text) {
                return Err(self);
            }
        }
        self.position = position;
        Ok(self)
    }

    /// Takes the entry from the top of the stack, if there is one.
    pub fn stack_drop(mut self: Box<Self>) -> ParseResult<Box<Self>> {
        match self.stack.pop() {
            Some(_) => Ok(self),
            None => Err(self),
        }
    }

    /// Runs a function; where that fails, the stack is as before.
    pub fn restore_on_err<F>(mut self: Box<Self>, f: F) -> ParseResult<Box<Self>>
    where
        F: FnOnce(Box<Self>) -> ParseResult<Box<Self>>,
    {
        self.stack.snapshot();
        match f(self) {
            Ok(mut state) => {
                state.stack.clear_snapshot();
                Ok(state)
            }
            Err(mut state) => {
                state.stack.restore();
                Err(state)
            }
        }
    }
}

/// The index in a list of so many entries that a number means, counted from the end where negative.
fn index_in(number: i32, len: usize) -> Option<usize> {
    let index = i64::from(number) + if number < 0 { len as i64 } else { 0 };
    usize::try_from(index).ok().filter(|index| *index <= len)
}
