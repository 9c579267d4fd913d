//! What a parser of a grammar tries on a text on which it fails.
//!
//! The library says where a rule fails, and which rules are expected there. It does not say which tokens were looked for.
//! A parser by hand that does what the rules say, as one of pest's does, knows them. It runs only for errors in detail.

use alloc::boxed::Box;
use alloc::collections::BTreeMap;
use alloc::string::String;
use alloc::vec::Vec;

use kingorewa_library::code;

use crate::attempts::ParseAttempts;
use crate::parser_state::call_limit;
use crate::{Atomicity, MatchDir, ParseResult, ParserState, RuleType};

/// So many expressions may be open at once, of rules in rules. Each takes stack.
const MOST_OPEN: usize = 500;
/// So many calls a parser may make, and two more for each byte.
const MOST_CALLS: usize = 1 << 20;

/// What a parser of these rules tries at the furthest position, if the rule of a row fails on a text. There is nothing if
/// that takes too many calls, or too many expressions in one another.
///
/// `source` has the optimized rules in binary form, then a list of the properties of characters that they call, and a
/// block that has a rule for each of these. `rule` gives the rule of a row, and `None` for a row behind the last one.
pub(crate) fn attempts<R: RuleType>(
    source: &[u8],
    rule: impl Fn(u32) -> Option<R>,
    end: u32,
    row: u32,
    text: &str,
) -> Option<ParseAttempts<R>> {
    let grammar = Reader { left: source }.grammar(rule, end)?;
    let calls = MOST_CALLS + 2 * text.len();
    let mut state = ParserState::new(text);
    state.set_calls(call_limit().map_or(calls, |limit| limit.min(calls)));
    match grammar.rule(row as usize, MOST_OPEN, state) {
        Err(state) if !state.is_out_of_calls() => Some(state.get_parse_attempts().clone()),
        _ => None,
    }
}

/// A node of an expression. Its first operand is the next node.
enum Form<'g> {
    Text(&'g str),
    Insensitive(&'g str),
    Range(char, char),
    Call(&'g str),
    PeekSlice(i32, Option<i32>),
    Predicate {
        is_positive: bool,
    },
    /// `right` is the index of the second operand.
    Sequence {
        right: usize,
    },
    Choice {
        right: usize,
    },
    Optional,
    Repeat,
    RepeatOnce,
    SkipUntil(Vec<&'g str>),
    Push,
    PushLiteral(&'g str),
    Tag,
    RestoreOnErr,
}

impl Form<'_> {
    fn operands(&self) -> usize {
        match self {
            Form::Sequence { .. } | Form::Choice { .. } => 2,
            Form::Predicate { .. } | Form::Optional | Form::Repeat | Form::RepeatOnce => 1,
            Form::Push | Form::Tag | Form::RestoreOnErr => 1,
            _ => 0,
        }
    }
}

/// What kind of rule one is.
#[derive(Clone, Copy, PartialEq)]
enum Kind {
    Normal,
    Silent,
    Atomic,
    CompoundAtomic,
    NonAtomic,
}

struct Rule<R> {
    id: R,
    kind: Kind,
    /// Whether nothing is skipped in it, whatever its kind, as in `WHITESPACE`.
    is_skipped: bool,
    /// The index of its body.
    body: usize,
}

struct Grammar<'g, R> {
    forms: Vec<Form<'g>>,
    rules: Vec<Rule<R>>,
    rows: BTreeMap<&'g str, usize>,
    /// The rows of properties in their block.
    properties: BTreeMap<&'g str, u32>,
    block: &'g [u8],
    /// The rule `EOI`, if the grammar uses it.
    end: Option<R>,
}

type State<'i, R> = Box<ParserState<'i, R>>;

impl<R: RuleType> Grammar<'_, R> {
    fn rule<'i>(&self, row: usize, open: usize, state: State<'i, R>) -> ParseResult<State<'i, R>> {
        let Rule { id, kind, is_skipped, body } = self.rules[row];
        let run = |state: State<'i, R>| match is_skipped {
            true => state.atomic(Atomicity::Atomic, |state| self.expression(body, open, state)),
            false => self.expression(body, open, state),
        };
        match kind {
            Kind::Normal => state.rule(id, run),
            Kind::Silent => run(state),
            Kind::Atomic => state.rule(id, |state| state.atomic(Atomicity::Atomic, run)),
            Kind::CompoundAtomic => state.atomic(Atomicity::CompoundAtomic, |state| state.rule(id, run)),
            Kind::NonAtomic => state.atomic(Atomicity::NonAtomic, |state| state.rule(id, run)),
        }
    }

    fn expression<'i>(&self, at: usize, open: usize, state: State<'i, R>) -> ParseResult<State<'i, R>> {
        let Some(open) = open.checked_sub(1) else { return Err(without_calls(state)) };
        let first = |state| self.expression(at + 1, open, state);
        match &self.forms[at] {
            Form::Text(text) => state.match_string(text),
            Form::Insensitive(text) => state.match_insensitive(text),
            Form::Range(start, end) => state.match_range(*start..*end),
            Form::Call(name) => self.call(name, open, state),
            Form::PeekSlice(start, end) => state.stack_match_peek_slice(*start, *end, MatchDir::BottomToTop),
            Form::Predicate { is_positive } => state.lookahead(*is_positive, first),
            Form::Sequence { .. } => state.sequence(|state| self.parts(at, open, state)),
            Form::Choice { .. } => self.alternatives(at, open, state),
            Form::Optional => state.optional(first),
            Form::Repeat => {
                state.sequence(|state| state.optional(|state| self.repeated(at + 1, open, state)))
            }
            Form::RepeatOnce => state.sequence(|state| self.repeated(at + 1, open, state)),
            Form::SkipUntil(texts) => state.skip_until(texts),
            Form::Push => state.stack_push(first),
            Form::PushLiteral(text) => state.stack_push_literal(String::from(*text)),
            Form::Tag => first(state),
            Form::RestoreOnErr => state.restore_on_err(first),
        }
    }

    /// The parts of a sequence, of which the last may be a sequence.
    fn parts<'i>(&self, mut at: usize, open: usize, mut state: State<'i, R>) -> ParseResult<State<'i, R>> {
        while let Form::Sequence { right } = self.forms[at] {
            state = self.skip(open, self.expression(at + 1, open, state)?)?;
            at = right;
        }
        self.expression(at, open, state)
    }

    /// The alternatives of a choice, of which the last may be a choice.
    fn alternatives<'i>(
        &self,
        mut at: usize,
        open: usize,
        mut state: State<'i, R>,
    ) -> ParseResult<State<'i, R>> {
        while let Form::Choice { right } = self.forms[at] {
            match self.expression(at + 1, open, state) {
                Ok(state) => return Ok(state),
                Err(failed) => state = failed,
            }
            at = right;
        }
        self.expression(at, open, state)
    }

    /// An expression once or more often.
    fn repeated<'i>(&self, at: usize, open: usize, state: State<'i, R>) -> ParseResult<State<'i, R>> {
        self.expression(at, open, state)?
            .repeat(|state| state.sequence(|state| self.expression(at, open, self.skip(open, state)?)))
    }

    /// What may stand between the parts of a sequence.
    fn skip<'i>(&self, open: usize, state: State<'i, R>) -> ParseResult<State<'i, R>> {
        if state.atomicity() != Atomicity::NonAtomic {
            return Ok(state);
        }
        let [space, comment] = ["WHITESPACE", "COMMENT"].map(|name| self.rows.get(name).copied());
        match (space, comment) {
            (None, None) => Ok(state),
            (Some(row), None) | (None, Some(row)) => state.repeat(|state| self.rule(row, open, state)),
            (Some(space), Some(comment)) => {
                let spaces = |state: State<'i, R>| state.repeat(|state| self.rule(space, open, state));
                state.sequence(|state| {
                    spaces(state)?
                        .repeat(|state| state.sequence(|state| spaces(self.rule(comment, open, state)?)))
                })
            }
        }
    }

    fn has_property(&self, row: u32, character: char) -> bool {
        code::run(self.block, row, character.encode_utf8(&mut [0; 4]), code::NO_LIMIT).is_ok()
    }

    fn call<'i>(&self, name: &str, open: usize, state: State<'i, R>) -> ParseResult<State<'i, R>> {
        if let Some(row) = self.rows.get(name) {
            return self.rule(*row, open, state);
        }
        match name {
            "ANY" => state.skip(1),
            "SOI" => state.start_of_input(),
            "EOI" => match self.end {
                Some(end) => state.rule(end, ParserState::end_of_input),
                None => Err(without_calls(state)),
            },
            "PEEK" | "POP" if state.has_empty_stack() => Err(without_calls(state)),
            "PEEK" => state.stack_peek(),
            "PEEK_ALL" => state.stack_match_peek(),
            "POP" => state.stack_pop(),
            "POP_ALL" => state.stack_match_pop(),
            "DROP" => state.stack_drop(),
            "NEWLINE" => any(state, ["\n", "\r\n", "\r"], ParserState::match_string),
            _ => match (ranges_of(name), self.properties.get(name)) {
                (Some(ranges), _) => {
                    any(state, ranges.iter().copied(), |state, (start, end)| state.match_range(start..end))
                }
                (None, Some(row)) => state.match_char_by(|it| self.has_property(*row, it)),
                (None, None) => Err(without_calls(state)),
            },
        }
    }
}

/// The first of some tokens that matches.
fn any<'i, R: RuleType, T>(
    mut state: State<'i, R>,
    tokens: impl IntoIterator<Item = T>,
    run: impl Fn(State<'i, R>, T) -> ParseResult<State<'i, R>>,
) -> ParseResult<State<'i, R>> {
    for token in tokens {
        match run(state, token) {
            Ok(state) => return Ok(state),
            Err(failed) => state = failed,
        }
    }
    Err(state)
}

/// A state that can make no call, so that a parser ends that has no answer.
fn without_calls<R: RuleType>(mut state: State<'_, R>) -> State<'_, R> {
    state.set_calls(0);
    state
}

/// The ranges of a builtin.
fn ranges_of(name: &str) -> Option<&'static [(char, char)]> {
    Some(match name {
        "ASCII_DIGIT" => &[('0', '9')],
        "ASCII_NONZERO_DIGIT" => &[('1', '9')],
        "ASCII_BIN_DIGIT" => &[('0', '1')],
        "ASCII_OCT_DIGIT" => &[('0', '7')],
        "ASCII_HEX_DIGIT" => &[('0', '9'), ('a', 'f'), ('A', 'F')],
        "ASCII_ALPHA_LOWER" => &[('a', 'z')],
        "ASCII_ALPHA_UPPER" => &[('A', 'Z')],
        "ASCII_ALPHA" => &[('a', 'z'), ('A', 'Z')],
        "ASCII_ALPHANUMERIC" => &[('a', 'z'), ('A', 'Z'), ('0', '9')],
        "ASCII" => &[('\0', '\u{7f}')],
        _ => return None,
    })
}

/// Bytes in binary form that are not read.
struct Reader<'g> {
    left: &'g [u8],
}

impl<'g> Reader<'g> {
    fn grammar<R: RuleType>(mut self, rule: impl Fn(u32) -> Option<R>, end: u32) -> Option<Grammar<'g, R>> {
        let (mut forms, mut rules, mut rows) = (Vec::new(), Vec::new(), BTreeMap::new());
        for row in 0..self.size()? {
            let name = self.text()?;
            let kind = self.kind()?;
            rows.insert(name, row);
            let is_skipped = matches!(name, "WHITESPACE" | "COMMENT");
            rules.push(Rule { id: rule(row as u32)?, kind, is_skipped, body: forms.len() });
            self.expression(&mut forms)?;
        }
        let properties = self.properties()?;
        Some(Grammar { forms, rules, rows, properties, block: self.left, end: rule(end) })
    }

    /// The names of properties, each with its row.
    fn properties(&mut self) -> Option<BTreeMap<&'g str, u32>> {
        let count = u32::try_from(self.size()?).ok()?;
        (0..count).map(|row| Some((self.text()?, row))).collect()
    }

    /// The nodes of an expression: as many as the operands of those before ask for.
    fn expression(&mut self, forms: &mut Vec<Form<'g>>) -> Option<()> {
        // The nodes whose operands are not at their ends, each with how many are missing.
        let mut open: Vec<(usize, usize)> = Vec::new();
        loop {
            let form = self.form()?;
            open.push((forms.len(), form.operands()));
            forms.push(form);
            while open.last().is_some_and(|(_, missing)| *missing == 0) {
                open.pop();
                let Some((outer, missing)) = open.last_mut() else { return Some(()) };
                *missing -= 1;
                let next = forms.len();
                if let (1, Form::Sequence { right } | Form::Choice { right }) = (*missing, &mut forms[*outer])
                {
                    *right = next;
                }
            }
        }
    }

    fn form(&mut self) -> Option<Form<'g>> {
        Some(match self.byte()? {
            0 => Form::Text(self.text()?),
            1 => Form::Insensitive(self.text()?),
            2 => Form::Range(self.text()?.chars().next()?, self.text()?.chars().next()?),
            3 => Form::Call(self.text()?),
            4 => Form::PeekSlice(self.index()?, if self.byte()? == 1 { Some(self.index()?) } else { None }),
            5 => Form::Predicate { is_positive: true },
            6 => Form::Predicate { is_positive: false },
            7 => Form::Sequence { right: 0 },
            8 => Form::Choice { right: 0 },
            9 => Form::Optional,
            10 => Form::Repeat,
            11 => Form::RepeatOnce,
            16 => Form::SkipUntil((0..self.size()?).map(|_| self.text()).collect::<Option<_>>()?),
            17 => Form::Push,
            18 => Form::PushLiteral(self.text()?),
            19 => self.text().map(|_| Form::Tag)?,
            20 => Form::RestoreOnErr,
            _ => return None,
        })
    }

    fn kind(&mut self) -> Option<Kind> {
        let kinds = [Kind::Normal, Kind::Silent, Kind::Atomic, Kind::CompoundAtomic, Kind::NonAtomic];
        kinds.get(usize::from(self.byte()?)).copied()
    }

    fn array<const N: usize>(&mut self) -> Option<[u8; N]> {
        let (array, left) = self.left.split_first_chunk::<N>()?;
        self.left = left;
        Some(*array)
    }

    fn byte(&mut self) -> Option<u8> {
        self.array().map(|[byte]| byte)
    }

    fn size(&mut self) -> Option<usize> {
        self.array().map(u64::from_le_bytes).and_then(|size| usize::try_from(size).ok())
    }

    fn index(&mut self) -> Option<i32> {
        self.array().map(i32::from_le_bytes)
    }

    fn text(&mut self) -> Option<&'g str> {
        let len = self.size()?;
        let text = self.left.get(..len)?;
        self.left = &self.left[len..];
        core::str::from_utf8(text).ok()
    }
}
