//! The calls. Each is made on all parts of a text, and answers something of what it saw.
//!
//! Printing is not measured on lists in lists, whose texts are in one another.
use std::collections::hash_map::DefaultHasher;
use std::hash::{Hash, Hasher};

use pest::error::{Error, ErrorVariant};
use pest::iterators::{Pairs, PairsBuilder};
use pest::pratt_parser::{Assoc, Op, PrattParser};
use pest::{merge_spans, ParseResult, Parser, ParserState, Position, Span, Stack};

use crate::texts::{Lists, Rule};

type State<'i> = Box<ParserState<'i, u8>>;

/// What a call takes on a text, in nanoseconds.
pub type Call = fn(&str) -> u64;

/// Lists calls. Each line has a name, what is made of the text before, and what is measured.
macro_rules! calls {
    ($($name:ident: $make:ident => $run:expr;)*) => {
        /// All calls.
        pub const ALL: &[(&str, Call)] = &[$((stringify!($name), |text| measured($make(text), $run))),*];
    };
}

fn measured<T>(made: T, run: impl FnOnce(T) -> usize) -> u64 {
    crate::time(|| run(made))
}

calls! {
    parse: same => |text| parsed(text).count();
    parse_in_vain: cut => |text| Lists::parse(Rule::list, &text).expect_err("no end").line().len();
    print_error: cut => |text| Lists::parse(Rule::list, &text).expect_err("no end").to_string().len();
    flatten: parsed => |pairs| pairs.flatten().count();
    flatten_back: parsed => |pairs| pairs.flatten().rev().count();
    flatten_len: parsed => |pairs| {
        let mut flat = pairs.flatten();
        total(|| flat.next().map(|_| flat.len()))
    };
    flatten_tokens: parsed => |pairs| {
        let mut flat = pairs.flatten();
        total(|| flat.next().map(|_| flat.clone().tokens().len()))
    };
    rule: parsed => |pairs| pairs.flatten().map(|pair| pair.as_rule() as usize).sum();
    text: parsed => |pairs| pairs.flatten().map(|pair| pair.as_str().len()).sum();
    span: parsed => |pairs| pairs.flatten().map(|pair| pair.as_span().end()).sum();
    input: parsed => |pairs| pairs.flatten().map(|pair| pair.get_input().len()).sum();
    line_col: parsed => |pairs| pairs.flatten().map(|pair| pair.line_col().1).sum();
    walk: parsed => |pairs| {
        let mut open = vec![pairs];
        total(|| {
            let last = open.last_mut()?;
            match last.next() {
                Some(pair) => open.push(pair.into_inner()),
                None => drop(open.pop()),
            }
            Some(1)
        })
    };
    inner_len: parsed => |pairs| pairs.flatten().map(|pair| pair.into_inner().len()).sum();
    inner_is_empty: parsed => |pairs| pairs.flatten().filter(|pair| pair.clone().into_inner().is_empty()).count();
    equal: parsed => |pairs| pairs.clone().flatten().zip(pairs.flatten()).filter(|(a, b)| a == b).count();
    hash_of_pair: parsed => |pairs| pairs.flatten().map(hash).fold(0, usize::wrapping_add);
    pair_tokens: parsed => |pairs| pairs.flatten().map(|pair| pair.tokens().len()).sum();
    pair_tokens_next: parsed => |pairs| pairs.flatten().filter(|pair| pair.clone().tokens().next().is_some()).count();
    display: parsed => |pairs| pairs.to_string().len();
    display_pair: parsed => |pairs| pairs.map(|pair| pair.to_string().len()).sum();
    debug: leaves => |pairs| pairs.map(|pair| format!("{pair:?}").len()).sum();
    debug_lines: leaves => |pairs| pairs.map(|pair| format!("{pair:#?}").len()).sum();
    next: inner => |pairs| pairs.count();
    next_back: inner => |pairs| pairs.rev().count();
    next_back_of_clones: inner => |mut pairs| {
        total(|| pairs.next().map(|_| pairs.clone().next_back().map_or(0, |pair| pair.as_str().len())))
    };
    clones_from_the_back: inner => |mut pairs| total(|| pairs.next_back().map(|_| pairs.clone().rev().take(2).count()));
    len: inner => |mut pairs| total(|| pairs.next().map(|_| pairs.len()));
    len_from_the_back: inner => |mut pairs| total(|| pairs.next_back().map(|_| pairs.len()));
    len_of_clones: inner => |mut pairs| total(|| pairs.next().map(|_| pairs.clone().len()));
    size_hint: inner => |mut pairs| total(|| pairs.next().map(|_| pairs.size_hint().0));
    text_of_the_rest: inner => |mut pairs| total(|| pairs.next().map(|_| pairs.as_str().len()));
    text_from_the_back: inner => |mut pairs| total(|| pairs.next_back().map(|_| pairs.as_str().len()));
    peek: inner => |mut pairs| total(|| pairs.peek().map(|pair| pair.as_str().len() + pairs.next().iter().count()));
    single: inner => |pairs| pairs.map(|pair| Pairs::single(pair).len()).sum();
    concat: inner => |pairs| pairs.concat().len();
    equal_rests: inner => |mut pairs| total(|| pairs.next().map(|_| usize::from(pairs.clone() == pairs)));
    hash_of_rests: inner => |mut pairs| total(|| pairs.next().map(|_| hash(&pairs) & 1));
    tokens: parsed => |pairs| pairs.tokens().count();
    tokens_back: parsed => |pairs| pairs.tokens().rev().count();
    tokens_len: parsed => |pairs| {
        let mut tokens = pairs.tokens();
        total(|| tokens.next().map(|_| tokens.len()))
    };
    tokens_of_clones: parsed => |pairs| {
        let mut tokens = pairs.tokens();
        total(|| tokens.next().map(|_| tokens.clone().next_back().iter().count()))
    };
    tokens_of_rests: inner => |mut pairs| total(|| pairs.next().map(|_| pairs.clone().tokens().len()));
    position: same => |text| Position::new(text, text.len()).map_or(0, |pos| pos.line_col().1 + pos.line_of().len());
    lines: whole => |span| span.lines().map(str::len).sum();
    lines_span: whole => |span| span.lines_span().map(|line| line.end()).sum();
    parts_of_a_span: whole => |span| {
        let text = span.as_str();
        let ends = text.char_indices().map(|(at, _)| at);
        ends.filter_map(|at| span.get(at..)).filter_map(|part| merge_spans(&span, &part)).count()
    };
    error_of_a_span: whole => |span| Error::new_from_span(wrong(), span).to_string().len();
    error_of_a_position: whole => |span| Error::new_from_pos(wrong(), span.end_pos()).to_string().len();
    renamed: whole => |span| {
        let error = Error::new_from_span(wrong(), span).with_path("a");
        error.renamed_rules(|rule| format!("{rule:?}")).to_string().len()
    };
    json: leaves => |pairs| pairs.map(|pair| pair.to_json().len()).sum();
    json_of_all: inner => |pairs| if pairs.get_input().starts_with("[[[") { 0 } else { pairs.to_json().len() };
    tags: parsed => |pairs| pairs.find_tagged("a").count();
    built_beside: same => |text| {
        (0..text.len()).fold(PairsBuilder::new(text), |built, at| built.rule(0, at, at + 1)).build().count()
    };
    built_inside: same => |text| built(PairsBuilder::new(text), text.len().min(2_000)).build().flatten().count();
    by_hand: same => |text| {
        pest::state(text, |state| state.rule(0, |state| state.repeat(letter))).map_or(0, |pairs| pairs.flatten().count())
    };
    stack_by_hand: same => |text| pest::state(text, |state| state.repeat(entry)).map_or(0, |pairs| pairs.count());
    snapshots: same => |text| {
        let mut stack = Stack::new();
        for (at, byte) in text.bytes().enumerate() {
            stack.snapshot();
            stack.push(at);
            if byte == b'a' { stack.restore() } else { stack.clear_snapshot() }
        }
        stack.len()
    };
    operators_left: sum => |pairs| operators(Assoc::Left, pairs);
    operators_right: sum => |pairs| operators(Assoc::Right, pairs);
    prefixes: signs => |pairs| operators(Assoc::Left, pairs);
}

fn same(text: &str) -> &str {
    text
}

/// The text without its last byte, which is a bracket.
fn cut(text: &str) -> String {
    text[..text.len() - 1].to_owned()
}

fn parsed(text: &str) -> Pairs<'_, Rule> {
    Lists::parse(Rule::list, text).expect("a list")
}

/// The pairs inside the first one.
fn inner(text: &str) -> Pairs<'_, Rule> {
    parsed(text).next().expect("a list").into_inner()
}

/// The items in the first list; the text of a list in lists is in each of them, and would be printed as often.
fn leaves(text: &str) -> impl Iterator<Item = pest::iterators::Pair<'_, Rule>> {
    inner(text).filter(|pair| pair.as_rule() == Rule::item)
}

/// A text of as many operators as the text has bytes.
fn sum(text: &str) -> Pairs<'static, Rule> {
    let text = format!("a{}", "+a".repeat(text.len())).leak();
    Lists::parse(Rule::sum, text).expect("a sum").next().expect("a sum").into_inner()
}

/// An operand with as many prefix operators as the text has bytes.
fn signs(text: &str) -> Pairs<'static, Rule> {
    let text = format!("{}a", "-".repeat(text.len())).leak();
    Lists::parse(Rule::sum, text).expect("a sum").next().expect("a sum").into_inner()
}

fn whole(text: &str) -> Span<'_> {
    Span::new(text, 0, text.len()).expect("a span")
}

fn wrong() -> ErrorVariant<Rule> {
    ErrorVariant::ParsingError { positives: vec![Rule::item, Rule::list], negatives: vec![Rule::sum] }
}

fn letter(state: State<'_>) -> ParseResult<State<'_>> {
    state.rule(1, |state| state.match_char_by(|it| it != ' '))
}

/// Pushes a character, and matches it if it comes again.
fn entry(state: State<'_>) -> ParseResult<State<'_>> {
    state.sequence(|state| state.stack_push(|state| state.skip(1))?.optional(|state| state.stack_pop()))
}

/// Adds so many pairs, each inside the one before. It calls itself for each.
fn built(builder: PairsBuilder<'_, usize>, depth: usize) -> PairsBuilder<'_, usize> {
    match depth {
        0 => builder,
        _ => builder.rule_with(depth, 0, 1, |inner| built(inner, depth - 1)),
    }
}

fn operators(assoc: Assoc, pairs: Pairs<'_, Rule>) -> usize {
    let parser = PrattParser::new().op(Op::infix(Rule::operator, assoc)).op(Op::prefix(Rule::prefix));
    parser
        .map_primary(|pair| pair.as_str().len())
        .map_prefix(|_, right| right + 1)
        .map_infix(|left, _, right| left + right)
        .parse(pairs)
}

fn hash(value: impl Hash) -> usize {
    let mut hasher = DefaultHasher::new();
    value.hash(&mut hasher);
    hasher.finish() as usize
}

/// The sum of what a function answers until it answers nothing.
fn total(next: impl FnMut() -> Option<usize>) -> usize {
    std::iter::from_fn(next).fold(0, usize::wrapping_add)
}
