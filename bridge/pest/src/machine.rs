//! What the derive macro's code and the crate pest_vm call. No part of the interface.

use alloc::borrow::ToOwned;
use alloc::boxed::Box;
use alloc::format;
use alloc::vec;
use alloc::vec::Vec;

use kingorewa_library::code::{self, Node, Nodes, Unmatched};

use crate::attempts::is_detailed;
use crate::error::{Error, ErrorVariant};
use crate::iterators::{Pairs, Rules, Tree};
use crate::parser_state::{call_limit, LIMIT_REACHED, STEPS_OF_A_CALL};
use crate::replay;
use crate::{Position, RuleType};

/// A compiled grammar, as a constant of a program.
pub struct Grammar<R: 'static> {
    /// The block that the library compiles.
    pub block: &'static [u8],
    /// Its optimized rules as errors in detail need them.
    pub source: &'static [u8],
    /// The rules by their rows: those of the grammar in its order, and then `EOI`, if the grammar uses it.
    pub rules: &'static [R],
    /// The row of `EOI`.
    pub end: u32,
    /// The grammar with its tags, if it has any.
    pub tagged: Option<Tagged<'static, 'static>>,
}

/// A compiled grammar in which each tagged expression is a call of one more rule. The rows of these are after those of the
/// grammar, and before that of `EOI`.
#[derive(Clone, Copy)]
pub struct Tagged<'g, 't> {
    /// The block that the library compiles.
    pub block: &'g [u8],
    /// The tag of each of these rules.
    pub tags: &'g [&'t str],
}

/// Runs the rule of a row from the start of a text.
///
/// # Panics
/// Where there is no memory for the text.
pub fn parse<'i, R: RuleType>(
    grammar: &'static Grammar<R>,
    row: u32,
    text: &'i str,
) -> Result<Pairs<'i, R>, Error<R>> {
    if row == grammar.end {
        return end(row, text, grammar.rules);
    }
    if let Some(found) = grammar.tagged.and_then(|tagged| find_tagged(tagged, grammar.end, row, text)) {
        return Ok(pairs(found.0, text, Rules::Table(grammar.rules), found.1));
    }
    match run(grammar.block, row, text, |row| grammar.rules[row as usize]) {
        Ok(nodes) => Ok(pairs(nodes, text, Rules::Table(grammar.rules), Vec::new())),
        Err(error) => Err(with_detail(error, grammar.source, grammar.rules, grammar.end, row, text)),
    }
}

/// Runs the rule of a row of a compiled grammar from the start of a text. `rules` has the rules of all rows, that of `EOI`
/// too.
///
/// # Panics
/// Where there is no memory for the text, and where the bytes are no compiled grammar with that row.
pub fn parse_block<'i, R: RuleType>(
    block: &[u8],
    source: &[u8],
    tagged: Option<Tagged<'_, 'i>>,
    row: u32,
    text: &'i str,
    rules: Box<[R]>,
) -> Result<Pairs<'i, R>, Error<R>> {
    let end = rules.len() as u32 - 1;
    if let Some(found) = tagged.and_then(|tagged| find_tagged(tagged, end, row, text)) {
        return Ok(pairs(found.0, text, Rules::List(rules), found.1));
    }
    match run(block, row, text, |row| rules[row as usize]) {
        Ok(nodes) => Ok(pairs(nodes, text, Rules::List(rules), Vec::new())),
        Err(error) => Err(with_detail(error, source, &rules, end, row, text)),
    }
}

/// So many steps, or fewer if the program has a limit.
fn limit_steps(steps: u64) -> u64 {
    let limit = call_limit().map(|calls| (calls as u64).saturating_mul(STEPS_OF_A_CALL));
    limit.map_or(steps, |limit| limit.min(steps))
}

/// Runs the rule of a row of a compiled grammar from the start of a text, without a limit but the program's.
fn find(block: &[u8], row: u32, text: &str) -> Result<Nodes, Unmatched> {
    code::run(block, row, text, limit_steps(code::NO_LIMIT))
}

/// Runs the rule of a row, and makes an error where it has no nodes.
fn run<R: RuleType>(block: &[u8], row: u32, text: &str, rule: impl Fn(u32) -> R) -> Result<Nodes, Error<R>> {
    find(block, row, text).map_err(|why| match why {
        Unmatched::Failed { pos } => failure(block, row, text, pos, rule),
        why => stopped(text, why),
    })
}

/// An error with what was tried, if errors are to tell it.
fn with_detail<R: RuleType>(
    error: Error<R>,
    source: &[u8],
    rules: &[R],
    end: u32,
    row: u32,
    text: &str,
) -> Error<R> {
    if !is_detailed() {
        return error;
    }
    let rule = |row: u32| rules.get(row as usize).copied();
    match replay::attempts(source, rule, end, row, text) {
        Some(attempts) => error.with_attempts(attempts),
        None => error,
    }
}

/// Nodes, and the tag of each.
type TaggedNodes<'i> = (Nodes, Vec<Option<&'i str>>);

/// Runs the rule of a row of a grammar with tags, where `end` is the row of `EOI` in the grammar without them. Where the rule
/// does not match, nothing is said of it, since errors are those of the grammar without tags.
fn find_tagged<'i>(tagged: Tagged<'_, 'i>, end: u32, row: u32, text: &str) -> Option<TaggedNodes<'i>> {
    let found = find(tagged.block, row, text).ok()?;
    let (mut nodes, mut tags): (Vec<Node>, Vec<Option<&'i str>>) = (Vec::new(), Vec::new());
    // The nodes of `found` that have not ended, each with its index in `nodes`, or none for that of a tag.
    let mut open: Vec<(Node, Option<usize>)> = Vec::new();
    // The node that has just ended, if none has started since.
    let mut ended = None;
    for at in 0..=found.len() as u32 {
        while let Some((node, index)) = open.last().copied().filter(|(node, _)| node.after == at) {
            open.pop();
            match index {
                Some(index) => {
                    nodes[index].after = nodes.len() as u32;
                    ended = Some(index);
                }
                None => ended.into_iter().for_each(|ended: usize| {
                    tags[ended] = Some(tagged.tags[(node.row - end) as usize]);
                }),
            }
        }
        let Some(node) = found.get(at as usize) else { break };
        let is_of_tag = node.row >= end && node.row < end + tagged.tags.len() as u32;
        open.push((*node, (!is_of_tag).then_some(nodes.len())));
        if !is_of_tag {
            nodes.push(Node { row: node.row.min(end), ..*node });
            tags.push(None);
            ended = None;
        }
    }
    Some((Nodes::from(nodes), tags))
}

/// The error of a rule that fails with its furthest failure at a byte of a text.
///
/// It takes up to three runs, which remember no calls, so they have a limit of their own. Where one does not end in it, or
/// has too many attempts, the error names the rules that are expected at the furthest failure.
fn failure<R: RuleType>(block: &[u8], row: u32, text: &str, pos: usize, rule: impl Fn(u32) -> R) -> Error<R> {
    let steps = limit_steps(code::error_steps(text));
    match code::attempts(block, row, text, pos, steps) {
        Some(found) => {
            let (positives, negatives) = (rules(&found.positives, &rule), rules(&found.negatives, &rule));
            error_at(text, found.pos, ErrorVariant::ParsingError { positives, negatives })
        }
        None => expectation(block, row, text, pos, steps, rule),
    }
}

/// The error that names the rules that are expected at the furthest failure of a rule, at a byte of a text, if they are
/// found in so many steps.
fn expectation<R: RuleType>(
    block: &[u8],
    row: u32,
    text: &str,
    pos: usize,
    steps: u64,
    rule: impl Fn(u32) -> R,
) -> Error<R> {
    match code::expected(block, row, text, pos, steps) {
        Some(rows) => {
            let positives = rules(&rows, rule);
            error_at(text, pos, ErrorVariant::ParsingError { positives, negatives: Vec::new() })
        }
        None => {
            let message = format!("what is expected here was not found in {steps} steps");
            error_at(text, pos, ErrorVariant::CustomError { message })
        }
    }
}

/// The rules of rows, each once, in their order.
fn rules<R: RuleType>(rows: &[u32], rule: impl Fn(u32) -> R) -> Vec<R> {
    let mut rules: Vec<R> = rows.iter().map(|row| rule(*row)).collect();
    rules.sort_unstable();
    rules.dedup();
    rules
}

/// The error of a rule that has no answer.
///
/// # Panics
/// Where the bytes are no compiled grammar with the rule.
fn stopped<R: RuleType>(text: &str, why: Unmatched) -> Error<R> {
    let message = match why {
        Unmatched::EmptyStack => "PEEK or POP was called on the empty stack",
        Unmatched::OutOfSteps => LIMIT_REACHED,
        Unmatched::TooLong => "texts of 4 GiB and more are not parsed",
        Unmatched::Failed { .. } | Unmatched::NoBlock | Unmatched::NoRule => {
            panic!("the bytes are those of a compiled grammar that has the rule: {why:?}")
        }
    };
    error_at(text, 0, ErrorVariant::CustomError { message: message.to_owned() })
}

/// Runs `EOI`, of a row, from the start of a text. The library runs rules of the grammar alone.
fn end<'i, R: RuleType>(row: u32, text: &'i str, rules: &'static [R]) -> Result<Pairs<'i, R>, Error<R>> {
    match text.is_empty() {
        true => Ok(pairs(
            Nodes::from(vec![Node { row, start: 0, end: 0, after: 1 }]),
            text,
            Rules::Table(rules),
            Vec::new(),
        )),
        false => {
            let positives = vec![rules[row as usize]];
            Err(error_at(text, 0, ErrorVariant::ParsingError { positives, negatives: Vec::new() }))
        }
    }
}

fn pairs<'i, R: RuleType>(
    nodes: Nodes,
    text: &'i str,
    rules: Rules<'i, R>,
    tags: Vec<Option<&'i str>>,
) -> Pairs<'i, R> {
    let tree = Tree::new(text, nodes, rules, tags);
    let len = tree.len();
    Pairs::new(tree, 0, len)
}

/// An error at a byte of a text.
fn error_at<R: RuleType>(text: &str, pos: usize, variant: ErrorVariant<R>) -> Error<R> {
    Error::new_from_pos(variant, Position::new(text, pos).expect("the library answers positions of the text"))
}
