//! Compiled grammars, run on texts.
//!
//! A block of bytes has the rules of a grammar as operations of the proved machine. It is made once, for example while
//! a program is built. Any number of threads may run it. A run compiles and copies nothing. `row` is the index of a
//! rule in the grammar. For `EOI` it is the number of the rules.
#![forbid(unsafe_code)]

use alloc::vec::Vec;

use crate::foreign::{self, Given};
pub use crate::Node;

/// The nodes of a match. Each is before the nodes inside it.
pub type Nodes = Given<Node>;

/// The rules cannot be compiled: they call a name that is neither a rule nor a builtin, or have a range with a bound
/// that is not one character.
#[derive(Clone, Copy, Debug, PartialEq, Eq)]
pub struct Uncompiled;

/// The reason why a rule has no nodes on a text.
#[derive(Clone, Copy, Debug, PartialEq, Eq)]
pub enum Unmatched {
    /// The rule fails.
    Failed {
        /// The furthest position of a failure, in bytes.
        pos: usize,
    },
    /// The bytes are no block of this version of the library.
    NoBlock,
    /// The block has no rule with that index.
    NoRule,
    /// The rule takes more steps than the limit.
    OutOfSteps,
    /// `PEEK` or `POP` came to the empty stack, so the rule has no outcome.
    EmptyStack,
    /// The text has 4 GiB or more.
    TooLong,
}

/// Compiles optimized rules in binary form to a block.
///
/// # Errors
/// [`Uncompiled`] if the rules cannot be run.
///
/// # Panics
/// If an allocation fails, or if the bytes are no rules in binary form.
pub fn compile_rules(rules: &[u8]) -> Result<Vec<u8>, Uncompiled> {
    let mut block = Given::new();
    match foreign::compile_prepared(rules, &mut block) {
        0 => Ok(block.to_vec()),
        6 => Err(Uncompiled),
        status => no_answer(status),
    }
}

/// This number of steps means that a run has no limit.
pub const NO_LIMIT: u64 = u64::MAX;

/// Returns the greatest number of steps of the search for the rules of an error, if the caller gives no limit: 2^23,
/// and 32 more for each byte of `text`.
pub fn error_steps(text: &str) -> u64 {
    (text.len() as u64).saturating_mul(32).saturating_add(1 << 23)
}

/// Runs the rule with the index `row` from the start of `text`, by runs of at most `steps` steps.
///
/// If `steps` is [`NO_LIMIT`], the run has no limit. If no rule of the grammar uses the stack, the turns of the run are
/// linear in the bytes of the text and in the nodes. If one uses the stack, by `PUSH`, `PEEK` and the like, the run
/// may take exponential time.
///
/// # Errors
/// [`Unmatched`] if the rule fails, if it is stopped, or if the block has no such rule.
///
/// # Panics
/// If an allocation fails.
pub fn run(block: &[u8], row: u32, text: &str, steps: u64) -> Result<Nodes, Unmatched> {
    let (mut nodes, mut end) = (Given::new(), 0);
    match foreign::run(block, row, text, steps, &mut nodes, &mut end) {
        0 => Ok(nodes),
        1 => Err(Unmatched::Failed { pos: end }),
        5 | 11 => Err(Unmatched::NoBlock),
        7 => Err(Unmatched::NoRule),
        8 => Err(Unmatched::OutOfSteps),
        9 => Err(Unmatched::EmptyStack),
        10 => Err(Unmatched::TooLong),
        status => no_answer(status),
    }
}

/// Returns the indexes of the rules that are expected at the byte `pos`, at which [`run`] fails, in the order in which
/// they are first called there. Returns `None` if the search takes more than `steps` steps.
///
/// # Panics
/// If an allocation fails.
pub fn expected(block: &[u8], row: u32, text: &str, pos: usize, steps: u64) -> Option<Vec<u32>> {
    let mut rows = Given::new();
    match foreign::expected(block, row, text, pos, steps, &mut rows) {
        0 => Some(rows.to_vec()),
        2 => no_answer(2),
        _ => None,
    }
}

/// The rules that an error of pest names, and the position of that error.
#[derive(Debug)]
pub struct Attempts {
    /// The position of the error, in bytes.
    pub pos: usize,
    /// The indexes of the rules that are expected there, in the order of their calls. A rule may be there several
    /// times.
    pub positives: Given<u32>,
    /// The indexes of the rules that are not expected there.
    pub negatives: Given<u32>,
}

/// Returns the rules that an error of pest names if [`run`] fails at the byte `pos`, by runs of at most `steps` steps.
/// Returns `None` if they take more steps, or if an allocation fails.
///
/// # Panics
/// If the library returns a status that the call does not have.
pub fn attempts(block: &[u8], row: u32, text: &str, pos: usize, steps: u64) -> Option<Attempts> {
    let mut found = Attempts { pos, positives: Given::new(), negatives: Given::new() };
    let Attempts { pos, positives, negatives } = &mut found;
    match foreign::attempts(block, row, text, steps, pos, positives, negatives) {
        0 => Some(found),
        2 | 8 | 9 => None,
        status => no_answer(status),
    }
}

/// Ends a call that has no answer.
///
/// # Panics
/// Always, with the reason: an allocation failed, or the library returned a status that the call does not have.
fn no_answer(status: u8) -> ! {
    match status {
        2 => panic!("the proved library has no memory"),
        _ => panic!("the proved library answered with status {status}, which is none for this call"),
    }
}
