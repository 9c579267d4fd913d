//! The runtime of [pest](https://pest.rs) over a proved matcher.
//!
//! Parsers are made by the derive macro of the crate `kingorewa_pest_derive`. Names, types and printed texts are those
//! of pest 2.9. The README says how to move a program to both, and lists the differences.
//!
//! # What is proved
//!
//! The library runs the rules of a grammar on a text. Its result is proved to be that of the grammar: the tokens of a
//! match, or the furthest position of a failure with the rules that are expected there. This crate makes pairs and
//! errors from the result, which is tested. It also has parsers by hand ([`ParserState`]), which are Rust code alone.
//!
//! # Trees
//!
//! The trees of a text are one list of nodes. Each is before the nodes inside it. A [`Pair`](iterators::Pair) is the
//! index of a node. So no tree is built, and the depth of trees takes no stack of the process, also when they are
//! printed.
#![no_std]
#![forbid(unsafe_code)]
#![warn(missing_docs, rust_2018_idioms, unused_qualifications)]

extern crate alloc;
#[cfg(feature = "std")]
extern crate std;

use core::fmt::Debug;
use core::hash::Hash;

mod attempts;
pub mod error;
pub mod iterators;
#[doc(hidden)]
pub mod machine;
mod macros;
#[cfg(feature = "miette-error")]
mod miette_error;
mod parser;
mod parser_state;
mod position;
pub mod pratt_parser;
#[deprecated(note = "use `pest::pratt_parser`, which has prefix and postfix operators too")]
pub mod prec_climber;
mod replay;
mod span;
mod stack;
mod token;
#[cfg(feature = "unicode")]
pub mod unicode;

pub use attempts::set_error_detail;
pub use parser::Parser;
pub use parser_state::{
    set_call_limit, state, Atomicity, Lookahead, MatchDir, ParseResult, ParserState, STEPS_OF_A_CALL,
};
pub use position::Position;
pub use span::{merge_spans, Lines, LinesSpan, Span};
pub use stack::Stack;
pub use token::Token;

/// The items of the crate alloc that the macros need. A program may not have a name for that crate.
#[doc(hidden)]
pub mod macros_need {
    pub use alloc::format;
    pub use alloc::vec::Vec;
}

/// The traits of a type of rules. Each type that has these traits is one.
pub trait RuleType: Copy + Debug + Eq + Hash + Ord {}

impl<T: Copy + Debug + Eq + Hash + Ord> RuleType for T {}
