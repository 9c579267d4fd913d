//! The crate `pest_meta` 2.9.5 over a proved front end.
//!
//! Grammars of [pest](https://pest.rs) are read, validated and optimized here by a static library in which
//! every function is proved. Names and types are those of the original crate, so that `pest_derive` and other
//! users of it need no change.
//!
//! ```
//! let grammar = r#"list = { "[" ~ (item ~ ("," ~ item)*)? ~ "]" } item = @{ ASCII_ALPHA+ }"#;
//! let (builtins, rules) = pest_meta::unwrap_or_report(pest_meta::parse_and_optimize(grammar));
//! assert_eq!(builtins, ["ASCII_ALPHA"]);
//! assert_eq!(rules[0].expr.to_string(), r#"("[" ~ (item ~ ("," ~ item)*)? ~ "]")"#);
//! ```
//!
//! # What is proved
//!
//! The rules are those that the text spells, and a text spells at most one list of rules. A syntax error is
//! at the furthest position at which a rule failed. Each other error is at the part of the text that it is
//! about. An accepted grammar is well-formed. Named rewriting steps lead from the rules to the optimized
//! rules. No call of the library panics, overflows a number or reads out of bounds, and each call returns.
//!
//! # Where the proof ends
//!
//! The proof ends at the calls of the library. This crate passes texts to the library, and makes values of
//! Rust from the results. That part is tested, and not proved:
//!
//! - the crate `kingorewa_library`: the calls over C, with all `unsafe` code;
//! - `binary`, `json`, `nodes`, `answers`, [`diagnostics`]: answers in binary form and in JSON, read into rules,
//!   errors, entries of trees, and diagnostics;
//! - `recent`: each thread keeps the answer for the last grammar that it asked about;
//! - `parser`: the entries are replayed through [`pest::state`], which makes the pairs;
//! - `validator`: [`validator::validate_ast`] and the checks of names write what they are handed as a grammar
//!   and report at the spans they were handed what the library says of it; `printing` writes it, and `Display`;
//! - maps and iterators over expressions.
//!
//! Without the feature `grammar-extras` three steps more are taken here: `e+` is written as `e ~ e*` in
//! optimized rules, tags are left out of rules, and `PUSH_LITERAL` is refused.
//!
//! The crate `pest`, the code that `pest_generator` makes of optimized rules, and the compilers are trusted
//! as before.
//!
//! # Limits
//!
//! Each thread keeps the answer for the last grammar that it read. It has about ten bytes for each byte of
//! the text.
//!
//! If the library cannot allocate, a call panics. In a derive macro, that is an error at the grammar. The
//! library may be of a later release, and return what this crate does not know. Then a call that returns
//! errors returns one that says so, and [`optimizer::optimize`] and [`diagnostics::diagnose`] panic. The use
//! of the process's stack by pest's parser state, and by what Rust derives for trees, depends on the depth of
//! an expression, as in the original crate. That of the library does not.
#![forbid(unsafe_code)]
#![warn(missing_docs, rust_2018_idioms, unused_qualifications)]
// The signatures are those of the original, and the errors pest's.
#![allow(clippy::result_large_err)]

use std::fmt::Display;
use std::sync::LazyLock;

use pest::error::Error;
use pest::unicode::unicode_property_names;

mod answers;
pub mod ast;
mod binary;
pub mod diagnostics;
mod json;
#[doc(hidden)]
pub mod matching;
mod nodes;
pub mod optimizer;
pub mod parser;
mod printing;
mod recent;
pub mod validator;

/// Returns the value of a result.
///
/// # Panics
/// If the result is an error. The message of the panic is a report of all errors.
pub fn unwrap_or_report<T, E>(result: Result<T, E>) -> T
where
    E: IntoIterator,
    E::Item: Display,
{
    match result {
        Ok(value) => value,
        Err(errors) => {
            let errors: Vec<String> = errors.into_iter().map(|error| error.to_string()).collect();
            panic!("grammar error\n\n{}", errors.join("\n\n"))
        }
    }
}

/// The builtins that a grammar uses, and its optimized rules.
type UsedBuiltinAndOptimized<'i> = (Vec<&'i str>, Vec<optimizer::OptimizedRule>);

/// Reads, validates and optimizes a grammar. Returns the names of the builtins that it uses, in the order of
/// their first calls, and its optimized rules.
///
/// # Errors
/// The errors of the grammar, if it is refused.
///
/// # Panics
/// If there is no memory for the grammar.
pub fn parse_and_optimize(grammar: &str) -> Result<UsedBuiltinAndOptimized<'_>, Vec<Error<parser::Rule>>> {
    if cfg!(not(feature = "grammar-extras")) && grammar.contains("PUSH_LITERAL") {
        return step_by_step(grammar);
    }
    let (builtins, rules) = answers::parse_and_optimize(grammar, optimizer::OptimizedRule::try_from)?;
    Ok((validator::in_text(grammar, &builtins), rules))
}

/// The same by a call a step, where a step may refuse what the library takes.
fn step_by_step(grammar: &str) -> Result<UsedBuiltinAndOptimized<'_>, Vec<Error<parser::Rule>>> {
    let pairs = parser::parse(parser::Rule::grammar_rules, grammar).map_err(|error| vec![error])?;
    let builtins = validator::validate_pairs(pairs.clone())?;
    let rules = parser::consume_rules(pairs)?;
    Ok((builtins, optimizer::optimize(rules)))
}

#[doc(hidden)]
#[deprecated(note = "use `pest::unicode::unicode_property_names` instead")]
pub static UNICODE_PROPERTY_NAMES: LazyLock<Vec<&str>> = LazyLock::new(|| unicode_property_names().collect());
