//! The derive macro of [pest](https://pest.rs) over a proved front end and a proved matcher.
//!
//! The grammar is read, validated and optimized while the crate that has it is built, and its rules are a constant of
//! the program. The crate `kingorewa_pest` runs them by the proved matcher. The README of that crate says how to build
//! with both.
//!
//! ```ignore
//! use pest::Parser;
//! use pest_derive::Parser;
//!
//! #[derive(Parser)]
//! #[grammar_inline = r#"list = { "[" ~ (item ~ ("," ~ item)*)? ~ "]" } item = @{ ASCII_ALPHA+ }"#]
//! struct Lists;
//!
//! let list = Lists::parse(Rule::list, "[a,b]").unwrap().next().unwrap();
//! assert_eq!(list.into_inner().count(), 2);
//! ```
#![forbid(unsafe_code)]
#![warn(missing_docs, rust_2018_idioms, unused_qualifications)]

mod generate;
mod grammar;

use proc_macro::TokenStream;
use syn::{parse_macro_input, DeriveInput};

/// Makes a parser of a struct, and the enum `Rule` beside it.
///
/// - `#[grammar = "json.pest"]` names a file with a grammar, from the folder of Cargo.toml or else from its `src`.
/// - `#[grammar_inline = "a = { .. }"]` has the grammar itself.
///
/// Several of them are joined to one grammar, each on lines of its own. `#[non_exhaustive]` on the struct is put on
/// `Rule`. What `//!` says in the grammar documents `Rule`, and what `///` says documents the next rule.
#[proc_macro_derive(Parser, attributes(grammar, grammar_inline))]
pub fn derive_parser(input: TokenStream) -> TokenStream {
    let input = parse_macro_input!(input as DeriveInput);
    generate::parser(&input).unwrap_or_else(|error| generate::refused(&input, &error)).into()
}
