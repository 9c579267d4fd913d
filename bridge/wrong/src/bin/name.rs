//! A name that is defined nowhere.
use pest_derive::Parser;

#[derive(Parser)]
#[grammar_inline = r#"pair = { "x" ~ other }"#]
struct Wrong;

fn main() {}
