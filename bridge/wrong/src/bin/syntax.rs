//! A missing tilde.
use pest_derive::Parser;

#[derive(Parser)]
#[grammar_inline = r#"pair = { "x" "y" }"#]
struct Wrong;

fn main() {}
