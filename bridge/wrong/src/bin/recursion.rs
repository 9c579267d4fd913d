//! Left recursion.
use pest_derive::Parser;

#[derive(Parser)]
#[grammar_inline = r#"sum = { sum ~ "+" ~ number | number } number = { ASCII_DIGIT+ }"#]
struct Wrong;

fn main() {}
