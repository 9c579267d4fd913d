//! Trees of any depth.
use pest::Parser;

#[derive(pest_derive::Parser)]
#[grammar_inline = r#"list = { "[" ~ list? ~ "]" }"#]
struct Lists;

/// What is printed for so many lists, each in another, and the number of tokens from the back.
pub fn printed(depth: usize) -> (String, usize) {
    let text = format!("{}{}", "[".repeat(depth), "]".repeat(depth));
    let pairs = Lists::parse(Rule::list, &text).expect("lists");
    (format!("{pairs:#}"), pairs.tokens().rev().count())
}
