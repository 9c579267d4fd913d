//! Texts of some shapes, and their parser.

/// A list of items and lists. Items are on lines of their own, or all on one.
#[derive(pest_derive::Parser)]
#[grammar_inline = r#"
list = { "[" ~ (value ~ ("," ~ value)*)? ~ "]" }
value = _{ item | list }
item = @{ ASCII_ALPHA+ }
WHITESPACE = _{ " " | "\n" }
sum = { prefix* ~ item ~ (operator ~ prefix* ~ item)* }
operator = { "+" }
power = { "^" }
prefix = { "-" }
"#]
pub struct Lists;

/// The shapes.
pub const SHAPES: [&str; 3] = ["line", "lines", "deep"];

/// A text of so many items: beside one another on one line, each on a line, or each in a list in the one before.
pub fn text(shape: &str, size: usize) -> String {
    match shape {
        "line" => format!("[{}]", vec!["ab"; size].join(",")),
        "lines" => format!("[{}]", vec!["[ab,c]"; size].join(",\n")),
        "deep" => format!("{}a{}", "[".repeat(size), "]".repeat(size)),
        _ => panic!("no shape {shape}"),
    }
}
