//! Texts on which a parser goes back again and again.
use pest::error::InputLocation;
use pest::Parser;

/// At each letter it is tried whether a word begins, which takes all letters that are left.
#[derive(pest_derive::Parser)]
#[grammar_inline = r#"
file = { SOI ~ (word | other)* ~ EOI }
word = { letter* ~ "!" }
letter = { "x" }
other = { "x" }
"#]
struct Words;

/// The tokens of a text of so many letters.
pub fn tokens(letters: usize) -> Vec<(String, bool, usize)> {
    let text = "x".repeat(letters);
    let pairs = Words::parse(Rule::file, &text).expect("letters");
    pairs
        .tokens()
        .map(crate::token)
        .map(|(rule, is_start, pos)| (format!("{rule:?}"), is_start, pos))
        .collect()
}

/// The error of a text of so many letters, if there is one.
pub fn parsed(letters: usize) -> Option<String> {
    Words::parse(Rule::file, &"x".repeat(letters)).err().map(|error| error.to_string())
}

/// Where so many letters with a mark behind them fail, and what is printed.
pub fn failure(letters: usize) -> (usize, String) {
    let text = format!("{}?", "x".repeat(letters));
    let error = Words::parse(Rule::file, &text).expect_err("a mark");
    let InputLocation::Pos(pos) = error.location else {
        panic!("a parser's error is at a position");
    };
    (pos, error.to_string())
}
