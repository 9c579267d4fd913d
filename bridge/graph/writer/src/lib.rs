//! A parser that hands its pairs on.
use pest::error::{Error, ErrorVariant};
use pest::iterators::Pair;
use pest::Parser;

/// A list of words.
#[derive(pest_derive::Parser)]
#[grammar_inline = r#"words = { SOI ~ word ~ ("," ~ word)* ~ EOI } word = @{ ASCII_ALPHA+ }"#]
pub struct Words;

/// Parses words.
///
/// # Errors
/// The text is no list of words, or has one that is "wrong".
pub fn words(text: &str) -> Result<Vec<Pair<'_, Rule>>, Box<Error<Rule>>> {
    let words = Words::parse(Rule::words, text)?.flatten().filter(|pair| pair.as_rule() == Rule::word);
    words
        .map(|word| match word.as_str() {
            "wrong" => {
                let variant = ErrorVariant::CustomError { message: "this word is wrong".to_owned() };
                Err(Box::new(Error::new_from_span(variant, word.as_span())))
            }
            _ => Ok(word),
        })
        .collect()
}
