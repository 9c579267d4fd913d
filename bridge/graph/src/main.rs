//! Prints what parsers answer that stand at three places of a graph of dependencies: here, in libraries of one's own, and in
//! tera and handlebars.
#[macro_use]
extern crate pest;

use pest::{state, Parser};
use reader::{FromPairs, Tree};

#[derive(pest_derive::Parser)]
#[grammar_inline = r#"sum = { number ~ ("+" ~ number)* } number = @{ ASCII_DIGIT+ }"#]
struct Sums;

fn main() {
    let mut pairs = Sums::parse(Rule::sum, "1+23").expect("a sum");
    println!("{:?}", Tree::from_pairs(&mut pairs).expect("a tree"));
    parses_to! { parser: Sums, input: "1+2", rule: Rule::sum, tokens: [sum(0, 3, [number(0, 1), number(2, 3)])] };

    for text in ["a,bc", "a,", "wrong"] {
        match writer::words(text) {
            Ok(words) => words.into_iter().for_each(|word| println!("{:?}", Tree::from(word))),
            Err(error) => println!("{error}"),
        }
    }

    let letters = state("abc", |state| state.rule('l', |state| state.match_string("ab")));
    println!("{:?}", letters.map(|mut pairs| Tree::from_pairs(&mut pairs)));

    let mut bars = handlebars::Handlebars::new();
    bars.register_template_string("list", "{{#each names}}<{{this}}>{{/each}}").expect("a template");
    println!("{}", bars.render("list", &serde_json::json!({"names": ["a", "b&"]})).expect("a text"));
    println!("{}", bars.register_template_string("wrong", "{{#each names}}").expect_err("no end"));

    let mut context = tera::Context::new();
    context.insert("names", &["a", "b"]);
    let text = "{% for name in names %}{{ loop.index }}: {{ name | upper }}; {% endfor %}";
    println!("{}", tera::Tera::one_off(text, &context, false).expect("a text"));
    let error = tera::Tera::one_off("{{ 1 + }}", &context, false).expect_err("no operand");
    println!("{}", std::error::Error::source(&error).expect("a cause"));
}
