//! A grammar with a missing tilde, and a program that names its rules.
use pest::Parser;
use pest_derive::Parser;

#[derive(Parser)]
#[grammar_inline = r#"pair = { "x" "y" } list = _{ pair* ~ EOI }"#]
struct Wrong;

fn main() {
    let pairs = Wrong::parse(Rule::list, "xy").unwrap();
    println!("{}", pairs.filter(|it| it.as_rule() != Rule::EOI).count());
}
