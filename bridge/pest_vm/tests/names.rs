//! Rules whose names are not checked before they are compiled.
use std::panic::catch_unwind;

use pest_meta::parser::{self, Rule};
use pest_vm::Vm;

fn machine(grammar: &str) -> Vm {
    let pairs = parser::parse(Rule::grammar_rules, grammar).expect("a grammar");
    Vm::new(pest_meta::optimizer::optimize(parser::consume_rules(pairs).expect("rules")))
}

#[test]
fn an_undefined_name_is_an_error_of_the_rules_that_reach_it() {
    let vm = machine(r#"a = { "x" ~ d } b = { missing } c = { "y" | b } d = { "z"* }"#);
    assert_eq!(format!("{:#}", vm.parse("a", "xzz").expect("a match")), r#"["a"(0, 3, ["d"(1, 3)])]"#);
    assert!(vm.parse("d", "").is_ok());
    for rule in ["b", "c", "missing", "other"] {
        let told = catch_unwind(|| vm.parse(rule, "y").is_ok()).expect_err("a panic");
        let told = told.downcast_ref::<String>().expect("a message");
        assert_eq!(told, &format!("undefined rule {}", if rule == "other" { rule } else { "missing" }));
    }
}

#[test]
fn each_property_of_characters_is_a_rule() {
    let vm = machine(r#"a = { EMOJI+ ~ EOI } b = { GREEK | LINEAR_B } c = { EMOJI ~ missing }"#);
    let text = "\u{1f600}\u{1f6c9}";
    assert_eq!(
        format!("{:#}", vm.parse("a", "\u{1f600}").expect("a match")),
        r#"["a"(0, 4, ["EOI"(4, 4)])]"#
    );
    assert!(vm.parse("a", text).is_err());
    assert!(vm.parse("b", "\u{10000}").is_ok());
    assert!(vm.parse("b", "λ").is_ok());
    let error = vm.parse("a", "x").expect_err("no emoji").to_string();
    assert!(error.ends_with(r#"= expected "a""#), "{error}");
}
