//! Tags of pairs.
#![cfg(feature = "grammar-extras")]

use pest_vm::Vm;

fn machine(grammar: &str) -> Vm {
    Vm::new(pest_meta::unwrap_or_report(pest_meta::parse_and_optimize(grammar)).1)
}

/// The rule and the tag of each pair.
fn told(vm: &Vm, rule: &str, text: &str) -> String {
    let pairs = vm.parse(rule, text).unwrap_or_else(|error| panic!("{error}"));
    let told = pairs.flatten().map(|pair| match pair.as_node_tag() {
        Some(tag) => format!("#{tag} = {}", pair.as_rule()),
        None => pair.as_rule().to_owned(),
    });
    told.collect::<Vec<_>>().join(" ")
}

const LETTERS: &str = r#" b = { "b" } c = { "c" } d = { b ~ c } WHITESPACE = _{ " " }"#;

#[test]
fn tags_go_to_the_pair_that_ended_last() {
    for (body, text, wanted) in [
        ("#left = b ~ #right = c", "b c", "a #left = b #right = c"),
        ("#outer = (#inner = b ~ c)", "bc", "a #inner = b #outer = c"),
        ("(#item = b ~ c?)*", "b bc b", "a #item = b #item = b c #item = b"),
        ("#all = d", "bc", "a #all = d b c"),
        ("#all = (b*) ~ c", "bb c", "a b #all = b c"),
        ("(#failed = b ~ \"!\") | #taken = b", "b", "a #taken = b"),
        ("&(#seen = b) ~ b", "b", "a b"),
        ("b ~ #none = \"\"", "b", "a #none = b"),
        ("#none = \"\" ~ b", "b", "a b"),
        ("#one = b ~ #one = c ~ !(#two = c)", "bc", "a #one = b #one = c"),
    ] {
        assert_eq!(
            told(&machine(&format!("a = {{ {body} }}{LETTERS}")), "a", text),
            wanted,
            "{body} on {text}"
        );
    }
}

#[test]
fn errors_are_those_without_tags() {
    let [tagged, plain] = ["#t = b ~ (#u = c | #v = d)", "b ~ (c | d)"]
        .map(|body| machine(&format!("a = {{ {body} }}{LETTERS}")));
    for text in ["", "b", "bb", "bbx", "x"] {
        let errors = [&tagged, &plain].map(|vm| vm.parse("a", text).expect_err("an error").to_string());
        assert_eq!(errors[0], errors[1], "{text:?}");
    }
}

#[test]
fn pairs_are_found_by_their_tags() {
    let vm = machine(&format!("a = {{ (#item = b ~ d)* }}{LETTERS}"));
    let pairs = vm.parse("a", "bbc bbc").expect("a match");
    assert_eq!(
        pairs.clone().find_tagged("item").map(|pair| pair.as_span().start()).collect::<Vec<_>>(),
        [0, 4]
    );
    assert_eq!(pairs.find_first_tagged("item").map(|pair| pair.as_str()), Some("b"));
    assert!(pairs.find_first_tagged("other").is_none());
    assert!(format!("{pairs:?}")
        .contains(r#"Pair { rule: "b", node_tag: "item", span: Span { str: "b", range: 0..1 }"#));
}
