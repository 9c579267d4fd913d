//! A limit of calls: that is set for a whole process.
use std::num::NonZeroUsize;

use pest_vm::Vm;
use runtime::error::ErrorVariant;
use runtime::set_call_limit;

/// Without a limit it takes three times as long for each list more.
#[test]
fn is_the_end_of_a_rule_that_uses_the_stack() {
    let grammar = include_str!("grammars/nested.pest").replace(r#"| "x""#, r#"| PUSH("x") ~ DROP"#);
    let (_, rules) = pest_meta::parse_and_optimize(&grammar).expect("a grammar");
    let vm = Vm::new(rules);
    let [short, long] = [3, 2_000].map(|depth| format!("{}x{}", "(".repeat(depth), ")x".repeat(depth)));
    set_call_limit(NonZeroUsize::new(100_000));
    assert_eq!(vm.parse("list", &short).unwrap().as_str(), short);
    let error = vm.parse("list", &long).unwrap_err();
    set_call_limit(None);
    assert_eq!(error.variant, ErrorVariant::CustomError { message: "call limit reached".to_owned() });
}
