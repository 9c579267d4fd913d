//! Compares the pairs of a [`Vm`] with those of the parser that pest_derive makes of the same grammar, on texts that
//! are put together from pieces.
use std::fmt::Debug;

use pest::RuleType;
use pest_vm::Vm;
use runtime::error::{ErrorVariant, InputLocation};

/// How many texts each grammar gets.
const TEXTS: usize = 2000;

/// Numbers that look as if they came by chance: a linear congruential generator.
struct Numbers(u64);

impl Numbers {
    fn below(&mut self, end: usize) -> usize {
        self.0 = self.0.wrapping_mul(6364136223846793005).wrapping_add(1442695040888963407);
        (self.0 >> 33) as usize % end
    }
}

/// The starts and the ends of the tokens of pairs, with the names of their rules.
macro_rules! tokens {
    ($runtime:ident, $pairs:expr, $name:expr) => {
        $pairs
            .tokens()
            .map(|token| match token {
                $runtime::Token::Start { rule, pos } => ($name(rule), true, pos.pos()),
                $runtime::Token::End { rule, pos } => ($name(rule), false, pos.pos()),
            })
            .collect::<Vec<(String, bool, usize)>>()
    };
}

fn machine(grammar: &str) -> Vm {
    let (_, rules) = pest_meta::parse_and_optimize(grammar).expect("a grammar");
    Vm::new(rules)
}

/// A text of the pieces: mostly pieces by chance, and sometimes a sample with a piece in it.
fn text_of(numbers: &mut Numbers, pieces: &[&str], samples: &[&str]) -> String {
    if numbers.below(3) > 0 {
        return (0..numbers.below(12)).map(|_| pieces[numbers.below(pieces.len())]).collect();
    }
    let mut text = samples[numbers.below(samples.len())].to_owned();
    let at = numbers.below(text.len() + 1);
    if text.is_char_boundary(at) {
        text.insert_str(at, pieces[numbers.below(pieces.len())]);
    }
    text
}

/// How two ways to run a rule agreed.
#[derive(Debug, Default)]
struct Agreement {
    matched: usize,
    failed: usize,
    /// Failures at another position.
    elsewhere: Vec<String>,
}

/// Runs a rule on many texts by the machine and by the derived parser. Both have to give the same tokens, or to fail.
fn compare<R: RuleType + Debug, P: pest::Parser<R>>(
    grammar: &str,
    (name, rule): (&str, R),
    pieces: &[&str],
    samples: &[&str],
) -> Agreement {
    let vm = machine(grammar);
    let (mut numbers, mut agreement) = (Numbers(1), Agreement::default());
    for number in 0..TEXTS {
        let text = match samples.get(number) {
            Some(sample) => (*sample).to_owned(),
            None => text_of(&mut numbers, pieces, samples),
        };
        match (vm.parse(name, &text), P::parse(rule, &text)) {
            (Ok(here), Ok(derived)) => {
                let derived = tokens!(pest, derived, |rule| format!("{rule:?}"));
                assert_eq!(tokens!(runtime, here, str::to_owned), derived, "{text:?}");
                agreement.matched += 1;
            }
            (Err(here), Err(derived)) => {
                agreement.failed += 1;
                if pest::error::InputLocation::Pos(place(&here.location)) != derived.location {
                    agreement.elsewhere.push(text);
                }
            }
            (here, derived) => panic!("{text:?}: {here:?}, and derived {derived:?}"),
        }
    }
    assert!(agreement.matched > TEXTS / 20 && agreement.failed > TEXTS / 20, "{agreement:?}");
    assert!(samples.iter().all(|sample| vm.parse(name, sample).is_ok()));
    agreement
}

fn place(location: &InputLocation) -> usize {
    match location {
        InputLocation::Pos(pos) | InputLocation::Span((pos, _)) => *pos,
    }
}

/// A test over a grammar in tests/grammars.
macro_rules! grammar_test {
    ($module:ident, $file:literal, $rule:ident, $pieces:expr, $samples:expr) => {
        mod $module {
            #[derive(pest_derive::Parser)]
            #[grammar = $file]
            struct Derived;

            #[test]
            fn has_the_same_tokens() {
                let grammar = include_str!(concat!("../src/", $file));
                let rule = (stringify!($rule), Rule::$rule);
                let agreement = super::compare::<Rule, Derived>(grammar, rule, &$pieces, &$samples);
                assert_eq!(agreement.elsewhere, [""; 0], "{agreement:?}");
            }
        }
    };
}

grammar_test!(
    lists,
    "../tests/grammars/lists.pest",
    file,
    ["[", "]", ",", " ", "a", "b1_", "-12", "1234", "\n", "# c\n", "[a]", "[a,b]", "ä", "[-1 , [x]]"],
    ["", "[]", "[a, b_1 , -12]", "[[a],[b,[c]]]", "# all\n[a,# one\n b]"]
);

grammar_test!(
    sums,
    "../tests/grammars/sums.pest",
    sum,
    ["1", "23", ".5", "+", "-", "*", "(", ")", " ", "!", "(1+2)", "x", "1.5 * 2", "--"],
    ["1", "1+2*3", "-(1 + 2.5)! * --3!!", "( 1 ) - 2"]
);

grammar_test!(
    quotes,
    "../tests/grammars/quotes.pest",
    file,
    ["\"", "'", "#", "\"#", "<", "<<", " ", "a", "\\", "\\\n", "ä", "'a'", "\"##b\"##", "<x<"],
    ["", "'a'", "\"#a\"b\"#", "<<a<b<<", "'\\'a' \"b\""]
);

grammar_test!(
    words,
    "../tests/grammars/words.pest",
    text,
    [
        "let",
        "LET",
        "if",
        "else",
        "Else",
        " ",
        "a",
        "iffy",
        "_",
        "=",
        "(",
        ")",
        ";",
        "é",
        "0xff",
        "0x1",
        "a();",
        "let a = b;"
    ],
    ["", "let a = b;", "LET iffy=é;;", "if a else b();", "if a() ELSE 0xfF ; letter();"]
);

grammar_test!(
    json,
    "../tests/grammars/json.pest",
    json,
    [
        "{",
        "}",
        "[",
        "]",
        ",",
        ":",
        "\"",
        "\"a\"",
        "1",
        "-0.5",
        "01",
        "true",
        "null",
        " ",
        "\\n",
        "\"\\u12ab\":",
        "[1,2]",
        "{}"
    ],
    ["1", "{}", "[1, -2.5 , \"a\\n\"]", "{\"a\": [true,{\"b\":null}], \"\": 0}", "[[[[]]]]"]
);

grammar_test!(
    nested,
    "../tests/grammars/nested.pest",
    list,
    ["(", ")", "x", "!", "?", "(x)", "(xx)x", "xx!"],
    ["x", "xx", "(x)x", "((x)x)x", "xx!", "(xx?)x"]
);

/// So many lists, each in another, with a pair for each.
fn nested_lists(depth: usize) -> String {
    format!("{}x{}", "(".repeat(depth), ")x".repeat(depth))
}

/// The derived parser takes three times as long for each list more.
#[test]
fn no_text_makes_a_machine_slow() {
    let vm = machine(include_str!("grammars/nested.pest"));
    let (depth, text) = (2_000, nested_lists(2_000));
    let pairs = vm.parse("list", &text).unwrap();
    assert_eq!((pairs.as_str(), pairs.flatten().count()), (text.as_str(), 5 * depth + 2));
    let wrong = text.replace("(x)", "(y)");
    let error = vm.parse("all", &wrong).unwrap_err();
    assert_eq!(error.location, InputLocation::Pos(depth));
}

#[test]
fn a_failure_has_its_position_and_what_was_expected() {
    let vm = machine(include_str!("grammars/lists.pest"));
    let error = vm.parse("file", "[a, .]").unwrap_err();
    assert_eq!(error.location, InputLocation::Pos(4));
    let positives = vec!["COMMENT", "item"];
    assert_eq!(error.variant, ErrorVariant::ParsingError { positives, negatives: Vec::new() });
}

#[test]
fn a_listener_hears_of_tokens_and_stops_them() {
    let (_, rules) = pest_meta::parse_and_optimize(include_str!("grammars/lists.pest")).unwrap();
    let heard = std::sync::Arc::new(std::sync::Mutex::new(Vec::new()));
    let hears = std::sync::Arc::clone(&heard);
    let listener = move |rule: String, pos: &runtime::Position<'_>| {
        let is_last = rule == "word";
        hears.lock().unwrap().push((rule, pos.pos()));
        is_last
    };
    let vm = Vm::new_with_listener(rules, Box::new(listener));
    assert!(vm.parse("file", "[[1], a, b]").is_err());
    let names: Vec<(String, usize)> = heard.lock().unwrap().clone();
    let names: Vec<(&str, usize)> = names.iter().map(|(rule, pos)| (&rule[..], *pos)).collect();
    assert_eq!(
        names,
        [
            ("file", 0),
            ("list", 0),
            ("item", 1),
            ("list", 1),
            ("item", 2),
            ("number", 2),
            ("item", 6),
            ("word", 6)
        ]
    );
}

#[test]
fn a_rule_without_an_outcome_is_an_error() {
    let vm = machine("a = { POP } b = { \"x\"* }");
    assert!(vm.parse("a", "x").unwrap_err().variant.message().contains("empty stack"));
    let pair = vm.parse("b", "xxy").unwrap().next().unwrap();
    assert_eq!((pair.as_rule(), pair.as_str()), ("b", "xx"));
}

#[test]
fn a_failure_takes_no_exponential_time() {
    let vm = machine("s = { a ~ EOI } a = { \"x\" ~ a ~ \"y\" | \"x\" ~ a ~ \"z\" | \"x\" }");
    for length in [60, 20_000] {
        let text = "x".repeat(length);
        let error = vm.parse("s", &text).unwrap_err();
        assert_eq!(error.location, InputLocation::Pos(length));
        assert_eq!(error.variant, ErrorVariant::ParsingError { positives: vec!["a"], negatives: vec![] });
        assert_eq!(vm.parse("a", &text).unwrap().as_str(), "x");
    }
}

#[test]
#[should_panic(expected = "undefined rule none")]
fn an_unknown_rule_panics() {
    let _ = machine("a = { \"x\" }").parse("none", "x");
}
