//! Grammars by this crate and by the original, 2.5.2 as Debian packages it: pairs, names, rules, optimized
//! rules and errors are compared, on the grammars of the folder that GRAMMARS names and on those that stand
//! here.
//!
//! None of them has what docs/DIFFERENCES.md names as a difference. Each crate has types of its own, so their
//! debug texts are compared, which are the same for the same values.
use std::{env, fs};

use original::{parser as original_parser, validator as original_validator};
use pest::Span;
use pest_meta::{optimizer, parser, validator};

/// Grammars of packages, with their names.
fn packaged() -> Vec<(String, String)> {
    let folder = env::var("GRAMMARS").expect("GRAMMARS names a folder with grammars: run bridge/test");
    let mut grammars = Vec::new();
    for entry in fs::read_dir(folder).expect("the folder can be read") {
        let path = entry.expect("the folder can be read").path();
        let text = fs::read_to_string(&path).expect("a grammar can be read");
        grammars.push((path.display().to_string(), text));
    }
    grammars.sort();
    assert!(grammars.len() >= 5, "the five grammars of pest's own packages are among them");
    grammars
}

/// Grammars that stand here, each form of an expression among them, with their texts as names.
fn written() -> Vec<(String, String)> {
    let grammars = [
        r#"a = { "x" }"#,
        r#"a = _{ ^"aB" ~ 'a'..'z' | "\u{1f600}\x41\n\\\"" }"#,
        r#"a = @{ b ~ b? ~ b* ~ b{2} ~ b{2,} ~ b{,2} ~ b{2,3} } b = ${ "y" | "z" }"#,
        r#"a = !{ &b ~ !b ~ (b ~ c) } b = { "x" } c = { ANY }"#,
        r#"a = { PUSH("x"*) ~ PEEK ~ POP ~ PEEK[0..-1] ~ PEEK[1..] ~ PEEK[..] ~ DROP }"#,
        r#"a = @{ (!("x" | "y") ~ ANY)* ~ "x" }"#,
        r#"a = { "x" ~ "y" | "x" ~ "z" | "w" }"#,
        r#"a = @{ ("x" ~ "y" ~ "z") ~ (^"u" ~ ^"v") }"#,
        r#"a = { ("x" | "y") | ("z" | ("u" | "v")) }"#,
        r#"a = { "x" ~ (("," ~ "x")* ~ ",") }"#,
        r#"a = { b+ ~ (b ~ "y")+ } b = { "x" }"#,
        r#"a = { (PUSH("x") ~ POP)? ~ (PUSH("x") ~ POP | PUSH("y") ~ "z")* }"#,
        r#"a = { SOI ~ (LETTER | HAN)* ~ EOI }"#,
        "/* c */ WHITESPACE = _{ \" \" } // d\nCOMMENT = _{ \"#\" ~ (!NEWLINE ~ ANY)* } a = { \"x\" }",
        "a = { \"ä\u{1f600}\" ~ b }\r\n\tb = { ASCII_DIGIT ~ 'ä'..'\u{1f600}' }",
    ];
    grammars.iter().map(|text| (text.to_string(), text.to_string())).collect()
}

fn all() -> impl Iterator<Item = (String, String)> {
    packaged().into_iter().chain(written())
}

fn sorted(mut names: Vec<&str>) -> Vec<&str> {
    names.sort_unstable();
    names
}

/// Each crate's own Rule::grammar_rules.
const HERE: parser::Rule = parser::Rule::grammar_rules;
const THERE: original_parser::Rule = original_parser::Rule::grammar_rules;

/// All pairs with their places. Lines that document give pairs in 2.9.5 and are comments in 2.5.2: they are
/// left out, each with the rule that has nothing else in it.
fn shown<R: pest::RuleType>(pairs: pest::iterators::Pairs<'_, R>) -> Vec<(String, usize, usize)> {
    let is_doc = |rule: &str| ["grammar_doc", "line_doc", "inner_doc"].contains(&rule);
    let mut shown = Vec::new();
    for pair in pairs.flatten() {
        let rule = format!("{:?}", pair.as_rule());
        let first = pair.clone().into_inner().next();
        if !is_doc(&rule) && !first.is_some_and(|first| is_doc(&format!("{:?}", first.as_rule()))) {
            shown.push((rule, pair.as_span().start(), pair.as_span().end()));
        }
    }
    shown
}

#[test]
fn pairs_are_the_same() {
    for (name, text) in all() {
        let here = parser::parse(HERE, &text).unwrap();
        let there = original_parser::parse(THERE, &text).unwrap();
        assert!(shown(here) == shown(there), "{name}");
    }
}

#[test]
fn names_are_the_same() {
    for (name, text) in all() {
        let (here, there) = (parser::parse(HERE, &text), original_parser::parse(THERE, &text));
        let here = validator::validate_pairs(here.unwrap()).unwrap();
        let there = original_validator::validate_pairs(there.unwrap()).unwrap();
        assert_eq!(sorted(here), sorted(there), "{name}");
    }
}

#[test]
fn rules_are_the_same() {
    for (name, text) in all() {
        let here = parser::consume_rules(parser::parse(HERE, &text).unwrap()).unwrap();
        let there = original_parser::consume_rules(original_parser::parse(THERE, &text).unwrap()).unwrap();
        assert_eq!(format!("{here:#?}"), format!("{there:#?}"), "{name}");
    }
}

/// With the feature `grammar-extras` a `+` is kept, so these rules differ.
#[cfg(not(feature = "grammar-extras"))]
#[test]
fn optimized_rules_are_the_same() {
    for (name, text) in all() {
        let here = optimizer::optimize(parser::consume_rules(parser::parse(HERE, &text).unwrap()).unwrap());
        let pairs = original_parser::parse(THERE, &text).unwrap();
        let there = original::optimizer::optimize(original_parser::consume_rules(pairs).unwrap());
        assert_eq!(format!("{here:#?}"), format!("{there:#?}"), "{name}");
    }
}

#[cfg(not(feature = "grammar-extras"))]
#[test]
fn whole_answers_are_the_same() {
    for (name, text) in all() {
        let (builtins, here) = pest_meta::parse_and_optimize(&text).unwrap();
        let (original_builtins, there) = original::parse_and_optimize(&text).unwrap();
        assert_eq!(sorted(builtins), sorted(original_builtins), "{name}");
        assert_eq!(format!("{here:#?}"), format!("{there:#?}"), "{name}");
    }
}

/// Optimized rules are the same by steps and at once.
#[test]
fn steps_give_the_whole_answer() {
    for (name, text) in all() {
        let (builtins, rules) = pest_meta::parse_and_optimize(&text).unwrap();
        let pairs = parser::parse(HERE, &text).unwrap();
        assert_eq!(builtins, validator::validate_pairs(pairs.clone()).unwrap(), "{name}");
        assert_eq!(rules, optimizer::optimize(parser::consume_rules(pairs).unwrap()), "{name}");
    }
}

/// Errors of names and of rules: the same words at the same places, printed the same.
#[test]
fn errors_are_the_same() {
    let grammars = [
        r#"a = { b }"#,
        r#"a = { "x" } a = { "y" } a = { "z" }"#,
        "ANY = { \"x\" }\nPOP = { c ~ d }\nc = { c1 }",
        r#"a = { ""* }"#,
        r#"a = { ("x" ~ ""+) | (!"x")* }"#,
        r#"a = { "x"? | "y" }"#,
        r#"a = { "x" ~ (b | "ä"*)* } b = { "y"? | "z" }"#,
        "a = {\n  b ~ \"x\"\n}\nb = { c? ~ a }\nc = { \"z\" }",
        r#"a = { a }"#,
        r#"a = { "x"{0} }"#,
        r#"a = { "x"{1,0} ~ ""* }"#,
        r#"a = { "x"{99999999999} }"#,
        r#"WHITESPACE = _{ "" } a = { "x" }"#,
        r#"COMMENT = _{ "x"* } a = { "x" }"#,
    ];
    for text in grammars {
        let here = pest_meta::parse_and_optimize(text).unwrap_err();
        let there = original::parse_and_optimize(text).unwrap_err();
        let shown = |errors: Vec<String>| errors.join("\n\n");
        let places: Vec<_> = here.iter().map(|error| error.location.clone()).collect();
        let original_places: Vec<_> = there.iter().map(|error| error.location.clone()).collect();
        assert_eq!(places, original_places, "{text}");
        assert_eq!(
            shown(here.iter().map(ToString::to_string).collect()),
            shown(there.iter().map(ToString::to_string).collect()),
            "{text}"
        );
    }
}

/// Words of Rust, words that only look like them, and what is no name, as spans of two texts.
#[test]
#[allow(deprecated)]
fn keywords_of_rust_are_the_same() {
    let words = "abstract alignof as become box break const continue crate do else enum extern false final fn \
        for if impl in let loop macro match mod move mut offsetof override priv proc pub pure ref return Self \
        self sizeof static struct super trait true type typeof unsafe unsized use virtual where while yield \
        async await dyn try union gen SELF whiles whil ANY _ ä fn1 \u{1f600} \" r#fn";
    let other = "ä\nlet x";
    let at = |text, piece: &str| {
        let start = str::find(text, piece).unwrap();
        Span::new(text, start, start + piece.len()).unwrap()
    };
    let mut names: Vec<Span<'_>> = words.split(' ').map(|word| at(words, word)).collect();
    names.extend([at(other, "let"), at(other, "let x"), at(other, ""), at(other, "\nlet")]);
    let here = validator::validate_rust_keywords(&names);
    let there = original_validator::validate_rust_keywords(&names);
    let places = |location: &pest::error::InputLocation| format!("{location:?}");
    assert_eq!(here.len(), 53);
    assert_eq!(
        here.iter().map(|error| (places(&error.location), error.to_string())).collect::<Vec<_>>(),
        there.iter().map(|error| (places(&error.location), error.to_string())).collect::<Vec<_>>(),
    );
    assert_eq!(validator::validate_rust_keywords(&vec![]), []);
}
