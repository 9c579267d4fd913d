//! Each public call on what it takes and on what it refuses.
use std::panic;

use pest::error::{ErrorVariant, InputLocation, LineColLocation};
use pest::{Parser, Span};
use pest_meta::ast::{self, Expr, RuleType};
use pest_meta::diagnostics::{diagnose, Severity};
use pest_meta::optimizer::{optimize, OptimizedExpr, OptimizedExprTopDownIterator, OptimizedRule};
use pest_meta::parser::{self, ParserExpr, ParserNode, ParserRule, PestParser, Rule};
use pest_meta::{parse_and_optimize, unwrap_or_report, validator};

type Error = pest::error::Error<Rule>;

fn parsed(text: &str) -> pest::iterators::Pairs<'_, Rule> {
    parser::parse(Rule::grammar_rules, text).unwrap()
}

fn rules_of(text: &str) -> Vec<ast::Rule> {
    parser::consume_rules(parsed(text)).unwrap()
}

fn placed(text: &str) -> Vec<ParserRule<'_>> {
    parser::consume_rules_with_spans(parsed(text)).unwrap()
}

/// The messages of errors with the pieces of the text at which they stand.
fn told<'a>(text: &'a str, errors: &[Error]) -> Vec<(String, &'a str)> {
    let piece = |error: &Error| match error.location {
        InputLocation::Span((start, end)) => &text[start..end],
        InputLocation::Pos(place) => &text[place..place],
    };
    errors.iter().map(|error| (error.variant.message().into_owned(), piece(error))).collect()
}

/// The spans of the given words, each at its next place.
fn spans<'a>(text: &'a str, words: &[&str]) -> Vec<Span<'a>> {
    let mut from = 0;
    let mut spans = Vec::new();
    for word in words {
        let start = from + text[from..].find(word).unwrap();
        from = start + word.len();
        spans.push(Span::new(text, start, from).unwrap());
    }
    spans
}

fn string(text: &str) -> Box<Expr> {
    Box::new(Expr::Str(text.to_owned()))
}

fn optimized_string(text: &str) -> Box<OptimizedExpr> {
    Box::new(OptimizedExpr::Str(text.to_owned()))
}

fn ident(name: &str) -> Box<Expr> {
    Box::new(Expr::Ident(name.to_owned()))
}

fn normal(name: &str, expr: Expr) -> ast::Rule {
    ast::Rule { name: name.to_owned(), ty: RuleType::Normal, expr }
}

fn panic_of<T>(call: impl FnOnce() -> T + panic::UnwindSafe) -> String {
    let why = panic::catch_unwind(call).err().expect("the call panics");
    why.downcast_ref::<String>().cloned().expect("a panic has a text")
}

#[test]
fn a_text_is_parsed() {
    let text = "a = @{ \"ä\" }";
    let pairs = parsed(text);
    let trees: Vec<_> = pairs.clone().map(|pair| (pair.as_rule(), pair.as_str())).collect();
    assert_eq!(trees, [(Rule::grammar_rule, text), (Rule::EOI, "")]);
    let inner: Vec<_> = pairs.clone().next().unwrap().into_inner().map(|pair| pair.as_str()).collect();
    assert_eq!(inner, ["a", "=", "@", "{", "\"ä\" ", "}"]);
    assert_eq!(PestParser::parse(Rule::grammar_rules, text).unwrap().to_string(), pairs.to_string());
}

#[test]
fn a_part_of_a_grammar_is_parsed() {
    let pairs = parser::parse(Rule::identifier, "abc = { d }").unwrap();
    assert_eq!(pairs.as_str(), "abc");
    let pairs = parser::parse(Rule::expression, "a ~ b").unwrap();
    assert_eq!(pairs.clone().next().unwrap().into_inner().count(), 3);
    assert_eq!(parser::consume_rules(pairs.clone()), Ok(vec![]));
    assert_eq!(validator::validate_pairs(pairs), Ok(vec![]));
    assert!(parser::parse(Rule::identifier, "1").is_err());
}

#[test]
fn a_syntax_error_has_its_place_and_what_was_expected() {
    let text = "a = { \"x\" }\nb = { \"x\" \"ä\" }";
    let error = parser::parse(Rule::grammar_rules, text).unwrap_err();
    assert_eq!(error.location, InputLocation::Pos(22));
    assert_eq!(error.line_col, LineColLocation::Pos((2, 11)));
    assert_eq!(error.line(), "b = { \"x\" \"ä\" }");
    let ErrorVariant::ParsingError { positives, negatives } = &error.variant else {
        panic!("{error}");
    };
    assert!(negatives.is_empty());
    for rule in [Rule::closing_brace, Rule::sequence_operator, Rule::choice_operator, Rule::repeat_operator] {
        assert!(positives.contains(&rule), "{rule:?} is expected");
    }
    assert!(positives.windows(2).all(|pair| pair[0] < pair[1]));
    let renamed = error.renamed_rules(parser::rename_meta_rule).to_string();
    assert!(renamed.contains("2:11") && renamed.contains("`}`"), "{renamed}");
    assert!(PestParser::parse(Rule::grammar_rules, "=").is_err());
}

#[test]
fn rules_are_read() {
    let rules = rules_of(r#"a = _{ "x"{2,3} | ^"y" ~ 'a'..'z' } b = ${ PEEK[-1..] ~ !a }"#);
    let times = Expr::RepMinMax(string("x"), 2, 3);
    let range = Expr::Range("a".to_owned(), "z".to_owned());
    let pair = Expr::Seq(Box::new(Expr::Insens("y".to_owned())), Box::new(range));
    let first = Expr::Choice(Box::new(times), Box::new(pair));
    let second = Expr::Seq(Box::new(Expr::PeekSlice(-1, None)), Box::new(Expr::NegPred(ident("a"))));
    assert_eq!(rules[0], ast::Rule { name: "a".to_owned(), ty: RuleType::Silent, expr: first });
    assert_eq!(rules[1], ast::Rule { name: "b".to_owned(), ty: RuleType::CompoundAtomic, expr: second });
}

#[test]
fn rules_are_refused() {
    let text = r#"a = { "ä" ~ ("x"?)* } b = { b }"#;
    let errors = parser::consume_rules(parsed(text)).unwrap_err();
    let told = told(text, &errors);
    assert_eq!(told.len(), 2);
    assert_eq!(told[0].0, "expression inside repetition cannot fail and will repeat infinitely");
    assert_eq!(told[0].1, r#"("x"?)*"#);
    assert!(told[1].0.contains("left-recursive"), "{told:?}");
    let text = r#"a = { "x"{0} }"#;
    let errors = parser::consume_rules(parsed(text)).unwrap_err();
    assert_eq!(errors[0].variant.message(), "cannot repeat 0 times");
    assert_eq!(errors[0].location, InputLocation::Span((10, 11)));
}

#[test]
fn rules_are_read_with_their_places() {
    let text = "// c\n a = { \"ä\" ~ (b*)? }\nb = { \"x\" }";
    let rules = placed(text);
    assert_eq!(rules.len(), 2);
    assert_eq!((rules[0].span.as_str(), rules[1].span.start()), ("a", text.find("b = ").unwrap()));
    assert_eq!(rules[0].node.span.as_str(), "\"ä\" ~ (b*)?");
    let ParserExpr::Seq(left, right) = &rules[0].node.expr else {
        panic!("{:?}", rules[0]);
    };
    assert_eq!((left.span.as_str(), right.span.as_str()), ("\"ä\"", "(b*)?"));
    let endless = "a = { \"\"* }";
    assert_eq!(placed(endless).len(), 1);
    assert!(parser::consume_rules_with_spans(parsed(r#"a = { "x"{99999999999} }"#)).is_err());
}

#[test]
fn only_the_pairs_that_are_left_are_read() {
    let text = "// c\na = { \"x\" } b = { \"ä\" } c = { d }";
    let mut pairs = parsed(text);
    pairs.next();
    assert_eq!(parser::consume_rules(pairs.clone()).unwrap().len(), 2);
    pairs.next_back();
    pairs.next_back();
    let rules = parser::consume_rules_with_spans(pairs.clone()).unwrap();
    assert_eq!(rules.len(), 1);
    assert_eq!(rules[0].span.as_str(), "b");
    assert_eq!(rules[0].span.start(), 17);
    assert_eq!(validator::validate_pairs(pairs.clone()), Ok(vec![]));
    let named = validator::validate_pairs(parsed(text)).unwrap_err();
    assert_eq!(told(text, &named), [("rule d is undefined".to_owned(), "d")]);
    assert_eq!(named[0].line_col, LineColLocation::Span((2, 31), (2, 32)));
    pairs.next();
    assert_eq!(parser::consume_rules(pairs), Ok(vec![]));
}

#[test]
fn used_builtins_are_told_by_their_first_calls() {
    let text = "a = { SOI ~ b ~ ANY ~ EOI } b = { HAN | ANY }";
    assert_eq!(validator::validate_pairs(parsed(text)).unwrap(), ["SOI", "ANY", "EOI", "HAN"]);
}

#[test]
fn errors_of_names_are_told() {
    let text = "ANY = { x } x = { \"\" } x = { y }";
    let errors = validator::validate_pairs(parsed(text)).unwrap_err();
    let wanted = ["ANY is a pest keyword", "rule x already defined", "rule y is undefined"];
    assert_eq!(
        told(text, &errors),
        wanted.map(str::to_owned).into_iter().zip(["ANY", "x", "y"]).collect::<Vec<_>>()
    );
    assert_eq!(errors[1].location, InputLocation::Span((23, 24)));
}

#[test]
fn keywords_are_told_of_what_is_handed_in() {
    let text = "ä ANY let x POP PUSH";
    let names = spans(text, &["ANY", "let", "x", "POP"]);
    let keywords = validator::validate_pest_keywords(&names);
    let wanted = [("ANY is a pest keyword".to_owned(), "ANY"), ("POP is a pest keyword".to_owned(), "POP")];
    assert_eq!(told(text, &keywords), wanted);
    assert_eq!(validator::validate_pest_keywords(&names[1..3].to_vec()), []);
    assert_eq!(validator::validate_pest_keywords(&vec![]), []);
    assert_eq!(told(text, &validator::validate_pest_keywords(&spans(text, &["ANY le", "POP"]))), wanted[1..]);
    #[allow(deprecated)]
    let keywords = validator::validate_rust_keywords(&names);
    assert_eq!(told(text, &keywords), [("let is a rust keyword".to_owned(), "let")]);
}

#[test]
fn names_that_are_defined_twice_are_told() {
    let text = "ä x y x x y";
    let names = spans(text, &["x", "y", "x", "x", "y"]);
    let errors = validator::validate_already_defined(&names);
    let places: Vec<_> = errors.iter().map(|error| error.location.clone()).collect();
    let wanted = [names[2], names[3], names[4]].map(|span| InputLocation::Span((span.start(), span.end())));
    assert_eq!(places, wanted);
    assert_eq!(errors[2].variant.message(), "rule y already defined");
    assert_eq!(validator::validate_already_defined(&names[..2].to_vec()), []);
}

#[test]
fn undefined_names_are_told() {
    let text = "x y ANY z _ __ HAN z";
    let names = spans(text, &["x", "y"]);
    let called = spans(text, &["x", "ANY", "z", "__", "HAN", "z"]);
    let errors = validator::validate_undefined(&names, &called);
    let wanted = [("rule z is undefined", "z"), ("rule __ is undefined", "__"), ("rule z is undefined", "z")];
    assert_eq!(told(text, &errors), wanted.map(|(message, piece)| (message.to_owned(), piece)));
    assert_ne!(errors[0].location, errors[2].location);
    assert_eq!(validator::validate_undefined(&called, &called), []);
}

#[test]
fn rules_are_validated() {
    let text = r#"a = { "ä" ~ b+ } b = { ("x" | "y"?)* ~ c } c = { c | "z" } d = { "x"? | "y" }"#;
    let rules = placed(text);
    let errors = validator::validate_ast(&rules);
    assert_eq!(told(text, &errors), told(text, &parser::consume_rules(parsed(text)).unwrap_err()));
    assert!(errors.len() >= 3, "{errors:?}");
    assert_eq!(validator::validate_ast(&placed(r#"a = { "x" }"#)), []);
    assert_eq!(validator::validate_ast(&vec![]), []);
}

#[test]
fn rules_count_as_they_are_handed_in() {
    let text = r#"a = { b* } b = { "x" } c = { ""* }"#;
    let mut rules = placed(text);
    assert_eq!(told(text, &validator::validate_ast(&rules[1..].to_vec()))[0].1, "\"\"*");
    rules.truncate(2);
    assert_eq!(validator::validate_ast(&rules), []);
    rules[1].node.expr = ParserExpr::Str(String::new());
    let errors = validator::validate_ast(&rules);
    assert_eq!(errors.len(), 1);
    assert_eq!(told(text, &errors)[0].1, "b*");
    rules[1].node.expr = ParserExpr::RepExact(Box::new(rules[1].node.clone()), 0);
    let errors = validator::validate_ast(&rules);
    assert_eq!(told(text, &errors), [("cannot repeat 0 times".to_owned(), "b")]);
    rules[1].name = "no name".to_owned();
    let errors = validator::validate_ast(&rules);
    assert_eq!(told(text, &errors)[0].1, "b");
}

#[test]
fn rules_are_optimized() {
    let seq = Expr::Seq(string("x"), string("\"\\\u{1}ä"));
    let twice = Expr::RepExact(Box::new(seq), 2);
    let atomic = ast::Rule { ty: RuleType::Atomic, ..normal("a", twice) };
    let optimized = optimize(vec![atomic, normal("b", Expr::Skip(vec!["x".to_owned()]))]);
    assert_eq!(optimized.len(), 2);
    assert_eq!((&optimized[0].name[..], optimized[0].ty), ("a", RuleType::Atomic));
    assert_eq!(optimized[0].expr, *optimized_string("x\"\\\u{1}äx\"\\\u{1}ä"));
    assert_eq!(optimized[1].expr, OptimizedExpr::Skip(vec!["x".to_owned()]));
    assert_eq!(optimize(vec![]), vec![]);
}

#[test]
fn wrappers_are_put_round_what_changes_the_stack() {
    let (_, rules) = parse_and_optimize(r#"a = { (PUSH("x") ~ POP)? }"#).unwrap();
    let push = Box::new(OptimizedExpr::Push(optimized_string("x")));
    let pop = Box::new(OptimizedExpr::Ident("POP".to_owned()));
    let wrapped = OptimizedExpr::RestoreOnErr(Box::new(OptimizedExpr::Seq(push, pop)));
    assert_eq!(rules[0].expr, OptimizedExpr::Opt(Box::new(wrapped)));
    assert_eq!(rules[0].expr.to_string(), r#"(PUSH("x") ~ POP)?"#);
}

/// The crate keeps the answer for a thread's last grammar, and only what is asked about that one may be taken from it.
#[test]
fn an_answer_is_of_what_is_handed_in() {
    let (one, other) = ("a = { \"x\" ~ \"y\" ~ b } b = { \"z\" }", "a = { ^\"y\" } c = { a* }");
    let optimized = |rules: &[ast::Rule]| optimize(rules.to_vec());
    let [alone, alone_too] = [one, other].map(|text| (rules_of(text), optimized(&rules_of(text))));
    assert_ne!(alone, alone_too);
    // Two grammars in turn, and the rules of one after the other was read.
    let (first, second) = (parsed(one), parsed(other));
    let rules = parser::consume_rules(first.clone()).unwrap();
    assert_eq!(validator::validate_pairs(second.clone()), Ok(vec![]));
    assert_eq!(optimized(&rules), alone.1);
    assert_eq!(optimized(&parser::consume_rules(second).unwrap()), alone_too.1);
    assert_eq!(optimized(&parser::consume_rules(first).unwrap()), alone.1);
    // Rules that were changed, left out or put in another order.
    let mut changed = rules_of(one);
    changed[1].expr = Expr::Str("w".to_owned());
    assert_eq!(optimized(&changed)[1].expr, *optimized_string("w"));
    changed.pop();
    assert_eq!(optimized(&changed), alone.1[..1]);
    assert_eq!(optimized(&[]), []);
    let turned: Vec<ast::Rule> = rules_of(one).into_iter().rev().collect();
    assert_eq!(optimized(&turned).iter().rev().collect::<Vec<_>>(), alone.1.iter().collect::<Vec<_>>());
    // A grammar that is refused leaves no answer, and another thread has its own.
    assert!(parse_and_optimize("a = { b }").is_err());
    assert!(parser::consume_rules(parsed("a = { (\"\")* }")).is_err());
    assert_eq!(optimized(&rules), alone.1);
    let there = std::thread::spawn(move || optimize(rules_of(other))).join().unwrap();
    assert_eq!(there, alone_too.1);
}

#[test]
fn a_grammar_is_answered_as_a_whole() {
    let grammar = "a = @{ ANY ~ \"x\" ~ \"y\" }";
    let (builtins, rules) = parse_and_optimize(grammar).unwrap();
    assert_eq!(builtins, ["ANY"]);
    let any = Box::new(OptimizedExpr::Ident("ANY".to_owned()));
    let expr = OptimizedExpr::Seq(any, optimized_string("xy"));
    assert_eq!(rules, [OptimizedRule { name: "a".to_owned(), ty: RuleType::Atomic, expr }]);
}

#[test]
fn a_grammar_is_refused_as_a_whole() {
    for (grammar, message) in [
        ("a = { b }", "rule b is undefined"),
        ("a = { \"\"* }", "expression inside repetition cannot fail and will repeat infinitely"),
        ("a = { \"\\u{ffffff}\" }", ""),
    ] {
        let errors = parse_and_optimize(grammar).unwrap_err();
        assert_eq!(errors.len(), 1);
        let said = errors[0].variant.message();
        assert!(if message.is_empty() { !said.is_empty() } else { said == message }, "{said}");
    }
    let errors = parse_and_optimize("a = {").unwrap_err();
    assert!(matches!(errors[..], [Error { variant: ErrorVariant::ParsingError { .. }, .. }]));
}

#[test]
fn a_report_has_all_errors() {
    let report = panic_of(|| unwrap_or_report(parse_and_optimize("a = { b ~ c }")));
    assert!(report.starts_with("grammar error\n\n --> 1:7\n"), "{report}");
    assert!(report.contains("= rule b is undefined\n\n --> 1:11\n"), "{report}");
    assert!(report.ends_with("= rule c is undefined"), "{report}");
    assert_eq!(unwrap_or_report::<_, Vec<String>>(Ok(7)), 7);
}

#[test]
fn rules_of_the_meta_grammar_have_names() {
    let rules = Rule::all_rules();
    assert_eq!(rules.len(), 65);
    assert!(!rules.contains(&Rule::EOI) && rules.windows(2).all(|pair| pair[0] < pair[1]));
    let shown: Vec<_> = [Rule::grammar_rule, Rule::_push, Rule::opening_brace, Rule::number, Rule::EOI]
        .iter()
        .map(parser::rename_meta_rule)
        .collect();
    assert_eq!(shown, ["rule", "PUSH", "`{`", "number", "EOI"]);
}

#[test]
fn properties_have_names() {
    #[allow(deprecated)]
    let names = &pest_meta::UNICODE_PROPERTY_NAMES;
    assert!(names.contains(&"HAN") && names.contains(&"LETTER") && !names.contains(&"ANY"));
    let grammar = format!("a = {{ {} }}", names.join(" | "));
    let undefined = parse_and_optimize(&grammar).unwrap_err();
    let undefined: Vec<&str> = told(&grammar, &undefined).into_iter().map(|(_, name)| name).collect();
    let known: Vec<&str> = names.iter().copied().filter(|name| !undefined.contains(name)).collect();
    assert_eq!(known.len(), 115, "the front end knows so many, and pest all of them");
    let grammar = format!("a = {{ {} }}", known.join(" | "));
    assert_eq!(parse_and_optimize(&grammar).unwrap().0, known);
}

#[test]
fn expressions_are_printed() {
    for (text, wanted) in [
        (r#""x" ~ "y" ~ b"#, r#"(("x" ~ "y") ~ b)"#),
        (r#""x" ~ ("y" ~ b)"#, r#"("x" ~ "y" ~ b)"#),
        (r#""x" | b ~ "y""#, r#"("x" | (b ~ "y"))"#),
        (r#"(!"x")? ~ &b*"#, r#"((!"x")? ~ &b*)"#),
        (r#"^"\n\u{07}\"ä'" ~ '\''..'"'"#, r#"(^"\n\u{07}\"ä'" ~ ('\''..'"'))"#),
        ("b{2} ~ (b{2,} ~ (b{,2} ~ b{2,3}))", "(b{2} ~ b{2,} ~ b{,2} ~ b{2, 3})"),
        ("PUSH(b+) ~ PEEK[..-1]", "(PUSH(b+) ~ PEEK[0..-1])"),
    ] {
        let grammar = format!("a = {{ {text} }} b = {{ \"\" }}");
        let rules = placed(&grammar);
        assert_eq!(rules.len(), 2);
        let rules = parser::consume_rules(parsed(&grammar.replace("\"\" }", "\"z\" }"))).unwrap();
        assert_eq!(rules[0].expr.to_string(), wanted);
    }
    assert_eq!(Expr::Skip(vec!["x".to_owned(), "y".to_owned()]).to_string(), r#"(!("x" | "y") ~ ANY)*"#);
    assert_eq!(Expr::Range(String::new(), "z".to_owned()).to_string(), "(''..'z')");
    let wrapped = OptimizedExpr::RestoreOnErr(Box::new(OptimizedExpr::NegPred(optimized_string("x"))));
    assert_eq!(OptimizedExpr::Rep(Box::new(wrapped)).to_string(), "(!\"x\")*");
}

#[test]
fn expressions_are_gone_through() {
    let expr = rules_of(r#"a = { "x" ~ (b | !"y"+) } b = { "z" }"#).swap_remove(0).expr;
    let all: Vec<String> = expr.iter_top_down().map(|expr| expr.to_string()).collect();
    assert_eq!(all, [r#"("x" ~ (b | !"y"+))"#, "\"x\"", r#"(b | !"y"+)"#, "b", "!\"y\"+", "\"y\"+", "\"y\""]);
    assert_eq!(ast::ExprTopDownIterator::new(&expr).count(), 7);
    let optimized = optimize(vec![normal("a", expr)]).swap_remove(0).expr;
    let all: Vec<String> = optimized.iter_top_down().map(|expr| expr.to_string()).collect();
    assert_eq!(all[..3], [optimized.to_string(), "\"x\"".to_owned(), all[2].clone()]);
    assert_eq!(OptimizedExprTopDownIterator::new(&optimized).count(), all.len());
    let wrapped = OptimizedExpr::RestoreOnErr(optimized_string("x"));
    assert_eq!(wrapped.iter_top_down().count(), 1);
}

#[test]
fn expressions_are_mapped() {
    let expr = rules_of(r#"a = { ("x"? ~ "y"*){2} } b = { PUSH(&"z" | "x") }"#);
    let renamed = |expr: Expr| match expr {
        Expr::Str(text) => Expr::Insens(text + "!"),
        other => other,
    };
    let [a, b] = [expr[0].expr.clone(), expr[1].expr.clone()];
    let wanted = r#"(^"x!"? ~ ^"y!"*){2}"#;
    assert_eq!(a.clone().map_top_down(renamed).to_string(), wanted);
    assert_eq!(a.map_bottom_up(renamed).to_string(), wanted);
    assert_eq!(b.map_bottom_up(renamed).to_string(), r#"PUSH((&^"z!" | ^"x!"))"#);
    let unwrap = |expr: Expr| match expr {
        Expr::Opt(inner) => *inner,
        other => other,
    };
    let thrice = Expr::Opt(Box::new(Expr::Opt(Box::new(Expr::Opt(string("x"))))));
    assert_eq!(thrice.clone().map_top_down(unwrap), Expr::Opt(string("x")));
    assert_eq!(thrice.map_bottom_up(unwrap), *string("x"));
}

#[test]
fn optimized_expressions_are_mapped() {
    let renamed = |expr: OptimizedExpr| match expr {
        OptimizedExpr::Str(text) => OptimizedExpr::Insens(text + "!"),
        other => other,
    };
    let kept = OptimizedExpr::RestoreOnErr(optimized_string("y"));
    let pair = OptimizedExpr::Seq(optimized_string("x"), Box::new(kept));
    let expr = OptimizedExpr::Choice(Box::new(OptimizedExpr::Rep(Box::new(pair))), optimized_string("z"));
    let wanted = r#"((^"x!" ~ "y")* | ^"z!")"#;
    assert_eq!(expr.clone().map_top_down(renamed).to_string(), wanted);
    assert_eq!(expr.map_bottom_up(renamed).to_string(), wanted);
}

#[test]
fn nodes_are_found() {
    let text = r#"a = { "x" ~ (b | !"y"+) } b = { "z" }"#;
    let node = placed(text).swap_remove(0).node;
    let found = node.clone().filter_map_top_down(|node: ParserNode<'_>| Some(node.span.as_str()));
    let wanted = [r#""x" ~ (b | !"y"+)"#, "\"x\"", r#"(b | !"y"+)"#, "b", "!\"y\"+", "\"y\"+", "\"y\""];
    assert_eq!(found, wanted);
    let strings = node.filter_map_top_down(|node| match node.expr {
        ParserExpr::Str(text) => Some(text),
        _ => None,
    });
    assert_eq!(strings, ["x", "y"]);
}

/// Calls with much stack: Rust lets values go by a call a level.
fn with_much_stack<T: Send + 'static>(call: impl FnOnce() -> T + Send + 'static) -> T {
    let thread = std::thread::Builder::new().stack_size(256 << 20).spawn(call);
    thread.unwrap().join().unwrap()
}

/// A sequence of 2,001 names is as many levels deep.
#[test]
fn long_rules_are_read() {
    let text = format!("a = {{ b{} }} b = {{ \"x\" }}", " ~ b".repeat(2_000));
    let counts = with_much_stack(move || {
        let rules = rules_of(&text);
        let (_, optimized) = parse_and_optimize(&text).unwrap();
        let count = |printed: String| printed.matches('b').count();
        [count(rules[0].expr.to_string()), count(optimized[0].expr.to_string())]
    });
    assert_eq!(counts, [2_001, 2_001]);
}

/// Two thousand parentheses within one another are twice as many levels of trees.
#[test]
fn deep_rules_are_read() {
    let text = format!("a = {{ {}b{} }} b = {{ \"x\" }}", "(".repeat(2000), ")?".repeat(2000));
    let counts = with_much_stack(move || {
        let rules = rules_of(&text);
        let trees = parsed(&text).flatten().filter(|pair| pair.as_rule() == Rule::expression).count();
        let placed =
            placed(&text).swap_remove(0).node.filter_map_top_down(|node| Some(node.span.start())).len();
        (trees, rules[0].expr.iter_top_down().count(), placed)
    });
    assert_eq!(counts, (2002, 2001, 2001));
}

/// Answers that are much longer than what was asked.
#[test]
fn large_answers_get_their_room() {
    // Each error has its line.
    let text: String = (0..200).map(|number| format!("r{number}={{r{number}}} ")).collect();
    assert_eq!(parse_and_optimize(&text).unwrap_err().len(), 200);
    let count = with_much_stack(|| {
        let rules = optimize(vec![normal("a", Expr::RepExact(ident("b"), 20_000))]);
        rules[0].expr.to_string().matches('b').count()
    });
    assert_eq!(count, 20_000);
}

#[cfg(not(feature = "grammar-extras"))]
mod without_extras {
    use super::*;

    #[test]
    fn a_plus_is_written_out() {
        let (_, rules) = parse_and_optimize("a = { b+ } b = { (\"x\" ~ b?)+ }").unwrap();
        assert_eq!(rules[0].expr.to_string(), "(b ~ b*)");
        assert_eq!(rules[1].expr.to_string(), "((\"x\" ~ b?) ~ (\"x\" ~ b?)*)");
    }

    #[test]
    fn tags_are_left_out() {
        let text = "a = { #first = b ~ (#second = !b)? } b = { \"x\" }";
        let rules = placed(text);
        assert_eq!(rules[0].node.clone().filter_map_top_down(Some).len(), 5);
        assert_eq!(rules_of(text)[0].expr.to_string(), "(b ~ (!b)?)");
        let (_, rules) = parse_and_optimize(text).unwrap();
        assert_eq!(rules[0].expr.to_string(), "(b ~ (!b)?)");
    }

    #[test]
    fn literal_pushes_are_refused() {
        let text = "a = { b ~ PUSH_LITERAL(\"ä\") } b = { \"x\" }";
        let wanted = [("PUSH_LITERAL requires feature grammar-extras".to_owned(), "PUSH_LITERAL(\"ä\")")];
        assert_eq!(told(text, &parser::consume_rules(parsed(text)).unwrap_err()), wanted);
        assert_eq!(told(text, &parser::consume_rules_with_spans(parsed(text)).unwrap_err()), wanted);
        assert_eq!(told(text, &parse_and_optimize(text).unwrap_err()), wanted);
        let named = "a = { \"PUSH_LITERAL\" } // PUSH_LITERAL(\"x\")";
        assert_eq!(parse_and_optimize(named).unwrap().1.len(), 1);
    }
}

#[cfg(feature = "grammar-extras")]
mod with_extras {
    use super::*;

    #[test]
    fn a_plus_is_kept() {
        let (_, rules) = parse_and_optimize("a = { b+ } b = { \"x\" }").unwrap();
        let b = Box::new(OptimizedExpr::Ident("b".to_owned()));
        assert_eq!(rules[0].expr, OptimizedExpr::RepOnce(b));
        assert_eq!(rules[0].expr.to_string(), "b+");
    }

    #[test]
    fn tags_are_kept() {
        let text = "a = { #first = b ~ (#second = !b)? } b = { \"x\" }";
        let printed = "((#first = b) ~ (#second = !b)?)";
        assert_eq!(rules_of(text)[0].expr.to_string(), printed);
        let (_, rules) = parse_and_optimize(text).unwrap();
        assert_eq!(rules[0].expr.to_string(), printed);
        assert_eq!(rules[0].expr.iter_top_down().count(), 7);
        let ParserExpr::Seq(left, _) = &placed(text)[0].node.expr else {
            panic!("a sequence is read as one");
        };
        assert_eq!(left.span.as_str(), "#first = b");
        assert!(matches!(&left.expr, ParserExpr::NodeTag(_, tag) if tag == "first"));
    }

    #[test]
    fn tags_on_what_gives_no_token_are_told() {
        let text = "a = { #first = b } b = _{ \"x\" }";
        let errors = validator::validate_ast(&placed(text));
        assert_eq!(errors[0].variant.message(), "tags on silent rules will not appear in the output");
        assert_eq!(told(text, &errors)[0].1, "#first = b");
    }

    #[test]
    fn literal_pushes_are_read() {
        let (_, rules) = parse_and_optimize("a = { PUSH_LITERAL(\"ä\") ~ POP }").unwrap();
        let push = Box::new(OptimizedExpr::PushLiteral("ä".to_owned()));
        let pop = Box::new(OptimizedExpr::Ident("POP".to_owned()));
        assert_eq!(rules[0].expr, OptimizedExpr::Seq(push, pop));
        assert_eq!(rules[0].expr.to_string(), "(PUSH_LITERAL(\"ä\") ~ POP)");
        assert_eq!(rules_of("a = { PUSH_LITERAL(\"x\") }")[0].expr, Expr::PushLiteral("x".to_owned()));
    }
}

#[test]
fn a_refused_grammar_has_errors_with_helps() {
    let text = "a = { \"ä\" \"y\" }";
    let found = diagnose(text);
    let [error] = &found[..] else { panic!("{found:?}") };
    assert_eq!(
        (error.severity, &error.code[..], error.span.clone()),
        (Severity::Error, "pest::syntax", 11..11)
    );
    assert_eq!((error.line, error.column), (1, 11));
    assert_eq!(error.help.as_deref(), Some("a sequence is written with `~`"));
    assert!(error.expected.iter().any(|it| it == "`~`") && error.message.starts_with("expected "));
    assert_eq!(error.to_string(), format!("1:11: error[pest::syntax]: {}", error.message));
    assert!(error.fix.as_ref().unwrap().is_safe);
    let fixed = error.fix.as_ref().unwrap().apply(text);
    assert_eq!(fixed, "a = { \"ä\" ~ \"y\" }");
    assert!(diagnose(&fixed).is_empty());
}

#[test]
fn an_error_has_related_parts() {
    let found = diagnose("a = { \"x\" }\na = { \"y\" }");
    let [error] = &found[..] else { panic!("{found:?}") };
    let [first] = &error.related[..] else { panic!("{error:?}") };
    assert_eq!((error.span.clone(), error.line, error.column), (12..13, 2, 1));
    assert_eq!((first.span.clone(), first.line, first.column), (0..1, 1, 1));
    assert_eq!(first.message, "it is first defined here");
}

#[test]
fn an_accepted_grammar_has_warnings_alone() {
    let text = "a = { 'z'..'a' }";
    let found = diagnose(text);
    let [warning] = &found[..] else { panic!("{found:?}") };
    assert_eq!((warning.severity, &warning.code[..]), (Severity::Warning, "pest::reversed_range"));
    let fix = warning.fix.as_ref().unwrap();
    assert_eq!((&text[warning.span.clone()], fix.is_safe), ("'z'..'a'", false));
    assert_eq!(fix.apply(text), "a = { 'a'..'z' }");
    assert!(parse_and_optimize(text).is_ok() && diagnose("").is_empty());
}
