//! The errors of a grammar's names and of its rules.
//!
//! Each call asks the proved front end. The calls that get spans or rules print these as a grammar, and ask
//! about that grammar. They report an error of a part at the span of that part. So the errors are about the
//! arguments, and about nothing else in the text.

use std::ops::Range;

use kingorewa_library::Call;
use pest::error::{Error, ErrorVariant, InputLocation};
use pest::iterators::Pairs;
use pest::Span;

use crate::answers::{self, whole, Entry};
use crate::ast::RuleType;
use crate::nodes::{flat, Node, Tree};
use crate::parser::{grammar_of, ParserNode, ParserRule, Rule};
use crate::printing::{spelled, BareSide};

/// Returns the names of the builtins that a grammar uses, in the order of their first calls.
///
/// # Errors
/// The errors of its names: keywords of pest as names of rules, names that are defined twice, and names that
/// are defined nowhere.
pub fn validate_pairs(pairs: Pairs<'_, Rule>) -> Result<Vec<&str>, Vec<Error<Rule>>> {
    match grammar_of(&pairs) {
        Some(grammar) => Ok(in_text(grammar.as_str(), &answers::names(grammar)?)),
        None => Ok(Vec::new()),
    }
}

/// Names that stand in a text, as pieces of it.
pub(crate) fn in_text<'i>(text: &'i str, names: &[String]) -> Vec<&'i str> {
    let piece = |name: &String| text.find(name.as_str()).map(|at| &text[at..at + name.len()]);
    names.iter().map(|name| piece(name).expect("a used name stands in the text")).collect()
}

/// Returns an error for each name that is a keyword of Rust.
///
/// Such names are allowed, so no other call reports them.
#[allow(clippy::ptr_arg)]
#[deprecated = "keywords of Rust are allowed as names of rules"]
pub fn validate_rust_keywords(definitions: &Vec<Span<'_>>) -> Vec<Error<Rule>> {
    definitions.iter().flat_map(|name| answers::rust_keyword(*name)).collect()
}

/// Returns an error for each name that is a keyword of pest.
#[allow(clippy::ptr_arg)]
pub fn validate_pest_keywords(definitions: &Vec<Span<'_>>) -> Vec<Error<Rule>> {
    told_of(definitions, &[], " is a pest keyword")
}

/// Returns an error for each name that is defined before.
#[allow(clippy::ptr_arg)]
pub fn validate_already_defined(definitions: &Vec<Span<'_>>) -> Vec<Error<Rule>> {
    told_of(definitions, &[], " already defined")
}

/// Returns an error for each called name that is neither defined nor a builtin.
#[allow(clippy::ptr_arg)]
pub fn validate_undefined<'i>(definitions: &Vec<Span<'i>>, called_rules: &Vec<Span<'i>>) -> Vec<Error<Rule>> {
    told_of(definitions, called_rules, " is undefined")
}

/// A grammar of names, and where in it each of them stands, in the order of the text.
struct Names<'i> {
    grammar: String,
    places: Vec<(usize, Span<'i>)>,
}

impl<'i> Names<'i> {
    fn push(&mut self, before: &str, name: Span<'i>, behind: &str) {
        self.grammar.push_str(before);
        self.places.push((self.grammar.len(), name));
        self.grammar.push_str(name.as_str());
        self.grammar.push_str(behind);
    }
}

/// A grammar with a rule for each of `definitions`, and one more that calls all of `called`. What is no name
/// is passed over.
fn grammar_of_names<'i>(definitions: &[Span<'i>], called: &[Span<'i>]) -> Names<'i> {
    let longest = definitions.iter().chain(called).map(|name| name.as_str().len()).max();
    // It has a name that none of them is.
    let caller = "_".repeat(longest.unwrap_or(0) + 1);
    let mut names = Names { grammar: format!("{caller} = {{ \"\""), places: Vec::new() };
    for name in called.iter().filter(|name| is_name(name.as_str())) {
        names.push(" ~ ", *name, "");
    }
    names.grammar.push_str(" }\n");
    for name in definitions.iter().filter(|name| is_name(name.as_str())) {
        names.push("", *name, " = { \"\" }\n");
    }
    names
}

/// Whether a text is a name, by the meta-grammar.
fn is_name(text: &str) -> bool {
    match answers::tokens(text, Rule::identifier) {
        Ok(entries) => entries.len() == 2 && entries.get(1) == Some(Entry::End { place: text.len() }),
        Err(_) => false,
    }
}

/// What is told of names with those words at its end.
fn told_of(definitions: &[Span<'_>], called: &[Span<'_>], words: &str) -> Vec<Error<Rule>> {
    let names = grammar_of_names(definitions, called);
    let errors = answers::names(whole(&names.grammar)).err().unwrap_or_default();
    let mut told = Vec::new();
    for error in errors {
        let at = names.places.binary_search_by_key(&span_of(&error).start, |(place, _)| *place);
        match (at, error.variant) {
            (Ok(at), ErrorVariant::CustomError { message }) if message.ends_with(words) => {
                told.push(custom(message, names.places[at].1));
            }
            _ => {}
        }
    }
    told
}

/// Returns the errors of rules, in the order of their spans: repetitions that never end, unreachable
/// alternatives, a nullable `WHITESPACE` or `COMMENT`, left recursion, and tags on what gives no token.
///
/// The rules count as they are given, whatever the text has at their spans. If an error is about no node, it
/// is reported at the name of the rule.
#[allow(clippy::ptr_arg)]
pub fn validate_ast<'a, 'i: 'a>(rules: &'a Vec<ParserRule<'i>>) -> Vec<Error<Rule>> {
    if rules.is_empty() {
        return Vec::new();
    }
    let (text, pieces) = spelled_rules(rules);
    let Err(errors) = answers::rules(Call::Rules, whole(&text), Ok) else {
        return Vec::new();
    };
    let read = answers::rules(Call::Nodes, whole(&text), Ok).unwrap_or_default();
    let mut told = Vec::new();
    for error in errors {
        let span = span_of(&error);
        let number = pieces.partition_point(|piece| piece.end < span.end).min(rules.len() - 1);
        let nodes = read.get(number).map(|rule| &rule.spans[..]).unwrap_or_default();
        let node = nodes.iter().position(|(start, end)| (*start, *end) == (span.start, span.end));
        let node = node.and_then(|node| nth(&rules[number].node, node));
        let place = node.map_or(rules[number].span, |node| node.span);
        told.push(custom(error.variant.message().into_owned(), place));
    }
    told.sort_by_key(|error| (span_of(error).start, span_of(error).end));
    told
}

/// Rules as the text of a grammar, and the piece of each of them.
fn spelled_rules(rules: &[ParserRule<'_>]) -> (String, Vec<Range<usize>>) {
    let mut text = String::new();
    let mut pieces = Vec::new();
    for rule in rules {
        let start = text.len();
        let sign = match rule.ty {
            RuleType::Normal => "",
            RuleType::Silent => "_",
            RuleType::Atomic => "@",
            RuleType::CompoundAtomic => "$",
            RuleType::NonAtomic => "!",
        };
        let nodes: Vec<Node> = flat(&rule.node);
        text.push_str(&format!("{} = {sign}{{ {} }}\n", rule.name, spelled(&nodes, BareSide::Left)));
        pieces.push(start..text.len());
    }
    (text, pieces)
}

/// The node of that number, each before its operands, if there is one.
fn nth<'a, 'i>(node: &'a ParserNode<'i>, number: usize) -> Option<&'a ParserNode<'i>> {
    let mut left = vec![node];
    for _ in 0..number {
        let (_, operands) = left.pop()?.parted();
        left.extend(operands.into_iter().rev().flatten());
    }
    left.pop()
}

fn custom(message: String, span: Span<'_>) -> Error<Rule> {
    Error::new_from_span(ErrorVariant::CustomError { message }, span)
}

/// Where an error stands.
fn span_of(error: &Error<Rule>) -> Range<usize> {
    match error.location {
        InputLocation::Pos(place) => place..place,
        InputLocation::Span((start, end)) => start..end,
    }
}

#[cfg(test)]
pub(crate) mod tests {
    use super::*;
    use crate::parser::{consume_rules_with_spans, parse};

    /// Grammars with each form, and with each form as the operand of each other one that takes it.
    pub(crate) fn grammars() -> Vec<String> {
        let leaves = [r#""a""#, r#"^"\"\\ä""#, "'a'..'\\''", "b", "PEEK[-1..2]", "PEEK[..]"];
        let over = |e: &str| {
            let signs = ["?", "*", "+", "{2}", "{2,}", "{,2}", "{2,3}"];
            let mut all: Vec<String> = signs.iter().map(|sign| format!("({e}){sign}")).collect();
            all.extend([format!("&({e})"), format!("!({e})"), format!("PUSH({e})")]);
            all.extend([format!("(({e}) ~ b)"), format!("(b ~ ({e}))"), format!("b ~ ({e}) ~ c")]);
            all.extend([format!("(({e}) | b)"), format!("(b | ({e}))"), format!("b | ({e}) | c")]);
            #[cfg(feature = "grammar-extras")]
            all.push(format!("#tag = ({e})"));
            all
        };
        let once: Vec<String> = leaves.iter().flat_map(|leaf| over(leaf)).collect();
        let twice: Vec<String> = over("b").iter().flat_map(|e| over(e)).collect();
        let thrice = twice.iter().flat_map(|e| over(e));
        let texts = once.iter().chain(&twice).cloned().chain(thrice);
        texts.map(|text| format!("a = _{{ {text} }} b = @{{ \"\" }} c = ${{ \"x\" }} d = !{{ a }}")).collect()
    }

    #[test]
    fn rules_that_are_spelled_are_read_back() {
        let grammars = grammars();
        assert!(grammars.len() > 2000);
        for grammar in grammars {
            let rules = consume_rules_with_spans(parse(Rule::grammar_rules, &grammar).unwrap()).unwrap();
            let (text, pieces) = spelled_rules(&rules);
            let read = answers::rules(Call::Nodes, whole(&text), Ok).unwrap();
            assert_eq!(read.len(), rules.len());
            for ((read, rule), piece) in read.iter().zip(&rules).zip(pieces) {
                assert_eq!((&read.name, read.ty), (&rule.name, rule.ty));
                assert_eq!(read.nodes, flat(&rule.node), "{grammar} is spelled {text}");
                assert!(piece.start == read.name_span.0 && read.spans[0].1 < piece.end);
            }
        }
    }
}
