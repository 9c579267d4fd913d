//! Compiles optimized rules for the proved matcher, for the crates pest_vm and kingorewa_pest_derive. This module is no
//! part of the original's interface.

use std::collections::{BTreeSet, HashMap};
use std::mem;

use kingorewa_library::code::{self, Uncompiled};
use pest::unicode::{by_name, unicode_property_names};

use crate::ast::RuleType;
use crate::binary;
use crate::nodes::{flat, Node};
use crate::optimizer::{OptimizedExpr, OptimizedRule};

/// Compiles optimized rules to a block of bytes that the library runs on texts.
///
/// # Errors
/// [`Uncompiled`] if the rules call a name that is neither a rule nor a builtin, or have a range with a bound that is
/// not one character.
///
/// # Panics
/// If an allocation fails.
pub fn compile(rules: &[OptimizedRule]) -> Result<Vec<u8>, Uncompiled> {
    let rows = rules.iter().map(|rule| (&rule.name, rule.ty, flat(&rule.expr)));
    code::compile_rules(&binary::write_rules(rows))
}

/// Optimized rules as errors in detail need them: in binary form, then the names of the properties of characters that they
/// call, and a block with a rule for each of these. `added` are rules for properties that the library does not know.
pub fn source(rules: &[OptimizedRule], added: &[OptimizedRule]) -> Vec<u8> {
    let called: BTreeSet<String> = rules.iter().flat_map(|rule| called_names(&rule.expr)).collect();
    let is_rule = |name: &String| rules.iter().any(|rule| rule.name == *name);
    let mut names: Vec<String> = called.into_iter().filter(|name| !is_rule(name)).collect();
    names.retain(|name| by_name(name).is_some());
    let rule = |name: &String| match added.iter().find(|rule| rule.name == *name) {
        Some(rule) => rule.expr.clone(),
        None => OptimizedExpr::Ident(name.clone()),
    };
    // A number is no name of a grammar.
    let numbered = names.iter().map(rule).enumerate();
    let numbered = numbered.map(|(row, expr)| OptimizedRule { expr, ..empty_rule(row.to_string()) });
    let block = compile(&numbered.collect::<Vec<_>>()).unwrap_or_default();
    let mut bytes = binary::write_rules(rules.iter().map(|rule| (&rule.name, rule.ty, flat(&rule.expr))));
    binary::write_texts(&mut bytes, &names);
    bytes.extend(block);
    bytes
}

/// Returns the names that rules call and that are neither rules nor builtins, each once.
pub fn undefined_names(rules: &[OptimizedRule]) -> Vec<String> {
    let called: BTreeSet<String> = rules.iter().flat_map(|rule| called_names(&rule.expr)).collect();
    let is_undefined = |name: &String| {
        let caller =
            OptimizedRule { expr: OptimizedExpr::Ident(name.clone()), ..empty_rule("a caller".to_owned()) };
        !rules.iter().any(|rule| rule.name == *name) && compile(&[caller]).is_err()
    };
    called.into_iter().filter(is_undefined).collect()
}

/// Returns a rule named `name` that matches nothing and makes no pair.
pub fn empty_rule(name: String) -> OptimizedRule {
    OptimizedRule { name, ty: RuleType::Silent, expr: OptimizedExpr::Str(String::new()) }
}

/// Returns a rule for a property of characters that the crate `pest` knows. It matches a character of one of the
/// ranges, and makes no pair.
pub fn property_rule(name: &str) -> Option<OptimizedRule> {
    let ranges = property_ranges(name)?.into_iter();
    let ranges = ranges.map(|(start, end)| OptimizedExpr::Range(start.to_string(), end.to_string()));
    let expr = ranges.rev().reduce(|rest, range| OptimizedExpr::Choice(Box::new(range), Box::new(rest)))?;
    Some(OptimizedRule { expr, ..empty_rule(name.to_owned()) })
}

/// Rules of a grammar for the properties of characters that its text names, and that the library does not know, each on a
/// line. `defined` are names that the grammar defines. The sets are those of the crate `pest`.
pub fn rules_of_properties(text: &str, defined: &[String]) -> String {
    let is_part = |it: char| it == '_' || it.is_ascii_alphanumeric();
    let words: BTreeSet<&str> = text.split(|it| !is_part(it)).collect();
    let is_property = |word: &&str| unicode_property_names().any(|name| name == *word);
    let is_missing = |word: &&str| {
        let is_defined = defined.iter().any(|name| name == word);
        !is_defined && crate::parse_and_optimize(&format!("a = {{ {word} }}")).is_err()
    };
    let mut rules = String::new();
    for name in words.into_iter().filter(is_property).filter(is_missing) {
        let ranges = property_ranges(name).into_iter().flatten();
        let ranges = ranges.map(|(start, end)| {
            let [start, end] = [start, end].map(|it| format!("'\\u{{{:x}}}'", u32::from(it)));
            format!("{start}..{end}")
        });
        rules += &format!("\n{name} = _{{ {} }}", ranges.collect::<Vec<_>>().join(" | "));
    }
    rules
}

/// The characters of a property, as ranges in order.
fn property_ranges(name: &str) -> Option<Vec<(char, char)>> {
    let has = by_name(name)?;
    let mut ranges: Vec<(char, char)> = Vec::new();
    let mut is_open = false;
    for character in '\0'..=char::MAX {
        let is_in = has(character);
        match ranges.last_mut() {
            Some((_, end)) if is_in && is_open => *end = character,
            _ if is_in => ranges.push((character, character)),
            _ => {}
        }
        is_open = is_in;
    }
    Some(ranges)
}

/// Returns the rules from which calls lead to a rule that is not among the first `count`: the index of each, with the
/// name of that rule.
pub fn rules_that_reach(rules: &[OptimizedRule], count: usize) -> HashMap<usize, String> {
    let mut callers: HashMap<String, Vec<usize>> = HashMap::new();
    for (at, rule) in rules.iter().enumerate() {
        called_names(&rule.expr).for_each(|name| callers.entry(name).or_default().push(at));
    }
    let mut reaching = HashMap::new();
    let mut left: Vec<(usize, &String)> = (count..rules.len()).map(|at| (at, &rules[at].name)).collect();
    while let Some((at, name)) = left.pop() {
        if reaching.insert(at, name.clone()).is_none() {
            left.extend(callers.get(&rules[at].name).into_iter().flatten().map(|caller| (*caller, name)));
        }
    }
    reaching
}

/// The names that an expression calls.
fn called_names(expr: &OptimizedExpr) -> impl Iterator<Item = String> {
    let names = flat(expr).into_iter().filter_map(|node| match node {
        Node::Ident(name) => Some(name),
        _ => None,
    });
    names.collect::<Vec<_>>().into_iter()
}

/// A compiled grammar in which each tagged expression is a call of one more rule.
pub struct TaggedBlock {
    /// The block.
    pub block: Vec<u8>,
    /// The tag of each of these rules. Their indexes are after those of the grammar.
    pub tags: Vec<String>,
}

/// Compiles optimized rules with their tags, if they have any. Each tagged expression becomes the body of one more
/// rule. The match of that rule shows the end of the expression.
///
/// In parsers that pest_generator makes, a tag on `e?` or `e*` is on each `e`. In the crate pest_vm it is on the last
/// pair of all. `is_on_each` says which of the two is wanted.
///
/// # Errors
/// Those of [`compile`].
///
/// # Panics
/// If an allocation fails.
pub fn compile_tagged(rules: &[OptimizedRule], is_on_each: bool) -> Result<Option<TaggedBlock>, Uncompiled> {
    let mut tagged = Tagged { tags: Vec::new(), bodies: Vec::new() };
    let body = |rule: &OptimizedRule| match is_on_each {
        true => tags_on_each(flat(&rule.expr)),
        false => flat(&rule.expr),
    };
    let mut rows: Vec<_> =
        rules.iter().map(|rule| (rule.name.clone(), rule.ty, tagged.take_out(body(rule)))).collect();
    if tagged.tags.is_empty() {
        return Ok(None);
    }
    let added = mem::take(&mut tagged.bodies).into_iter().enumerate();
    rows.extend(added.map(|(number, body)| (tagged.name(number), RuleType::Normal, body)));
    let block = code::compile_rules(&binary::write_rules(rows.into_iter()))?;
    Ok(Some(TaggedBlock { block, tags: tagged.tags }))
}

/// A body in which the tags of `e?` and `e*` are on `e`.
fn tags_on_each(mut body: Vec<Node>) -> Vec<Node> {
    let mut at = 1;
    while at < body.len() {
        if matches!((&body[at - 1], &body[at]), (Node::Tag(_), Node::Opt | Node::Rep)) {
            body.swap(at - 1, at);
            // What the tag is on now has it as it is.
            at += 1;
        }
        at += 1;
    }
    body
}

/// The tags of a grammar, each with the expression that has it, in which tags are calls.
struct Tagged {
    tags: Vec<String>,
    bodies: Vec<Vec<Node>>,
}

impl Tagged {
    /// The name of the rule of a tag, which no rule of a grammar has.
    fn name(&self, number: usize) -> String {
        format!("{number}#{}", self.tags[number])
    }

    /// Takes tagged expressions out of a body, and puts calls in their places.
    fn take_out(&mut self, body: Vec<Node>) -> Vec<Node> {
        // The bodies that are not at their ends: the tag of each, its nodes, and how many operands are missing.
        let mut open = vec![(None, Vec::new(), 1_usize)];
        for node in body {
            let (_, nodes, missing) = open.last_mut().expect("a body has as many nodes as its forms ask for");
            if let Node::Tag(tag) = node {
                self.tags.push(tag);
                self.bodies.push(Vec::new());
                let number = self.tags.len() - 1;
                nodes.push(Node::Ident(self.name(number)));
                *missing -= 1;
                open.push((Some(number), Vec::new(), 1));
            } else {
                *missing = *missing - 1 + node.operands();
                nodes.push(node);
            }
            while let Some((Some(number), _, 0)) = open.last() {
                let number = *number;
                self.bodies[number] = open.pop().map(|(_, nodes, _)| nodes).unwrap_or_default();
            }
        }
        open.pop().map(|(_, nodes, _)| nodes).unwrap_or_default()
    }
}
