//! Pairs as JSON: by serde, and in lines without taking stack by their depth.

use alloc::format;
use alloc::string::String;

use serde::ser::{Serialize, SerializeStruct, Serializer};

use super::tokens::{Bound, Bounds};
use super::{Pair, Pairs, Tree};
use crate::RuleType;

/// The JSON of a node, in lines.
pub(super) fn pair<R: RuleType>(tree: &Tree<'_, R>, at: u32) -> String {
    let mut out = String::new();
    write_nodes(&mut out, tree, at, tree.after(at), 0);
    out
}

/// The JSON of nodes beside one another, in lines.
pub(super) fn pairs<R: RuleType>(tree: &Tree<'_, R>, at: u32, end: u32) -> String {
    let mut out = String::new();
    write_list_start(&mut out, place(tree, at, end), 0);
    write_nodes(&mut out, tree, at, end, 2);
    write_list_end(&mut out, at < end, 0);
    out
}

/// Writes nodes, each of whose lines has so many blanks before it.
fn write_nodes<R: RuleType>(out: &mut String, tree: &Tree<'_, R>, at: u32, end: u32, mut level: usize) {
    let mut follows = false;
    for bound in Bounds::new(tree.clone(), at, end) {
        match bound {
            Bound::Start(at) => {
                let node = tree.node(at);
                if level > 0 {
                    *out += if follows { ",\n" } else { "\n" };
                }
                let blanks = "  ".repeat(level);
                let rule = quoted(&format!("{:?}", tree.rule(at)));
                *out += &blanks;
                write_pos(out, (node.start, node.end), level);
                *out += &format!("{blanks}  \"rule\": {rule},\n{blanks}  \"inner\": ");
                if tree.is_leaf(at) {
                    *out += &format!("{}\n", quoted(tree.text_between(node.start, node.end)));
                } else {
                    write_list_start(out, place(tree, at + 1, node.after), level + 1);
                    level += 3;
                }
                follows = false;
            }
            Bound::End(at) => {
                if !tree.is_leaf(at) {
                    level -= 3;
                    write_list_end(out, true, level + 1);
                    *out += "\n";
                }
                *out += &"  ".repeat(level);
                *out += "}";
                follows = true;
            }
        }
    }
}

fn write_pos(out: &mut String, (start, end): (u32, u32), level: usize) {
    let blanks = "  ".repeat(level);
    *out += &format!("{{\n{blanks}  \"pos\": [\n{blanks}    {start},\n{blanks}    {end}\n{blanks}  ],\n");
}

fn write_list_start(out: &mut String, place: (u32, u32), level: usize) {
    write_pos(out, place, level);
    *out += &format!("{}  \"pairs\": [", "  ".repeat(level));
}

fn write_list_end(out: &mut String, has_items: bool, level: usize) {
    let blanks = "  ".repeat(level);
    if has_items {
        *out += &format!("\n{blanks}  ");
    }
    *out += &format!("]\n{blanks}}}");
}

/// A text as JSON writes it.
fn quoted(text: &str) -> String {
    serde_json::to_string(text).expect("a text is JSON")
}

/// The bytes where nodes beside one another start and end.
fn place<R: RuleType>(tree: &Tree<'_, R>, at: u32, end: u32) -> (u32, u32) {
    let text = Pairs::new(tree.clone(), at, end).as_str();
    let start = if at < end { tree.node(at).start } else { 0 };
    (start, start + text.len() as u32)
}

/// A structure with the place, the rule, and the pairs inside or the text.
impl<R: RuleType> Serialize for Pair<'_, R> {
    fn serialize<S: Serializer>(&self, serializer: S) -> Result<S::Ok, S::Error> {
        let span = self.as_span();
        let inner = self.clone().into_inner();
        let mut fields = serializer.serialize_struct("Pairs", 3)?;
        fields.serialize_field("pos", &(span.start(), span.end()))?;
        fields.serialize_field("rule", &format!("{:?}", self.as_rule()))?;
        match inner.is_empty() {
            true => fields.serialize_field("inner", self.as_str())?,
            false => fields.serialize_field("inner", &inner)?,
        }
        fields.end()
    }
}

/// A structure with the place and the pairs.
impl<R: RuleType> Serialize for Pairs<'_, R> {
    fn serialize<S: Serializer>(&self, serializer: S) -> Result<S::Ok, S::Error> {
        let (tree, at, end) = self.parts();
        let mut fields = serializer.serialize_struct("Pairs", 2)?;
        fields.serialize_field("pos", &place(tree, at, end))?;
        fields.serialize_field("pairs", &self.clone().collect::<alloc::vec::Vec<_>>())?;
        fields.end()
    }
}
