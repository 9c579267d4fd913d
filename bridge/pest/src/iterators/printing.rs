//! Pairs as texts. Each function is a loop, so the depth of a tree takes no stack of the process.
use alloc::format;
use core::fmt::{self, Formatter};

use super::tokens::{Bound, Bounds};
use super::Tree;
use crate::{RuleType, Span};

/// Prints nodes as `{:#}` does, without brackets around them.
pub(super) fn display<R: RuleType>(
    f: &mut Formatter<'_>,
    tree: &Tree<'_, R>,
    at: u32,
    end: u32,
) -> fmt::Result {
    let mut follows = false;
    for bound in Bounds::new(tree.clone(), at, end) {
        match bound {
            Bound::Start(at) => {
                let node = tree.node(at);
                let comma = if follows { ", " } else { "" };
                write!(f, "{comma}{:?}({}, {}", tree.rule(at), node.start, node.end)?;
                f.write_str(if tree.is_leaf(at) { "" } else { ", [" })?;
                follows = false;
            }
            Bound::End(at) => {
                f.write_str(if tree.is_leaf(at) { ")" } else { "])" })?;
                follows = true;
            }
        }
    }
    Ok(())
}

/// Prints nodes as `Debug` does: a list of them, or one alone.
pub(super) fn debug<R: RuleType>(
    f: &mut Formatter<'_>,
    tree: &Tree<'_, R>,
    at: u32,
    end: u32,
    is_list: bool,
) -> fmt::Result {
    let print = if f.alternate() { debug_in_lines } else { debug_in_line };
    if !is_list {
        return print(f, tree, at, end, 0);
    }
    f.write_str(if f.alternate() && at < end { "[\n" } else { "[" })?;
    print(f, tree, at, end, 4)?;
    f.write_str("]")
}

fn debug_in_line<R: RuleType>(
    f: &mut Formatter<'_>,
    tree: &Tree<'_, R>,
    at: u32,
    end: u32,
    _: usize,
) -> fmt::Result {
    let mut follows = false;
    for bound in Bounds::new(tree.clone(), at, end) {
        match bound {
            Bound::Start(at) => {
                let comma = if follows { ", " } else { "" };
                let span = span(tree, at);
                write!(f, "{comma}Pair {{ rule: {:?}, ", tree.rule(at))?;
                if let Some(tag) = tree.tag(at) {
                    write!(f, "node_tag: {tag:?}, ")?;
                }
                write!(f, "span: {span:?}, inner: [")?;
                follows = false;
            }
            Bound::End(_) => {
                f.write_str("] }")?;
                follows = true;
            }
        }
    }
    Ok(())
}

/// Prints nodes as `{:#?}` does, the first ones after so many blanks.
fn debug_in_lines<R: RuleType>(
    f: &mut Formatter<'_>,
    tree: &Tree<'_, R>,
    at: u32,
    end: u32,
    mut indent: usize,
) -> fmt::Result {
    for bound in Bounds::new(tree.clone(), at, end) {
        match bound {
            Bound::Start(at) => {
                let blanks = " ".repeat(indent);
                let fields = format!("\n{blanks}    ");
                let in_lines = |value: &dyn fmt::Debug| format!("{value:#?}").replace('\n', &fields);
                write!(f, "{blanks}Pair {{{fields}rule: {},", in_lines(&tree.rule(at)))?;
                if let Some(tag) = tree.tag(at) {
                    write!(f, "{fields}node_tag: {tag:?},")?;
                }
                write!(f, "{fields}span: {},{fields}inner: [", in_lines(&span(tree, at)))?;
                if !tree.is_leaf(at) {
                    f.write_str("\n")?;
                    indent += 8;
                }
            }
            Bound::End(at) => {
                if !tree.is_leaf(at) {
                    indent -= 8;
                    write!(f, "{}", " ".repeat(indent + 4))?;
                }
                let after = if indent > 0 { ",\n" } else { "" };
                write!(f, "],\n{}}}{after}", " ".repeat(indent))?;
            }
        }
    }
    Ok(())
}

fn span<'i, R: RuleType>(tree: &Tree<'i, R>, at: u32) -> Span<'i> {
    let node = tree.node(at);
    Span::between(tree.text(), node.start as usize, node.end as usize)
}
