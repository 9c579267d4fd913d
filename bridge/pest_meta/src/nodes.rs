//! Expressions as flat lists of nodes, each before its operands, and trees of them. All ways between the two
//! are loops, so that no depth of an expression takes stack.

use crate::json::{write_list, write_text, Malformed, Reader, Reading};

/// A form of an expression, without its operands.
#[derive(Clone, Debug, PartialEq)]
pub(crate) enum Node {
    Str(String),
    Insens(String),
    Range(String, String),
    Ident(String),
    PeekSlice(i32, Option<i32>),
    PosPred,
    NegPred,
    Seq,
    Choice,
    Opt,
    Rep,
    RepOnce,
    RepExact(u32),
    RepMin(u32),
    RepMax(u32),
    RepMinMax(u32, u32),
    Skip(Vec<String>),
    Push,
    PushLiteral(String),
    Tag(String),
    RestoreOnErr,
}

impl Node {
    /// How many operands follow.
    pub(crate) fn operands(&self) -> usize {
        match self {
            Node::Str(_) | Node::Insens(_) | Node::Range(..) | Node::Ident(_) | Node::PeekSlice(..) => 0,
            Node::Skip(_) | Node::PushLiteral(_) => 0,
            Node::Seq | Node::Choice => 2,
            _ => 1,
        }
    }

    /// Its form's number, by which it is written in binary form.
    pub(crate) fn number(&self) -> u8 {
        match self {
            Node::Str(_) => 0,
            Node::Insens(_) => 1,
            Node::Range(..) => 2,
            Node::Ident(_) => 3,
            Node::PeekSlice(..) => 4,
            Node::PosPred => 5,
            Node::NegPred => 6,
            Node::Seq => 7,
            Node::Choice => 8,
            Node::Opt => 9,
            Node::Rep => 10,
            Node::RepOnce => 11,
            Node::RepExact(_) => 12,
            Node::RepMin(_) => 13,
            Node::RepMax(_) => 14,
            Node::RepMinMax(..) => 15,
            Node::Skip(_) => 16,
            Node::Push => 17,
            Node::PushLiteral(_) => 18,
            Node::Tag(_) => 19,
            Node::RestoreOnErr => 20,
        }
    }

    /// Its form's name.
    fn form(&self) -> &'static str {
        match self {
            Node::Str(_) => "str",
            Node::Insens(_) => "insens",
            Node::Range(..) => "range",
            Node::Ident(_) => "ident",
            Node::PeekSlice(..) => "peek_slice",
            Node::PosPred => "pos_pred",
            Node::NegPred => "neg_pred",
            Node::Seq => "seq",
            Node::Choice => "choice",
            Node::Opt => "opt",
            Node::Rep => "rep",
            Node::RepOnce => "rep_once",
            Node::RepExact(_) => "rep_exact",
            Node::RepMin(_) => "rep_min",
            Node::RepMax(_) => "rep_max",
            Node::RepMinMax(..) => "rep_min_max",
            Node::Skip(_) => "skip",
            Node::Push => "push",
            Node::PushLiteral(_) => "push_literal",
            Node::Tag(_) => "node_tag",
            Node::RestoreOnErr => "restore_on_err",
        }
    }
}

/// Trees of nodes, with something that is known of each node.
pub(crate) trait Tree: Sized {
    type Known;

    /// The tree of a node over its operands, if these trees have nodes of its form and no operand is missing.
    fn joined(node: Node, known: Self::Known, operands: &mut Operands<Self>) -> Option<Self>;

    /// The node at the root, and what it is over.
    fn parted(&self) -> (Node, [Option<&Self>; 2]);
}

/// Trees that wait for the node that is over them, the next operand last.
pub(crate) struct Operands<T>(Vec<T>);

impl<T> Operands<T> {
    /// The next operand.
    pub(crate) fn next(&mut self) -> Option<Box<T>> {
        self.0.pop().map(Box::new)
    }
}

/// The tree of a list of nodes.
pub(crate) fn tree<T: Tree>(nodes: impl DoubleEndedIterator<Item = (Node, T::Known)>) -> Reading<T> {
    let mut operands = Operands(Vec::new());
    for (node, known) in nodes.rev() {
        let form = node.form();
        match T::joined(node, known, &mut operands) {
            Some(joined) => operands.0.push(joined),
            None => return Err(Malformed::Unknown { what: "form", name: form.to_owned() }),
        }
    }
    match (operands.0.pop(), operands.0.pop()) {
        (Some(tree), None) => Ok(tree),
        _ => Err(Malformed::Wanted { what: "one expression", at: 0 }),
    }
}

/// The nodes of a tree.
pub(crate) fn flat<T: Tree>(tree: &T) -> Vec<Node> {
    let mut nodes = Vec::new();
    let mut left = vec![tree];
    while let Some(tree) = left.pop() {
        let (node, operands) = tree.parted();
        nodes.push(node);
        left.extend(operands.into_iter().rev().flatten());
    }
    nodes
}

/// The number of nodes of each node's tree, in the order of the nodes.
pub(crate) fn sizes(nodes: &[Node]) -> Vec<usize> {
    let mut sizes = vec![1; nodes.len()];
    for at in (0..nodes.len()).rev() {
        for _ in 0..nodes[at].operands() {
            sizes[at] += sizes[at + sizes[at]];
        }
    }
    sizes
}

/// Writes `e ~ e*` for each `e+`. The nodes are copied, from the last one to the first, to a list that grows
/// by the tree of each node; what is inside a tree stands at its end.
#[cfg(not(feature = "grammar-extras"))]
pub(crate) fn written_out(nodes: Vec<Node>) -> Reading<Vec<Node>> {
    let mut reversed: Vec<Node> = Vec::with_capacity(nodes.len());
    let mut starts: Vec<usize> = Vec::new();
    for node in nodes.into_iter().rev() {
        let Some(over) = starts.len().checked_sub(node.operands()) else {
            return Err(Malformed::Wanted { what: "an operand", at: 0 });
        };
        let start = starts.drain(over..).next().unwrap_or(reversed.len());
        if node == Node::RepOnce {
            let end = reversed.len();
            reversed.push(Node::Rep);
            reversed.extend_from_within(start..end);
            reversed.push(Node::Seq);
        } else {
            reversed.push(node);
        }
        starts.push(start);
    }
    reversed.reverse();
    Ok(reversed)
}

/// Reads a node: a list of its form's name and its arguments.
pub(crate) fn read(reader: &mut Reader<'_>) -> Reading<Node> {
    reader.open_list()?;
    let form = reader.borrowed_text()?;
    let node = match &form[..] {
        "str" => Node::Str(next_text(reader)?),
        "insens" => Node::Insens(next_text(reader)?),
        "range" => Node::Range(next_text(reader)?, next_text(reader)?),
        "ident" => Node::Ident(next_text(reader)?),
        "peek_slice" => Node::PeekSlice(next_index(reader)?, next_end(reader)?),
        "pos_pred" => Node::PosPred,
        "neg_pred" => Node::NegPred,
        "seq" => Node::Seq,
        "choice" => Node::Choice,
        "opt" => Node::Opt,
        "rep" => Node::Rep,
        "rep_once" => Node::RepOnce,
        "rep_exact" => Node::RepExact(next_count(reader)?),
        "rep_min" => Node::RepMin(next_count(reader)?),
        "rep_max" => Node::RepMax(next_count(reader)?),
        "rep_min_max" => Node::RepMinMax(next_count(reader)?, next_count(reader)?),
        "skip" => {
            reader.comma()?;
            Node::Skip(reader.list(Reader::text)?)
        }
        "push" => Node::Push,
        "push_literal" => Node::PushLiteral(next_text(reader)?),
        "node_tag" => Node::Tag(next_text(reader)?),
        "restore_on_err" => Node::RestoreOnErr,
        other => return Err(Malformed::Unknown { what: "form", name: other.to_owned() }),
    };
    reader.close_list()?;
    Ok(node)
}

fn next_text(reader: &mut Reader<'_>) -> Reading<String> {
    reader.comma()?;
    reader.text()
}

fn next_count(reader: &mut Reader<'_>) -> Reading<u32> {
    reader.comma()?;
    reader.fitting(|number| u32::try_from(number).ok())
}

fn next_index(reader: &mut Reader<'_>) -> Reading<i32> {
    reader.comma()?;
    reader.fitting(|number| i32::try_from(number).ok())
}

fn next_end(reader: &mut Reader<'_>) -> Reading<Option<i32>> {
    reader.comma()?;
    if reader.takes_null() {
        return Ok(None);
    }
    reader.fitting(|number| i32::try_from(number).ok()).map(Some)
}

/// Writes a node.
pub(crate) fn write(out: &mut String, node: &Node) {
    out.push_str("[\"");
    out.push_str(node.form());
    out.push('"');
    match node {
        Node::Str(text) | Node::Insens(text) | Node::Ident(text) => write_argument(out, text),
        Node::PushLiteral(text) | Node::Tag(text) => write_argument(out, text),
        Node::Range(low, high) => {
            write_argument(out, low);
            write_argument(out, high);
        }
        Node::PeekSlice(start, Some(end)) => out.push_str(&format!(",{start},{end}")),
        Node::PeekSlice(start, None) => out.push_str(&format!(",{start},null")),
        Node::RepExact(count) | Node::RepMin(count) | Node::RepMax(count) => {
            out.push_str(&format!(",{count}"));
        }
        Node::RepMinMax(least, most) => out.push_str(&format!(",{least},{most}")),
        Node::Skip(texts) => {
            out.push(',');
            write_list(out, texts, |out, text| write_text(out, text));
        }
        Node::PosPred | Node::NegPred | Node::Seq | Node::Choice | Node::Opt | Node::Rep => {}
        Node::RepOnce | Node::Push | Node::RestoreOnErr => {}
    }
    out.push(']');
}

fn write_argument(out: &mut String, text: &str) {
    out.push(',');
    write_text(out, text);
}

#[cfg(all(test, not(feature = "grammar-extras")))]
mod tests {
    use super::*;

    #[test]
    fn a_plus_is_written_out_within_another() {
        let a = || Node::Str("a".to_owned());
        let b = || Node::Str("b".to_owned());
        let nodes = vec![Node::Choice, Node::RepOnce, Node::Seq, Node::RepOnce, a(), b(), Node::Opt, b()];
        let inner = [Node::Seq, Node::Seq, a(), Node::Rep, a(), b()];
        let mut wanted = vec![Node::Choice, Node::Seq];
        wanted.extend_from_slice(&inner);
        wanted.push(Node::Rep);
        wanted.extend_from_slice(&inner);
        wanted.extend([Node::Opt, b()]);
        assert_eq!(written_out(nodes), Ok(wanted));
    }
}
