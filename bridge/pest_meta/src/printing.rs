//! Expressions as the text of a grammar.

use std::borrow::Cow;
use std::fmt::Write;

use crate::nodes::{sizes, Node};

/// The side of a `~` or a `|` on which an expression with the same sign stands without parentheses.
#[derive(Clone, Copy, PartialEq)]
pub(crate) enum BareSide {
    /// As the text of a grammar is read: so what is written is read back as it was.
    Left,
    /// As the crate prints expressions.
    Right,
}

/// Where an expression stands.
#[derive(Clone, Copy, PartialEq)]
enum Place {
    Alone,
    /// In a sequence, on its bare side.
    InSequence,
    /// In a choice, on its bare side.
    InChoice,
    BeforePostfix,
}

/// What is still to be written.
enum Piece {
    Text(Cow<'static, str>),
    Part(usize, Place),
}

/// Writes an expression by a list of what is still to be written: no depth takes stack.
pub(crate) fn spelled(nodes: &[Node], bare: BareSide) -> String {
    let sizes = sizes(nodes);
    let mut out = String::new();
    let mut left = vec![Piece::Part(0, Place::Alone)];
    while let Some(piece) = left.pop() {
        match piece {
            Piece::Text(text) => out.push_str(&text),
            Piece::Part(at, place) => {
                let pieces = pieces(nodes, &sizes, bare, at, place);
                left.extend(pieces.into_iter().rev());
            }
        }
    }
    out
}

fn text(text: impl Into<Cow<'static, str>>) -> Piece {
    Piece::Text(text.into())
}

/// The pieces of an expression.
fn pieces(nodes: &[Node], sizes: &[usize], bare: BareSide, at: usize, place: Place) -> Vec<Piece> {
    let operand = |place| Piece::Part(at + 1, place);
    let postfix = |sign: Cow<'static, str>| vec![operand(Place::BeforePostfix), Piece::Text(sign)];
    match &nodes[at] {
        Node::Str(string) => vec![text(literal(string, '"'))],
        Node::Insens(string) => vec![text("^"), text(literal(string, '"'))],
        Node::Range(low, high) => vec![text(format!("({}..{})", bound(low), bound(high)))],
        Node::Ident(name) => vec![text(name.clone())],
        Node::PeekSlice(start, Some(end)) => vec![text(format!("PEEK[{start}..{end}]"))],
        Node::PeekSlice(start, None) => vec![text(format!("PEEK[{start}..]"))],
        Node::Skip(texts) => vec![text(skip(texts))],
        Node::PushLiteral(string) => vec![text(format!("PUSH_LITERAL({})", literal(string, '"')))],
        Node::PosPred => predicate("&", operand(Place::Alone), place),
        Node::NegPred => predicate("!", operand(Place::Alone), place),
        Node::Seq => chain(" ~ ", Place::InSequence, sizes, bare, at, place),
        Node::Choice => chain(" | ", Place::InChoice, sizes, bare, at, place),
        Node::Opt => postfix("?".into()),
        Node::Rep => postfix("*".into()),
        Node::RepOnce => postfix("+".into()),
        Node::RepExact(count) => postfix(format!("{{{count}}}").into()),
        Node::RepMin(least) => postfix(format!("{{{least},}}").into()),
        Node::RepMax(most) => postfix(format!("{{,{most}}}").into()),
        Node::RepMinMax(least, most) => postfix(format!("{{{least}, {most}}}").into()),
        Node::Push => vec![text("PUSH("), operand(Place::Alone), text(")")],
        Node::Tag(tag) => vec![text(format!("(#{tag} = ")), operand(Place::Alone), text(")")],
        Node::RestoreOnErr => vec![operand(place)],
    }
}

/// A predicate. Before a postfix operator it stands in parentheses: in `!e?` the option is what it is over.
fn predicate(sign: &'static str, operand: Piece, place: Place) -> Vec<Piece> {
    match place {
        Place::BeforePostfix => vec![text("("), text(sign), operand, text(")")],
        _ => vec![text(sign), operand],
    }
}

/// A sequence or a choice, in parentheses but on the bare side of one with the same sign.
fn chain(
    sign: &'static str,
    inside: Place,
    sizes: &[usize],
    bare: BareSide,
    at: usize,
    place: Place,
) -> Vec<Piece> {
    let (on_left, on_right) = match bare {
        BareSide::Left => (inside, Place::Alone),
        BareSide::Right => (Place::Alone, inside),
    };
    let left = Piece::Part(at + 1, on_left);
    let right = Piece::Part(at + 1 + sizes[at + 1], on_right);
    if place == inside {
        vec![left, text(sign), right]
    } else {
        vec![text("("), left, text(sign), right, text(")")]
    }
}

/// A repetition up to one of some texts.
fn skip(texts: &[String]) -> String {
    let texts: Vec<String> = texts.iter().map(|text| literal(text, '"')).collect();
    format!("(!({}) ~ ANY)*", texts.join(" | "))
}

/// The first character of a bound as a literal.
fn bound(text: &str) -> String {
    literal(text.chars().next().map(String::from).as_deref().unwrap_or_default(), '\'')
}

/// A text as a literal. Escaped are its own quote, the backslash, controls, and U+2028 and U+2029.
fn literal(text: &str, quote: char) -> String {
    let mut out = String::from(quote);
    for c in text.chars() {
        match c {
            _ if c == quote => out.extend(['\\', c]),
            '\0' => out.push_str("\\0"),
            '\t' => out.push_str("\\t"),
            '\n' => out.push_str("\\n"),
            '\r' => out.push_str("\\r"),
            '\\' => out.push_str("\\\\"),
            '\u{1}'..='\u{1f}' | '\u{7f}'..='\u{9f}' | '\u{2028}' | '\u{2029}' => {
                write!(out, "\\u{{{:02x}}}", u32::from(c)).expect("a String takes all");
            }
            _ => out.push(c),
        }
    }
    out.push(quote);
    out
}
