//! Rules and expressions of a grammar, without their positions.

use std::fmt;

use crate::nodes::{flat, Node, Operands, Tree};
use crate::printing::{spelled, BareSide};

/// A rule of a grammar.
#[derive(Clone, Debug, Eq, PartialEq)]
pub struct Rule {
    /// The name of the rule.
    pub name: String,
    /// The type of the rule.
    pub ty: RuleType,
    /// The body of the rule.
    pub expr: Expr,
}

/// The kinds of rules.
#[derive(Clone, Copy, Debug, Eq, PartialEq)]
pub enum RuleType {
    /// `a = { .. }`: the rule gives a token. Blanks are skipped in it if they are skipped at the call.
    Normal,
    /// `a = _{ .. }`: the rule is like a normal rule, but gives no token.
    Silent,
    /// `a = @{ .. }`: no blanks are skipped in the rule, and the rules that it calls give no tokens.
    Atomic,
    /// `a = ${ .. }`: no blanks are skipped in the rule, and the rules that it calls give tokens.
    CompoundAtomic,
    /// `a = !{ .. }`: blanks are skipped in the rule at every call.
    NonAtomic,
}

/// An expression of a grammar.
#[derive(Clone, Debug, Eq, PartialEq)]
pub enum Expr {
    /// Matches that text: `"a"`.
    Str(String),
    /// Matches that text, with ASCII letters of either case: `^"a"`.
    Insens(String),
    /// Matches a character of the range: `'a'..'z'`.
    Range(String, String),
    /// Calls the rule or the builtin with that name: `a`.
    Ident(String),
    /// Matches entries of the stack: `PEEK[0..-1]`, or `PEEK[0..]`.
    PeekSlice(i32, Option<i32>),
    /// Succeeds if the expression matches, and consumes nothing: `&e`.
    PosPred(Box<Expr>),
    /// Succeeds if the expression does not match, and consumes nothing: `!e`.
    NegPred(Box<Expr>),
    /// Matches one expression and then the other: `a ~ b`.
    Seq(Box<Expr>, Box<Expr>),
    /// Matches one expression, or the other one if the first fails: `a | b`.
    Choice(Box<Expr>, Box<Expr>),
    /// Matches the expression or nothing: `e?`.
    Opt(Box<Expr>),
    /// Repeats the expression as long as it matches: `e*`.
    Rep(Box<Expr>),
    /// Repeats the expression as long as it matches, at least once: `e+`.
    RepOnce(Box<Expr>),
    /// Repeats the expression this number of times: `e{2}`.
    RepExact(Box<Expr>, u32),
    /// Repeats the expression at least this number of times: `e{2,}`.
    RepMin(Box<Expr>, u32),
    /// Repeats the expression at most this number of times: `e{,2}`.
    RepMax(Box<Expr>, u32),
    /// Repeats the expression between the first and the second number of times: `e{2, 3}`.
    RepMinMax(Box<Expr>, u32, u32),
    /// Consumes all characters before one of the texts: `(!("a" | "b") ~ ANY)*`.
    Skip(Vec<String>),
    /// Pushes the text that the expression matches on the stack: `PUSH(e)`.
    Push(Box<Expr>),
    /// Pushes the text on the stack: `PUSH_LITERAL("a")`.
    #[cfg(feature = "grammar-extras")]
    PushLiteral(String),
    /// An expression with a tag: `#tag = e`.
    #[cfg(feature = "grammar-extras")]
    NodeTag(Box<Expr>, String),
}

impl Expr {
    /// Returns the expression and all expressions inside it, each before those inside it, and the left side
    /// before the right one.
    pub fn iter_top_down(&self) -> ExprTopDownIterator {
        ExprTopDownIterator::new(self)
    }

    /// Applies `f` to the expression, then to each operand of the result, and so on down.
    pub fn map_top_down<F>(self, mut f: F) -> Expr
    where
        F: FnMut(Expr) -> Expr,
    {
        fn go(expr: Expr, f: &mut dyn FnMut(Expr) -> Expr) -> Expr {
            f(expr).map_operands(&mut |operand| go(operand, f))
        }
        go(self, &mut f)
    }

    /// Applies `f` from the leaves up: to the operands of each expression, and then to the expression with
    /// the results.
    pub fn map_bottom_up<F>(self, mut f: F) -> Expr
    where
        F: FnMut(Expr) -> Expr,
    {
        fn go(expr: Expr, f: &mut dyn FnMut(Expr) -> Expr) -> Expr {
            let mapped = expr.map_operands(&mut |operand| go(operand, f));
            f(mapped)
        }
        go(self, &mut f)
    }

    /// The expression with `f` applied to its operands, the left one first.
    fn map_operands(self, f: &mut dyn FnMut(Expr) -> Expr) -> Expr {
        let mut map = |operand: Box<Expr>| Box::new(f(*operand));
        match self {
            Expr::PosPred(inner) => Expr::PosPred(map(inner)),
            Expr::NegPred(inner) => Expr::NegPred(map(inner)),
            Expr::Seq(left, right) => {
                let left = map(left);
                Expr::Seq(left, map(right))
            }
            Expr::Choice(left, right) => {
                let left = map(left);
                Expr::Choice(left, map(right))
            }
            Expr::Opt(inner) => Expr::Opt(map(inner)),
            Expr::Rep(inner) => Expr::Rep(map(inner)),
            Expr::RepOnce(inner) => Expr::RepOnce(map(inner)),
            Expr::RepExact(inner, count) => Expr::RepExact(map(inner), count),
            Expr::RepMin(inner, least) => Expr::RepMin(map(inner), least),
            Expr::RepMax(inner, most) => Expr::RepMax(map(inner), most),
            Expr::RepMinMax(inner, least, most) => Expr::RepMinMax(map(inner), least, most),
            Expr::Push(inner) => Expr::Push(map(inner)),
            #[cfg(feature = "grammar-extras")]
            Expr::NodeTag(inner, tag) => Expr::NodeTag(map(inner), tag),
            leaf => leaf,
        }
    }
}

impl Tree for Expr {
    type Known = ();

    fn joined(node: Node, (): (), over: &mut Operands<Expr>) -> Option<Expr> {
        let expr = match node {
            Node::Str(text) => Expr::Str(text),
            Node::Insens(text) => Expr::Insens(text),
            Node::Range(low, high) => Expr::Range(low, high),
            Node::Ident(name) => Expr::Ident(name),
            Node::PeekSlice(start, end) => Expr::PeekSlice(start, end),
            Node::PosPred => Expr::PosPred(over.next()?),
            Node::NegPred => Expr::NegPred(over.next()?),
            Node::Seq => Expr::Seq(over.next()?, over.next()?),
            Node::Choice => Expr::Choice(over.next()?, over.next()?),
            Node::Opt => Expr::Opt(over.next()?),
            Node::Rep => Expr::Rep(over.next()?),
            Node::RepOnce => Expr::RepOnce(over.next()?),
            Node::RepExact(count) => Expr::RepExact(over.next()?, count),
            Node::RepMin(least) => Expr::RepMin(over.next()?, least),
            Node::RepMax(most) => Expr::RepMax(over.next()?, most),
            Node::RepMinMax(least, most) => Expr::RepMinMax(over.next()?, least, most),
            Node::Skip(texts) => Expr::Skip(texts),
            Node::Push => Expr::Push(over.next()?),
            #[cfg(feature = "grammar-extras")]
            Node::PushLiteral(text) => Expr::PushLiteral(text),
            #[cfg(feature = "grammar-extras")]
            Node::Tag(tag) => Expr::NodeTag(over.next()?, tag),
            _ => return None,
        };
        Some(expr)
    }

    fn parted(&self) -> (Node, [Option<&Expr>; 2]) {
        match self {
            Expr::Str(text) => (Node::Str(text.clone()), [None, None]),
            Expr::Insens(text) => (Node::Insens(text.clone()), [None, None]),
            Expr::Range(low, high) => (Node::Range(low.clone(), high.clone()), [None, None]),
            Expr::Ident(name) => (Node::Ident(name.clone()), [None, None]),
            Expr::PeekSlice(start, end) => (Node::PeekSlice(*start, *end), [None, None]),
            Expr::PosPred(inner) => (Node::PosPred, [Some(inner), None]),
            Expr::NegPred(inner) => (Node::NegPred, [Some(inner), None]),
            Expr::Seq(left, right) => (Node::Seq, [Some(left), Some(right)]),
            Expr::Choice(left, right) => (Node::Choice, [Some(left), Some(right)]),
            Expr::Opt(inner) => (Node::Opt, [Some(inner), None]),
            Expr::Rep(inner) => (Node::Rep, [Some(inner), None]),
            Expr::RepOnce(inner) => (Node::RepOnce, [Some(inner), None]),
            Expr::RepExact(inner, count) => (Node::RepExact(*count), [Some(inner), None]),
            Expr::RepMin(inner, least) => (Node::RepMin(*least), [Some(inner), None]),
            Expr::RepMax(inner, most) => (Node::RepMax(*most), [Some(inner), None]),
            Expr::RepMinMax(inner, least, most) => (Node::RepMinMax(*least, *most), [Some(inner), None]),
            Expr::Skip(texts) => (Node::Skip(texts.clone()), [None, None]),
            Expr::Push(inner) => (Node::Push, [Some(inner), None]),
            #[cfg(feature = "grammar-extras")]
            Expr::PushLiteral(text) => (Node::PushLiteral(text.clone()), [None, None]),
            #[cfg(feature = "grammar-extras")]
            Expr::NodeTag(inner, tag) => (Node::Tag(tag.clone()), [Some(inner), None]),
        }
    }
}

/// The expression as the text of a grammar.
impl fmt::Display for Expr {
    fn fmt(&self, f: &mut fmt::Formatter<'_>) -> fmt::Result {
        f.write_str(&spelled(&flat(self), BareSide::Right))
    }
}

/// The iterator that [`Expr::iter_top_down`] returns.
pub struct ExprTopDownIterator {
    /// Those whose turn is still to come, with what stands in them. The last comes first.
    left: Vec<Expr>,
}

impl ExprTopDownIterator {
    /// Makes an iterator over the expression and all expressions inside it.
    pub fn new(expr: &Expr) -> Self {
        ExprTopDownIterator { left: vec![expr.clone()] }
    }
}

impl Iterator for ExprTopDownIterator {
    type Item = Expr;

    fn next(&mut self) -> Option<Expr> {
        let expr = self.left.pop()?;
        let (_, operands) = expr.parted();
        self.left.extend(operands.into_iter().rev().flatten().cloned());
        Some(expr)
    }
}
