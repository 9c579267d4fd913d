//! Optimized rules, from which a code generator makes a parser.

use std::fmt;

use crate::answers::{self, FlatRule};
use crate::ast::{Rule, RuleType};
use crate::binary;
use crate::json::{write_list, write_text, Malformed, Reading};
use crate::nodes::{self, flat, tree, Node, Operands, Tree};
use crate::printing::{spelled, BareSide};

/// Optimizes rules by the proved passes.
///
/// # Panics
/// If there is no memory for the optimized rules, or if the library is of a release whose rules this crate
/// does not know.
pub fn optimize(rules: Vec<Rule>) -> Vec<OptimizedRule> {
    let bytes = binary::write_rules(rules.iter().map(|rule| (&rule.name[..], rule.ty, flat(&rule.expr))));
    let json = || {
        let mut json = String::new();
        write_list(&mut json, &rules, |out, rule| write_rule(out, &rule.name, rule.ty, &flat(&rule.expr)));
        json
    };
    let optimized = answers::optimize(&bytes, json, OptimizedRule::try_from);
    optimized.unwrap_or_else(|why| panic!("pest_meta: {why}"))
}

/// Writes a rule as JSON.
fn write_rule(out: &mut String, name: &str, ty: RuleType, body: &[Node]) {
    out.push_str("{\"expr\":");
    write_list(out, body, nodes::write);
    out.push_str(",\"name\":");
    write_text(out, name);
    let ty = match ty {
        RuleType::Normal => "normal",
        RuleType::Silent => "silent",
        RuleType::Atomic => "atomic",
        RuleType::CompoundAtomic => "compound_atomic",
        RuleType::NonAtomic => "non_atomic",
    };
    out.push_str(&format!(",\"type\":\"{ty}\"}}"));
}

/// An optimized rule.
#[derive(Clone, Debug, Eq, PartialEq)]
pub struct OptimizedRule {
    /// The name of the rule.
    pub name: String,
    /// The type of the rule.
    pub ty: RuleType,
    /// The body of the rule.
    pub expr: OptimizedExpr,
}

impl TryFrom<FlatRule> for OptimizedRule {
    type Error = Malformed;

    fn try_from(rule: FlatRule) -> Reading<OptimizedRule> {
        let nodes = rule.nodes;
        #[cfg(not(feature = "grammar-extras"))]
        let nodes = nodes::written_out(nodes)?;
        let expr = tree(nodes.into_iter().map(|node| (node, ())))?;
        Ok(OptimizedRule { name: rule.name, ty: rule.ty, expr })
    }
}

/// An optimized expression.
#[derive(Clone, Debug, Eq, PartialEq)]
pub enum OptimizedExpr {
    /// Matches that text: `"a"`.
    Str(String),
    /// Matches that text, with ASCII letters of either case: `^"a"`.
    Insens(String),
    /// Matches a character of the range: `'a'..'z'`.
    Range(String, String),
    /// Calls the rule or the builtin with that name: `a`.
    Ident(String),
    /// Matches entries of the stack: `PEEK[0..-1]`, or `PEEK[0..]`.
    PeekSlice(i32, Option<i32>),
    /// Succeeds if the expression matches, and consumes nothing: `&e`.
    PosPred(Box<OptimizedExpr>),
    /// Succeeds if the expression does not match, and consumes nothing: `!e`.
    NegPred(Box<OptimizedExpr>),
    /// Matches one expression and then the other: `a ~ b`.
    Seq(Box<OptimizedExpr>, Box<OptimizedExpr>),
    /// Matches one expression, or the other one if the first fails: `a | b`.
    Choice(Box<OptimizedExpr>, Box<OptimizedExpr>),
    /// Matches the expression or nothing: `e?`.
    Opt(Box<OptimizedExpr>),
    /// Repeats the expression as long as it matches: `e*`.
    Rep(Box<OptimizedExpr>),
    /// Repeats the expression as long as it matches, at least once: `e+`.
    #[cfg(feature = "grammar-extras")]
    RepOnce(Box<OptimizedExpr>),
    /// Consumes all characters before one of the texts: `(!("a" | "b") ~ ANY)*`.
    Skip(Vec<String>),
    /// Pushes the text that the expression matches on the stack: `PUSH(e)`.
    Push(Box<OptimizedExpr>),
    /// Pushes the text on the stack: `PUSH_LITERAL("a")`.
    #[cfg(feature = "grammar-extras")]
    PushLiteral(String),
    /// An expression with a tag: `#tag = e`.
    #[cfg(feature = "grammar-extras")]
    NodeTag(Box<OptimizedExpr>, String),
    /// Matches the expression. If it fails, the stack is as it was before.
    RestoreOnErr(Box<OptimizedExpr>),
}

impl OptimizedExpr {
    /// Returns the expression and all expressions inside it, each before those inside it, and the left side
    /// before the right one. Expressions inside a [`OptimizedExpr::RestoreOnErr`] are left out.
    pub fn iter_top_down(&self) -> OptimizedExprTopDownIterator {
        OptimizedExprTopDownIterator::new(self)
    }

    /// Applies `f` to the expression, then to each operand of the result, and so on down. Expressions inside
    /// a [`OptimizedExpr::RestoreOnErr`] are not changed.
    pub fn map_top_down<F>(self, mut f: F) -> OptimizedExpr
    where
        F: FnMut(OptimizedExpr) -> OptimizedExpr,
    {
        fn go(expr: OptimizedExpr, f: &mut dyn FnMut(OptimizedExpr) -> OptimizedExpr) -> OptimizedExpr {
            f(expr).map_operands(&mut |operand| go(operand, f))
        }
        go(self, &mut f)
    }

    /// Applies `f` from the leaves up: to the operands of each expression, and then to the expression with
    /// the results. Expressions inside a [`OptimizedExpr::RestoreOnErr`] are not changed.
    pub fn map_bottom_up<F>(self, mut f: F) -> OptimizedExpr
    where
        F: FnMut(OptimizedExpr) -> OptimizedExpr,
    {
        fn go(expr: OptimizedExpr, f: &mut dyn FnMut(OptimizedExpr) -> OptimizedExpr) -> OptimizedExpr {
            let mapped = expr.map_operands(&mut |operand| go(operand, f));
            f(mapped)
        }
        go(self, &mut f)
    }

    /// The expression with `f` done at its operands, the left one first.
    fn map_operands(self, f: &mut dyn FnMut(OptimizedExpr) -> OptimizedExpr) -> OptimizedExpr {
        let mut map = |operand: Box<OptimizedExpr>| Box::new(f(*operand));
        match self {
            OptimizedExpr::PosPred(inner) => OptimizedExpr::PosPred(map(inner)),
            OptimizedExpr::NegPred(inner) => OptimizedExpr::NegPred(map(inner)),
            OptimizedExpr::Seq(left, right) => {
                let left = map(left);
                OptimizedExpr::Seq(left, map(right))
            }
            OptimizedExpr::Choice(left, right) => {
                let left = map(left);
                OptimizedExpr::Choice(left, map(right))
            }
            OptimizedExpr::Opt(inner) => OptimizedExpr::Opt(map(inner)),
            OptimizedExpr::Rep(inner) => OptimizedExpr::Rep(map(inner)),
            #[cfg(feature = "grammar-extras")]
            OptimizedExpr::RepOnce(inner) => OptimizedExpr::RepOnce(map(inner)),
            OptimizedExpr::Push(inner) => OptimizedExpr::Push(map(inner)),
            #[cfg(feature = "grammar-extras")]
            OptimizedExpr::NodeTag(inner, tag) => OptimizedExpr::NodeTag(map(inner), tag),
            leaf => leaf,
        }
    }
}

impl Tree for OptimizedExpr {
    type Known = ();

    fn joined(node: Node, (): (), over: &mut Operands<OptimizedExpr>) -> Option<OptimizedExpr> {
        let expr = match node {
            Node::Str(text) => OptimizedExpr::Str(text),
            Node::Insens(text) => OptimizedExpr::Insens(text),
            Node::Range(low, high) => OptimizedExpr::Range(low, high),
            Node::Ident(name) => OptimizedExpr::Ident(name),
            Node::PeekSlice(start, end) => OptimizedExpr::PeekSlice(start, end),
            Node::PosPred => OptimizedExpr::PosPred(over.next()?),
            Node::NegPred => OptimizedExpr::NegPred(over.next()?),
            Node::Seq => OptimizedExpr::Seq(over.next()?, over.next()?),
            Node::Choice => OptimizedExpr::Choice(over.next()?, over.next()?),
            Node::Opt => OptimizedExpr::Opt(over.next()?),
            Node::Rep => OptimizedExpr::Rep(over.next()?),
            #[cfg(feature = "grammar-extras")]
            Node::RepOnce => OptimizedExpr::RepOnce(over.next()?),
            Node::Skip(texts) => OptimizedExpr::Skip(texts),
            Node::Push => OptimizedExpr::Push(over.next()?),
            #[cfg(feature = "grammar-extras")]
            Node::PushLiteral(text) => OptimizedExpr::PushLiteral(text),
            #[cfg(feature = "grammar-extras")]
            Node::Tag(tag) => OptimizedExpr::NodeTag(over.next()?, tag),
            Node::RestoreOnErr => OptimizedExpr::RestoreOnErr(over.next()?),
            _ => return None,
        };
        Some(expr)
    }

    fn parted(&self) -> (Node, [Option<&OptimizedExpr>; 2]) {
        match self {
            OptimizedExpr::Str(text) => (Node::Str(text.clone()), [None, None]),
            OptimizedExpr::Insens(text) => (Node::Insens(text.clone()), [None, None]),
            OptimizedExpr::Range(low, high) => (Node::Range(low.clone(), high.clone()), [None, None]),
            OptimizedExpr::Ident(name) => (Node::Ident(name.clone()), [None, None]),
            OptimizedExpr::PeekSlice(start, end) => (Node::PeekSlice(*start, *end), [None, None]),
            OptimizedExpr::PosPred(inner) => (Node::PosPred, [Some(inner), None]),
            OptimizedExpr::NegPred(inner) => (Node::NegPred, [Some(inner), None]),
            OptimizedExpr::Seq(left, right) => (Node::Seq, [Some(left), Some(right)]),
            OptimizedExpr::Choice(left, right) => (Node::Choice, [Some(left), Some(right)]),
            OptimizedExpr::Opt(inner) => (Node::Opt, [Some(inner), None]),
            OptimizedExpr::Rep(inner) => (Node::Rep, [Some(inner), None]),
            #[cfg(feature = "grammar-extras")]
            OptimizedExpr::RepOnce(inner) => (Node::RepOnce, [Some(inner), None]),
            OptimizedExpr::Skip(texts) => (Node::Skip(texts.clone()), [None, None]),
            OptimizedExpr::Push(inner) => (Node::Push, [Some(inner), None]),
            #[cfg(feature = "grammar-extras")]
            OptimizedExpr::PushLiteral(text) => (Node::PushLiteral(text.clone()), [None, None]),
            #[cfg(feature = "grammar-extras")]
            OptimizedExpr::NodeTag(inner, tag) => (Node::Tag(tag.clone()), [Some(inner), None]),
            OptimizedExpr::RestoreOnErr(inner) => (Node::RestoreOnErr, [Some(inner), None]),
        }
    }
}

/// Prints the expression as the text of a grammar. A [`OptimizedExpr::RestoreOnErr`] is printed as its
/// operand.
impl fmt::Display for OptimizedExpr {
    fn fmt(&self, f: &mut fmt::Formatter<'_>) -> fmt::Result {
        f.write_str(&spelled(&flat(self), BareSide::Right))
    }
}

/// The iterator that [`OptimizedExpr::iter_top_down`] returns.
pub struct OptimizedExprTopDownIterator {
    /// Those whose turn is still to come, with what stands in them. The last comes first.
    left: Vec<OptimizedExpr>,
}

impl OptimizedExprTopDownIterator {
    /// Makes an iterator over the expression and all expressions inside it.
    pub fn new(expr: &OptimizedExpr) -> Self {
        OptimizedExprTopDownIterator { left: vec![expr.clone()] }
    }
}

impl Iterator for OptimizedExprTopDownIterator {
    type Item = OptimizedExpr;

    fn next(&mut self) -> Option<OptimizedExpr> {
        let expr = self.left.pop()?;
        let (node, operands) = expr.parted();
        if node != Node::RestoreOnErr {
            self.left.extend(operands.into_iter().rev().flatten().cloned());
        }
        Some(expr)
    }
}
