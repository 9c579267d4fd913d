//! Values of pairs of any grammar, as crates make them that convert pairs to trees.
use pest::iterators::{Pair, Pairs};
use pest::{RuleType, Span};

/// What can be made of pairs, as by `from-pest`.
pub trait FromPairs<'i, R: RuleType>: Sized {
    /// Makes a value of the first pair, if it is one of its own, and takes that.
    fn from_pairs(pairs: &mut Pairs<'i, R>) -> Option<Self>;
}

/// A tree of pairs, as `pest_ascii_tree` prints one.
#[derive(Debug)]
pub struct Tree<'i, R> {
    /// The rule.
    pub rule: R,
    /// Where it matched.
    pub span: Span<'i>,
    /// What is inside.
    pub inner: Vec<Tree<'i, R>>,
}

impl<'i, R: RuleType> From<Pair<'i, R>> for Tree<'i, R> {
    fn from(pair: Pair<'i, R>) -> Self {
        Tree {
            rule: pair.as_rule(),
            span: pair.as_span(),
            inner: pair.into_inner().map(Tree::from).collect(),
        }
    }
}

impl<'i, R: RuleType> FromPairs<'i, R> for Tree<'i, R> {
    fn from_pairs(pairs: &mut Pairs<'i, R>) -> Option<Self> {
        pairs.next().map(Tree::from)
    }
}
