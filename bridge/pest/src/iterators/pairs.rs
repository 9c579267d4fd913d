use alloc::string::String;
use core::cell::Cell;
use core::fmt;
use core::hash::{Hash, Hasher};
use core::iter::{self, Filter};
use core::panic::RefUnwindSafe;

use super::printing;
use super::{FlatPairs, Pair, Tokens, Tree};
use crate::RuleType;

/// Pairs beside one another.
pub struct Pairs<'i, R> {
    tree: Tree<'i, R>,
    /// The first node that is left.
    at: u32,
    /// The node after the last one and what is inside it.
    end: u32,
    /// How many are left, once that was asked.
    left: Cell<Option<Left>>,
}

/// How many pairs are left.
#[derive(Clone, Copy)]
struct Left {
    count: u32,
    /// The last of them, if there is one.
    last: u32,
}

// The cell is set to a whole value at once.
impl<R: RefUnwindSafe> RefUnwindSafe for Pairs<'_, R> {}

impl<'i, R> Pairs<'i, R> {
    /// The pairs that are left, which are counted when that is first asked. This takes as long as to go through them, as in
    /// pest each making of `Pairs` does.
    fn left(&self) -> Left {
        if let Some(left) = self.left.get() {
            return left;
        }
        let is_left = |at: &u32| *at < self.end;
        let indexes =
            iter::successors(Some(self.at).filter(is_left), |at| Some(self.tree.after(*at)).filter(is_left));
        let left = indexes
            .fold(Left { count: 0, last: self.at }, |left, at| Left { count: left.count + 1, last: at });
        self.left.set(Some(left));
        left
    }
}

impl<'i, R: RuleType> Pairs<'i, R> {
    /// The pairs of the nodes from one on and before another.
    pub(crate) fn new(tree: Tree<'i, R>, at: u32, end: u32) -> Pairs<'i, R> {
        Pairs { tree, at, end, left: Cell::new(None) }
    }

    /// Makes an iterator over a pair.
    pub fn single(pair: Pair<'i, R>) -> Pairs<'i, R> {
        let end = pair.tree.after(pair.at);
        Pairs::new(pair.tree, pair.at, end)
    }

    /// Returns the text from the start of the first pair to the end of the last one.
    pub fn as_str(&self) -> &'i str {
        match self.at < self.end {
            true => {
                self.tree.text_between(self.tree.node(self.at).start, self.tree.node(self.left().last).end)
            }
            false => "",
        }
    }

    /// Returns the whole text that was parsed.
    pub fn get_input(&self) -> &'i str {
        self.tree.text()
    }

    /// Returns the texts of the pairs, joined.
    pub fn concat(&self) -> String {
        self.clone().map(|pair| pair.as_str()).collect()
    }

    /// Returns these pairs and all that are inside them, each before those inside it.
    pub fn flatten(self) -> FlatPairs<'i, R> {
        FlatPairs::new(self.tree, self.at, self.end)
    }

    /// Returns the first of these pairs and of those inside them that has a tag.
    pub fn find_first_tagged(&self, tag: &'i str) -> Option<Pair<'i, R>> {
        self.clone().find_tagged(tag).next()
    }

    /// Returns those of these pairs and of those inside them that have a tag.
    pub fn find_tagged(
        self,
        tag: &'i str,
    ) -> Filter<FlatPairs<'i, R>, impl FnMut(&Pair<'i, R>) -> bool + 'i> {
        self.flatten().filter(move |pair: &Pair<'i, R>| pair.as_node_tag() == Some(tag))
    }

    /// Returns the pairs as JSON, in lines. No depth of pairs takes stack.
    #[cfg(feature = "pretty-print")]
    pub fn to_json(&self) -> String {
        super::json::pairs(&self.tree, self.at, self.end)
    }

    /// Returns the tokens of these pairs and of those inside them.
    pub fn tokens(self) -> Tokens<'i, R> {
        Tokens::new(self.tree, self.at, self.end)
    }

    /// Returns the first pair that is left, which stays.
    pub fn peek(&self) -> Option<Pair<'i, R>> {
        (self.at < self.end).then(|| self.pair(self.at))
    }

    /// Returns whether no pair is left.
    pub fn is_empty(&self) -> bool {
        self.at >= self.end
    }

    /// The tree, and the nodes that are left.
    #[cfg(feature = "pretty-print")]
    pub(super) fn parts(&self) -> (&Tree<'i, R>, u32, u32) {
        (&self.tree, self.at, self.end)
    }

    fn pair(&self, at: u32) -> Pair<'i, R> {
        Pair { tree: self.tree.clone(), at }
    }
}

/// What is counted of the original is counted of the clone.
impl<R: Clone> Clone for Pairs<'_, R> {
    fn clone(&self) -> Self {
        let left = Cell::new(Some(self.left()));
        Pairs { tree: self.tree.clone(), at: self.at, end: self.end, left }
    }
}

impl<'i, R: RuleType> Iterator for Pairs<'i, R> {
    type Item = Pair<'i, R>;

    fn next(&mut self) -> Option<Pair<'i, R>> {
        let pair = self.peek()?;
        self.at = self.tree.after(self.at);
        if let Some(left) = self.left.get_mut() {
            left.count -= 1;
        }
        Some(pair)
    }

    fn size_hint(&self) -> (usize, Option<usize>) {
        let len = self.left().count as usize;
        (len, Some(len))
    }
}

impl<R: RuleType> ExactSizeIterator for Pairs<'_, R> {}

impl<R: RuleType> DoubleEndedIterator for Pairs<'_, R> {
    fn next_back(&mut self) -> Option<Self::Item> {
        if self.at >= self.end {
            return None;
        }
        let Left { count, last } = self.left();
        let before = if count > 1 { self.tree.tokens().before(last) } else { self.at };
        self.end = last;
        self.left.set(Some(Left { count: count - 1, last: before }));
        Some(self.pair(last))
    }
}

impl<R: RuleType> fmt::Debug for Pairs<'_, R> {
    fn fmt(&self, f: &mut fmt::Formatter<'_>) -> fmt::Result {
        printing::debug(f, &self.tree, self.at, self.end, true)
    }
}

/// Prints the texts of the pairs in brackets, `[a, b]`, and by `{:#}` the pairs: `[a(0, 1), b(1, 2)]`.
impl<R: RuleType> fmt::Display for Pairs<'_, R> {
    fn fmt(&self, f: &mut fmt::Formatter<'_>) -> fmt::Result {
        f.write_str("[")?;
        if f.alternate() {
            printing::display(f, &self.tree, self.at, self.end)?;
        } else {
            for (number, pair) in self.clone().enumerate() {
                write!(f, "{}{pair}", if number > 0 { ", " } else { "" })?;
            }
        }
        f.write_str("]")
    }
}

/// Equal are what is left of the same pairs of the same match.
impl<R: PartialEq> PartialEq for Pairs<'_, R> {
    fn eq(&self, other: &Self) -> bool {
        self.tree == other.tree && (self.at, self.end) == (other.at, other.end)
    }
}

impl<R: Eq> Eq for Pairs<'_, R> {}

impl<R: Hash> Hash for Pairs<'_, R> {
    fn hash<H: Hasher>(&self, state: &mut H) {
        self.tree.hash(state);
        (self.at, self.end).hash(state);
    }
}
