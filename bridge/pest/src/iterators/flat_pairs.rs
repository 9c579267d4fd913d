use alloc::vec::Vec;
use core::fmt;

use super::{Pair, Tokens, Tree};
use crate::RuleType;

/// Pairs and all that are inside them, each before those inside it.
#[derive(Clone)]
pub struct FlatPairs<'i, R> {
    tree: Tree<'i, R>,
    /// The first node of the pairs.
    first: u32,
    /// The first node that is left.
    at: u32,
    /// The node after the last one that is left.
    end: u32,
    /// Whether pairs were taken from the back.
    is_cut: bool,
}

impl<'i, R: RuleType> FlatPairs<'i, R> {
    pub(super) fn new(tree: Tree<'i, R>, at: u32, end: u32) -> FlatPairs<'i, R> {
        FlatPairs { tree, first: at, at, end, is_cut: false }
    }

    /// Returns the tokens from the start of the first pair that is left, to the end of all pairs, or to the start of the
    /// last pair that was taken from the back.
    pub fn tokens(self) -> Tokens<'i, R> {
        let index = self.tree.tokens();
        let end = match (self.at < self.end, self.is_cut) {
            (false, _) => index.start(self.at),
            (true, false) => index.end(self.first, self.end),
            (true, true) => index.start(self.end),
        };
        Tokens::before(self.tree, self.at, end)
    }

    fn pair(&self, at: u32) -> Pair<'i, R> {
        Pair { tree: self.tree.clone(), at }
    }
}

impl<'i, R: RuleType> Iterator for FlatPairs<'i, R> {
    type Item = Pair<'i, R>;

    fn next(&mut self) -> Option<Pair<'i, R>> {
        let at = self.at;
        (at < self.end).then(|| {
            self.at += 1;
            self.pair(at)
        })
    }

    fn size_hint(&self) -> (usize, Option<usize>) {
        let len = (self.end - self.at) as usize;
        (len, Some(len))
    }
}

impl<R: RuleType> ExactSizeIterator for FlatPairs<'_, R> {}

impl<R: RuleType> DoubleEndedIterator for FlatPairs<'_, R> {
    fn next_back(&mut self) -> Option<Self::Item> {
        (self.at < self.end).then(|| {
            self.end -= 1;
            self.is_cut = true;
            self.pair(self.end)
        })
    }
}

impl<R: RuleType> fmt::Debug for FlatPairs<'_, R> {
    fn fmt(&self, f: &mut fmt::Formatter<'_>) -> fmt::Result {
        f.debug_struct("FlatPairs").field("pairs", &self.clone().collect::<Vec<_>>()).finish()
    }
}
