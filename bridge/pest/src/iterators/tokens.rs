use alloc::vec::Vec;
use core::fmt;

use super::Tree;
use crate::{Position, RuleType, Token};

/// A bound of a node.
#[derive(Clone, Copy)]
pub(super) enum Bound {
    /// The start of the node of an index.
    Start(u32),
    /// The end of the node of an index.
    End(u32),
}

/// The starts and ends of the nodes from one on and before another, in their order in the text.
pub(super) struct Bounds<'i, R> {
    tree: Tree<'i, R>,
    at: u32,
    end: u32,
    /// The nodes that started and have not ended.
    open: Vec<u32>,
}

impl<'i, R> Bounds<'i, R> {
    pub(super) fn new(tree: Tree<'i, R>, at: u32, end: u32) -> Bounds<'i, R> {
        Bounds { tree, at, end, open: Vec::new() }
    }
}

impl<R> Iterator for Bounds<'_, R> {
    type Item = Bound;

    fn next(&mut self) -> Option<Bound> {
        match self.open.last() {
            Some(node) if self.at == self.end || self.tree.after(*node) == self.at => {
                self.open.pop().map(Bound::End)
            }
            _ if self.at == self.end => None,
            _ => {
                self.open.push(self.at);
                self.at += 1;
                Some(Bound::Start(self.at - 1))
            }
        }
    }
}

/// The tokens of pairs: a start for each, what is inside it, and an end.
#[derive(Clone)]
pub struct Tokens<'i, R> {
    tree: Tree<'i, R>,
    /// The first token that is left.
    at: usize,
    /// The token after the last one.
    end: usize,
}

impl<'i, R: RuleType> Tokens<'i, R> {
    /// The tokens of the nodes from one on and before another, which are beside it or inside such nodes.
    pub(super) fn new(tree: Tree<'i, R>, at: u32, end: u32) -> Tokens<'i, R> {
        let index = tree.tokens();
        let (at, end) = (index.start(at), index.end(at, end));
        Tokens { tree, at, end }
    }

    /// The tokens from the start of a node on and before another token.
    pub(super) fn before(tree: Tree<'i, R>, at: u32, end: usize) -> Tokens<'i, R> {
        let at = tree.tokens().start(at);
        Tokens { tree, at, end }
    }

    fn token(&self, token: usize) -> Token<'i, R> {
        let (at, is_start) = self.tree.tokens().token(token);
        let (node, rule) = (self.tree.node(at), self.tree.rule(at));
        let pos = |pos| Position::at(self.tree.text(), pos as usize);
        match is_start {
            true => Token::Start { rule, pos: pos(node.start) },
            false => Token::End { rule, pos: pos(node.end) },
        }
    }
}

impl<'i, R: RuleType> Iterator for Tokens<'i, R> {
    type Item = Token<'i, R>;

    fn next(&mut self) -> Option<Token<'i, R>> {
        (self.at < self.end).then(|| {
            self.at += 1;
            self.token(self.at - 1)
        })
    }

    fn size_hint(&self) -> (usize, Option<usize>) {
        let len = self.end - self.at;
        (len, Some(len))
    }
}

impl<R: RuleType> ExactSizeIterator for Tokens<'_, R> {}

impl<R: RuleType> DoubleEndedIterator for Tokens<'_, R> {
    fn next_back(&mut self) -> Option<Self::Item> {
        (self.at < self.end).then(|| {
            self.end -= 1;
            self.token(self.end)
        })
    }
}

impl<R: RuleType> fmt::Debug for Tokens<'_, R> {
    fn fmt(&self, f: &mut fmt::Formatter<'_>) -> fmt::Result {
        f.debug_list().entries(self.clone()).finish()
    }
}
