#[cfg(feature = "pretty-print")]
use alloc::string::String;
use core::fmt;
use core::hash::{Hash, Hasher};

use super::printing;
use super::{Pairs, Tokens, Tree};
use crate::{RuleType, Span};

/// A part of a text that a rule matched, with the pairs inside it.
#[derive(Clone)]
pub struct Pair<'i, R> {
    pub(super) tree: Tree<'i, R>,
    pub(super) at: u32,
}

impl<'i, R: RuleType> Pair<'i, R> {
    /// Returns the rule.
    pub fn as_rule(&self) -> R {
        self.tree.rule(self.at)
    }

    /// Returns the text that the rule matched.
    pub fn as_str(&self) -> &'i str {
        let node = self.tree.node(self.at);
        self.tree.text_between(node.start, node.end)
    }

    /// Returns the whole text that was parsed.
    pub fn get_input(&self) -> &'i str {
        self.tree.text()
    }

    /// Returns the span that the rule matched.
    #[deprecated(note = "use `as_span`")]
    pub fn into_span(self) -> Span<'i> {
        self.as_span()
    }

    /// Returns the span that the rule matched.
    pub fn as_span(&self) -> Span<'i> {
        let node = self.tree.node(self.at);
        Span::between(self.tree.text(), node.start as usize, node.end as usize)
    }

    /// Returns the tag of the pair, if its grammar gives it one and the parser was made with the feature `grammar-extras`.
    pub fn as_node_tag(&self) -> Option<&str> {
        self.tree.tag(self.at)
    }

    /// Returns the pairs inside this one.
    pub fn into_inner(self) -> Pairs<'i, R> {
        let end = self.tree.after(self.at);
        Pairs::new(self.tree, self.at + 1, end)
    }

    /// Returns the tokens of this pair and of those inside it.
    pub fn tokens(self) -> Tokens<'i, R> {
        let end = self.tree.after(self.at);
        Tokens::new(self.tree, self.at, end)
    }

    /// Returns the pair as JSON, in lines. The depth of pairs takes no stack of the process.
    #[cfg(feature = "pretty-print")]
    pub fn to_json(&self) -> String {
        super::json::pair(&self.tree, self.at)
    }

    /// Returns the line and the column where the pair starts, both from 1.
    ///
    /// The first call for a match takes time that is linear in the bytes of the text. Each further call takes a few
    /// steps.
    pub fn line_col(&self) -> (usize, usize) {
        self.tree.line_col(self.at)
    }
}

impl<R: RuleType> fmt::Debug for Pair<'_, R> {
    fn fmt(&self, f: &mut fmt::Formatter<'_>) -> fmt::Result {
        printing::debug(f, &self.tree, self.at, self.tree.after(self.at), false)
    }
}

/// Prints the text, and by `{:#}` the rule, the bytes where the pair starts and ends, and the pairs inside it:
/// `a(0, 3, [b(1, 2)])`.
impl<R: RuleType> fmt::Display for Pair<'_, R> {
    fn fmt(&self, f: &mut fmt::Formatter<'_>) -> fmt::Result {
        match f.alternate() {
            true => printing::display(f, &self.tree, self.at, self.tree.after(self.at)),
            false => f.write_str(self.as_str()),
        }
    }
}

/// Two pairs are equal if they are the same pair of the same match.
impl<R: PartialEq> PartialEq for Pair<'_, R> {
    fn eq(&self, other: &Self) -> bool {
        self.tree == other.tree && self.at == other.at
    }
}

impl<R: Eq> Eq for Pair<'_, R> {}

impl<R: Hash> Hash for Pair<'_, R> {
    fn hash<H: Hasher>(&self, state: &mut H) {
        self.tree.hash(state);
        self.at.hash(state);
    }
}
