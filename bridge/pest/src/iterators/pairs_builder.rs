use alloc::boxed::Box;
use alloc::rc::Rc;
use alloc::vec::Vec;
use core::cell::RefCell;

use kingorewa_library::code::{Node, Nodes};

use super::{Pairs, Rules, Tree};
use crate::RuleType;

/// Pairs that a program puts together, for example in a test of code that reads pairs.
///
/// ```
/// use pest::iterators::PairsBuilder;
///
/// #[derive(Clone, Copy, Debug, Eq, Hash, Ord, PartialEq, PartialOrd)]
/// enum Rule { list, item }
///
/// let list = PairsBuilder::new("a,b").rule_with(Rule::list, 0, 3, |inner| inner.rule(Rule::item, 0, 1).rule(Rule::item, 2, 3));
/// assert_eq!(format!("{:#}", list.build()), "[list(0, 3, [item(0, 1), item(2, 3)])]");
/// ```
#[derive(Debug)]
pub struct PairsBuilder<'i, R> {
    text: &'i str,
    /// Those of the builder around this one, too, so that none is moved when it ends.
    lists: Rc<RefCell<Lists<'i, R>>>,
    /// The first node that is this builder's own.
    first: usize,
    /// The last of its own pairs, without those inside it.
    last: Option<usize>,
}

/// Nodes, with the rule and the tag of each.
#[derive(Clone, Debug)]
struct Lists<'i, R> {
    nodes: Vec<Node>,
    rules: Vec<R>,
    tags: Vec<Option<&'i str>>,
}

impl<'i, R: RuleType> PairsBuilder<'i, R> {
    /// Makes a builder of pairs for a text. It has no pairs yet.
    ///
    /// # Panics
    /// If the text has 4 GiB or more.
    pub fn new(input: &'i str) -> Self {
        assert!(u32::try_from(input.len()).is_ok(), "texts of 4 GiB and more have no pairs");
        PairsBuilder { text: input, lists: Rc::default(), first: 0, last: None }
    }

    /// Adds a pair between two bytes, with no pairs inside it.
    ///
    /// # Panics
    /// If the bytes are no span of the text.
    pub fn rule(mut self, rule: R, start: usize, end: usize) -> Self {
        self.add(rule, start, end);
        self
    }

    /// Adds a pair between two bytes. The function adds the pairs inside it.
    ///
    /// # Panics
    /// If the bytes are no span of the text.
    pub fn rule_with<F>(mut self, rule: R, start: usize, end: usize, build_children: F) -> Self
    where
        F: FnOnce(PairsBuilder<'i, R>) -> PairsBuilder<'i, R>,
    {
        let last = self.add(rule, start, end);
        let lists = Rc::clone(&self.lists);
        let inner = build_children(PairsBuilder { text: self.text, lists, first: last + 1, last: None });
        if !Rc::ptr_eq(&self.lists, &inner.lists) {
            self.take(&inner, last + 1);
        }
        let mut lists = self.lists.borrow_mut();
        lists.nodes[last].after = lists.nodes.len() as u32;
        drop(lists);
        self
    }

    /// Gives a tag to the pair that was added last.
    ///
    /// # Panics
    /// If no pair was added.
    pub fn tag(self, tag: &'i str) -> Self {
        let last = self.last.expect("PairsBuilder::tag called before any rule was added");
        self.lists.borrow_mut().tags[last] = Some(tag);
        self
    }

    /// Returns the pairs.
    pub fn build(self) -> Pairs<'i, R> {
        let Lists { nodes, rules, tags } = self.lists.take();
        let tree = Tree::new(self.text, Nodes::from(nodes), Rules::List(Box::from(rules)), tags);
        let len = tree.len();
        Pairs::new(tree, 0, len)
    }

    /// Adds a node, and returns its index.
    fn add(&mut self, rule: R, start: usize, end: usize) -> usize {
        let (text, len) = (self.text, self.text.len());
        let is_span = text.get(start..end).is_some();
        assert!(is_span, "PairsBuilder: invalid span {start}..{end} of a text of {len} bytes");
        let mut lists = self.lists.borrow_mut();
        let at = lists.nodes.len();
        lists.nodes.push(Node { row: at as u32, start: start as u32, end: end as u32, after: at as u32 + 1 });
        lists.rules.push(rule);
        lists.tags.push(None);
        self.last = Some(at);
        at
    }

    /// Puts the pairs of another builder, which a function returned in the place of its own, from a node on.
    fn take(&mut self, other: &PairsBuilder<'i, R>, from: usize) {
        let mut lists = self.lists.borrow().clone();
        lists.nodes.truncate(from);
        lists.rules.truncate(from);
        lists.tags.truncate(from);
        let last = self.last;
        self.lists = Rc::new(RefCell::new(lists));
        let others = other.lists.borrow();
        for at in other.first..others.nodes.len() {
            let Node { start, end, after, .. } = others.nodes[at];
            let added = self.add(others.rules[at], start as usize, end as usize);
            let mut lists = self.lists.borrow_mut();
            lists.nodes[added].after = after - other.first as u32 + from as u32;
            lists.tags[added] = others.tags[at];
        }
        self.last = last;
    }
}

/// A clone shares nothing with the original.
impl<R: Clone> Clone for PairsBuilder<'_, R> {
    fn clone(&self) -> Self {
        let lists = Rc::new(RefCell::new(self.lists.borrow().clone()));
        PairsBuilder { text: self.text, lists, first: self.first, last: self.last }
    }
}

impl<R> Default for Lists<'_, R> {
    fn default() -> Self {
        Lists { nodes: Vec::new(), rules: Vec::new(), tags: Vec::new() }
    }
}

#[cfg(test)]
mod tests {
    use alloc::format;

    use super::*;

    #[test]
    fn a_function_may_return_another_builder() {
        let other = || PairsBuilder::new("abcd").rule_with(2, 1, 3, |inner| inner.rule(3, 2, 3).tag("c"));
        let built =
            PairsBuilder::new("abcd").rule(0, 0, 1).rule_with(1, 1, 4, |_| other()).tag("b").rule(4, 4, 4);
        let built = built.rule_with(5, 0, 4, |inner| inner.clone().rule(6, 0, 1)).build();
        let wanted = "[0(0, 1), 1(1, 4, [2(1, 3, [3(2, 3)])]), 4(4, 4), 5(0, 4, [6(0, 1)])]";
        assert_eq!(format!("{built:#}"), wanted);
        let tags = built.flatten().map(|pair| pair.as_node_tag().map(|tag| tag.len()));
        assert_eq!(tags.collect::<Vec<_>>(), [None, Some(1), None, Some(1), None, None, None]);
    }
}
