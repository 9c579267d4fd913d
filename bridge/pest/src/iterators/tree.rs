use alloc::boxed::Box;
use alloc::rc::Rc;
use alloc::vec::Vec;
use core::cell::OnceCell;
use core::hash::{Hash, Hasher};
use core::panic::{RefUnwindSafe, UnwindSafe};
use core::ptr;

use kingorewa_library::code::{self, Node};

use super::line_index::LineIndex;

/// The rules by their indexes (`row`). They are no function, so that pairs may outlive what they refer to, as in pest.
pub(crate) enum Rules<'i, R> {
    /// Those of a derive.
    Table(&'i [R]),
    /// Those of a grammar that a program has at run time.
    List(Box<[R]>),
}

/// The nodes of a match, with their text, rules and tags.
struct Nodes<'i, R> {
    text: &'i str,
    list: code::Nodes,
    rules: Rules<'i, R>,
    /// The tag of each node. The list is empty if no node has a tag.
    tags: Vec<Option<&'i str>>,
    /// Made when a line is first asked for.
    lines: OnceCell<LineIndex>,
    /// Made when a token, or a pair from the back, is first asked for.
    tokens: OnceCell<TokenIndex>,
}

/// The nodes of a match, shared.
pub(crate) struct Tree<'i, R>(Rc<Nodes<'i, R>>);

// What a panic may interrupt is the making of an index, which is then not there.
impl<R: RefUnwindSafe> UnwindSafe for Tree<'_, R> {}
impl<R: RefUnwindSafe> RefUnwindSafe for Tree<'_, R> {}

impl<'i, R> Tree<'i, R> {
    /// Makes a tree from the nodes of a text, the rules by their indexes, and the tags of the nodes. The list of tags
    /// may be empty.
    pub(crate) fn new(
        text: &'i str,
        list: code::Nodes,
        rules: Rules<'i, R>,
        tags: Vec<Option<&'i str>>,
    ) -> Tree<'i, R> {
        Tree(Rc::new(Nodes { text, list, rules, tags, lines: OnceCell::new(), tokens: OnceCell::new() }))
    }

    pub(crate) fn text(&self) -> &'i str {
        self.0.text
    }

    /// The number of nodes.
    pub(crate) fn len(&self) -> u32 {
        self.0.list.len() as u32
    }

    pub(crate) fn node(&self, at: u32) -> Node {
        self.0.list[at as usize]
    }

    /// The index of the next node that is not inside this one.
    pub(crate) fn after(&self, at: u32) -> u32 {
        self.node(at).after
    }

    /// Whether nothing is inside a node.
    pub(crate) fn is_leaf(&self, at: u32) -> bool {
        self.after(at) == at + 1
    }

    /// The tag of a node.
    pub(crate) fn tag(&self, at: u32) -> Option<&'i str> {
        self.0.tags.get(at as usize).copied().flatten()
    }

    /// The text between two bytes.
    pub(crate) fn text_between(&self, start: u32, end: u32) -> &'i str {
        &self.0.text[start as usize..end as usize]
    }

    /// The line and the column where a node starts.
    pub(crate) fn line_col(&self, at: u32) -> (usize, usize) {
        let index = self.0.lines.get_or_init(|| LineIndex::new(self.0.text));
        index.line_col(self.0.text, self.node(at).start)
    }

    /// The tokens of all nodes.
    pub(crate) fn tokens(&self) -> &TokenIndex {
        self.0.tokens.get_or_init(|| TokenIndex::new(&self.0.list))
    }
}

impl<R: Copy> Tree<'_, R> {
    pub(crate) fn rule(&self, at: u32) -> R {
        let row = self.node(at).row;
        match &self.0.rules {
            Rules::Table(rules) => rules[row as usize],
            Rules::List(rules) => rules[row as usize],
        }
    }
}

impl<R> Clone for Tree<'_, R> {
    fn clone(&self) -> Self {
        Tree(Rc::clone(&self.0))
    }
}

/// Two trees are equal if they are of the same match.
impl<R> PartialEq for Tree<'_, R> {
    fn eq(&self, other: &Self) -> bool {
        Rc::ptr_eq(&self.0, &other.0)
    }
}

impl<R> Hash for Tree<'_, R> {
    fn hash<H: Hasher>(&self, state: &mut H) {
        ptr::hash(Rc::as_ptr(&self.0), state);
    }
}

/// The tokens of nodes in their order: a start and an end of each.
pub(crate) struct TokenIndex {
    /// The node of each token.
    nodes: Vec<u32>,
    /// The token that starts each node, and then the number of tokens.
    starts: Vec<usize>,
}

impl TokenIndex {
    fn new(list: &[Node]) -> TokenIndex {
        let (mut nodes, mut starts) =
            (Vec::with_capacity(2 * list.len()), Vec::with_capacity(list.len() + 1));
        let mut open: Vec<u32> = Vec::new();
        for at in 0..=list.len() as u32 {
            while let Some(node) = open.last().copied().filter(|node| list[*node as usize].after == at) {
                nodes.push(node);
                open.pop();
            }
            starts.push(nodes.len());
            if (at as usize) < list.len() {
                nodes.push(at);
                open.push(at);
            }
        }
        TokenIndex { nodes, starts }
    }

    /// The node of a token, and whether the token starts it.
    pub(crate) fn token(&self, token: usize) -> (u32, bool) {
        let node = self.nodes[token];
        (node, self.start(node) == token)
    }

    /// The token that starts a node.
    pub(crate) fn start(&self, node: u32) -> usize {
        self.starts[node as usize]
    }

    /// The token after those of the nodes from `at` on and before `end`, which are beside `at` or inside such nodes.
    ///
    /// Before the start of `end` stand the ends of all nodes that end there, each after what is inside it. A node that is
    /// inside `d` others starts at twice its index less `d`, so it is known which of these ends is of a node beside `at`.
    pub(crate) fn end(&self, at: u32, end: u32) -> usize {
        let depth = |node: u32| 2 * node as usize - self.start(node);
        match at < end {
            true => self.start(end) + depth(end) - depth(at),
            false => self.start(at),
        }
    }

    /// The node beside this one and before it, which there is.
    pub(crate) fn before(&self, node: u32) -> u32 {
        self.nodes[self.start(node) - 1]
    }
}
