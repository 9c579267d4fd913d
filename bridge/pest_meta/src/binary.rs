//! Rules and names in binary form, as the library writes them, and rules written so.

use crate::answers::FlatRule;
use crate::ast::RuleType;
use crate::json::{Malformed, Reading};
use crate::nodes::Node;

/// Bytes in binary form, read up to one of them.
pub(crate) struct Reader<'a> {
    bytes: &'a [u8],
    at: usize,
}

impl<'a> Reader<'a> {
    /// A reader that begins at a byte.
    pub(crate) fn new(bytes: &'a [u8], at: usize) -> Reader<'a> {
        Reader { bytes, at }
    }

    /// The byte that comes next.
    pub(crate) fn at(&self) -> usize {
        self.at
    }

    fn wanted<T>(&self, what: &'static str) -> Reading<T> {
        Err(Malformed::Wanted { what, at: self.at })
    }

    /// So many bytes.
    fn take(&mut self, len: usize, what: &'static str) -> Reading<&'a [u8]> {
        let end = self.at.checked_add(len);
        match end.and_then(|end| self.bytes.get(self.at..end)) {
            Some(piece) => {
                self.at += len;
                Ok(piece)
            }
            None => self.wanted(what),
        }
    }

    fn array<const N: usize>(&mut self, what: &'static str) -> Reading<[u8; N]> {
        let piece = self.take(N, what)?;
        Ok(piece.try_into().expect("so many bytes were taken"))
    }

    fn byte(&mut self, what: &'static str) -> Reading<u8> {
        self.array(what).map(|[byte]| byte)
    }

    fn size(&mut self) -> Reading<usize> {
        self.array("a size").map(usize::from_le_bytes)
    }

    fn count(&mut self) -> Reading<u32> {
        self.array("a count").map(u32::from_le_bytes)
    }

    fn index(&mut self) -> Reading<i32> {
        self.array("an index").map(i32::from_le_bytes)
    }

    fn borrowed_text(&mut self) -> Reading<&'a str> {
        let len = self.size()?;
        let piece = self.take(len, "a text")?;
        std::str::from_utf8(piece).or_else(|_| self.wanted("a text in UTF-8"))
    }

    /// A text, which is passed over.
    pub(crate) fn pass_text(&mut self) -> Reading<()> {
        self.borrowed_text().map(drop)
    }

    /// A text.
    pub(crate) fn text(&mut self) -> Reading<String> {
        self.borrowed_text().map(str::to_owned)
    }

    /// A list of items of one kind. Each has a byte at least, so no list is longer than what is left.
    pub(crate) fn list<T>(&mut self, mut item: impl FnMut(&mut Self) -> Reading<T>) -> Reading<Vec<T>> {
        let len = self.size()?;
        if len > self.bytes.len() - self.at {
            return self.wanted("a list");
        }
        let mut items = Vec::with_capacity(len);
        for _ in 0..len {
            items.push(item(self)?);
        }
        Ok(items)
    }

    /// A rule.
    pub(crate) fn rule(&mut self) -> Reading<FlatRule> {
        let name = self.text()?;
        let ty = self.rule_type()?;
        Ok(FlatRule { name, ty, nodes: self.nodes()?, name_span: (0, 0), spans: Vec::new() })
    }

    /// A list of rules, which is passed over.
    pub(crate) fn pass_rules(&mut self) -> Reading<()> {
        for _ in 0..self.size()? {
            self.borrowed_text()?;
            self.rule_type()?;
            let mut missing = 1;
            while missing > 0 {
                missing = missing - 1 + self.pass_node()?;
            }
        }
        Ok(())
    }

    /// That nothing is left.
    pub(crate) fn end(&self) -> Reading<()> {
        match self.at == self.bytes.len() {
            true => Ok(()),
            false => self.wanted("the end"),
        }
    }

    fn rule_type(&mut self) -> Reading<RuleType> {
        match self.byte("a type of rules")? {
            0 => Ok(RuleType::Normal),
            1 => Ok(RuleType::Silent),
            2 => Ok(RuleType::Atomic),
            3 => Ok(RuleType::CompoundAtomic),
            4 => Ok(RuleType::NonAtomic),
            other => Err(Malformed::Unknown { what: "type of rules", name: other.to_string() }),
        }
    }

    /// The nodes of an expression: as many as the operands of those before ask for.
    fn nodes(&mut self) -> Reading<Vec<Node>> {
        let mut nodes = Vec::new();
        let mut missing = 1;
        while missing > 0 {
            let node = self.node()?;
            missing = missing - 1 + node.operands();
            nodes.push(node);
        }
        Ok(nodes)
    }

    fn node(&mut self) -> Reading<Node> {
        Ok(match self.byte("a form")? {
            0 => Node::Str(self.text()?),
            1 => Node::Insens(self.text()?),
            2 => Node::Range(self.text()?, self.text()?),
            3 => Node::Ident(self.text()?),
            4 => Node::PeekSlice(self.index()?, self.slice_end()?),
            5 => Node::PosPred,
            6 => Node::NegPred,
            7 => Node::Seq,
            8 => Node::Choice,
            9 => Node::Opt,
            10 => Node::Rep,
            11 => Node::RepOnce,
            12 => Node::RepExact(self.count()?),
            13 => Node::RepMin(self.count()?),
            14 => Node::RepMax(self.count()?),
            15 => Node::RepMinMax(self.count()?, self.count()?),
            16 => Node::Skip(self.list(Reader::text)?),
            17 => Node::Push,
            18 => Node::PushLiteral(self.text()?),
            19 => Node::Tag(self.text()?),
            20 => Node::RestoreOnErr,
            other => return Err(Malformed::Unknown { what: "form", name: other.to_string() }),
        })
    }

    /// Passes over a node, and tells how many operands follow.
    fn pass_node(&mut self) -> Reading<usize> {
        match self.byte("a form")? {
            0 | 1 | 3 | 18 => self.borrowed_text().map(|_| 0),
            2 => self.borrowed_text().and_then(|_| self.borrowed_text()).map(|_| 0),
            4 => self.index().and_then(|_| self.slice_end()).map(|_| 0),
            7 | 8 => Ok(2),
            5 | 6 | 9 | 10 | 11 | 17 | 20 => Ok(1),
            12..=14 => self.count().map(|_| 1),
            15 => self.count().and_then(|_| self.count()).map(|_| 1),
            16 => self.list(Reader::borrowed_text).map(|_| 0),
            19 => self.borrowed_text().map(|_| 1),
            other => Err(Malformed::Unknown { what: "form", name: other.to_string() }),
        }
    }

    fn slice_end(&mut self) -> Reading<Option<i32>> {
        match self.byte("the end of a slice")? {
            0 => Ok(None),
            1 => self.index().map(Some),
            _ => self.wanted("the end of a slice"),
        }
    }
}

/// Returns a list of rules, each by its name, type and body.
pub(crate) fn write_rules(
    rules: impl ExactSizeIterator<Item = (impl AsRef<str>, RuleType, Vec<Node>)>,
) -> Vec<u8> {
    let mut bytes = Vec::new();
    write_size(&mut bytes, rules.len());
    rules.for_each(|(name, ty, body)| write_rule(&mut bytes, name.as_ref(), ty, &body));
    bytes
}

/// Appends a list of texts.
pub(crate) fn write_texts(out: &mut Vec<u8>, texts: &[String]) {
    write_size(out, texts.len());
    texts.iter().for_each(|text| write_text(out, text));
}

/// Appends a size.
fn write_size(out: &mut Vec<u8>, size: usize) {
    out.extend_from_slice(&size.to_le_bytes());
}

/// Appends a text.
fn write_text(out: &mut Vec<u8>, text: &str) {
    write_size(out, text.len());
    out.extend_from_slice(text.as_bytes());
}

/// Appends a rule of that name, type and body.
fn write_rule(out: &mut Vec<u8>, name: &str, ty: RuleType, body: &[Node]) {
    write_text(out, name);
    out.push(match ty {
        RuleType::Normal => 0,
        RuleType::Silent => 1,
        RuleType::Atomic => 2,
        RuleType::CompoundAtomic => 3,
        RuleType::NonAtomic => 4,
    });
    for node in body {
        write_node(out, node);
    }
}

/// Appends a node.
fn write_node(out: &mut Vec<u8>, node: &Node) {
    out.push(node.number());
    match node {
        Node::Str(text) | Node::Insens(text) | Node::Ident(text) => write_text(out, text),
        Node::PushLiteral(text) | Node::Tag(text) => write_text(out, text),
        Node::Range(low, high) => {
            write_text(out, low);
            write_text(out, high);
        }
        Node::PeekSlice(start, end) => {
            out.extend_from_slice(&start.to_le_bytes());
            out.push(u8::from(end.is_some()));
            end.iter().for_each(|end| out.extend_from_slice(&end.to_le_bytes()));
        }
        Node::RepExact(count) | Node::RepMin(count) | Node::RepMax(count) => {
            out.extend_from_slice(&count.to_le_bytes());
        }
        Node::RepMinMax(least, most) => {
            out.extend_from_slice(&least.to_le_bytes());
            out.extend_from_slice(&most.to_le_bytes());
        }
        Node::Skip(texts) => write_texts(out, texts),
        Node::PosPred | Node::NegPred | Node::Seq | Node::Choice | Node::Opt | Node::Rep => {}
        Node::RepOnce | Node::Push | Node::RestoreOnErr => {}
    }
}

#[cfg(test)]
mod tests {
    use super::*;

    /// A rule whose body has a node of each form.
    fn rule() -> FlatRule {
        let text = |text: &str| text.to_owned();
        let nodes = vec![
            Node::Choice,
            Node::Seq,
            Node::PosPred,
            Node::NegPred,
            Node::Opt,
            Node::Rep,
            Node::RepOnce,
            Node::RepExact(0),
            Node::RepMin(1),
            Node::RepMax(u32::MAX),
            Node::RepMinMax(2, 256),
            Node::Push,
            Node::Tag(text("tag")),
            Node::RestoreOnErr,
            Node::Str(text("ä\u{1f600}")),
            Node::Choice,
            Node::Insens(text("")),
            Node::Range(text("a"), text("z")),
            Node::Seq,
            Node::Ident(text("b")),
            Node::Seq,
            Node::PeekSlice(i32::MIN, None),
            Node::Seq,
            Node::PeekSlice(-1, Some(i32::MAX)),
            Node::Seq,
            Node::Skip(vec![text("x"), text(""), text("y")]),
            Node::PushLiteral(text("\0\"\\")),
        ];
        FlatRule {
            name: text("a"),
            ty: RuleType::CompoundAtomic,
            nodes,
            name_span: (0, 0),
            spans: Vec::new(),
        }
    }

    fn two_rules() -> Vec<u8> {
        let FlatRule { name, ty, nodes, .. } = rule();
        let rules = [(&name[..], ty, nodes), ("b", RuleType::Silent, vec![Node::Skip(Vec::new())])];
        write_rules(rules.into_iter())
    }

    #[test]
    fn rules_are_read_as_they_were_written() {
        let bytes = two_rules();
        let mut reader = Reader::new(&bytes, 0);
        let read = reader.list(Reader::rule).unwrap();
        reader.end().unwrap();
        assert_eq!((&read[0].name, read[0].ty, &read[0].nodes), (&rule().name, rule().ty, &rule().nodes));
        assert_eq!((&read[1].name[..], &read[1].nodes[..]), ("b", &[Node::Skip(Vec::new())][..]));
        let mut reader = Reader::new(&bytes, 0);
        reader.pass_rules().unwrap();
        reader.end().unwrap();
    }

    #[test]
    fn what_is_cut_off_or_changed_is_refused_or_read_without_a_panic() {
        let bytes = two_rules();
        for len in 0..bytes.len() {
            assert!(Reader::new(&bytes[..len], 0).list(Reader::rule).is_err(), "{len}");
            assert!(Reader::new(&bytes[..len], 0).pass_rules().is_err(), "{len}");
        }
        for at in 0..bytes.len() {
            for byte in [0, 1, 21, 127, 255] {
                let mut changed = bytes.clone();
                changed[at] = byte;
                let read = Reader::new(&changed, 0).list(Reader::rule).is_ok();
                assert_eq!(read, Reader::new(&changed, 0).pass_rules().is_ok(), "{byte} at {at}");
            }
        }
    }

    #[test]
    fn numbers_that_are_new_are_errors() {
        let unknown = |what, name: &str| Malformed::Unknown { what, name: name.to_owned() };
        assert_eq!(Reader::new(&[21], 0).node().unwrap_err(), unknown("form", "21"));
        assert_eq!(Reader::new(&[21], 0).pass_node().unwrap_err(), unknown("form", "21"));
        assert_eq!(Reader::new(&[5], 0).rule_type().unwrap_err(), unknown("type of rules", "5"));
    }
}
