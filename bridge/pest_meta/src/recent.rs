//! The last grammar that a thread asked about, with what the library answered.
//!
//! A derive reads the names of a grammar, its rules and its optimized rules by a call each. The library answers all
//! three at once, so the later calls find the answer here. An answer is that of its text, whoever asks, and a text has
//! one at most.

use std::cell::RefCell;

use crate::answers::{self, FlatRule};
use crate::binary::Reader;
use crate::json::Reading;

/// A grammar that is accepted: its text, and what the library answers in binary form.
struct Grammar {
    text: String,
    /// The names of builtins, the rules and the optimized rules.
    bytes: Vec<u8>,
}

thread_local! {
    static LAST: RefCell<Option<Grammar>> = const { RefCell::new(None) };
}

/// What `read` makes of the answer for a text: of the last one, or of a new one that is kept. There is none where the
/// library refuses the text.
fn with_answer<T>(text: &str, read: impl FnOnce(&[u8]) -> Reading<T>) -> Option<Reading<T>> {
    LAST.with_borrow_mut(|last| {
        if !last.as_ref().is_some_and(|grammar| grammar.text == text) {
            *last = Some(Grammar { text: text.to_owned(), bytes: answers::grammar(text)? });
        }
        last.as_ref().map(|grammar| read(&grammar.bytes))
    })
}

/// The builtins that a grammar uses, if it is accepted.
pub(crate) fn builtins(text: &str) -> Option<Reading<Vec<String>>> {
    with_answer(text, |bytes| Reader::new(bytes, 0).list(Reader::text))
}

/// The rules of a grammar that is accepted, each made by `rule`.
pub(crate) fn rules<R>(text: &str, rule: impl Fn(FlatRule) -> Reading<R>) -> Option<Reading<Vec<R>>> {
    with_answer(text, |bytes| {
        let mut reader = Reader::new(bytes, 0);
        pass_names(&mut reader)?;
        reader.list(|reader| rule(reader.rule()?))
    })
}

/// The builtins that a grammar uses, and its optimized rules, each made by `rule`, if it is accepted.
pub(crate) fn parse_and_optimize<R>(
    text: &str,
    rule: impl Fn(FlatRule) -> Reading<R>,
) -> Option<Reading<(Vec<String>, Vec<R>)>> {
    with_answer(text, |bytes| {
        let mut reader = Reader::new(bytes, 0);
        let names = reader.list(Reader::text)?;
        reader.pass_rules()?;
        let rules = reader.list(|reader| rule(reader.rule()?))?;
        reader.end()?;
        Ok((names, rules))
    })
}

/// The optimized rules of those rules, in binary form, each made by `rule`, if they are those of the last grammar.
pub(crate) fn optimized<R>(rules: &[u8], rule: impl Fn(FlatRule) -> Reading<R>) -> Option<Reading<Vec<R>>> {
    LAST.with_borrow(|last| {
        let bytes = &last.as_ref()?.bytes[..];
        let mut reader = Reader::new(bytes, 0);
        pass_names(&mut reader).ok()?;
        let start = reader.at();
        if !bytes[start..].starts_with(rules) {
            return None;
        }
        let mut reader = Reader::new(bytes, start + rules.len());
        Some(reader.list(|reader| rule(reader.rule()?)).and_then(|rules| reader.end().map(|()| rules)))
    })
}

fn pass_names(reader: &mut Reader<'_>) -> Reading<()> {
    reader.list(|reader| reader.pass_text()).map(drop)
}
