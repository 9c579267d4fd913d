use core::cmp::Ordering;
use core::fmt;
use core::hash::{Hash, Hasher};
use core::ptr;

use crate::Span;

/// A position in a text: a byte at which a character starts, or the end.
#[derive(Clone, Copy)]
pub struct Position<'i> {
    input: &'i str,
    pos: usize,
}

impl<'i> Position<'i> {
    /// Returns the position of a byte, if a character starts there or the text ends.
    pub fn new(input: &str, pos: usize) -> Option<Position<'_>> {
        input.is_char_boundary(pos).then_some(Position { input, pos })
    }

    /// The position of a byte that is known to be one.
    pub(crate) fn at(input: &'i str, pos: usize) -> Position<'i> {
        debug_assert!(input.is_char_boundary(pos));
        Position { input, pos }
    }

    /// Returns the position at the start of a text.
    pub fn from_start(input: &'i str) -> Position<'i> {
        Position { input, pos: 0 }
    }

    /// Returns the byte.
    pub fn pos(&self) -> usize {
        self.pos
    }

    /// Returns the span from this position to another one.
    ///
    /// # Panics
    /// If the other position is in another text. In a debug build, also if it is before this one.
    pub fn span(&self, other: &Position<'i>) -> Span<'i> {
        assert!(ptr::eq(self.input, other.input), "span created from positions from different inputs");
        Span::between(self.input, self.pos, other.pos)
    }

    /// Returns the line and the column, both from 1. A column is a character, and a line ends with `\n`.
    pub fn line_col(&self) -> (usize, usize) {
        let before = &self.input[..self.pos];
        let line = before.bytes().filter(|byte| *byte == b'\n').count() + 1;
        (line, before[line_start(before)..].chars().count() + 1)
    }

    /// Returns the whole line of the position, with its line break.
    pub fn line_of(&self) -> &'i str {
        &self.input[self.line_start()..self.line_end()]
    }

    /// Moves on over the next bytes, if they are a text that a function takes.
    pub(crate) fn take(&mut self, len: usize, is_taken: impl FnOnce(&str) -> bool) -> bool {
        let end = self.pos.saturating_add(len);
        let takes = self.input.get(self.pos..end).is_some_and(is_taken);
        if takes {
            self.pos = end;
        }
        takes
    }

    /// Moves the position over the next character, if the function accepts it.
    pub(crate) fn take_char(&mut self, is_taken: impl FnOnce(char) -> bool) -> bool {
        let next = self.input[self.pos..].chars().next().filter(|next| is_taken(*next));
        self.pos += next.map_or(0, char::len_utf8);
        next.is_some()
    }

    /// Moves the position over `count` characters, if there are `count`.
    pub(crate) fn skip(&mut self, count: usize) -> bool {
        let rest = &self.input[self.pos..];
        let mut ends = rest.char_indices().map(|(at, _)| at).chain([rest.len()]);
        match ends.nth(count) {
            Some(width) => self.pos += width,
            None => return false,
        }
        true
    }

    /// Moves the position to the next one at which one of the texts begins, or to the end.
    pub(crate) fn skip_until(&mut self, texts: &[&str]) {
        let rest = &self.input[self.pos..];
        let found = match texts {
            [text] => rest.find(text),
            _ => rest
                .char_indices()
                .map(|(at, _)| at)
                .find(|at| texts.iter().any(|text| rest[*at..].starts_with(text))),
        };
        self.pos += found.unwrap_or(rest.len());
    }

    pub(crate) fn is_at_end(&self) -> bool {
        self.pos == self.input.len()
    }

    pub(crate) fn line_start(&self) -> usize {
        line_start(&self.input[..self.pos])
    }

    pub(crate) fn line_end(&self) -> usize {
        self.input[self.pos..].find('\n').map_or(self.input.len(), |at| self.pos + at + 1)
    }

    /// The position a character before, or this one at the start of the text.
    pub(crate) fn character_before(&self) -> Position<'i> {
        let width = self.input[..self.pos].chars().next_back().map_or(0, char::len_utf8);
        Position { input: self.input, pos: self.pos - width }
    }

    pub(crate) fn is_at_line_break(&self) -> bool {
        self.input[self.pos..].starts_with(['\n', '\r'])
    }
}

/// The byte at which the last line of a text starts.
fn line_start(text: &str) -> usize {
    text.rfind('\n').map_or(0, |at| at + 1)
}

impl fmt::Debug for Position<'_> {
    fn fmt(&self, f: &mut fmt::Formatter<'_>) -> fmt::Result {
        f.debug_struct("Position").field("pos", &self.pos).finish()
    }
}

/// Two positions are equal if they are the same byte of the same text. Another text with equal bytes is not the same
/// text.
impl PartialEq for Position<'_> {
    fn eq(&self, other: &Self) -> bool {
        ptr::eq(self.input, other.input) && self.pos == other.pos
    }
}

impl Eq for Position<'_> {}

/// Positions in two texts have no order.
#[allow(clippy::non_canonical_partial_ord_impl)]
impl PartialOrd for Position<'_> {
    fn partial_cmp(&self, other: &Self) -> Option<Ordering> {
        ptr::eq(self.input, other.input).then(|| self.pos.cmp(&other.pos))
    }
}

/// Panics if the positions are in two texts.
impl Ord for Position<'_> {
    fn cmp(&self, other: &Self) -> Ordering {
        self.partial_cmp(other).expect("cannot compare positions from different strs")
    }
}

impl Hash for Position<'_> {
    fn hash<H: Hasher>(&self, state: &mut H) {
        ptr::hash(self.input, state);
        self.pos.hash(state);
    }
}
