use core::fmt;
use core::hash::{Hash, Hasher};
use core::ops::{Bound, RangeBounds};
use core::ptr;

use crate::Position;

/// A part of a text, between two positions.
#[derive(Clone, Copy)]
pub struct Span<'i> {
    input: &'i str,
    start: usize,
    end: usize,
}

impl<'i> Span<'i> {
    /// Returns the span between two bytes, if they are positions of the text in that order.
    pub fn new(input: &str, start: usize, end: usize) -> Option<Span<'_>> {
        input.get(start..end).map(|_| Span { input, start, end })
    }

    /// The span between two bytes.
    pub(crate) fn between(input: &'i str, start: usize, end: usize) -> Span<'i> {
        debug_assert!(input.get(start..end).is_some());
        Span { input, start, end }
    }

    /// Returns the span of a part of this span's text, if its bounds are positions. They count from this span's start.
    pub fn get(&self, range: impl RangeBounds<usize>) -> Option<Span<'i>> {
        let start = match range.start_bound() {
            Bound::Included(start) => *start,
            Bound::Excluded(start) => start.checked_add(1)?,
            Bound::Unbounded => 0,
        };
        let end = match range.end_bound() {
            Bound::Included(end) => end.checked_add(1)?,
            Bound::Excluded(end) => *end,
            Bound::Unbounded => self.as_str().len(),
        };
        self.as_str().get(start..end)?;
        Some(Span { input: self.input, start: self.start + start, end: self.start + end })
    }

    /// Returns the byte where the span starts.
    pub fn start(&self) -> usize {
        self.start
    }

    /// Returns the byte where the span ends.
    pub fn end(&self) -> usize {
        self.end
    }

    /// Returns the position where the span starts.
    pub fn start_pos(&self) -> Position<'i> {
        self.position(self.start)
    }

    /// Returns the position where the span ends.
    pub fn end_pos(&self) -> Position<'i> {
        self.position(self.end)
    }

    /// Returns the positions where the span starts and ends.
    pub fn split(self) -> (Position<'i>, Position<'i>) {
        (self.start_pos(), self.end_pos())
    }

    /// Returns the text of the span.
    pub fn as_str(&self) -> &'i str {
        &self.input[self.start..self.end]
    }

    /// Returns the whole text that the span is a part of.
    pub fn get_input(&self) -> &'i str {
        self.input
    }

    /// Returns the lines that have a byte of the span, each as a whole. An empty span has the line in which it is, and
    /// no line at the end of the text.
    pub fn lines(&self) -> Lines<'i> {
        Lines { spans: self.lines_span() }
    }

    /// Returns the spans of these lines.
    pub fn lines_span(&self) -> LinesSpan<'i> {
        LinesSpan { span: *self, pos: self.start }
    }

    fn position(&self, pos: usize) -> Position<'i> {
        Position::new(self.input, pos).expect("a span is between two positions")
    }
}

/// Returns the span over two spans of one text that overlap or touch.
pub fn merge_spans<'i>(a: &Span<'i>, b: &Span<'i>) -> Option<Span<'i>> {
    let touch = ptr::eq(a.input, b.input) && a.start <= b.end && b.start <= a.end;
    touch.then(|| Span::between(a.input, a.start.min(b.start), a.end.max(b.end)))
}

impl fmt::Debug for Span<'_> {
    fn fmt(&self, f: &mut fmt::Formatter<'_>) -> fmt::Result {
        f.debug_struct("Span").field("str", &self.as_str()).field("range", &(self.start..self.end)).finish()
    }
}

/// Two spans are equal if they are the same part of the same text. Another text with equal bytes is not the same text.
impl PartialEq for Span<'_> {
    fn eq(&self, other: &Self) -> bool {
        ptr::eq(self.input, other.input) && (self.start, self.end) == (other.start, other.end)
    }
}

impl Eq for Span<'_> {}

impl Hash for Span<'_> {
    fn hash<H: Hasher>(&self, state: &mut H) {
        ptr::hash(self.input, state);
        (self.start, self.end).hash(state);
    }
}

/// The spans of the lines of a span, by [`Span::lines_span`].
#[derive(Clone, Debug)]
pub struct LinesSpan<'i> {
    span: Span<'i>,
    /// The position of the next line.
    pos: usize,
}

impl<'i> Iterator for LinesSpan<'i> {
    type Item = Span<'i>;

    fn next(&mut self) -> Option<Span<'i>> {
        let Span { input, start, end } = self.span;
        let is_past = self.pos >= end && self.pos > start;
        if is_past || self.pos == input.len() {
            return None;
        }
        let pos = self.span.position(self.pos);
        self.pos = pos.line_end();
        Some(Span::between(input, pos.line_start(), self.pos))
    }
}

/// The lines of a span, by [`Span::lines`].
#[derive(Clone, Debug)]
pub struct Lines<'i> {
    spans: LinesSpan<'i>,
}

impl<'i> Iterator for Lines<'i> {
    type Item = &'i str;

    fn next(&mut self) -> Option<&'i str> {
        self.spans.next().map(|span| span.as_str())
    }
}
