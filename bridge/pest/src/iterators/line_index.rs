use alloc::vec::Vec;
use core::iter;

/// The bytes of a block, of which an index has the characters before it.
const BLOCK: usize = 128;

/// Where the lines of a text start, and how many characters are before each block of it. So the line and the column of
/// a byte take a binary search and a block, at any length of the text and of its lines.
pub(super) struct LineIndex {
    starts: Vec<u32>,
    characters: Vec<u32>,
}

impl LineIndex {
    /// Makes the index of a text, which has less than 4 GiB.
    pub(super) fn new(text: &str) -> LineIndex {
        let breaks = text.bytes().zip(1..).filter(|(byte, _)| *byte == b'\n').map(|(_, next)| next);
        let blocks = text.as_bytes().chunks(BLOCK).scan(0, |before, block| {
            *before += characters_in(block) as u32;
            Some(*before)
        });
        LineIndex {
            starts: iter::once(0).chain(breaks).collect(),
            characters: iter::once(0).chain(blocks).collect(),
        }
    }

    /// Returns the line and the column of a byte of the text, both from 1. A column is a character.
    pub(super) fn line_col(&self, text: &str, pos: u32) -> (usize, usize) {
        let line = self.starts.partition_point(|start| *start <= pos);
        let start = self.starts[line - 1];
        (line, self.characters_before(text, pos) - self.characters_before(text, start) + 1)
    }

    fn characters_before(&self, text: &str, pos: u32) -> usize {
        let block = pos as usize / BLOCK;
        self.characters[block] as usize + characters_in(&text.as_bytes()[block * BLOCK..pos as usize])
    }
}

/// The number of characters that start in some bytes of a text.
fn characters_in(bytes: &[u8]) -> usize {
    bytes.iter().filter(|byte| (**byte as i8) >= -0x40).count()
}

#[cfg(test)]
mod tests {
    use alloc::borrow::ToOwned;
    use alloc::format;

    use super::*;
    use crate::Position;

    #[test]
    fn places_are_those_of_positions() {
        for piece in ["a", "ä\n", "\n", "漢\u{1f600}", "\r\n", "abcdefg"] {
            for text in [piece.to_owned(), piece.repeat(31), format!("{}\n{piece}", piece.repeat(300))] {
                let index = LineIndex::new(&text);
                for pos in (0..=text.len()).filter_map(|pos| Position::new(&text, pos)) {
                    assert_eq!(
                        index.line_col(&text, pos.pos() as u32),
                        pos.line_col(),
                        "{} of {text:?}",
                        pos.pos()
                    );
                }
            }
        }
    }
}
