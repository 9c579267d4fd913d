use crate::Position;

/// The start or the end of a pair.
#[derive(Clone, Debug, Eq, Hash, PartialEq)]
pub enum Token<'i, R> {
    /// The start of a pair.
    Start {
        /// The pair's rule.
        rule: R,
        /// The position where the pair starts.
        pos: Position<'i>,
    },
    /// The end of a pair.
    End {
        /// The pair's rule.
        rule: R,
        /// The position after the pair.
        pos: Position<'i>,
    },
}
