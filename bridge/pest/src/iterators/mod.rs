//! The pairs of a match, and iterators over them.

mod flat_pairs;
#[cfg(feature = "pretty-print")]
mod json;
mod line_index;
mod pair;
mod pairs;
mod pairs_builder;
mod printing;
mod tokens;
mod tree;

pub use flat_pairs::FlatPairs;
pub use pair::Pair;
pub use pairs::Pairs;
pub use pairs_builder::PairsBuilder;
pub use tokens::Tokens;

pub(crate) use tree::{Rules, Tree};
