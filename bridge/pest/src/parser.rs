use crate::error::Error;
use crate::iterators::Pairs;
use crate::RuleType;

/// A parser for the rules of a grammar. The derive macro implements it.
pub trait Parser<R: RuleType> {
    /// Runs a rule from the start of a text. Returns its pairs, or an error at the furthest position of a failure.
    fn parse(rule: R, input: &str) -> Result<Pairs<'_, R>, Error<R>>;
}
