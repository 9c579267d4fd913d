//! The crate `pest_vm` over a proved matcher.
//!
//! A [`Vm`] runs the optimized rules of a grammar on texts, without generated code. So a program can get grammars at
//! run time. The pairs are those of the crate `kingorewa_pest`, which has pest's interface. Their rules are names.
//!
//! ```
//! let grammar = r#"list = { "[" ~ (item ~ ("," ~ item)*)? ~ "]" } item = @{ ASCII_ALPHA+ }"#;
//! let (_, rules) = pest_meta::unwrap_or_report(pest_meta::parse_and_optimize(grammar));
//! let vm = pest_vm::Vm::new(rules);
//! let items: Vec<&str> = vm.parse("list", "[a,b]").unwrap().next().unwrap().into_inner().map(|it| it.as_str()).collect();
//! assert_eq!(items, ["a", "b"]);
//! ```
//!
//! # What is proved
//!
//! The tokens that the library returns are proved to be those of the definitions (docs/SPEC.md). So are the position of
//! an error, and the rules that it names. This crate passes rules and texts to the library, and its pairs are views of
//! the result. That is tested.
//!
//! # Differences
//!
//! | The original | Here |
//! |---|---|
//! | `PEEK` or `POP` on the empty stack panics. | It is an error at the start of the text. |
//! | A rule may run for any time, unless `pest::set_call_limit` was called. | A rule that uses the stack may. If no rule of the grammar uses the stack, the turns of a match are linear in the text and the pairs. |
//! | An error names its rules, however long the search for them takes. | If 2^23 steps, and 32 more for each byte, do not find them, the error says so. It is at the furthest position of a failure. |
//! | The listener is called at each call of a rule. | It is called for each token of a match, in the order of their starts. |
//! | A builtin can be parsed as a rule. | Any name that is no rule panics, as an undefined rule does in the original. |
//! | An undefined name panics when it is called. | A rule panics if calls lead from it to an undefined name. |
//!
//! # Cost
//!
//! [`Vm::new`] compiles the rules once. A [`Vm`] is `Send` and `Sync`: any number of threads may parse with it, and
//! none waits for another. The depth of a tree takes no stack of the process.
#![forbid(unsafe_code)]
#![warn(missing_docs, rust_2018_idioms, unused_qualifications)]

mod macros;

use std::collections::HashMap;
use std::panic::{RefUnwindSafe, UnwindSafe};

use pest_meta::matching::{self, TaggedBlock};
use pest_meta::optimizer::OptimizedRule;
use runtime::error::{Error, ErrorVariant};
use runtime::iterators::Pairs;
use runtime::machine::{self, Tagged};
use runtime::Position;

// For the macros.
#[doc(hidden)]
pub use runtime;

/// A function that gets the name of a rule and a position, and returns whether to stop.
type Listener = Box<dyn Fn(String, &Position<'_>) -> bool + Sync + Send + RefUnwindSafe + UnwindSafe>;

/// A machine that runs optimized rules on texts.
pub struct Vm {
    /// The compiled rules. There are none where they have a range of no characters.
    block: Option<Vec<u8>>,
    /// The rules as errors in detail need them.
    source: Vec<u8>,
    /// The same with their tags, if they have any.
    tagged: Option<TaggedBlock>,
    /// The name of each row, `EOI` last.
    names: Vec<String>,
    /// Of rules that come to an undefined name, the row of each with that name.
    undefined: HashMap<usize, String>,
    listener: Option<Listener>,
}

impl Vm {
    /// Compiles optimized rules, and makes a machine that runs them.
    ///
    /// # Panics
    /// If an allocation fails.
    pub fn new(mut rules: Vec<OptimizedRule>) -> Vm {
        let own = rules.len();
        let mut block = matching::compile(&rules).ok();
        let mut undefined = HashMap::new();
        if block.is_none() {
            // Each undefined name becomes a rule, so that the others can be compiled: properties of characters have theirs, and the
            // other ones match nothing.
            let names = matching::undefined_names(&rules);
            rules.extend(names.iter().filter_map(|name| matching::property_rule(name)));
            let count = rules.len();
            let others = names.into_iter().filter(|name| !rules.iter().any(|rule| rule.name == *name));
            let others: Vec<_> = others.map(matching::empty_rule).collect();
            rules.extend(others);
            undefined = matching::rules_that_reach(&rules, count);
            block = matching::compile(&rules).ok();
        }
        let source = matching::source(&rules[..own], &rules[own..]);
        let tagged = matching::compile_tagged(&rules, false).ok().flatten();
        let names = rules.into_iter().map(|rule| rule.name).chain(["EOI".to_owned()]).collect();
        Vm { block, source, tagged, names, undefined, listener: None }
    }

    /// Makes a machine whose listener is called for each token of a match, in the order of their starts, with the
    /// rule's name and the start. If it answers `true`, the parse ends there with an error.
    pub fn new_with_listener(rules: Vec<OptimizedRule>, listener: Listener) -> Vm {
        Vm { listener: Some(listener), ..Vm::new(rules) }
    }

    /// Runs the rule named `rule` from the start of `input`. Returns its pairs.
    ///
    /// # Errors
    /// - An error at the furthest position of a failure, with the rules that are expected there, if the rule fails.
    /// - An error at the start of the text, if `PEEK` or `POP` comes to the empty stack.
    ///
    /// # Panics
    /// - If no rule has the name.
    /// - If the rule, or one that it calls, calls a name that is neither a rule nor a builtin.
    /// - If an allocation fails.
    pub fn parse<'a>(&'a self, rule: &'a str, input: &'a str) -> Result<Pairs<'a, &'a str>, Error<&'a str>> {
        let Some(block) = &self.block else { panic!("the rules have a range of no characters") };
        // Of rules of one name the last is meant. `EOI` is no rule.
        let Some(row) = self.names[..self.names.len() - 1].iter().rposition(|name| name == rule) else {
            panic!("undefined rule {rule}")
        };
        if let Some(name) = self.undefined.get(&row) {
            panic!("undefined rule {name}")
        }
        let names = self.names.iter().map(String::as_str).collect();
        let tags: Vec<&str> =
            self.tagged.iter().flat_map(|tagged| &tagged.tags).map(String::as_str).collect();
        let tagged = self.tagged.as_ref().map(|tagged| Tagged { block: &tagged.block, tags: &tags });
        let pairs = machine::parse_block(block, &self.source, tagged, row as u32, input, names)?;
        match self.stopped_at(&pairs) {
            Some(position) => {
                let variant = ErrorVariant::ParsingError { positives: Vec::new(), negatives: Vec::new() };
                Err(Error::new_from_pos(variant, position))
            }
            None => Ok(pairs),
        }
    }

    /// The start of the first pair at which the listener stops.
    fn stopped_at<'a>(&self, pairs: &Pairs<'a, &'a str>) -> Option<Position<'a>> {
        let listener = self.listener.as_ref()?;
        let mut starts = pairs.clone().flatten().map(|pair| (pair.as_rule(), pair.as_span().start_pos()));
        starts.find(|(name, start)| listener((*name).to_owned(), start)).map(|(_, start)| start)
    }
}
