//! Each public item of pest 2.9 that a program may name, with its type. That this compiles is the test.
use std::borrow::Cow;
use std::fmt::{Debug, Display};
use std::hash::Hash;
use std::panic::{RefUnwindSafe, UnwindSafe};

use pest::error::{Error, ErrorVariant, InputLocation, IsWhitespaceFn, LineColLocation, RuleToMessageFn};
use pest::iterators::{FlatPairs, Pair, Pairs, PairsBuilder, Tokens};
use pest::pratt_parser::{pratt_precedence, Assoc, ConstPrattParser, Op, PrattParser, PrattParserMap, Prec};
#[allow(deprecated)]
use pest::prec_climber;
use pest::{merge_spans, Lines, LinesSpan, Parser, ParserState, Position, RuleType, Span, Stack, Token};

#[derive(pest_derive::Parser)]
#[grammar_inline = r#"
sum = { value ~ ((plus | minus | times) ~ value)* }
value = { ASCII_DIGIT }
plus = { "+" }
minus = { "-" }
times = { "*" }
"#]
struct Sum;

const PLUS: Op<Rule> = Op::infix(Rule::plus, Assoc::Left);
const LEVEL: Prec = 10;
static OPERATORS: ConstPrattParser<Rule, 3> = ConstPrattParser::new_const(pratt_precedence![
    Op::infix(Rule::plus, Assoc::Left) | Op::infix(Rule::minus, Assoc::Left),
    Op::infix(Rule::times, Assoc::Right),
]);
#[allow(deprecated)]
static CLIMBER: prec_climber::PrecClimber<Rule> = prec_climber![L plus | minus, R times];

/// A tree that borrows the text, by closures that borrow what is around them.
#[derive(Debug)]
#[allow(dead_code)]
enum Tree<'i> {
    Value(&'i str),
    Joined(Box<Tree<'i>>, &'i str, Box<Tree<'i>>),
}

struct Reader {
    joined: std::cell::Cell<usize>,
}

impl Reader {
    fn read<'i>(&self, pairs: Pairs<'i, Rule>) -> Tree<'i> {
        let parser = PrattParser::new()
            .op(PLUS | Op::infix(Rule::minus, Assoc::Left))
            .op(Op::infix(Rule::times, Assoc::Right));
        let mut map =
            parser.map_primary(|pair| Tree::Value(pair.as_str())).map_infix(|left, operator, right| {
                self.joined.set(self.joined.get() + 1);
                Tree::Joined(Box::new(left), operator.as_str(), Box::new(right))
            });
        map.parse(pairs)
    }
}

fn named<'a, 'i, F: FnMut(Pair<'i, Rule>) -> usize>(
    map: PrattParserMap<'static, 'a, 'i, Rule, F, usize, ConstPrattParser<Rule, 3>>,
) -> PrattParserMap<'static, 'a, 'i, Rule, F, usize, ConstPrattParser<Rule, 3>> {
    map.map_infix(|left, _, right| left + right).map_prefix(|_, right| right).map_postfix(|left, _| left)
}

/// What expressions are by each of the ways, and what some calls answer that have no text.
#[allow(deprecated)]
pub fn told(text: &str) -> Vec<String> {
    let inner = || Sum::parse(Rule::sum, text).expect("a sum").next().expect("a sum").into_inner();
    let reader = Reader { joined: Default::default() };
    let tree = reader.read(inner());
    let count = named(OPERATORS.map_primary(|pair| pair.as_str().len())).parse(inner());
    let climbed = CLIMBER.climb(
        inner(),
        |pair| pair.as_str().to_owned(),
        |left, operator, right| format!("({left}{operator}{right})"),
    );
    let built = PairsBuilder::new(text)
        .rule_with(1_u8, 0, text.len(), |inner| {
            inner.rule(2, 0, 1).tag("first").rule_with(3, 1, 1, |inner| inner)
        })
        .rule(4, text.len(), text.len())
        .tag("end")
        .build();
    let mut rest = inner();
    let is_empty = [rest.is_empty(), rest.by_ref().count() == 0, rest.is_empty()];
    let names: Vec<_> = pest::unicode::unicode_property_names().collect();
    let letters = text.chars().filter(|it| pest::unicode::DECIMAL_NUMBER(*it)).count();
    let emoji = pest::unicode::by_name("EMOJI").map(|has| has('\u{1f600}'));
    vec![
        format!("{tree:?} {:?} {count} {climbed} {LEVEL}", reader.joined),
        format!("{built} {built:#} {built:?} {built:#?} {}", built.to_json()),
        format!("{} {:?}", serde_json::to_string(&built).expect("JSON"), built.find_first_tagged("end")),
        format!(
            "{is_empty:?} {} {} {}",
            inner(),
            inner().to_json(),
            serde_json::to_string(&inner()).expect("JSON")
        ),
        format!(
            "{} {:?} {letters} {emoji:?} {:?}",
            names.len(),
            names,
            pest::unicode::by_name("NONE").is_none()
        ),
        format!("{} {}", size_of::<Error<Rule>>(), crate::by_hand::kinds()),
        format!(
            "{:?} {:?}",
            inner().next().map(|pair| pair.line_col()),
            inner().next().map(|pair| pair.to_json())
        ),
    ]
}

fn has_traits<T: Clone + Debug + Eq + Hash + PartialEq>() {}
fn is_printed<T: Display>() {}
fn is_safe<T: UnwindSafe + RefUnwindSafe>() {}
fn is_shared<T: Send + Sync>() {}

/// Types, and calls with their types.
pub fn compiles<'i>() {
    has_traits::<Pair<'i, Rule>>();
    has_traits::<Pairs<'i, Rule>>();
    has_traits::<Span<'i>>();
    has_traits::<Position<'i>>();
    has_traits::<Token<'i, Rule>>();
    has_traits::<Error<Rule>>();
    has_traits::<ErrorVariant<Rule>>();
    has_traits::<InputLocation>();
    has_traits::<LineColLocation>();
    is_printed::<Pair<'i, Rule>>();
    is_printed::<Pairs<'i, Rule>>();
    is_printed::<Error<Rule>>();
    is_printed::<ErrorVariant<Rule>>();
    is_safe::<Pair<'i, Rule>>();
    is_safe::<Pairs<'i, Rule>>();
    is_safe::<FlatPairs<'i, Rule>>();
    is_safe::<Tokens<'i, Rule>>();
    is_safe::<Error<Rule>>();
    is_safe::<Span<'i>>();
    is_shared::<Error<Rule>>();
    is_shared::<Span<'i>>();
    is_shared::<PrattParser<Rule>>();
    is_shared::<ParserState<'i, Rule>>();
    let _: fn(&'i str) -> Box<ParserState<'i, Rule>> = ParserState::new;
    let _: fn(Error<Rule>, &str) -> Error<Rule> = Error::with_path;
    let _: fn(&Error<Rule>) -> Option<&str> = Error::path;
    let _: fn(&Error<Rule>) -> &str = Error::line;
    let _: fn(&Error<Rule>, &str, &RuleToMessageFn<Rule>, &IsWhitespaceFn) -> Option<Error<Rule>> =
        Error::parse_attempts_error;
    let _: fn(&ErrorVariant<Rule>) -> Cow<'_, str> = ErrorVariant::message;
    let _: for<'p> fn(&'p Pair<'i, Rule>) -> Option<&'p str> = Pair::as_node_tag;
    let _: fn(Pair<'i, Rule>) -> Tokens<'i, Rule> = Pair::tokens;
    let _: fn(Pairs<'i, Rule>) -> FlatPairs<'i, Rule> = Pairs::flatten;
    let _: fn(FlatPairs<'i, Rule>) -> Tokens<'i, Rule> = FlatPairs::tokens;
    let _: fn(Pair<'i, Rule>) -> Pairs<'i, Rule> = Pairs::single;
    let _: fn(&Span<'i>, &Span<'i>) -> Option<Span<'i>> = merge_spans;
    let _: fn(Option<std::num::NonZeroUsize>) = pest::set_call_limit;
    let _: fn(bool) = pest::set_error_detail;
    let _: fn() -> Stack<u8> = Stack::new;
    let _: Option<(Lines<'i>, LinesSpan<'i>)> = None;
}

/// A function over any type of rules.
pub fn first_rule<R: RuleType, P: Parser<R>>(rule: R, text: &str) -> Option<R> {
    P::parse(rule, text).ok()?.next().map(|pair| pair.as_rule())
}
