//! Expressions with prefix, postfix and infix operators, by precedence.

use alloc::boxed::Box;
use alloc::collections::BTreeMap;
use alloc::vec::Vec;
use core::iter::Peekable;
use core::marker::PhantomData;
use core::mem::ManuallyDrop;
use core::ops::BitOr;

use crate::iterators::Pair;
use crate::RuleType;

pub use crate::pratt_precedence;

/// How infix operators of one precedence are grouped.
#[derive(Clone, Copy, Debug, Eq, Hash, PartialEq)]
pub enum Assoc {
    /// `a + b + c` is `(a + b) + c`.
    Left,
    /// `a ^ b ^ c` is `a ^ (b ^ c)`.
    Right,
}

/// The position of an operator: before, after or between its operands.
#[doc(hidden)]
#[derive(Clone, Copy, Debug, Eq, PartialEq)]
pub enum Affix {
    Prefix,
    Postfix,
    Infix(Assoc),
}

/// A precedence. The least of an operator is 1.
pub type Prec = u32;

/// Operators of one precedence.
#[derive(Clone, Debug)]
pub struct Op<R: RuleType> {
    rule: R,
    affix: Affix,
    /// The other ones, if there are any.
    others: Option<Vec<(R, Affix)>>,
}

impl<R: RuleType> Op<R> {
    /// Makes a prefix operator.
    pub const fn prefix(rule: R) -> Op<R> {
        Op { rule, affix: Affix::Prefix, others: None }
    }

    /// Makes a postfix operator.
    pub const fn postfix(rule: R) -> Op<R> {
        Op { rule, affix: Affix::Postfix, others: None }
    }

    /// Makes an infix operator.
    pub const fn infix(rule: R, assoc: Assoc) -> Op<R> {
        Op { rule, affix: Affix::Infix(assoc), others: None }
    }

    fn each(self) -> impl Iterator<Item = (R, Affix)> {
        [(self.rule, self.affix)].into_iter().chain(self.others.unwrap_or_default())
    }
}

/// Gives operators the same precedence.
impl<R: RuleType> BitOr for Op<R> {
    type Output = Op<R>;

    fn bitor(mut self, other: Op<R>) -> Op<R> {
        self.others.get_or_insert_default().extend(other.each());
        self
    }
}

/// Lists operators for [`ConstPrattParser::new_const`]: those between `|` have one precedence, and each comma begins a higher
/// one.
///
/// ```
/// use pest::pratt_parser::{pratt_precedence, Assoc, ConstPrattParser, Op};
///
/// #[derive(Clone, Copy, Debug, Eq, Hash, Ord, PartialEq, PartialOrd)]
/// enum Rule { plus, minus, times }
///
/// const OPERATORS: ConstPrattParser<Rule, 3> = ConstPrattParser::new_const(pratt_precedence![
///     Op::infix(Rule::plus, Assoc::Left) | Op::infix(Rule::minus, Assoc::Left),
///     Op::infix(Rule::times, Assoc::Left),
/// ]);
/// ```
#[macro_export]
macro_rules! pratt_precedence {
    ($($kind:ident :: $make:ident $of:tt $(| $next_kind:ident :: $next_make:ident $next_of:tt)*),* $(,)?) => {
        [$(($kind::$make $of, true) $(, ($next_kind::$next_make $next_of, false))*),*]
    };
    ($($other:tt)*) => {
        ::core::compile_error!("pratt_precedence! takes operators as `Op::infix(Rule::plus, Assoc::Left)`, between `|` and `,`")
    };
}

/// The operators of expressions. [`PrattParser::map_primary`] begins what is done with them.
///
/// ```
/// use pest::pratt_parser::{Assoc, Op, PrattParser};
///
/// #[derive(Clone, Copy, Debug, Eq, Hash, Ord, PartialEq, PartialOrd)]
/// enum Rule { plus, minus, times, sign, factorial }
///
/// let parser = PrattParser::new()
///     .op(Op::infix(Rule::plus, Assoc::Left) | Op::infix(Rule::minus, Assoc::Left))
///     .op(Op::infix(Rule::times, Assoc::Left))
///     .op(Op::prefix(Rule::sign))
///     .op(Op::postfix(Rule::factorial));
/// ```
#[derive(Clone, Debug)]
pub struct PrattParser<R: RuleType> {
    operators: BTreeMap<R, (Affix, Prec)>,
    /// The highest precedence. The first one is 1.
    levels: Prec,
}

impl<R: RuleType> Default for PrattParser<R> {
    fn default() -> Self {
        PrattParser::new()
    }
}

impl<R: RuleType> PrattParser<R> {
    /// Makes a parser without operators.
    pub fn new() -> PrattParser<R> {
        PrattParser { operators: BTreeMap::new(), levels: 0 }
    }

    /// Adds operators, which bind more tightly than all before.
    pub fn op(mut self, op: Op<R>) -> PrattParser<R> {
        self.levels += 1;
        let level = self.levels;
        self.operators.extend(op.each().map(|(rule, affix)| (rule, (affix, level))));
        self
    }

    /// Sets the function that makes a value from a pair that is no operator.
    pub fn map_primary<'pratt, 'a, 'i, X, T>(
        &'pratt self,
        primary: X,
    ) -> PrattParserMap<'pratt, 'a, 'i, R, X, T>
    where
        X: FnMut(Pair<'i, R>) -> T,
        R: 'pratt,
    {
        PrattParserMap::new(self, primary)
    }
}

/// What the operators of a parser are.
#[doc(hidden)]
pub trait PrattParserOps<R: RuleType> {
    /// The kind of an operator, and its precedence.
    fn get(&self, rule: &R) -> Option<(Affix, Prec)>;
}

impl<R: RuleType> PrattParserOps<R> for PrattParser<R> {
    fn get(&self, rule: &R) -> Option<(Affix, Prec)> {
        self.operators.get(rule).copied()
    }
}

/// The operators of expressions, as a constant. Their list is made by [`pratt_precedence!`](crate::pratt_precedence).
#[derive(Clone, Debug)]
pub struct ConstPrattParser<R: RuleType + 'static, const N: usize> {
    operators: [(R, Affix, Prec); N],
}

impl<R: RuleType + 'static, const N: usize> ConstPrattParser<R, N> {
    /// Makes a parser from operators. Each comes with whether it begins a higher precedence. The first one must begin
    /// one.
    ///
    /// # Panics
    /// If the first operator does not begin a precedence, or if an operator stands for several.
    pub const fn new_const(ops: [(Op<R>, bool); N]) -> Self {
        const { assert!(N > 0, "ConstPrattParser requires at least one operator") };
        assert!(ops[0].1, "the first operator must start a new precedence level (`true`)");
        let mut operators = [(ops[0].0.rule, ops[0].0.affix, 0); N];
        let (mut at, mut level) = (0, 0);
        while at < N {
            let (op, begins_level) = &ops[at];
            assert!(
                op.others.is_none(),
                "operators that are joined by `|` are not supported in ConstPrattParser"
            );
            level += *begins_level as Prec;
            operators[at] = (op.rule, op.affix, level);
            at += 1;
        }
        // Constants drop nothing, and here is nothing to drop.
        let _ = ManuallyDrop::new(ops);
        ConstPrattParser { operators }
    }

    /// Sets the function that makes a value from a pair that is no operator.
    pub fn map_primary<'pratt, 'a, 'i, X, T>(
        &'pratt self,
        primary: X,
    ) -> PrattParserMap<'pratt, 'a, 'i, R, X, T, Self>
    where
        X: FnMut(Pair<'i, R>) -> T,
        R: 'pratt,
    {
        PrattParserMap::new(self, primary)
    }
}

impl<R: RuleType + 'static, const N: usize> PrattParserOps<R> for ConstPrattParser<R, N> {
    fn get(&self, rule: &R) -> Option<(Affix, Prec)> {
        let operator = self.operators.iter().rfind(|(it, ..)| it == rule)?;
        Some((operator.1, operator.2))
    }
}

type MapPrefix<'a, 'i, R, T> = Box<dyn FnMut(Pair<'i, R>, T) -> T + 'a>;
type MapPostfix<'a, 'i, R, T> = Box<dyn FnMut(T, Pair<'i, R>) -> T + 'a>;
type MapInfix<'a, 'i, R, T> = Box<dyn FnMut(T, Pair<'i, R>, T) -> T + 'a>;

/// The functions that make values from operands and operators.
pub struct PrattParserMap<'pratt, 'a, 'i, R, F, T, P = PrattParser<R>>
where
    R: RuleType,
    F: FnMut(Pair<'i, R>) -> T,
    P: PrattParserOps<R>,
{
    parser: &'pratt P,
    primary: F,
    prefix: Option<MapPrefix<'a, 'i, R, T>>,
    postfix: Option<MapPostfix<'a, 'i, R, T>>,
    infix: Option<MapInfix<'a, 'i, R, T>>,
    makes: PhantomData<T>,
}

/// An operator that waits for the operand after it, with the precedence that held before it.
struct Waiting<'i, R, T> {
    /// The operand before it, if it is infix.
    left: Option<T>,
    operator: Pair<'i, R>,
    floor: Prec,
}

impl<'pratt, 'a, 'i, R, F, T, P> PrattParserMap<'pratt, 'a, 'i, R, F, T, P>
where
    R: RuleType + 'pratt,
    F: FnMut(Pair<'i, R>) -> T,
    P: PrattParserOps<R> + 'pratt,
{
    fn new(parser: &'pratt P, primary: F) -> Self {
        PrattParserMap { parser, primary, prefix: None, postfix: None, infix: None, makes: PhantomData }
    }

    /// Sets the function that makes a value from a prefix operator and its operand.
    pub fn map_prefix<X>(mut self, prefix: X) -> Self
    where
        X: FnMut(Pair<'i, R>, T) -> T + 'a,
    {
        self.prefix = Some(Box::new(prefix));
        self
    }

    /// Sets the function that makes a value from an operand and a postfix operator.
    pub fn map_postfix<X>(mut self, postfix: X) -> Self
    where
        X: FnMut(T, Pair<'i, R>) -> T + 'a,
    {
        self.postfix = Some(Box::new(postfix));
        self
    }

    /// Sets the function that makes a value from an infix operator and its operands.
    pub fn map_infix<X>(mut self, infix: X) -> Self
    where
        X: FnMut(T, Pair<'i, R>, T) -> T + 'a,
    {
        self.infix = Some(Box::new(infix));
        self
    }

    /// Makes the value of an expression. Operators wait in a list, so the length of an expression takes no stack of the
    /// process.
    ///
    /// # Panics
    /// If operands and operators do not alternate as they should, or if no function was set for the kind of an
    /// operator.
    pub fn parse<I: Iterator<Item = Pair<'i, R>>>(&mut self, pairs: I) -> T {
        let mut pairs = pairs.peekable();
        let mut waiting: Vec<Waiting<'i, R, T>> = Vec::new();
        // Only operators above it belong to the operand at hand.
        let mut floor = 0;
        let mut value = self.operand(&mut pairs, &mut waiting, &mut floor);
        loop {
            if let Some((operator, affix, level)) = self.next_above(&mut pairs, floor) {
                let Affix::Infix(assoc) = affix else {
                    value = self.with_postfix(value, operator);
                    continue;
                };
                waiting.push(Waiting { left: Some(value), operator, floor });
                floor = if assoc == Assoc::Left { level } else { level - 1 };
                value = self.operand(&mut pairs, &mut waiting, &mut floor);
            } else if let Some(last) = waiting.pop() {
                floor = last.floor;
                value = self.with_operator(last.left, last.operator, value);
            } else {
                return value;
            }
        }
    }

    /// The value of the next operand, whose prefix operators wait.
    fn operand<I: Iterator<Item = Pair<'i, R>>>(
        &mut self,
        pairs: &mut Peekable<I>,
        waiting: &mut Vec<Waiting<'i, R, T>>,
        floor: &mut Prec,
    ) -> T {
        loop {
            let pair = pairs.next().expect("Pratt parsing expects non-empty Pairs");
            match self.parser.get(&pair.as_rule()) {
                None => return (self.primary)(pair),
                Some((Affix::Prefix, level)) => {
                    waiting.push(Waiting { left: None, operator: pair, floor: *floor });
                    *floor = level - 1;
                }
                Some(_) => panic!("Expected prefix or primary expression, found {pair}"),
            }
        }
    }

    /// The next operator, if its precedence is above the floor.
    fn next_above<I: Iterator<Item = Pair<'i, R>>>(
        &self,
        pairs: &mut Peekable<I>,
        floor: Prec,
    ) -> Option<(Pair<'i, R>, Affix, Prec)> {
        let pair = pairs.peek()?;
        let Some((affix, level)) = self.parser.get(&pair.as_rule()) else {
            panic!("Expected operator, found {pair}");
        };
        if level <= floor {
            return None;
        }
        if let Affix::Prefix = affix {
            panic!("Expected postfix or infix expression, found {pair}");
        }
        pairs.next().map(|pair| (pair, affix, level))
    }

    fn with_postfix(&mut self, value: T, operator: Pair<'i, R>) -> T {
        match &mut self.postfix {
            Some(postfix) => postfix(value, operator),
            None => panic!("Could not map {operator}, no `.map_postfix(...)` specified"),
        }
    }

    /// The value of a prefix operator, or of an infix one if an operand is before it.
    fn with_operator(&mut self, left: Option<T>, operator: Pair<'i, R>, right: T) -> T {
        match (left, &mut self.infix, &mut self.prefix) {
            (Some(left), Some(infix), _) => infix(left, operator, right),
            (None, _, Some(prefix)) => prefix(operator, right),
            (Some(_), None, _) => panic!("Could not map {operator}, no `.map_infix(...)` specified"),
            (None, _, None) => panic!("Could not map {operator}, no `.map_prefix(...)` specified"),
        }
    }
}
