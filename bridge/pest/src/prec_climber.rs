//! Expressions with infix operators, by precedence.

use alloc::borrow::Cow;
use alloc::vec;
use alloc::vec::Vec;
use core::iter::Peekable;
use core::ops::BitOr;

use crate::iterators::Pair;
use crate::RuleType;

/// Makes a [`PrecClimber`] of an enum `Rule` as a constant. `L` or `R` says how operators of a precedence are grouped.
/// The operators of one precedence have `|` between them. Each comma begins a higher precedence.
///
/// ```
/// # #![allow(deprecated)]
/// use pest::prec_climber::PrecClimber;
///
/// #[derive(Clone, Copy, Debug, Eq, Hash, Ord, PartialEq, PartialOrd)]
/// enum Rule { plus, minus, times, power }
///
/// static OPERATORS: PrecClimber<Rule> = pest::prec_climber![L plus | minus, L times, R power];
/// ```
#[cfg(feature = "const_prec_climber")]
#[macro_export]
macro_rules! prec_climber {
    ($($assoc:ident $rule:ident $(| $more:ident)*),+ $(,)?) => {
        $crate::prec_climber::PrecClimber::new_const(
            $crate::prec_climber!(@rows 1u32, {} $([$assoc $rule $($more)*])+)
        )
    };
    (@rows $level:expr, {$($row:tt)*}) => {
        &[$($row)*]
    };
    (@rows $level:expr, {$($row:tt)*} [$assoc:ident $($rule:ident)+] $($rest:tt)*) => {
        $crate::prec_climber!(
            @rows $level + 1u32,
            {$($row)* $((Rule::$rule, $level, $crate::prec_climber!(@assoc $assoc)),)+}
            $($rest)*
        )
    };
    (@assoc L) => {
        $crate::prec_climber::Assoc::Left
    };
    (@assoc R) => {
        $crate::prec_climber::Assoc::Right
    };
}

/// How operators of one precedence are grouped.
#[derive(Clone, Copy, Debug, Eq, PartialEq)]
pub enum Assoc {
    /// `a + b + c` is `(a + b) + c`.
    Left,
    /// `a ^ b ^ c` is `a ^ (b ^ c)`.
    Right,
}

/// Operators of one precedence.
#[derive(Debug)]
pub struct Operator<R: RuleType>(Vec<(R, Assoc)>);

impl<R: RuleType> Operator<R> {
    /// Makes an infix operator.
    pub fn new(rule: R, assoc: Assoc) -> Operator<R> {
        Operator(vec![(rule, assoc)])
    }
}

/// Gives operators the same precedence.
impl<R: RuleType> BitOr for Operator<R> {
    type Output = Operator<R>;

    fn bitor(mut self, other: Operator<R>) -> Operator<R> {
        self.0.extend(other.0);
        self
    }
}

/// The operators of expressions.
#[derive(Debug)]
pub struct PrecClimber<R: Clone + 'static> {
    operators: Cow<'static, [(R, u32, Assoc)]>,
}

impl<R: Clone + 'static> PrecClimber<R> {
    /// Makes a climber from operators with their precedences, as a constant.
    pub const fn new_const(operators: &'static [(R, u32, Assoc)]) -> PrecClimber<R> {
        PrecClimber { operators: Cow::Borrowed(operators) }
    }
}

/// An operator that waits for the operand after it.
struct Waiting<'i, R, T> {
    left: T,
    operator: Pair<'i, R>,
    level: u32,
    /// The least precedence of operators that go with what this one makes.
    least: u32,
}

impl<R: RuleType> PrecClimber<R> {
    /// Makes a climber from operators. Each has a higher precedence than those before it.
    pub fn new(operators: Vec<Operator<R>>) -> PrecClimber<R> {
        let levels = operators.into_iter().zip(1..);
        let rows = levels.flat_map(|(operator, level)| {
            operator.0.into_iter().map(move |(rule, assoc)| (rule, level, assoc))
        });
        PrecClimber { operators: rows.collect() }
    }

    /// Makes the value of an expression, which ends at the first pair that is no operator. Operators wait in a list, so
    /// the length of an expression takes no stack of the process.
    ///
    /// # Panics
    /// If there is no pair, or no pair after an operator.
    pub fn climb<'i, P, F, G, T>(&self, mut pairs: P, mut primary: F, mut infix: G) -> T
    where
        P: Iterator<Item = Pair<'i, R>>,
        F: FnMut(Pair<'i, R>) -> T,
        G: FnMut(T, Pair<'i, R>, T) -> T,
    {
        let first = pairs.next().expect("precedence climbing requires a non-empty Pairs");
        let mut value = primary(first);
        let mut pairs = pairs.peekable();
        let mut waiting: Vec<Waiting<'i, R, T>> = Vec::new();
        loop {
            let next = self.next_level(&mut pairs);
            let least = match waiting.pop() {
                None => 0,
                Some(last) => match next {
                    Some((level, assoc))
                        if level > last.level || assoc == Assoc::Right && level == last.level =>
                    {
                        waiting.push(last);
                        level
                    }
                    _ => {
                        value = infix(last.left, last.operator, value);
                        last.least
                    }
                },
            };
            match next {
                Some((level, _)) if level >= least => {
                    let operator = pairs.next().expect("the operator was seen");
                    waiting.push(Waiting { left: value, operator, level, least });
                    let operand = pairs.next();
                    value =
                        primary(operand.expect("infix operator must be followed by a primary expression"));
                }
                _ if waiting.is_empty() => return value,
                _ => {}
            }
        }
    }

    /// The precedence of the next pair, if it is an operator.
    fn next_level<'i, P: Iterator<Item = Pair<'i, R>>>(
        &self,
        pairs: &mut Peekable<P>,
    ) -> Option<(u32, Assoc)> {
        let rule = pairs.peek()?.as_rule();
        let row = self.operators.iter().find(|(operator, ..)| *operator == rule);
        row.map(|(_, level, assoc)| (*level, *assoc))
    }
}
