//! Answers an equation in each line of its input.
use std::io::{self, BufRead};

use pest::iterators::Pairs;
use pest::pratt_parser::{Assoc, Op, PrattParser};
use pest::Parser;
use pest_derive::Parser;

#[derive(Parser)]
#[grammar = "calculator.pest"]
pub struct Calculator;

#[derive(Debug)]
enum Expression {
    Integer(i32),
    Minus(Box<Expression>),
    Factorial(Box<Expression>),
    Operation(Box<Expression>, Rule, Box<Expression>),
}

impl Expression {
    /// The value, unless it is too large or something is divided by zero.
    fn value(&self) -> Option<i32> {
        match self {
            Expression::Integer(integer) => Some(*integer),
            Expression::Minus(right) => right.value()?.checked_neg(),
            Expression::Factorial(left) => (1..=left.value()?).try_fold(1i32, i32::checked_mul),
            Expression::Operation(left, operator, right) => {
                let (left, right) = (left.value()?, right.value()?);
                match operator {
                    Rule::add => left.checked_add(right),
                    Rule::subtract => left.checked_sub(right),
                    Rule::multiply => left.checked_mul(right),
                    Rule::divide => left.checked_div(right),
                    Rule::modulo => left.checked_rem(right),
                    Rule::power => left.checked_pow(right.try_into().ok()?),
                    rule => unreachable!("expected an infix operator, found {rule:?}"),
                }
            }
        }
    }
}

fn operators() -> PrattParser<Rule> {
    PrattParser::new()
        .op(Op::infix(Rule::add, Assoc::Left) | Op::infix(Rule::subtract, Assoc::Left))
        .op(Op::infix(Rule::multiply, Assoc::Left)
            | Op::infix(Rule::divide, Assoc::Left)
            | Op::infix(Rule::modulo, Assoc::Left))
        .op(Op::infix(Rule::power, Assoc::Right))
        .op(Op::prefix(Rule::minus))
        .op(Op::postfix(Rule::factorial))
}

fn expression(pairs: Pairs<Rule>, operators: &PrattParser<Rule>) -> Expression {
    operators
        .map_primary(|primary| match primary.as_rule() {
            Rule::integer => Expression::Integer(primary.as_str().parse().unwrap()),
            Rule::expression => expression(primary.into_inner(), operators),
            rule => unreachable!("expected an operand, found {rule:?}"),
        })
        .map_prefix(|operator, right| match operator.as_rule() {
            Rule::minus => Expression::Minus(Box::new(right)),
            rule => unreachable!("expected a prefix operator, found {rule:?}"),
        })
        .map_postfix(|left, _| Expression::Factorial(Box::new(left)))
        .map_infix(|left, operator, right| {
            Expression::Operation(Box::new(left), operator.as_rule(), Box::new(right))
        })
        .parse(pairs)
}

fn main() {
    let operators = operators();
    for line in io::stdin().lock().lines() {
        let line = line.expect("the input can be read");
        match Calculator::parse(Rule::equation, &line) {
            Ok(mut pairs) => {
                let expression = expression(pairs.next().unwrap().into_inner(), &operators);
                println!("{expression:?} is {:?}", expression.value());
            }
            Err(error) => println!("{error}"),
        }
    }
}
