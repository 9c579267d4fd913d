//! Expressions by both kinds of precedence.
use pest::iterators::Pair;
use pest::pratt_parser::{self, Op, PrattParser};
use pest::Parser;

#[derive(pest_derive::Parser)]
#[grammar_inline = r#"
chain = _{ sign* ~ digit ~ mark* ~ (operator ~ sign* ~ digit ~ mark*)* ~ EOI }
operator = _{ plus | minus | times | power }
plus = { "+" }
minus = { "-" }
times = { "*" }
power = { "^" }
sign = { "~" }
mark = { "!" }
digit = { ASCII_DIGIT }
"#]
struct Chain;

/// How operators are told of: the level of each of `+`, `-`, `*`, `^`, and whether it groups to the right.
pub type Levels = [(usize, bool); 4];

const OPERATORS: [Rule; 4] = [Rule::plus, Rule::minus, Rule::times, Rule::power];

/// A text with a pair of brackets around each operation, by a Pratt parser, and by a climber if it has no others than
/// infix operators.
pub fn grouped(text: &str, levels: &Levels, sign: usize, mark: usize) -> Vec<String> {
    let pairs = Chain::parse(Rule::chain, text).expect("a chain");
    let operands = pairs.clone().filter(|pair| pair.as_rule() != Rule::EOI);
    let mut grouped = vec![by_pratt(operands.clone(), levels, sign, mark)];
    if !text.contains(['~', '!']) {
        grouped.push(by_climber(operands, levels));
    }
    grouped
}

/// What is printed for a text by the rule `EOI`.
pub fn end(text: &str) -> String {
    match Chain::parse(Rule::EOI, text) {
        Ok(pairs) => pairs.to_string(),
        Err(error) => error.to_string(),
    }
}

fn by_pratt<'i>(
    pairs: impl Iterator<Item = Pair<'i, Rule>>,
    levels: &Levels,
    sign: usize,
    mark: usize,
) -> String {
    let assoc = |right| if right { pratt_parser::Assoc::Right } else { pratt_parser::Assoc::Left };
    let mut parser = PrattParser::new();
    for level in 0..5 {
        let of_level = OPERATORS.iter().zip(levels).filter(|(_, (at, _))| *at == level);
        let infix = of_level.map(|(rule, (_, right))| Op::infix(*rule, assoc(*right)));
        let prefix = (sign == level).then(|| Op::prefix(Rule::sign));
        let postfix = (mark == level).then(|| Op::postfix(Rule::mark));
        if let Some(op) = infix.chain(prefix).chain(postfix).reduce(|a, b| a | b) {
            parser = parser.op(op);
        }
    }
    parser
        .map_primary(|digit| digit.as_str().to_owned())
        .map_prefix(|sign, right| format!("({}{right})", sign.as_str()))
        .map_postfix(|left, mark| format!("({left}{})", mark.as_str()))
        .map_infix(|left, operator, right| format!("({left}{}{right})", operator.as_str()))
        .parse(pairs)
}

#[allow(deprecated)]
fn by_climber<'i>(pairs: impl Iterator<Item = Pair<'i, Rule>>, levels: &Levels) -> String {
    use pest::prec_climber::{Assoc, Operator, PrecClimber};
    let assoc = |right| if right { Assoc::Right } else { Assoc::Left };
    let mut operators = Vec::new();
    for level in 0..5 {
        let of_level = OPERATORS.iter().zip(levels).filter(|(_, (at, _))| *at == level);
        let of_level = of_level.map(|(rule, (_, right))| Operator::new(*rule, assoc(*right)));
        operators.extend(of_level.reduce(|a, b| a | b));
    }
    PrecClimber::new(operators).climb(
        pairs,
        |digit| digit.as_str().to_owned(),
        |left, operator, right| format!("({left}{}{right})", operator.as_str()),
    )
}
