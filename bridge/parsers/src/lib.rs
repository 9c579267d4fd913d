//! Parsers of some grammars, and what they answer as values that name no crate.
//!
//! The grammars are those of the tests of the crate pest_vm, of ../programs and of this folder.
pub mod by_hand;
pub mod chains;
pub mod depth;
pub mod hostile;
pub mod places;
pub mod probes;

use pest::error::{Error, ErrorVariant, InputLocation, IsWhitespaceFn, LineColLocation, RuleToMessageFn};
use pest::iterators::Pairs;
use pest::{Parser, RuleType, Token};

/// What a parser answers for a text.
#[derive(Clone, Debug, PartialEq)]
pub enum Answer {
    /// The text matches: what each call of the pairs answers.
    Pairs(Vec<String>),
    /// It does not.
    Failure(Failure),
}

/// A parser's error.
#[derive(Clone, Debug, PartialEq)]
pub struct Failure {
    pub pos: usize,
    pub line_col: (usize, usize),
    pub positives: Vec<String>,
    pub negatives: Vec<String>,
    pub printed: String,
    /// What was tried, if errors are to tell it.
    pub detail: Vec<String>,
}

/// A grammar, and texts to be parsed by it.
pub struct Grammar {
    pub name: &'static str,
    pub parse: fn(&str) -> Answer,
    /// Pieces that texts are put together of.
    pub pieces: &'static [&'static str],
    /// Texts that match.
    pub samples: &'static [&'static str],
}

fn answer<R: RuleType, P: Parser<R>>(rule: R, text: &str) -> Answer {
    let error = match P::parse(rule, text) {
        Ok(pairs) => return Answer::Pairs(walked(pairs)),
        Err(error) => error,
    };
    let (printed, detail) = (error.to_string(), detail_of(&error, text));
    let (InputLocation::Pos(pos), LineColLocation::Pos(line_col)) = (error.location, error.line_col) else {
        panic!("a parser's error is at a position");
    };
    let names = |rules: Vec<R>| rules.iter().map(|rule| format!("{rule:?}")).collect();
    match error.variant {
        ErrorVariant::ParsingError { positives, negatives } => {
            let (positives, negatives) = (names(positives), names(negatives));
            Answer::Failure(Failure { pos, line_col, positives, negatives, printed, detail })
        }
        ErrorVariant::CustomError { message } => panic!("a parser's error has rules: {message}"),
    }
}

/// Has all errors tell what was tried.
pub fn tell_in_detail() {
    pest::set_error_detail(true);
}

/// What an error tells of what was tried.
fn detail_of<R: RuleType>(error: &Error<R>, text: &str) -> Vec<String> {
    let Some(attempts) = error.parse_attempts() else { return Vec::new() };
    let message: RuleToMessageFn<R> = Box::new(|rule| Some(format!("a {rule:?}")));
    let is_blank: IsWhitespaceFn = Box::new(|token| token.trim().is_empty());
    let told = error.parse_attempts_error(text, &message, &is_blank);
    vec![
        format!("{:?}", attempts.expected_tokens()),
        format!("{:?}", attempts.unexpected_tokens()),
        format!("{:?}", attempts.call_stacks()),
        attempts.max_position.to_string(),
        told.map(|error| error.to_string()).unwrap_or_default(),
    ]
}

/// What each call of pairs answers, and of all pairs inside.
fn walked<R: RuleType>(pairs: Pairs<'_, R>) -> Vec<String> {
    let mut told = vec![
        format!("{pairs} {pairs:#} {pairs:?} {pairs:#?}"),
        format!("{:?} {:?} {:?}", pairs.as_str(), pairs.concat(), pairs.peek()),
        format!("{:?}", pairs.clone().rev().map(|pair| pair.as_rule()).collect::<Vec<_>>()),
        format!("{:?}", pairs.clone().tokens().map(token).collect::<Vec<_>>()),
        format!("{:?}", pairs.clone().tokens().rev().map(token).collect::<Vec<_>>()),
        format!("{:?}", pairs.clone().flatten().rev().map(|pair| pair.as_span()).collect::<Vec<_>>()),
        format!("{:?} {}", pairs.clone().flatten(), pairs.clone().flatten().count()),
    ];
    let mut rest = pairs.clone().flatten();
    while rest.next().is_some() {
        told.push(format!("{:?}", rest.clone().tokens().map(token).collect::<Vec<_>>()));
        if rest.next_back().is_some() {
            told.push(format!("{:?}", rest.clone().tokens().rev().map(token).collect::<Vec<_>>()));
        }
    }
    for pair in pairs.flatten() {
        let inner = pair.clone().into_inner();
        let mut ends = pair.clone().into_inner();
        let (first, last, rest) = (ends.next(), ends.next_back(), ends.as_str());
        told.push(format!(
            "{pair} {pair:#} {pair:?} {:?} {:?} {:?}",
            pair.as_rule(),
            pair.as_str(),
            pair.as_span()
        ));
        told.push(format!("{:?} {:?} {first:?} {last:?} {rest:?}", inner.as_str(), inner.concat()));
        told.push(format!("{:?}", pair.as_span().start_pos().line_col()));
        told.push(format!("{:?}", pair.as_span().lines().collect::<Vec<_>>()));
        told.push(format!("{:?}", inner.rev().map(|pair| pair.as_rule()).collect::<Vec<_>>()));
        told.push(format!("{:?}", pair.tokens().collect::<Vec<_>>()));
    }
    told
}

fn token<R: RuleType>(token: Token<'_, R>) -> (R, bool, usize) {
    match token {
        Token::Start { rule, pos } => (rule, true, pos.pos()),
        Token::End { rule, pos } => (rule, false, pos.pos()),
    }
}

/// A module for a grammar.
macro_rules! grammar {
    ($module:ident, $file:literal, $rule:ident, $pieces:expr, $samples:expr) => {
        mod $module {
            #[derive(pest_derive::Parser)]
            #[grammar = $file]
            struct Derived;

            pub(crate) const GRAMMAR: crate::Grammar = crate::Grammar {
                name: stringify!($module),
                parse: |text| crate::answer::<Rule, Derived>(Rule::$rule, text),
                pieces: &$pieces,
                samples: &$samples,
            };
        }
    };
}

grammar!(
    lists,
    "../pest_vm/tests/grammars/lists.pest",
    file,
    ["[", "]", ",", " ", "a", "b1_", "-12", "1234", "\n", "# c\n", "[a]", "[a,b]", "ä", "[-1 , [x]]", "\r\n"],
    ["", "[]", "[a, b_1 , -12]", "[[a],[b,[c]]]", "# all\n[a,# one\n b]"]
);

grammar!(
    sums,
    "../pest_vm/tests/grammars/sums.pest",
    sum,
    ["1", "23", ".5", "+", "-", "*", "(", ")", " ", "!", "(1+2)", "x", "1.5 * 2", "--", "\n"],
    ["1", "1+2*3", "-(1 + 2.5)! * --3!!", "( 1 ) - 2"]
);

grammar!(
    quotes,
    "../pest_vm/tests/grammars/quotes.pest",
    file,
    ["\"", "'", "#", "\"#", "<", "<<", " ", "a", "\\", "\\\n", "ä", "'a'", "\"##b\"##", "<x<", "\r\n", "\r"],
    ["", "'a'", "\"#a\"b\"#", "<<a<b<<", "'\\'a' \"b\""]
);

grammar!(
    words,
    "../pest_vm/tests/grammars/words.pest",
    text,
    [
        "let", "LET", "if", "else", "Else", " ", "a", "iffy", "_", "=", "(", ")", ";", "é", "0xff", "0x1",
        "a();", "\n"
    ],
    ["", "let a = b;", "LET iffy=é;;", "if a else b();", "if a() ELSE 0xfF ; letter();"]
);

grammar!(
    json,
    "../pest_vm/tests/grammars/json.pest",
    json,
    [
        "{",
        "}",
        "[",
        "]",
        ",",
        ":",
        "\"",
        "\"a\"",
        "1",
        "-0.5",
        "01",
        "true",
        "null",
        " ",
        "\\n",
        "\"\\u12ab\":",
        "[1,2]",
        "{}",
        "\n"
    ],
    ["1", "{}", "[1, -2.5 , \"a\\n\"]", "{\"a\": [true,{\"b\":null}], \"\": 0}", "[[[[]]]]"]
);

grammar!(
    calculator,
    "../programs/src/calculator.pest",
    equation,
    ["1", "23", "+", "-", "*", "/", "%", "^", "!", "(", ")", " ", "(1+2)", "x", "2 ^ 3"],
    ["1", "1 + 2 * 3", "-2 ^ (3 - 4!)", "((1))"]
);

grammar!(
    csv,
    "../programs/src/csv.pest",
    file,
    ["1", "-2.5", ",", "\n", "\r\n", "1,2\n", "x", " ", ".", "\r"],
    ["", "1\n", "1,2,3\n4.5,-6\r\n"]
);

grammar!(
    statements,
    "statements.pest",
    file,
    ["a", "=", ";", "end", "stop", "1", " ", "a=1;", "b = c;", "endless", "=end"],
    ["a=1;", "a = b; c = 2; end", "x=y;stop"]
);

/// All grammars.
pub const GRAMMARS: [Grammar; 8] = [
    lists::GRAMMAR,
    sums::GRAMMAR,
    quotes::GRAMMAR,
    words::GRAMMAR,
    json::GRAMMAR,
    calculator::GRAMMAR,
    csv::GRAMMAR,
    statements::GRAMMAR,
];
