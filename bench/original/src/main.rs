//! How long the original crate `pest_meta` takes on the shapes of grammars that bench/src/meta_bench has: original
//! CALL SHAPE:SIZE. It prints the milliseconds, the least of several turns.
use pest_meta::parser::{self, Rule};
use pest_meta::{optimizer, validator};
use std::time::{Duration, Instant};

/// What stands before so many lines, such a line, what stands behind them, and the same of other lines, of which
/// there is one for each of the first.
struct Shape {
    name: &'static str,
    begin: &'static str,
    line: &'static str,
    end: &'static str,
    other: &'static str,
    last: &'static str,
}

/// A shape without other lines.
const fn plain(name: &'static str, begin: &'static str, line: &'static str, end: &'static str) -> Shape {
    Shape { name, begin, line, end, other: "", last: "" }
}

/// The same texts as in bench/src/meta_bench/src/shapes.rt.txt.
const SHAPES: [Shape; 12] = [
    plain("chain", "", "r№ = { r↑ }\n", "r№ = { \"x\" }\n"),
    plain("cycle", "", "r№ = { r↻ }\n", ""),
    plain("beside", "a = { a }\n", "r№ = { \"x\"? ~ \"y\"? }\n", ""),
    plain("itself", "", "r№ = { r№? ~ \"y\"? }\n", ""),
    plain("crossing", "", "r№ = { r⇆ }\n", "r№ = { \"\" }\n"),
    Shape {
        name: "passed",
        begin: "s = { \"x\"",
        line: " | \"№\"",
        end: " | 'a'..'b' }\nt = @{ \"x\"",
        other: " ~ (!s ~ ANY)*",
        last: " }\n",
    },
    plain("literals", "a = @{ \"x\"", " ~ \"№\"", " }\n"),
    Shape {
        name: "copied",
        begin: "a = { \"",
        line: "0123456789abcdef0123456789abcdef0123456789abcdef0123456789abcdef",
        end: "\"",
        other: "{1}",
        last: " }\n",
    },
    plain("ranges", "", "r№ = @{ (!\"a\" ~ 'b'..'c')* ~ \"№\" }\n", ""),
    plain("undefined", "a = { \"x\"", " | b№", " }\n"),
    plain("twice", "", "a={b}", ""),
    plain("endless", "a = { \"x\"", " ~ \"\"*", " }\n"),
];

/// The number that follows on the way from the first to the last, the second, the last but one and so on.
fn across(number: usize, numbers: usize) -> usize {
    let from_the_end = numbers - number;
    let next = if number < from_the_end { from_the_end - 1 } else { from_the_end };
    if next == number { numbers } else { next }
}

/// A line as it is written for one of so many numbers.
fn line(line: &str, number: usize, numbers: usize) -> String {
    line.replace('№', &number.to_string())
        .replace('↑', &(number + 1).to_string())
        .replace('↻', &((number + 1) % numbers.max(1)).to_string())
        .replace('⇆', &across(number, numbers).to_string())
}

/// The text of a shape of some size.
fn text_of(shape: &Shape, size: usize) -> String {
    let lines: String = (0..size).map(|number| line(shape.line, number, size)).collect();
    let others = shape.other.repeat(if shape.other.is_empty() { 0 } else { size });
    format!("{}{lines}{}{others}{}", shape.begin, line(shape.end, size, size), shape.last)
}

/// The time of one call on a text; what it is given is made before.
fn time_of(call: &str, text: &str) -> Duration {
    let pairs = parser::parse(Rule::grammar_rules, text).expect("the text is a grammar");
    let start = Instant::now();
    match call {
        "validate_pairs" => {
            let _told = validator::validate_pairs(pairs);
            start.elapsed()
        }
        "consume_rules" => {
            let _told = parser::consume_rules(pairs);
            start.elapsed()
        }
        "optimize" => {
            let rules = parser::consume_rules(pairs).expect("the rules are well-formed");
            let start = Instant::now();
            let _rules = optimizer::optimize(rules);
            start.elapsed()
        }
        "whole" => {
            let _answer = pest_meta::parse_and_optimize(text);
            start.elapsed()
        }
        _ => panic!("no such call: {call}"),
    }
}

fn main() {
    let arguments: Vec<String> = std::env::args().skip(1).collect();
    let [call, shaped] = arguments.as_slice() else { panic!("original CALL SHAPE:SIZE") };
    let (name, size) = shaped.split_once(':').expect("a shape and its size");
    let shape = SHAPES.iter().find(|shape| shape.name == name).expect("a shape");
    let text = text_of(shape, size.parse().expect("a size"));
    let mut least = time_of(call, &text);
    let begin = Instant::now();
    for _ in 0..4 {
        if begin.elapsed() < Duration::from_secs(5) {
            least = least.min(time_of(call, &text));
        }
    }
    println!("{:.3}", least.as_secs_f64() * 1e3);
}
