//! How long the parsers take that pest_derive makes of the grammars of bench/matching: derived NAME TEXT [TURNS [walk]].
//!
//! NAME is a grammar's, or `by_hand` for the parser of JSON in `by_hand.rs`. TEXT names a file. Without TURNS it prints
//! how many tokens the parser finds, and a checksum of them, or where it fails. With TURNS the text is parsed so many
//! times, and a line has its bytes, the milliseconds of processor time that one parse takes, the least of all, and the
//! million bytes a second. With `walk` the rule and the span of each pair are read, too. bench/matching writes the
//! grammars, and bridge/figures builds this program a second time, over the crates of bridge/.
mod by_hand;

use pest::error::InputLocation;
use pest::iterators::Pairs;
use pest::{Parser, RuleType, Token};

/// The factor of the checksum, which is that of FNV-1a.
const FACTOR: u64 = 0x100_0000_01b3;

/// What the checksum takes in for the end of a tree.
const END: u64 = 256;

/// What a run prints.
#[derive(Clone, Copy)]
enum Wanted {
    /// What the parser finds.
    Answer,
    /// The time of so many parses.
    Parse(u32),
    /// The time of so many parses, with a walk over all pairs.
    Walk(u32),
}

extern "C" {
    /// The processor time of this process, in microseconds.
    fn clock() -> i64;
}

fn now() -> i64 {
    unsafe { clock() }
}

/// Takes a value into a checksum.
fn mix(sum: u64, value: u64) -> u64 {
    (sum ^ value).wrapping_mul(FACTOR)
}

/// The number of tokens, and a checksum of their rules and positions.
fn checksum<R: RuleType>(pairs: Pairs<R>) -> (usize, u64) {
    let mut count = 0;
    let mut sum = 0;
    for token in pairs.tokens() {
        count += 1;
        sum = match token {
            Token::Start { rule, pos } => {
                let name = format!("{rule:?}");
                let named = name.bytes().fold(sum, |sum, byte| mix(sum, u64::from(byte)));
                mix(named, pos.pos() as u64)
            }
            Token::End { pos, .. } => mix(mix(sum, END), pos.pos() as u64),
        };
    }
    (count, sum)
}

/// Prints what a parser finds in a text.
fn describe<P: Parser<R>, R: RuleType>(rule: R, text: &str) {
    match P::parse(rule, text) {
        Ok(pairs) => {
            let (count, sum) = checksum(pairs);
            println!("{count} tokens, {sum}");
        }
        Err(error) => match error.location {
            InputLocation::Pos(place) => println!("no match, at byte {place}"),
            InputLocation::Span((start, _)) => println!("no match, at byte {start}"),
        },
    }
}

/// Prints what so many parses of a text take, at the least.
fn measure<T>(text: &str, turns: u32, parse: impl Fn() -> Option<T>) {
    let mut least = i64::MAX;
    for _ in 0..turns {
        let start = now();
        let found = parse();
        least = least.min(now() - start);
        drop(found.expect("a text that the grammar has"));
    }
    let bytes = text.len();
    let milliseconds = least as f64 / 1e3;
    let rate = bytes as f64 / least as f64;
    println!("{bytes:>9} bytes {milliseconds:>10.3} ms {rate:>8.1} MB/s");
}

/// The sum of the lengths of all pairs whose rule is another than that of the pair before.
fn walk<R: RuleType>(pairs: Pairs<R>) -> usize {
    let (mut sum, mut before) = (0, None);
    for pair in pairs.flatten() {
        let (rule, span) = (pair.as_rule(), pair.as_span());
        if before != Some(rule) {
            sum += span.end() - span.start();
        }
        before = Some(rule);
    }
    sum
}

fn run<P: Parser<R>, R: RuleType>(rule: R, text: &str, wanted: Wanted) {
    match wanted {
        Wanted::Parse(turns) => measure(text, turns, || P::parse(rule, text).ok()),
        Wanted::Walk(turns) => measure(text, turns, || P::parse(rule, text).ok().map(walk)),
        Wanted::Answer => describe::<P, R>(rule, text),
    }
}

/// What `run` does, by the parser that is written by hand.
fn run_by_hand(text: &str, wanted: Wanted) {
    match wanted {
        Wanted::Parse(turns) | Wanted::Walk(turns) => measure(text, turns, || by_hand::read(text)),
        Wanted::Answer => match by_hand::read(text) {
            Some(tokens) => println!("{} tokens, {}", tokens.len(), by_hand::checksum(&tokens, mix, END)),
            None => println!("no match"),
        },
    }
}

macro_rules! parsers {
    ($($name:ident $start:ident $grammar:tt)*) => {
        $(mod $name {
            #[derive(pest_derive::Parser)]
            #[grammar = $grammar]
            pub struct Derived;
        })*

        fn run_named(name: &str, text: &str, wanted: Wanted) {
            match name {
                $(stringify!($name) => run::<$name::Derived, _>($name::Rule::$start, text, wanted),)*
                _ => panic!("no grammar {name}"),
            }
        }
    };
}

parsers! {
    json json "../../../out/bench/grammars/json.pest"
    json_comments json "../../../out/bench/grammars/json_comments.pest"
    json_characters json "../../../out/bench/grammars/json_characters.pest"
    json_newlines json "../../../out/bench/grammars/json_newlines.pest"
    toml toml "../../../out/bench/grammars/toml.pest"
    csv file "../../../out/bench/grammars/csv.pest"
    lua chunk "../../../out/bench/grammars/lua.pest"
    lua_levels chunk "../../../out/bench/grammars/lua_levels.pest"
    ladder program "../../../out/bench/grammars/ladder.pest"
    indentation outline "../../../out/bench/grammars/indentation.pest"
    letters letters "../../../out/bench/grammars/letters.pest"
}

fn main() {
    let words: Vec<String> = std::env::args().skip(1).collect();
    let turns = |word: &String| word.parse().expect("the number of turns");
    let (name, file, wanted) = match &words[..] {
        [name, file] => (name, file, Wanted::Answer),
        [name, file, times] => (name, file, Wanted::Parse(turns(times))),
        [name, file, times, mode] if mode == "walk" => (name, file, Wanted::Walk(turns(times))),
        _ => panic!("derived NAME TEXT [TURNS [walk]]"),
    };
    let text = std::fs::read_to_string(file).expect("a file of text");
    match name.as_str() {
        "by_hand" => run_by_hand(&text, wanted),
        _ => run_named(name, &text, wanted),
    }
}
