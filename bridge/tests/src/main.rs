//! Prints how long it takes to read and optimize each of the given grammars, by this crate and by the
//! original: by the four calls that a derive makes, and by `parse_and_optimize`.
//!
//! A figure is the shortest of 51 runs: what else is at work on the machine makes runs longer, and none
//! shorter. Both crates run in turn. Every other run has one more line break at the end of the grammar, since this
//! crate keeps the answer for the last grammar.
use std::time::{Duration, Instant};
use std::{env, fs, hint};

const RUNS: usize = 51;

/// The calls of a derive: whether the crate of that name accepts a grammar by them.
macro_rules! by_steps {
    ($meta:ident, $text:expr) => {{
        let pairs = $meta::parser::parse($meta::parser::Rule::grammar_rules, $text).expect("a grammar");
        let builtins = $meta::validator::validate_pairs(pairs.clone());
        let rules = $meta::parser::consume_rules(pairs).expect("rules");
        builtins.is_ok() && !$meta::optimizer::optimize(rules).is_empty()
    }};
}

fn main() {
    let mut grammars: Vec<(String, String)> = env::args().skip(1).map(read).collect();
    grammars.sort_by_key(|(_, text)| text.len());
    print_rows(
        "by the calls of a derive",
        &grammars,
        |text| by_steps!(pest_meta, text),
        |text| by_steps!(original, text),
    );
    print_rows(
        "by parse_and_optimize",
        &grammars,
        |text| pest_meta::parse_and_optimize(text).is_ok(),
        |text| original::parse_and_optimize(text).is_ok(),
    );
}

/// Prints a row for each grammar, and one for all, of two ways to read it.
fn print_rows(
    heading: &str,
    grammars: &[(String, String)],
    here: impl Fn(&str) -> bool,
    original: impl Fn(&str) -> bool,
) {
    println!("{heading:40} {:>8} {:>12} {:>12} {:>6}", "bytes", "here", "original", "ratio");
    let (mut bytes, mut here_in_all, mut original_in_all) = (0, Duration::ZERO, Duration::ZERO);
    for (name, text) in grammars {
        let [here, original] = shortest(text, [&here, &original]);
        print_row(name, text.len(), here, original);
        bytes += text.len();
        here_in_all += here;
        original_in_all += original;
    }
    print_row("all", bytes, here_in_all, original_in_all);
}

fn read(file: String) -> (String, String) {
    let text = fs::read_to_string(&file).expect("the grammar can be read");
    (file.rsplit('/').next().unwrap_or(&file).to_owned(), text)
}

/// The shortest time of a run of each of two ways, which answer whether the grammar was accepted.
fn shortest(text: &str, ways: [&dyn Fn(&str) -> bool; 2]) -> [Duration; 2] {
    let texts = [text.to_owned(), format!("{text}\n")];
    let mut least = [Duration::MAX; 2];
    for run in 0..RUNS {
        for (least, way) in least.iter_mut().zip(ways) {
            let start = Instant::now();
            assert!(hint::black_box(way(&texts[run % 2])), "the grammar is accepted");
            *least = start.elapsed().min(*least);
        }
    }
    least
}

fn print_row(name: &str, bytes: usize, here: Duration, original: Duration) {
    let ratio = here.as_secs_f64() / original.as_secs_f64();
    let [here, original] = [here, original].map(|time| format!("{time:.1?}"));
    println!("{name:40} {bytes:8} {here:>12} {original:>12} {ratio:6.1}");
}
