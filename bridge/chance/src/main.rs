//! Compares pest_vm with the crate of that name here: chance GRAMMARS [SEED]. Prints how many grammars both take and how many
//! answers are the same. The status is 1 where trees differ, where a grammar is refused here for another reason than left
//! recursion, or where more than one error of a thousand differs.
mod grammars;

use std::num::NonZeroUsize;
use std::panic::catch_unwind;
use std::process::ExitCode;
use std::{env, panic, thread};

use grammars::{grammar, text, Numbers, RULES};

/// Texts for each grammar.
const TEXTS: usize = 12;
/// The original calls itself in rules, which takes stack by its calls.
const CALLS: usize = 20_000;
/// So many calls, as this side counts them, are more than the original makes.
const CALLS_HERE: usize = 5 * CALLS;
const STACK: usize = 1 << 30;

/// What was compared.
#[derive(Debug, Default)]
struct Counts {
    taken: usize,
    refused_by_both: usize,
    /// Refused here alone, since they are left-recursive.
    refused_here: usize,
    trees: usize,
    errors: usize,
    /// Texts for which a rule is stopped: the original panics, or makes too many calls.
    unanswered: usize,
    other_errors: usize,
    wrong: usize,
}

/// An answer: pairs or an error, as text.
type Answer = Result<String, String>;

fn compare(numbers: &mut Numbers, counts: &mut Counts) {
    let grammar = grammar(numbers);
    let theirs = catch_unwind(|| pest_meta::parse_and_optimize(&grammar).map(|(_, rules)| rules));
    let ours = here_meta::parse_and_optimize(&grammar).map(|(_, rules)| rules);
    let (theirs, ours) = match (theirs, ours) {
        (Ok(Ok(theirs)), Ok(ours)) => match catch_unwind(|| here_vm::Vm::new(ours)) {
            Ok(ours) => (pest_vm::Vm::new(theirs), ours),
            Err(_) => return tell(counts, &grammar, "not compiled here"),
        },
        (Ok(Ok(_)), Err(errors)) if errors.iter().any(|it| it.to_string().contains("left-recursive")) => {
            counts.refused_here += 1;
            return;
        }
        (Ok(Ok(_)), Err(errors)) => return tell(counts, &grammar, &format!("refused here: {}", errors[0])),
        (Ok(Err(_)), Ok(_)) => return tell(counts, &grammar, "refused by the original alone"),
        (Ok(Err(_)) | Err(_), _) => {
            counts.refused_by_both += 1;
            return;
        }
    };
    counts.taken += 1;
    for _ in 0..TEXTS {
        let (rule, text) = (RULES[numbers.below(RULES.len())], text(numbers));
        let answered = catch_unwind(panic::AssertUnwindSafe(|| their_answer(&theirs, rule, &text)));
        let (Ok(Some(theirs)), Some(ours)) = (answered, our_answer(&ours, rule, &text)) else {
            counts.unanswered += 1;
            continue;
        };
        match (theirs, ours) {
            (Ok(theirs), Ok(ours)) if theirs == ours => counts.trees += 1,
            (Err(theirs), Err(ours)) if theirs == ours => counts.errors += 1,
            (Err(theirs), Err(ours)) => {
                counts.other_errors += 1;
                println!("{grammar}{rule} on {text:?}:\n{ours}\nthe original:\n{theirs}\n");
            }
            (theirs, ours) => {
                tell(counts, &grammar, &format!("{rule} on {text:?}: {ours:?}, and the original {theirs:?}"));
            }
        }
    }
}

fn their_answer(vm: &pest_vm::Vm, rule: &str, text: &str) -> Option<Answer> {
    match vm.parse(rule, text) {
        Ok(pairs) => Some(Ok(format!("{pairs:#}"))),
        Err(error) if error.to_string().ends_with("call limit reached") => None,
        Err(error) => Some(Err(error.to_string())),
    }
}

/// The original has no answer either where a rule is stopped here: it goes on for ever, or panics. With a limit of calls it
/// takes what it has done until then for a match.
fn our_answer(vm: &here_vm::Vm, rule: &str, text: &str) -> Option<Answer> {
    match vm.parse(rule, text) {
        Ok(pairs) => Some(Ok(format!("{pairs:#}"))),
        Err(error) => {
            let told = error.to_string();
            let is_stopped =
                ["call limit reached", "on the empty stack"].iter().any(|end| told.ends_with(end));
            (!is_stopped).then_some(Err(told))
        }
    }
}

fn tell(counts: &mut Counts, grammar: &str, what: &str) {
    counts.wrong += 1;
    println!("{grammar}{what}\n");
}

fn run(count: usize, seed: u64) -> Counts {
    pest::set_call_limit(NonZeroUsize::new(CALLS));
    here_vm::runtime::set_call_limit(NonZeroUsize::new(CALLS_HERE));
    panic::set_hook(Box::new(|_| {}));
    let (mut numbers, mut counts) = (Numbers(seed), Counts::default());
    while counts.taken < count {
        compare(&mut numbers, &mut counts);
    }
    counts
}

fn main() -> ExitCode {
    let mut words = env::args().skip(1).map(|word| word.parse().expect("a number"));
    let (count, seed) = (words.next().unwrap_or(500), words.next().unwrap_or(1));
    let runner = thread::Builder::new().stack_size(STACK).spawn(move || run(count as usize, seed));
    let counts = runner.expect("a thread").join().expect("no panic");
    println!("{counts:?}");
    let is_wrong = counts.wrong > 0 || counts.other_errors > counts.errors / 1000;
    ExitCode::from(u8::from(is_wrong))
}
