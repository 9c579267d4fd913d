//! The answers of parsers on texts that are put together from pieces.
use compare::{text_of, Numbers, TEXTS};
use original::{Answer, Failure};

/// How many failures agree, and which do not.
#[derive(Debug, Default)]
struct Agreement {
    matched: usize,
    failed: usize,
    /// Failures that are not the same in everything, with what both tell.
    others: Vec<String>,
}

impl Agreement {
    fn add_failure(&mut self, text: &str, here: here::Failure, original: Failure) {
        let here = Failure {
            pos: here.pos,
            line_col: here.line_col,
            positives: here.positives,
            negatives: here.negatives,
            printed: here.printed,
            detail: here.detail,
        };
        self.failed += 1;
        if here != original {
            self.others.push(format!("{text:?}: {}\nThe original:\n{}", here.printed, original.printed));
        }
    }
}

#[test]
fn parsers_answer_the_same() {
    for (here, original) in here::GRAMMARS.iter().zip(&original::GRAMMARS) {
        let (mut numbers, mut agreement) = (Numbers(1), Agreement::default());
        for number in 0..TEXTS {
            let text = text_of(&mut numbers, number, original.pieces, original.samples);
            match ((here.parse)(&text), (original.parse)(&text)) {
                (here::Answer::Pairs(here), Answer::Pairs(original)) => {
                    assert_eq!(here, original, "{text:?}");
                    agreement.matched += 1;
                }
                (here::Answer::Failure(here), Answer::Failure(original)) => {
                    agreement.add_failure(&text, here, original);
                }
                (here, original) => panic!("{text:?}: {here:?}, and original {original:?}"),
            }
        }
        let Agreement { matched, failed, others } = &agreement;
        println!("{}: {matched} match; of {failed} failures {} differ", original.name, others.len());
        others.iter().take(3).for_each(|example| println!("  {example}"));
        assert!(others.is_empty(), "{others:#?}");
        assert!(*matched > TEXTS / 20 && *failed > TEXTS / 20, "{agreement:?}");
        assert!(original.samples.iter().all(|sample| matches!((here.parse)(sample), here::Answer::Pairs(_))));
    }
}

#[test]
fn positions_and_spans_answer_the_same() {
    let (mut numbers, pieces) = (Numbers(1), ["a", "\n", "\r", "\r\n", "\t", "ä", "\u{1f600}", " ", "bc"]);
    let texts =
        (0..300).map(|_| (0..numbers.below(7)).map(|_| pieces[numbers.below(pieces.len())]).collect());
    let lines = (0..12).map(|line| format!("{line}\n")).collect();
    for text in texts.chain([lines]).collect::<Vec<String>>() {
        for (here, original) in here::places::told(&text).iter().zip(original::places::told(&text)) {
            assert_eq!(*here, original, "{text:?}");
        }
    }
}

#[test]
fn operators_group_the_same() {
    let mut numbers = Numbers(1);
    for _ in 0..TEXTS {
        let mut text = String::new();
        let only_infix = numbers.below(2) == 0;
        for at in 0..=numbers.below(8) {
            text += if at > 0 { ["+", "-", "*", "^"][numbers.below(4)] } else { "" };
            text += if only_infix { "" } else { ["", "", "~", "~~"][numbers.below(4)] };
            text += &at.to_string();
            text += if only_infix { "" } else { ["", "", "!", "!!"][numbers.below(4)] };
        }
        let levels = [(); 4].map(|()| (numbers.below(5), numbers.below(2) == 0));
        let (sign, mark) = (numbers.below(5), numbers.below(5));
        let here = here::chains::grouped(&text, &levels, sign, mark);
        assert_eq!(
            here,
            original::chains::grouped(&text, &levels, sign, mark),
            "{text} {levels:?} {sign} {mark}"
        );
    }
}

/// The parsers of the original and its printing call themselves within each list.
#[test]
fn depth_takes_no_stack() {
    assert_eq!(here::depth::printed(50), original::depth::printed(50));
    let (printed, tokens) = here::depth::printed(100_000);
    assert_eq!((printed.matches("list(").count(), tokens), (100_000, 200_000));
}

/// Steps run out on so many letters, and a guided run goes on without them.
#[test]
fn no_text_makes_a_parser_slow() {
    assert_eq!(here::hostile::tokens(12), original::hostile::tokens(12));
    assert_eq!(here::hostile::failure(12), original::hostile::failure(12));
    let letters = 20_000;
    assert_eq!(here::hostile::tokens(letters).len(), 2 * (letters + 2));
    let (pos, printed) = here::hostile::failure(letters);
    assert_eq!(pos, letters);
    assert!(printed.ends_with("= what is expected here was not found in 9028640 steps"), "{printed}");
}

#[test]
fn each_item_is_here() {
    here::probes::compiles();
    original::probes::compiles();
    for text in ["1", "1+2", "1+2*3*4-5"] {
        assert_eq!(here::probes::told(text), original::probes::told(text));
    }
}

#[test]
fn the_end_is_a_rule() {
    for text in ["", "1"] {
        assert_eq!(here::chains::end(text), original::chains::end(text));
    }
}
