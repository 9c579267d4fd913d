//! What parsers of grammars tried, where errors are to tell it in detail: that is set for a whole process.
use compare::{text_of, Numbers, TEXTS};

#[test]
fn parsers_try_the_same() {
    here::tell_in_detail();
    original::tell_in_detail();
    for (here, original) in here::GRAMMARS.iter().zip(&original::GRAMMARS) {
        let (mut numbers, mut failed, mut others) = (Numbers(2), 0, Vec::new());
        for number in 0..TEXTS {
            let text = text_of(&mut numbers, number, original.pieces, original.samples);
            let (here::Answer::Failure(here), original::Answer::Failure(original)) =
                ((here.parse)(&text), (original.parse)(&text))
            else {
                continue;
            };
            failed += 1;
            if here.detail != original.detail {
                others.push(format!("{text:?}: {:#?}\nThe original:\n{:#?}", here.detail, original.detail));
            }
        }
        println!("{}: {failed} failures, {} differ in detail", original.name, others.len());
        assert!(others.is_empty(), "{}", others[..others.len().min(3)].join("\n"));
        assert!(failed > TEXTS / 20, "{failed}");
    }
}
