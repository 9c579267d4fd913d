//! The answers of parsers by hand. They set what holds for a whole program, so they have one of their own.

/// How many parsers are tried.
const PARSERS: u64 = 4000;

#[test]
fn parsers_by_hand_answer_the_same() {
    for number in 0..PARSERS {
        let limit = (number % 4 == 3).then_some(10 + number as usize % 30);
        assert_eq!(here::by_hand::told(number, limit), original::by_hand::told(number, limit), "{number}");
    }
    for limit in [0, 1, 1_000_000_000] {
        assert_eq!(here::by_hand::is_stopped(limit), limit == 1, "{limit}");
        assert_eq!(original::by_hand::is_stopped(limit), limit == 1, "{limit}");
    }
}
