//! Parsers by hand, put together as by chance.
use pest::error::{IsWhitespaceFn, RuleToMessageFn};
use pest::{
    set_call_limit, set_error_detail, state, Atomicity, Lookahead, MatchDir, ParseResult, ParserState,
};

type State<'i> = Box<ParserState<'i, u8>>;

/// Numbers that look as if they came by chance: a linear congruential generator.
struct Numbers(u64);

impl Numbers {
    fn below(&mut self, end: u64) -> u64 {
        self.0 = self.0.wrapping_mul(6364136223846793005).wrapping_add(1442695040888963407);
        (self.0 >> 33) % end
    }
}

/// An expression of a parser.
#[derive(Debug)]
enum Expr {
    Text(&'static str),
    Insensitive(&'static str),
    Range(char, char),
    By,
    Skip(usize),
    Until(&'static [&'static str]),
    Start,
    End,
    Slice(i32, Option<i32>, bool),
    MatchPeek,
    MatchPop,
    Drop,
    Literal(&'static str),
    Rule(u8, Box<Expr>),
    Tag(&'static str, Box<Expr>),
    Sequence(Vec<Expr>),
    Choice(Vec<Expr>),
    Repeat(Box<Expr>),
    Optional(Box<Expr>),
    Lookahead(bool, Box<Expr>),
    Atomic(Atomicity, Box<Expr>),
    /// Pushed, and then matched or taken.
    Push(Box<Expr>, bool),
    Restore(Box<Expr>),
}

fn expr(numbers: &mut Numbers, depth: u64) -> Expr {
    if depth == 0 || numbers.below(4) == 0 {
        return match numbers.below(15) {
            0 => Expr::Insensitive(["a", "Ä", "aB"][numbers.below(3) as usize]),
            1 => Expr::Range('a', ['b', 'c', 'ä'][numbers.below(3) as usize]),
            2 => Expr::By,
            3 => Expr::Skip(numbers.below(3) as usize),
            4 => Expr::Until([&["b"][..], &["b", "ä"], &["ca", "b", "x"]][numbers.below(3) as usize]),
            5 => Expr::Start,
            6 => Expr::End,
            7 => Expr::Slice(numbers.below(4) as i32 - 2, None, numbers.below(2) == 0),
            8 => Expr::Slice(
                numbers.below(4) as i32 - 2,
                Some(numbers.below(4) as i32 - 2),
                numbers.below(2) == 0,
            ),
            9 => [Expr::MatchPeek, Expr::MatchPop, Expr::Drop]
                .into_iter()
                .nth(numbers.below(3) as usize)
                .expect("three"),
            10 => Expr::Literal(["a", "b"][numbers.below(2) as usize]),
            _ => Expr::Text(["a", "b", "c", "ab", "ä", " "][numbers.below(6) as usize]),
        };
    }
    let several =
        |numbers: &mut Numbers| (0..2 + numbers.below(2)).map(|_| expr(numbers, depth - 1)).collect();
    let kind = numbers.below(13);
    let one = |numbers: &mut Numbers| Box::new(expr(numbers, depth - 1));
    match kind {
        0..=2 => Expr::Rule(numbers.below(6) as u8, one(numbers)),
        3 | 4 => Expr::Sequence(several(numbers)),
        5 => Expr::Choice(several(numbers)),
        6 => Expr::Repeat(one(numbers)),
        7 => Expr::Optional(one(numbers)),
        8 => Expr::Lookahead(numbers.below(2) == 0, one(numbers)),
        9 => {
            let modes = [Atomicity::Atomic, Atomicity::CompoundAtomic, Atomicity::NonAtomic];
            Expr::Atomic(modes[numbers.below(3) as usize], one(numbers))
        }
        10 => Expr::Push(one(numbers), numbers.below(2) == 0),
        11 => Expr::Restore(one(numbers)),
        _ => Expr::Tag(["t", "u"][numbers.below(2) as usize], one(numbers)),
    }
}

fn run<'i>(expr: &Expr, state: State<'i>) -> ParseResult<State<'i>> {
    match expr {
        Expr::Text(text) => state.match_string(text),
        Expr::Insensitive(text) => state.match_insensitive(text),
        Expr::Range(start, end) => state.match_range(*start..*end),
        Expr::By => state.match_char_by(char::is_alphabetic),
        Expr::Skip(count) => state.skip(*count),
        Expr::Until(texts) => state.skip_until(texts),
        Expr::Start => state.start_of_input(),
        Expr::End => state.end_of_input(),
        Expr::Slice(start, end, is_up) => {
            let order = if *is_up { MatchDir::BottomToTop } else { MatchDir::TopToBottom };
            state.stack_match_peek_slice(*start, *end, order)
        }
        Expr::MatchPeek => state.stack_match_peek(),
        Expr::MatchPop => state.stack_match_pop(),
        Expr::Drop => state.stack_drop(),
        Expr::Literal(text) => state.stack_push_literal(*text),
        Expr::Rule(rule, inner) => state.rule(*rule, |state| run(inner, state)),
        Expr::Tag(tag, inner) => run(inner, state)?.tag_node(tag),
        Expr::Sequence(parts) => {
            state.sequence(|state| parts.iter().try_fold(state, |state, part| run(part, state)))
        }
        Expr::Choice(parts) => {
            parts.iter().fold(Err(state), |before, part| before.or_else(|state| run(part, state)))
        }
        Expr::Repeat(inner) => state.repeat(|state| {
            let start = state.position().pos();
            let state = run(inner, state)?;
            if state.position().pos() > start {
                Ok(state)
            } else {
                Err(state)
            }
        }),
        Expr::Optional(inner) => state.optional(|state| run(inner, state)),
        Expr::Lookahead(is_positive, inner) => state.lookahead(*is_positive, |state| run(inner, state)),
        Expr::Atomic(mode, inner) => state.atomic(*mode, |state| run(inner, state)),
        Expr::Push(inner, is_taken) => {
            let state = state.stack_push(|state| run(inner, state))?;
            if *is_taken {
                state.stack_pop()
            } else {
                state.stack_peek()
            }
        }
        Expr::Restore(inner) => state.restore_on_err(|state| run(inner, state)),
    }
}

/// What the parser of a number answers for some texts, with details of errors and a limit of calls, if there is one.
pub fn told(number: u64, limit: Option<usize>) -> Vec<String> {
    let mut numbers = Numbers(number);
    let expr = Expr::Rule(9, Box::new(expr(&mut numbers, 5)));
    set_error_detail(true);
    set_call_limit(limit.and_then(std::num::NonZeroUsize::new));
    let texts = (0..12).map(|_| {
        (0..numbers.below(7)).map(|_| ["a", "b", "c", "ä", " "][numbers.below(5) as usize]).collect()
    });
    let told = texts.collect::<Vec<String>>().iter().map(|text| answer(&expr, text)).collect();
    set_call_limit(None);
    told
}

fn answer(expr: &Expr, text: &str) -> String {
    let error = match state(text, |state| run(expr, state)) {
        Ok(pairs) => {
            let tags = pairs.clone().find_tagged("t").count();
            let first = pairs.find_first_tagged("u").map(|pair| pair.as_str().to_owned());
            return format!("{text:?}: {pairs:#} {pairs:?} {tags} {first:?} {}", pairs.to_json());
        }
        Err(error) => error,
    };
    let attempts = error.parse_attempts().expect("details were asked for");
    let stacks = attempts.call_stacks();
    let tokens = (attempts.expected_tokens(), attempts.unexpected_tokens());
    let message: RuleToMessageFn<u8> = Box::new(|rule| (*rule < 4).then(|| format!("rule {rule}")));
    let is_blank: IsWhitespaceFn = Box::new(|token| token == " ");
    let told = error.parse_attempts_error(text, &message, &is_blank).expect("details were asked for");
    let place = (error.location.clone(), error.line_col.clone(), attempts.max_position);
    format!("{text:?}: {error} {:?} {place:?} {stacks:?} {tokens:?} {told}", error.variant)
}

/// Whether a parser of a grammar comes to a limit of calls on a text of 200 letters.
pub fn is_stopped(limit: usize) -> bool {
    set_call_limit(std::num::NonZeroUsize::new(limit));
    let told = crate::hostile::parsed(200);
    set_call_limit(None);
    told.is_some_and(|error| error.ends_with("= call limit reached"))
}

/// The kinds of predicates, as a program may name them.
pub fn kinds() -> String {
    format!("{:?}", [Lookahead::Positive, Lookahead::Negative, Lookahead::None])
}
