//! Grammars and texts, put together as by chance.

/// Numbers that look as if they came by chance: a linear congruential generator.
pub struct Numbers(pub u64);

impl Numbers {
    /// A number below another.
    pub fn below(&mut self, end: usize) -> usize {
        self.0 = self.0.wrapping_mul(6364136223846793005).wrapping_add(1442695040888963407);
        (self.0 >> 33) as usize % end
    }

    fn one_of<'a>(&mut self, words: &[&'a str]) -> &'a str {
        words[self.below(words.len())]
    }
}

/// The rules of each grammar, of which any may be run.
pub const RULES: [&str; 5] = ["a", "b", "c", "d", "e"];

/// A grammar. A quarter use the stack, and a quarter skip blanks or comments.
pub fn grammar(numbers: &mut Numbers) -> String {
    let uses_stack = numbers.below(4) == 0;
    let mut text = String::new();
    for name in RULES {
        let kind = numbers.one_of(&["", "", "", "", "_", "@", "$", "!"]);
        let body = expr(numbers, 3, uses_stack);
        text += &format!("{name} = {kind}{{ {body} }}\n");
    }
    match numbers.below(8) {
        0 => text += "WHITESPACE = _{ \" \" }\n",
        1 => text += "WHITESPACE = { \" \" }\nCOMMENT = { \"#\" }\n",
        _ => {}
    }
    text
}

fn expr(numbers: &mut Numbers, depth: usize, uses_stack: bool) -> String {
    if depth == 0 || numbers.below(4) == 0 {
        return terminal(numbers, uses_stack);
    }
    let inner = |numbers: &mut Numbers| expr(numbers, depth - 1, uses_stack);
    match numbers.below(12) {
        0..=2 => format!("({} ~ {})", inner(numbers), inner(numbers)),
        3..=5 => format!("({} | {})", inner(numbers), inner(numbers)),
        6 => format!("({})?", inner(numbers)),
        7 => format!("({})*", inner(numbers)),
        8 => format!("({})+", inner(numbers)),
        9 => {
            let sign = numbers.one_of(&["!", "&"]);
            format!("{sign}({})", inner(numbers))
        }
        10 => {
            let count = numbers.one_of(&["{2}", "{1,}", "{,2}", "{1,2}"]);
            format!("({}){count}", inner(numbers))
        }
        _ if uses_stack => format!("PUSH({})", inner(numbers)),
        _ => format!("({} ~ {})", inner(numbers), inner(numbers)),
    }
}

fn terminal(numbers: &mut Numbers, uses_stack: bool) -> String {
    match numbers.below(12) {
        0..=3 => numbers.one_of(&["\"x\"", "\"y\"", "\"xy\"", "^\"x\"", "'x'..'y'", "\"z\""]).to_owned(),
        4 => numbers.one_of(&["ANY", "SOI", "EOI", "ASCII_ALPHA", "NEWLINE", "\"\""]).to_owned(),
        5 if uses_stack => numbers
            .one_of(&["PEEK", "POP", "DROP", "PEEK_ALL", "POP_ALL", "PEEK[0..1]", "PEEK[-1..]"])
            .to_owned(),
        _ => numbers.one_of(&RULES).to_owned(),
    }
}

/// A text of few letters.
pub fn text(numbers: &mut Numbers) -> String {
    (0..numbers.below(8)).map(|_| numbers.one_of(&["x", "y", "z", "xy", " ", "X", "#", "\n"])).collect()
}
