//! Texts that are put together from pieces, for the tests.

/// How many texts each grammar gets.
pub const TEXTS: usize = 2000;

/// Numbers that look as if they came by chance: a linear congruential generator.
pub struct Numbers(pub u64);

impl Numbers {
    /// A number below another.
    pub fn below(&mut self, end: usize) -> usize {
        self.0 = self.0.wrapping_mul(6364136223846793005).wrapping_add(1442695040888963407);
        (self.0 >> 33) as usize % end
    }
}

/// A text of the pieces: mostly pieces by chance, and sometimes a sample with a piece in it.
fn changed_text_of(numbers: &mut Numbers, pieces: &[&str], samples: &[&str]) -> String {
    if numbers.below(3) > 0 {
        return (0..numbers.below(12)).map(|_| pieces[numbers.below(pieces.len())]).collect();
    }
    let mut text = samples[numbers.below(samples.len())].to_owned();
    let at = numbers.below(text.len() + 1);
    if text.is_char_boundary(at) {
        text.insert_str(at, pieces[numbers.below(pieces.len())]);
    }
    text
}

/// A sample whose end is cut off, and sometimes a piece in its place.
fn cut_text_of(numbers: &mut Numbers, pieces: &[&str], samples: &[&str]) -> String {
    let sample = samples[numbers.below(samples.len())];
    let mut text: String = sample.chars().take(numbers.below(sample.len() + 1)).collect();
    if numbers.below(2) == 0 {
        text += pieces[numbers.below(pieces.len())];
    }
    text
}

/// The text of a number: a sample, as long as there are some, or one that is put together.
pub fn text_of(numbers: &mut Numbers, number: usize, pieces: &[&str], samples: &[&str]) -> String {
    match samples.get(number) {
        Some(sample) => (*sample).to_owned(),
        None if number % 3 == 0 => cut_text_of(numbers, pieces, samples),
        None => changed_text_of(numbers, pieces, samples),
    }
}
