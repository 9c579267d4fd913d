//! Positions, spans and errors of texts.
use pest::error::{Error, ErrorVariant};
use pest::{Position, Span};

/// What the calls of each position and of each span of a text answer.
pub fn told(text: &str) -> Vec<String> {
    let mut told = Vec::new();
    for start in 0..=text.len() + 1 {
        let Some(pos) = Position::new(text, start) else {
            told.push(format!("{start} is no position"));
            continue;
        };
        told.push(format!("{pos:?} {} {:?} {:?}", pos.pos(), pos.line_col(), pos.line_of()));
        told.push(error(|variant| Error::new_from_pos(variant, pos)));
        for end in 0..=text.len() + 1 {
            match Span::new(text, start, end) {
                None => told.push(format!("{start} to {end} is no span")),
                Some(span) => told.extend(told_of_span(span)),
            }
        }
    }
    told
}

fn told_of_span(span: Span<'_>) -> Vec<String> {
    let (start, end) = span.split();
    let spans: Vec<Span<'_>> = span.lines_span().collect();
    let parts = [span.get(1..), span.get(..1), span.get(..=1), span.get(1..2), span.get(..)];
    vec![
        format!("{span:?} {start:?} {end:?} {:?} {}", span.as_str(), start.span(&end) == span),
        format!("{spans:?} {:?} {parts:?}", span.lines().collect::<Vec<_>>()),
        format!("{:?} {:?}", span.start_pos() == start, span.end_pos() == end),
        error(|variant| Error::new_from_span(variant, span)),
    ]
}

/// What the calls of an error answer, with rules and renamed, and with a message and a path.
fn error(make: impl Fn(ErrorVariant<&'static str>) -> Error<&'static str>) -> String {
    let mut told = String::new();
    for (positives, negatives) in
        [(&[][..], &["x"][..]), (&["a"], &[]), (&["a", "b"], &["x", "y", "z"]), (&[], &[])]
    {
        let (positives, negatives) = (positives.to_vec(), negatives.to_vec());
        let error = make(ErrorVariant::ParsingError { positives, negatives });
        told += &format!("{error} {} {}\n", error.variant, error.variant.message());
        told += &format!("{}\n", error.renamed_rules(|rule| format!("<{rule}>")));
    }
    let error = make(ErrorVariant::CustomError { message: "it is wrong".to_owned() }).with_path("a/b.c");
    told + &format!("{error} {:?} {:?} {:?} {:?}", error.path(), error.line(), error.location, error.line_col)
}
