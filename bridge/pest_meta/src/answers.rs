//! What the library is asked, and what its answers say.

use std::fmt;
use std::mem::size_of;
use std::sync::OnceLock;

use kingorewa_library::{foreign as library, Call};
use pest::error::{Error, ErrorVariant};
use pest::Span;

use crate::ast::RuleType;
use crate::json::{self, Malformed, Reader, Reading};
use crate::nodes::{self, Node};
use crate::parser::Rule;
use crate::recent;

/// The number of the format that is read here.
const FORMAT: i64 = 1;

/// A rule whose body is a flat list of nodes, each before its operands. The places are empty but for the
/// rules of [`Call::Nodes`].
#[derive(Debug)]
pub(crate) struct FlatRule {
    pub(crate) name: String,
    pub(crate) ty: RuleType,
    pub(crate) nodes: Vec<Node>,
    pub(crate) name_span: (usize, usize),
    pub(crate) spans: Vec<(usize, usize)>,
}

/// An entry of a list of trees: where one starts, with the number of the entry that ends it; or where one
/// ends.
#[derive(Debug, PartialEq)]
pub(crate) enum Entry {
    Start { rule: Rule, place: usize, partner: usize },
    End { place: usize },
}

/// A list of entries, as the library writes them: three numbers for each.
pub(crate) struct Entries(Vec<usize>);

impl Entries {
    /// Takes numbers, if the rules that they stand for are known.
    fn new(numbers: Vec<usize>) -> Reading<Entries> {
        let unknown = |entry: &&[usize]| entry[0] > 0 && Rule::numbered(entry[0]).is_none();
        match numbers.chunks_exact(3).find(unknown) {
            Some(entry) => {
                Err(Malformed::Unknown { what: "rule of the meta-grammar", name: entry[0].to_string() })
            }
            None => Ok(Entries(numbers)),
        }
    }

    pub(crate) fn len(&self) -> usize {
        self.0.len() / 3
    }

    /// The entry of that number, if there is one.
    pub(crate) fn get(&self, at: usize) -> Option<Entry> {
        let numbers = self.0.get(3 * at..)?;
        match *numbers {
            [0, place, _, ..] => Some(Entry::End { place }),
            [number, place, partner, ..] => {
                Rule::numbered(number).map(|rule| Entry::Start { rule, place, partner })
            }
            _ => None,
        }
    }
}

/// What is wrong with a text.
pub(crate) type Errors = Vec<Error<Rule>>;

/// Why there is no answer.
#[derive(Debug)]
pub(crate) enum Unanswered {
    /// What was handed over is refused: what is wrong, as JSON.
    Refused(String),
    /// The library answers what this version of the crate can't read.
    Unread(Malformed),
}

impl From<Malformed> for Unanswered {
    fn from(why: Malformed) -> Unanswered {
        Unanswered::Unread(why)
    }
}

/// Tells which version is wanted where an answer can't be read.
impl fmt::Display for Unanswered {
    fn fmt(&self, f: &mut fmt::Formatter<'_>) -> fmt::Result {
        match self {
            Unanswered::Refused(json) => f.write_str(json),
            Unanswered::Unread(why) => {
                let Versions { crate_version, format } = versions();
                write!(
                    f,
                    "the proved library, of version {crate_version} and format {format}, answers what the crate \
                     pest_meta, of version {} and format {FORMAT}, does not read: {why}. Use the crate of the \
                     library's release",
                    env!("CARGO_PKG_VERSION")
                )
            }
        }
    }
}

/// The trees that a text has by a rule.
pub(crate) fn tokens(text: &str, rule: Rule) -> Result<Entries, Error<Rule>> {
    let entries = token_numbers(text, rule).and_then(|numbers| Ok(Entries::new(numbers)?));
    entries.map_err(|why| errors_of(whole(text), why).swap_remove(0))
}

/// The entries of the trees that a text has by a rule, three numbers for each.
fn token_numbers(text: &str, rule: Rule) -> Result<Vec<usize>, Unanswered> {
    check_format()?;
    let room =
        text.len().saturating_mul(NUMBERS_FOR_A_BYTE).clamp(LEAST_ROOM / size_of::<usize>(), MOST_ROOM);
    let call = |out: &mut [usize], needed: &mut usize| library::token_numbers(text, rule.name(), out, needed);
    let (status, numbers) = filled(room, call);
    match status {
        0 => Ok(numbers),
        1 => Err(refusal(text, |out, needed| library::tokens(text, rule.name(), out, needed))),
        _ => no_answer(status),
    }
}

/// The builtins of a grammar, its rules and its optimized rules in binary form, if it is accepted.
pub(crate) fn grammar(text: &str) -> Option<Vec<u8>> {
    check_format().ok()?;
    let room = room_for(text.len(), GRAMMAR_BYTES_FOR_A_BYTE);
    let (status, bytes) = filled(room, |out, needed| library::grammar(text, out, needed));
    match status {
        0 => Some(bytes),
        1 => None,
        _ => no_answer(status),
    }
}

/// The refusal of a text that a call refuses.
fn refusal(text: &str, call: impl FnMut(&mut [u8], &mut usize) -> u8) -> Unanswered {
    match ask(text.len(), call, |reader| reader.pass()) {
        Ok(()) => Malformed::Wanted { what: "a refusal", at: 0 }.into(),
        Err(why) => why,
    }
}

/// The names of the builtins that a grammar uses.
pub(crate) fn names(grammar: Span<'_>) -> Result<Vec<String>, Errors> {
    let names = match recent::builtins(grammar.as_str()) {
        Some(names) => names.map_err(Unanswered::from),
        None => call(Call::Names, grammar.as_str(), |reader| reader.list(Reader::text)),
    };
    names.map_err(|why| errors_of(grammar, why))
}

/// The errors of a name as a keyword of Rust: one or none.
pub(crate) fn rust_keyword(name: Span<'_>) -> Errors {
    let errors = call(Call::RustKeyword, name.as_str(), |reader| reader.list(|reader| error(name, reader)));
    errors.unwrap_or_else(|why| errors_of(name, why))
}

/// The rules of a grammar, each made by `rule`, or its errors.
pub(crate) fn grammar_rules<R>(
    grammar: Span<'_>,
    rule: impl Fn(FlatRule) -> Reading<R>,
) -> Result<Vec<R>, Errors> {
    match recent::rules(grammar.as_str(), |flat| rule(readable(flat))) {
        Some(rules) => rules.map_err(|why| errors_of(grammar, why.into())),
        None => rules(Call::Rules, grammar, rule),
    }
}

/// The rules that a call answers for a grammar, each made by `rule`.
pub(crate) fn rules<R>(
    function: Call,
    grammar: Span<'_>,
    rule: impl Fn(FlatRule) -> Reading<R>,
) -> Result<Vec<R>, Errors> {
    let rules = call(function, grammar.as_str(), |reader| reader.list(|reader| rule(flat_rule(reader)?)));
    rules.map_err(|why| errors_of(grammar, why))
}

/// The optimized rules of rules, which are written in binary form, and as JSON if those are not the rules of the
/// last grammar.
pub(crate) fn optimize<R>(
    rules: &[u8],
    json: impl FnOnce() -> String,
    rule: impl Fn(FlatRule) -> Reading<R>,
) -> Result<Vec<R>, Unanswered> {
    match recent::optimized(rules, |flat| rule(readable(flat))) {
        Some(rules) => rules.map_err(Unanswered::from),
        None => call(Call::Optimize, &json(), |reader| reader.list(|reader| rule(flat_rule(reader)?))),
    }
}

/// The used builtins of a grammar, and its optimized rules, each made by `rule`.
pub(crate) fn parse_and_optimize<R>(
    grammar: &str,
    rule: impl Fn(FlatRule) -> Reading<R>,
) -> Result<(Vec<String>, Vec<R>), Errors> {
    let answer = match recent::parse_and_optimize(grammar, |flat| rule(readable(flat))) {
        Some(answer) => answer.map_err(Unanswered::from),
        None => Err(refusal(grammar, |out, needed| {
            library::over_text(Call::ParseAndOptimize, grammar, out, needed)
        })),
    };
    answer.map_err(|why| errors_of(whole(grammar), why))
}

/// The diagnostics of a grammar, each read from its line by `line`.
pub(crate) fn diagnostics<T>(
    grammar: &str,
    line: impl Fn(&mut Reader<'_>) -> Reading<T>,
) -> Result<Vec<T>, Unanswered> {
    check_format()?;
    let call =
        |out: &mut [u8], needed: &mut usize| library::over_text(Call::Diagnostics, grammar, out, needed);
    in_room(room_for(grammar.len(), BYTES_FOR_A_BYTE), call, |answer| match answer {
        Ok(lines) => {
            let found: Reading<Vec<T>> = lines.lines().map(|text| json::read(text, &line)).collect();
            Ok(found?)
        }
        Err(json) => Err(Unanswered::Refused(json.to_owned())),
    })
}

/// A text as a span of itself.
pub(crate) fn whole(text: &str) -> Span<'_> {
    Span::new(text, 0, text.len()).expect("a text is a span of itself")
}

/// The part of a span from one byte of it to another.
pub(crate) fn part(piece: Span<'_>, (start, end): (usize, usize)) -> Reading<Span<'_>> {
    piece.get(start..end).ok_or(Malformed::Wanted { what: "a place of the text", at: start })
}

/// What the library answers about a text, read by `value`.
fn call<T>(
    function: Call,
    text: &str,
    value: impl FnOnce(&mut Reader<'_>) -> Reading<T>,
) -> Result<T, Unanswered> {
    ask(text.len(), |out, needed| library::over_text(function, text, out, needed), value)
}

/// What the library answers about a text of some length, read by `value`, if it is of the format that is read
/// here.
fn ask<T>(
    len: usize,
    call: impl FnMut(&mut [u8], &mut usize) -> u8,
    value: impl FnOnce(&mut Reader<'_>) -> Reading<T>,
) -> Result<T, Unanswered> {
    check_format()?;
    in_room(room_for(len, BYTES_FOR_A_BYTE), call, |answer| match answer {
        Ok(json) => Ok(json::read(json, value)?),
        Err(json) => Err(Unanswered::Refused(json.to_owned())),
    })
}

/// That the library answers in the format that is read here.
fn check_format() -> Reading<()> {
    match versions().format {
        FORMAT => Ok(()),
        format => Err(Malformed::Unknown { what: "format", name: format.to_string() }),
    }
}

/// What the library says of itself.
struct Versions {
    crate_version: String,
    format: i64,
}

/// The versions of the library. The format is 0 where it does not tell them.
fn versions() -> &'static Versions {
    static VERSIONS: OnceLock<Versions> = OnceLock::new();
    VERSIONS.get_or_init(|| {
        let versions = in_room(LEAST_ROOM, library::version, |answer| {
            json::read(answer.unwrap_or_default(), |reader| {
                let mut versions = Versions { crate_version: String::new(), format: 0 };
                reader.object(|reader, member| match member {
                    "format" => reader.number().map(|number| versions.format = number),
                    "version" => reader.text().map(|text| versions.crate_version = text),
                    _ => reader.pass(),
                })?;
                Ok(versions)
            })
        });
        versions.unwrap_or(Versions { crate_version: "unknown".to_owned(), format: 0 })
    })
}

/// So much room a call gets at least.
const LEAST_ROOM: usize = 1 << 12;

/// So much room it gets at most before it has said what it wants.
const MOST_ROOM: usize = 1 << 26;

/// So much room a call gets at first for each byte of its text: in bytes of JSON, in bytes of binary form, and in
/// numbers of tokens.
const BYTES_FOR_A_BYTE: usize = 64;
const GRAMMAR_BYTES_FOR_A_BYTE: usize = 8;
const NUMBERS_FOR_A_BYTE: usize = 5;

/// The room for the answer about a text of that length. Where it is too small, the call is made twice.
fn room_for(len: usize, for_a_byte: usize) -> usize {
    len.saturating_mul(for_a_byte).clamp(LEAST_ROOM, MOST_ROOM)
}

/// Calls with that much room, and again with the room that is wanted where it was too small: the status, and what was
/// written.
fn filled<T: Clone + Default>(room: usize, mut call: impl FnMut(&mut [T], &mut usize) -> u8) -> (u8, Vec<T>) {
    let mut out = vec![T::default(); room];
    let mut needed = 0;
    let mut status = call(&mut out, &mut needed);
    if status == 4 {
        out = vec![T::default(); needed];
        status = call(&mut out, &mut needed);
    }
    out.truncate(needed);
    (status, out)
}

/// Ends a call that has no answer.
///
/// # Panics
/// Always: where the library has no memory, and where it breaks its word.
fn no_answer(status: u8) -> ! {
    match status {
        2 => panic!("pest_meta: there is no memory for this grammar"),
        _ => panic!("pest_meta: the library answered with status {status}, which is none for a text"),
    }
}

/// Calls with that much room, and again with the room that is wanted where it was too small. What is
/// answered is read by `read`; a refusal is the error.
///
/// # Panics
/// Where the library has no memory.
fn in_room<T>(
    room: usize,
    call: impl FnMut(&mut [u8], &mut usize) -> u8,
    read: impl FnOnce(Result<&str, &str>) -> T,
) -> T {
    let (status, out) = filled(room, call);
    let text = std::str::from_utf8(&out).expect("the library answers UTF-8");
    match status {
        0 => read(Ok(text)),
        1 => read(Err(text)),
        _ => no_answer(status),
    }
}

/// Reads a rule.
fn flat_rule(reader: &mut Reader<'_>) -> Reading<FlatRule> {
    let (mut name, mut ty) = (None, None);
    let (mut nodes, mut name_span, mut spans) = (Vec::new(), (0, 0), Vec::new());
    reader.object(|reader, member| match member {
        "expr" => reader.list(nodes::read).map(|list| nodes = list),
        "name" => reader.text().map(|text| name = Some(text)),
        "type" => rule_type(reader).map(|it| ty = Some(it)),
        "name_span" => pair(reader).map(|span| name_span = span),
        "spans" => reader.list(pair).map(|list| spans = list),
        _ => reader.pass(),
    })?;
    let (Some(name), Some(ty)) = (name, ty) else {
        return reader.wanted("a rule with its name and its type");
    };
    Ok(readable(FlatRule { name, ty, nodes, name_span, spans }))
}

/// A rule as this configuration reads it.
#[cfg(feature = "grammar-extras")]
fn readable(rule: FlatRule) -> FlatRule {
    rule
}

/// A rule without its tags, which this configuration does not read: what a tag is on stands in its place.
#[cfg(not(feature = "grammar-extras"))]
fn readable(mut rule: FlatRule) -> FlatRule {
    let is_tag = |node: &Node| matches!(node, Node::Tag(_));
    let mut nodes = rule.nodes.iter();
    rule.spans.retain(|_| !nodes.next().is_some_and(is_tag));
    rule.nodes.retain(|node| !is_tag(node));
    rule
}

fn rule_type(reader: &mut Reader<'_>) -> Reading<RuleType> {
    match &reader.borrowed_text()?[..] {
        "normal" => Ok(RuleType::Normal),
        "silent" => Ok(RuleType::Silent),
        "atomic" => Ok(RuleType::Atomic),
        "compound_atomic" => Ok(RuleType::CompoundAtomic),
        "non_atomic" => Ok(RuleType::NonAtomic),
        other => Err(Malformed::Unknown { what: "type of rules", name: other.to_owned() }),
    }
}

fn pair(reader: &mut Reader<'_>) -> Reading<(usize, usize)> {
    reader.open_list()?;
    let start = reader.place()?;
    reader.comma()?;
    let end = reader.place()?;
    reader.close_list()?;
    Ok((start, end))
}

fn rule_name(reader: &mut Reader<'_>) -> Reading<Rule> {
    let name = reader.borrowed_text()?;
    Rule::named(&name)
        .ok_or_else(|| Malformed::Unknown { what: "rule of the meta-grammar", name: name.into_owned() })
}

/// The errors of a piece of a text, with their places in the whole text. That an answer can't be read is an
/// error at the start of the piece.
fn errors_of(piece: Span<'_>, why: Unanswered) -> Errors {
    let why = match why {
        Unanswered::Refused(json) => match json::read(&json, |reader| reader.list(|it| error(piece, it))) {
            Ok(errors) if !errors.is_empty() => return errors,
            Ok(_) => Malformed::Wanted { what: "an error", at: 0 }.into(),
            Err(why) => why.into(),
        },
        unread => unread,
    };
    vec![Error::new_from_pos(ErrorVariant::CustomError { message: why.to_string() }, piece.start_pos())]
}

fn error(piece: Span<'_>, reader: &mut Reader<'_>) -> Reading<Error<Rule>> {
    let (mut kind, mut message, mut location, mut positives) = Default::default();
    reader.object(|reader, member| match member {
        "kind" => reader.text().map(|text: String| kind = text),
        "message" => reader.text().map(|text| message = text),
        "location" => reader.list(Reader::place).map(|places: Vec<usize>| location = places),
        "expected" => reader.list(rule_name).map(|rules: Vec<Rule>| positives = rules),
        _ => reader.pass(),
    })?;
    let variant = if kind == "parsing" {
        positives.sort_unstable();
        positives.dedup();
        ErrorVariant::ParsingError { positives, negatives: Vec::new() }
    } else {
        ErrorVariant::CustomError { message }
    };
    match location[..] {
        [place] => Ok(Error::new_from_pos(variant, part(piece, (place, place))?.start_pos())),
        [start, end] => Ok(Error::new_from_span(variant, part(piece, (start, end))?)),
        _ => reader.wanted("a place or a span"),
    }
}

#[cfg(test)]
mod tests {
    use super::*;
    use crate::ast;
    use crate::optimizer::OptimizedRule;

    fn rules_in(json: &str) -> Reading<Vec<FlatRule>> {
        json::read(json, |reader| reader.list(flat_rule))
    }

    fn rule_with(nodes: Vec<Node>) -> FlatRule {
        let (name_span, spans) = ((0, 0), Vec::new());
        FlatRule { name: "a".to_owned(), ty: RuleType::Normal, nodes, name_span, spans }
    }

    fn unknown(what: &'static str, name: &str) -> Malformed {
        Malformed::Unknown { what, name: name.to_owned() }
    }

    /// The grammars of the folder that GRAMMARS names, and those of the validator's tests.
    fn grammars() -> Vec<String> {
        let mut texts = crate::validator::tests::grammars();
        if let Some(folder) = std::env::var_os("GRAMMARS") {
            let files = std::fs::read_dir(folder).unwrap().map(|entry| entry.unwrap().path());
            texts.extend(files.map(|file| std::fs::read_to_string(file).unwrap()));
        }
        texts
    }

    /// What a call answers, as it stands.
    fn json_of(function: Call, text: &str) -> Result<String, String> {
        let call = |out: &mut [u8], needed: &mut usize| library::over_text(function, text, out, needed);
        in_room(room_for(text.len(), BYTES_FOR_A_BYTE), call, |answer| match answer {
            Ok(json) => Ok(json.to_owned()),
            Err(json) => Err(json.to_owned()),
        })
    }

    fn parts(rules: Vec<FlatRule>) -> Vec<(String, RuleType, Vec<Node>)> {
        rules.into_iter().map(|rule| (rule.name, rule.ty, rule.nodes)).collect()
    }

    #[test]
    fn answers_in_binary_form_are_those_in_json() {
        let mut accepted = 0;
        for text in grammars() {
            let Some(answer) = recent::parse_and_optimize(&text, |rule| Ok(readable(rule))) else {
                assert!(json_of(Call::ParseAndOptimize, &text).is_err(), "{text}");
                continue;
            };
            accepted += 1;
            let (names, optimized) = answer.unwrap();
            let rules = recent::rules(&text, |rule| Ok(readable(rule))).unwrap().unwrap();
            let json = json_of(Call::Rules, &text).unwrap();
            assert_eq!(parts(rules), parts(rules_in(&json).unwrap()), "{text}");
            let json = json_of(Call::Optimize, &json).unwrap();
            assert_eq!(parts(optimized), parts(rules_in(&json).unwrap()), "{text}");
            let json = json_of(Call::Names, &text).unwrap();
            assert_eq!(Ok(names), json::read(&json, |reader| reader.list(Reader::text)));
        }
        assert!(accepted > 500, "{accepted} grammars are accepted");
    }

    #[test]
    fn tokens_as_numbers_are_those_in_json() {
        for text in grammars() {
            let call = |out: &mut [u8], needed: &mut usize| {
                library::tokens(&text, Rule::grammar_rules.name(), out, needed)
            };
            let entry = |reader: &mut Reader<'_>| {
                reader.open_list()?;
                let rule = if reader.peek() == Some(b'"') {
                    let rule = rule_name(reader)?;
                    reader.comma()?;
                    Some(rule)
                } else {
                    None
                };
                let (place, _) = (reader.place()?, reader.comma()?);
                let partner = reader.place()?;
                reader.close_list()?;
                Ok((rule, place, partner))
            };
            let in_json = ask(text.len(), call, |reader| reader.list(entry)).unwrap();
            let numbers = token_numbers(&text, Rule::grammar_rules).unwrap();
            let numbered = numbers.chunks_exact(3).map(|numbers| match *numbers {
                [0, place, partner] => (None, place, partner),
                [rule, place, partner] => (Some(Rule::numbered(rule).unwrap()), place, partner),
                _ => unreachable!(),
            });
            assert_eq!(numbered.collect::<Vec<_>>(), in_json);
        }
    }

    #[test]
    fn names_that_are_new_are_errors() {
        let form = r#"[{"expr":[["lookbehind",3]],"name":"a","type":"normal"}]"#;
        assert_eq!(rules_in(form).unwrap_err(), unknown("form", "lookbehind"));
        let ty = r#"[{"expr":[["str","x"]],"name":"a","type":"loud"}]"#;
        assert_eq!(rules_in(ty).unwrap_err(), unknown("type of rules", "loud"));
        let entries = Entries::new(vec![1, 0, 1, 67, 0, 0]);
        assert_eq!(entries.err().unwrap(), unknown("rule of the meta-grammar", "67"));
        let entries = Entries::new(vec![66, 7, 1, 0, 8, 0, 1, 0, 0]).unwrap();
        assert_eq!(entries.get(0), Some(Entry::Start { rule: Rule::EOI, place: 7, partner: 1 }));
        assert_eq!(entries.get(1), Some(Entry::End { place: 8 }));
        assert!(matches!(entries.get(2), Some(Entry::Start { rule: Rule::grammar_rules, .. })));
        assert_eq!((entries.len(), entries.get(3)), (3, None));
        let error = json::read(r#"["lookbehind"]"#, |reader| reader.list(rule_name));
        assert_eq!(error.err().unwrap(), unknown("rule of the meta-grammar", "lookbehind"));
    }

    #[test]
    fn members_that_are_new_are_passed_over() {
        let json = r#"[{"docs":["x",{"y":[1.5]}],"expr":[["str","x"]],"name":"a","type":"atomic"}]"#;
        let rule = rules_in(json).unwrap().swap_remove(0);
        assert_eq!((rule.nodes, rule.ty), (vec![Node::Str("x".to_owned())], RuleType::Atomic));
        assert!(rules_in(r#"[{"expr":[["str","x"]],"name":"a"}]"#).is_err());
    }

    #[test]
    fn forms_stand_only_where_they_belong() {
        let text = || Node::Str("x".to_owned());
        let optimized = |nodes| OptimizedRule::try_from(rule_with(nodes));
        assert_eq!(optimized(vec![Node::RepExact(2), text()]).unwrap_err(), unknown("form", "rep_exact"));
        let read = |nodes| ast::Rule::try_from(rule_with(nodes));
        assert_eq!(read(vec![Node::RestoreOnErr, text()]).unwrap_err(), unknown("form", "restore_on_err"));
        for nodes in [vec![], vec![Node::Seq, text()], vec![text(), text()], vec![Node::Opt]] {
            assert!(read(nodes.clone()).is_err() && optimized(nodes).is_err());
        }
    }

    #[test]
    fn an_error_names_the_version_that_is_wanted() {
        let errors = errors_of(whole("a = { b }"), unknown("form", "lookbehind").into());
        assert_eq!(errors.len(), 1);
        let message = errors[0].variant.message().into_owned();
        assert!(message.contains("the form `lookbehind` is not known"), "{message}");
        assert!(message.contains("the proved library, of version 2.9.5 and format 1,"), "{message}");
        assert!(message.ends_with("Use the crate of the library's release"), "{message}");
        let nonsense = errors_of(whole("a"), Unanswered::Refused("[{}]".to_owned()));
        assert!(nonsense[0].variant.message().contains("a place or a span is wanted"));
    }
}
