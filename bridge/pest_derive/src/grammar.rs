//! The grammar of a derive: where it stands, and what it says.

use std::path::{Path, PathBuf};
use std::{env, fs};

use pest::error::{Error, ErrorVariant};
use pest::{Position, Span};
use pest_meta::diagnostics::{self, Diagnostic, Severity};
use pest_meta::matching::{self, TaggedBlock};
use pest_meta::parser::{self, Rule};
use syn::spanned::Spanned;
use syn::{Attribute, DeriveInput, Expr, ExprLit, Lit, Meta};

/// A text that an attribute gives.
struct Source {
    /// The file that has it, if it is in one.
    file: Option<PathBuf>,
    text: String,
}

/// A grammar that was accepted.
pub(crate) struct Grammar {
    /// The files that have it.
    pub(crate) files: Vec<PathBuf>,
    /// The names of its rules, in their order.
    pub(crate) names: Vec<String>,
    /// The row of `EOI`: after the rules and those that were added for properties of characters.
    pub(crate) row_of_eoi: usize,
    /// Its rules, compiled.
    pub(crate) block: Vec<u8>,
    /// Its rules as errors in detail need them.
    pub(crate) source: Vec<u8>,
    /// The same with its tags, if it has any.
    pub(crate) tagged: Option<TaggedBlock>,
    /// Whether it uses `EOI`.
    pub(crate) uses_eoi: bool,
    /// What it says of itself, a line each.
    pub(crate) docs: Vec<String>,
    /// What it says of each rule that it says something of.
    pub(crate) rule_docs: Vec<(String, Vec<String>)>,
}

/// The grammar that the attributes of a struct give.
pub(crate) fn of_attributes(input: &DeriveInput) -> syn::Result<Grammar> {
    let mut sources = Vec::new();
    let mut place = input.ident.span();
    for attribute in &input.attrs {
        if attribute.path().is_ident("grammar") || attribute.path().is_ident("grammar_inline") {
            place = attribute.span();
            sources.push(source(attribute)?);
        }
    }
    if sources.is_empty() {
        let message = "a grammar file needs to be provided with the #[grammar = \"PATH\"] or \
                       #[grammar_inline = \"GRAMMAR CONTENTS\"] attribute";
        return Err(syn::Error::new(place, message));
    }
    let texts: Vec<&str> = sources.iter().map(|source| &source.text[..]).collect();
    let own_text = texts.join("\n");
    let defined: Vec<String> =
        texts.iter().flat_map(|text| names_before_bodies(text)).map(str::to_owned).collect();
    let text = own_text.clone() + &matching::rules_of_properties(&own_text, &defined);
    match pest_meta::parse_and_optimize(&text) {
        Ok((builtins, rules)) => {
            let uses_eoi = builtins.contains(&"EOI");
            let uncompiled = |_| syn::Error::new(place, "grammar error: a rule can't be compiled");
            let block = matching::compile(&rules).map_err(uncompiled)?;
            let tagged = matching::compile_tagged(&rules, true).map_err(uncompiled)?;
            let added = text[own_text.len()..].lines().filter(|line| !line.is_empty()).count();
            let row_of_eoi = rules.len();
            let own_source = matching::source(&rules[..row_of_eoi - added], &rules[row_of_eoi - added..]);
            let names = rules.into_iter().map(|rule| rule.name).take(row_of_eoi - added).collect();
            let (docs, rule_docs) = docs(&own_text);
            let files = sources.into_iter().filter_map(|source| source.file).collect();
            Ok(Grammar {
                files,
                names,
                row_of_eoi,
                block,
                source: own_source,
                tagged,
                uses_eoi,
                docs,
                rule_docs,
            })
        }
        Err(errors) => {
            let errors = errors.into_iter().map(|error| error.renamed_rules(parser::rename_meta_rule));
            let told = report(&sources, &text).unwrap_or_else(|| joined(errors));
            Err(syn::Error::new(place, format!("grammar error\n\n{told}")))
        }
    }
}

/// The names that the grammar of a struct seems to define, each once: those before `=` and the brace of a body. `EOI` is
/// the last. Attributes and files that cannot be read give none.
pub(crate) fn defined_names(input: &DeriveInput) -> Vec<String> {
    let is_grammar = |it: &&Attribute| it.path().is_ident("grammar") || it.path().is_ident("grammar_inline");
    let sources = input.attrs.iter().filter(is_grammar).filter_map(|attribute| source(attribute).ok());
    let texts: Vec<String> = sources.map(|source| source.text).collect();
    let mut names: Vec<String> = Vec::new();
    for name in texts.iter().flat_map(|text| names_before_bodies(text)).chain(["EOI"]) {
        if !names.iter().any(|it| it == name) {
            names.push(name.to_owned());
        }
    }
    names
}

/// The names of a text that `=` and a brace follow, with a rule's modifier before the brace or none.
fn names_before_bodies(text: &str) -> impl Iterator<Item = &str> {
    text.match_indices('=').filter_map(move |(at, sign)| {
        let body = text[at + sign.len()..].trim_start();
        let body = body.strip_prefix(['_', '@', '$', '!']).unwrap_or(body).trim_start();
        let before = text[..at].trim_end();
        let is_part = |it: char| it == '_' || it.is_ascii_alphanumeric();
        let name = &before[before.trim_end_matches(is_part).len()..];
        let is_name = name.starts_with(|it: char| it == '_' || it.is_ascii_alphabetic());
        (body.starts_with('{') && is_name).then_some(name)
    })
}

/// The text that an attribute gives.
fn source(attribute: &Attribute) -> syn::Result<Source> {
    let refused = |message| Err(syn::Error::new(attribute.span(), message));
    let Meta::NameValue(pair) = &attribute.meta else {
        return refused("grammar attribute must be of the form `grammar = \"...\"`".to_owned());
    };
    let Expr::Lit(ExprLit { lit: Lit::Str(given), .. }) = &pair.value else {
        return refused("grammar attribute must be a string".to_owned());
    };
    if attribute.path().is_ident("grammar_inline") {
        return Ok(Source { file: None, text: given.value() });
    }
    let file = file_named(&given.value());
    match fs::read_to_string(&file) {
        Ok(text) => Ok(Source { file: Some(file), text }),
        Err(why) => refused(format!("error opening {file:?}: {why}")),
    }
}

/// The file of a path from the folder of Cargo.toml, or else from its `src`.
fn file_named(path: &str) -> PathBuf {
    let folder = PathBuf::from(env::var_os("CARGO_MANIFEST_DIR").unwrap_or_else(|| ".".into()));
    let file = folder.join(path);
    match file.exists() {
        true => file,
        false => folder.join("src").join(path),
    }
}

/// The errors that the linter tells of a grammar, with its helps, if there are any.
fn report(sources: &[Source], text: &str) -> Option<String> {
    let found = diagnostics::diagnose(text);
    let mut errors = found.iter().filter(|it| it.severity == Severity::Error).peekable();
    errors.peek()?;
    Some(joined(errors.map(|error| shown(sources, error))))
}

/// An error at its place in the source that has it.
fn shown(sources: &[Source], diagnostic: &Diagnostic) -> Error<Rule> {
    let help = diagnostic.help.iter().map(|help| format!("\n  = help: {help}"));
    let message = format!("{}{}", diagnostic.message, help.collect::<String>());
    let variant = ErrorVariant::CustomError { message };
    let (source, start) = source_at(sources, diagnostic.span.start);
    let end = (start + diagnostic.span.len()).min(source.text.len());
    let error = match Span::new(&source.text, start, end) {
        Some(span) if start < end => Error::new_from_span(variant, span),
        _ => {
            let pos = Position::new(&source.text, start);
            Error::new_from_pos(variant, pos.unwrap_or(Position::from_start(&source.text)))
        }
    };
    match &source.file {
        Some(file) => error.with_path(&in_package(file).display().to_string()),
        None => error,
    }
}

/// The source that has a byte of the joined text, and the byte in it.
fn source_at(sources: &[Source], mut at: usize) -> (&Source, usize) {
    for source in &sources[..sources.len() - 1] {
        if at <= source.text.len() {
            return (source, at);
        }
        at -= source.text.len() + 1;
    }
    (&sources[sources.len() - 1], at)
}

/// A file as seen from the folder of Cargo.toml.
fn in_package(file: &Path) -> &Path {
    let folder = env::var_os("CARGO_MANIFEST_DIR").map(PathBuf::from);
    folder.and_then(|folder| file.strip_prefix(folder).ok()).unwrap_or(file)
}

fn joined(errors: impl Iterator<Item = Error<Rule>>) -> String {
    errors.map(|error| error.to_string()).collect::<Vec<_>>().join("\n\n")
}

/// What a grammar says of itself, and of its rules.
fn docs(text: &str) -> (Vec<String>, Vec<(String, Vec<String>)>) {
    let (mut docs, mut rule_docs, mut next) = (Vec::new(), Vec::new(), Vec::new());
    for pair in parser::parse(Rule::grammar_rules, text).into_iter().flatten() {
        let rule = pair.as_rule();
        let first = pair.into_inner().next();
        match (rule, first) {
            (Rule::grammar_doc, Some(doc)) => docs.push(doc.as_str().to_owned()),
            (Rule::grammar_rule, Some(doc)) if doc.as_rule() == Rule::line_doc => {
                next.extend(doc.into_inner().map(|doc| doc.as_str().to_owned()));
            }
            (Rule::grammar_rule, Some(name)) => {
                rule_docs.push((name.as_str().to_owned(), std::mem::take(&mut next)));
            }
            _ => {}
        }
    }
    rule_docs.retain(|(_, docs)| !docs.is_empty());
    (docs, rule_docs)
}
