//! Grammars as token trees, and as rules with the span of each node.

use kingorewa_library::Call;
use pest::error::Error;
#[cfg(not(feature = "grammar-extras"))]
use pest::error::ErrorVariant;
use pest::iterators::Pairs;
use pest::{ParseResult, ParserState, Span};

use crate::answers::{self, part, Entries, Entry, FlatRule};
use crate::ast::{Rule as AstRule, RuleType};
use crate::json::{Malformed, Reading};
use crate::nodes::{tree, Node, Operands, Tree};

mod rules;

pub use self::rules::Rule;

/// The parser of grammars.
pub struct PestParser;

impl pest::Parser<Rule> for PestParser {
    fn parse(rule: Rule, input: &str) -> Result<Pairs<'_, Rule>, Error<Rule>> {
        parse(rule, input)
    }
}

/// Returns the token trees of a text by a rule of pest's grammar of grammars. A grammar is read by
/// [`Rule::grammar_rules`].
///
/// The trees are those that the proved front end returns, and the only ones that the text has.
///
/// # Errors
/// The syntax error of the text. It is at the furthest position at which a rule failed, and has the rules
/// that were expected there.
pub fn parse(rule: Rule, data: &str) -> Result<Pairs<'_, Rule>, Error<Rule>> {
    let entries = answers::tokens(data, rule)?;
    pest::state(data, |state| replayed(state, data, &entries, 0..entries.len()))
}

type State<'i> = Box<ParserState<'i, Rule>>;

/// Gives the tokens of some of the entries to a parser's state. It calls itself within each tree.
fn replayed<'i>(
    mut state: State<'i>,
    text: &str,
    entries: &Entries,
    mut range: std::ops::Range<usize>,
) -> ParseResult<State<'i>> {
    while let Some(at) = range.next() {
        let Some(Entry::Start { rule, place, partner }) = entries.get(at) else {
            unreachable!("the library ends each tree where it says")
        };
        let Some(Entry::End { place: end }) = entries.get(partner) else {
            unreachable!("the library ends each tree where it says")
        };
        state = moved(state, text, place)?.rule(rule, |state| {
            let state = replayed(state, text, entries, at + 1..partner)?;
            moved(state, text, end)
        })?;
        range.start = partner + 1;
    }
    Ok(state)
}

/// Moves a state on to a place.
fn moved<'i>(state: State<'i>, text: &str, place: usize) -> ParseResult<State<'i>> {
    let from = state.position().pos();
    state.match_string(&text[from..place])
}

/// A rule of a grammar with its spans.
#[derive(Clone, Debug, Eq, PartialEq)]
pub struct ParserRule<'i> {
    /// The name of the rule.
    pub name: String,
    /// The span of its name.
    pub span: Span<'i>,
    /// The type of the rule.
    pub ty: RuleType,
    /// The body of the rule.
    pub node: ParserNode<'i>,
}

/// An expression with its span.
#[derive(Clone, Debug, Eq, PartialEq)]
pub struct ParserNode<'i> {
    /// The expression.
    pub expr: ParserExpr<'i>,
    /// The span of the expression.
    pub span: Span<'i>,
}

impl<'i> ParserNode<'i> {
    /// Returns the results of `f` for the node and all nodes inside it, each before those inside it, and the
    /// left side before the right one.
    pub fn filter_map_top_down<F, T>(self, mut f: F) -> Vec<T>
    where
        F: FnMut(ParserNode<'i>) -> Option<T>,
    {
        let mut found = Vec::new();
        let mut left = vec![&self];
        while let Some(node) = left.pop() {
            found.extend(f(node.clone()));
            let (_, operands) = node.parted();
            left.extend(operands.into_iter().rev().flatten());
        }
        found
    }
}

/// An expression whose operands have their spans.
#[derive(Clone, Debug, Eq, PartialEq)]
pub enum ParserExpr<'i> {
    /// Matches that text: `"a"`.
    Str(String),
    /// Matches that text, with ASCII letters of either case: `^"a"`.
    Insens(String),
    /// Matches a character of the range: `'a'..'z'`.
    Range(String, String),
    /// Calls the rule or the builtin with that name: `a`.
    Ident(String),
    /// Matches entries of the stack: `PEEK[0..-1]`, or `PEEK[0..]`.
    PeekSlice(i32, Option<i32>),
    /// Succeeds if the expression matches, and consumes nothing: `&e`.
    PosPred(Box<ParserNode<'i>>),
    /// Succeeds if the expression does not match, and consumes nothing: `!e`.
    NegPred(Box<ParserNode<'i>>),
    /// Matches one expression and then the other: `a ~ b`.
    Seq(Box<ParserNode<'i>>, Box<ParserNode<'i>>),
    /// Matches one expression, or the other one if the first fails: `a | b`.
    Choice(Box<ParserNode<'i>>, Box<ParserNode<'i>>),
    /// Matches the expression or nothing: `e?`.
    Opt(Box<ParserNode<'i>>),
    /// Repeats the expression as long as it matches: `e*`.
    Rep(Box<ParserNode<'i>>),
    /// Repeats the expression as long as it matches, at least once: `e+`.
    RepOnce(Box<ParserNode<'i>>),
    /// Repeats the expression this number of times: `e{2}`.
    RepExact(Box<ParserNode<'i>>, u32),
    /// Repeats the expression at least this number of times: `e{2,}`.
    RepMin(Box<ParserNode<'i>>, u32),
    /// Repeats the expression at most this number of times: `e{,2}`.
    RepMax(Box<ParserNode<'i>>, u32),
    /// Repeats the expression between the first and the second number of times: `e{2, 3}`.
    RepMinMax(Box<ParserNode<'i>>, u32, u32),
    /// Pushes the text that the expression matches on the stack: `PUSH(e)`.
    Push(Box<ParserNode<'i>>),
    /// Pushes the text on the stack: `PUSH_LITERAL("a")`.
    #[cfg(feature = "grammar-extras")]
    PushLiteral(String),
    /// An expression with a tag: `#tag = e`.
    #[cfg(feature = "grammar-extras")]
    NodeTag(Box<ParserNode<'i>>, String),
}

impl<'i> Tree for ParserNode<'i> {
    type Known = Span<'i>;

    fn joined(node: Node, span: Span<'i>, over: &mut Operands<ParserNode<'i>>) -> Option<Self> {
        let expr = match node {
            Node::Str(text) => ParserExpr::Str(text),
            Node::Insens(text) => ParserExpr::Insens(text),
            Node::Range(low, high) => ParserExpr::Range(low, high),
            Node::Ident(name) => ParserExpr::Ident(name),
            Node::PeekSlice(start, end) => ParserExpr::PeekSlice(start, end),
            Node::PosPred => ParserExpr::PosPred(over.next()?),
            Node::NegPred => ParserExpr::NegPred(over.next()?),
            Node::Seq => ParserExpr::Seq(over.next()?, over.next()?),
            Node::Choice => ParserExpr::Choice(over.next()?, over.next()?),
            Node::Opt => ParserExpr::Opt(over.next()?),
            Node::Rep => ParserExpr::Rep(over.next()?),
            Node::RepOnce => ParserExpr::RepOnce(over.next()?),
            Node::RepExact(count) => ParserExpr::RepExact(over.next()?, count),
            Node::RepMin(least) => ParserExpr::RepMin(over.next()?, least),
            Node::RepMax(most) => ParserExpr::RepMax(over.next()?, most),
            Node::RepMinMax(least, most) => ParserExpr::RepMinMax(over.next()?, least, most),
            Node::Push => ParserExpr::Push(over.next()?),
            #[cfg(feature = "grammar-extras")]
            Node::PushLiteral(text) => ParserExpr::PushLiteral(text),
            #[cfg(feature = "grammar-extras")]
            Node::Tag(tag) => ParserExpr::NodeTag(over.next()?, tag),
            _ => return None,
        };
        Some(ParserNode { expr, span })
    }

    fn parted(&self) -> (Node, [Option<&ParserNode<'i>>; 2]) {
        match &self.expr {
            ParserExpr::Str(text) => (Node::Str(text.clone()), [None, None]),
            ParserExpr::Insens(text) => (Node::Insens(text.clone()), [None, None]),
            ParserExpr::Range(low, high) => (Node::Range(low.clone(), high.clone()), [None, None]),
            ParserExpr::Ident(name) => (Node::Ident(name.clone()), [None, None]),
            ParserExpr::PeekSlice(start, end) => (Node::PeekSlice(*start, *end), [None, None]),
            ParserExpr::PosPred(inner) => (Node::PosPred, [Some(inner), None]),
            ParserExpr::NegPred(inner) => (Node::NegPred, [Some(inner), None]),
            ParserExpr::Seq(left, right) => (Node::Seq, [Some(left), Some(right)]),
            ParserExpr::Choice(left, right) => (Node::Choice, [Some(left), Some(right)]),
            ParserExpr::Opt(inner) => (Node::Opt, [Some(inner), None]),
            ParserExpr::Rep(inner) => (Node::Rep, [Some(inner), None]),
            ParserExpr::RepOnce(inner) => (Node::RepOnce, [Some(inner), None]),
            ParserExpr::RepExact(inner, count) => (Node::RepExact(*count), [Some(inner), None]),
            ParserExpr::RepMin(inner, least) => (Node::RepMin(*least), [Some(inner), None]),
            ParserExpr::RepMax(inner, most) => (Node::RepMax(*most), [Some(inner), None]),
            ParserExpr::RepMinMax(inner, least, most) => {
                (Node::RepMinMax(*least, *most), [Some(inner), None])
            }
            ParserExpr::Push(inner) => (Node::Push, [Some(inner), None]),
            #[cfg(feature = "grammar-extras")]
            ParserExpr::PushLiteral(text) => (Node::PushLiteral(text.clone()), [None, None]),
            #[cfg(feature = "grammar-extras")]
            ParserExpr::NodeTag(inner, tag) => (Node::Tag(tag.clone()), [Some(inner), None]),
        }
    }
}

/// Returns the rules of a grammar's pairs.
///
/// # Errors
/// The first flaw of the rules, or else all their errors.
pub fn consume_rules(pairs: Pairs<'_, Rule>) -> Result<Vec<AstRule>, Vec<Error<Rule>>> {
    let Some(grammar) = readable(pairs)? else {
        return Ok(Vec::new());
    };
    answers::grammar_rules(grammar, AstRule::try_from)
}

/// Returns the rules of a grammar's pairs with the span of each node. [`crate::validator::validate_ast`]
/// returns the errors of these rules.
///
/// # Errors
/// The first flaw, for which the pairs cannot be read as rules.
pub fn consume_rules_with_spans(pairs: Pairs<'_, Rule>) -> Result<Vec<ParserRule<'_>>, Vec<Error<Rule>>> {
    let Some(grammar) = readable(pairs)? else {
        return Ok(Vec::new());
    };
    answers::rules(Call::Nodes, grammar, |rule| placed(grammar, rule))
}

impl TryFrom<FlatRule> for AstRule {
    type Error = Malformed;

    fn try_from(rule: FlatRule) -> Reading<AstRule> {
        let expr = tree(rule.nodes.into_iter().map(|node| (node, ())))?;
        Ok(AstRule { name: rule.name, ty: rule.ty, expr })
    }
}

/// A rule with its places, which are told within a piece of a text.
fn placed(grammar: Span<'_>, rule: FlatRule) -> Reading<ParserRule<'_>> {
    if rule.nodes.len() != rule.spans.len() {
        return Err(Malformed::Wanted { what: "a span for each node", at: 0 });
    }
    let spans = rule.spans.into_iter().map(|span| part(grammar, span)).collect::<Reading<Vec<_>>>()?;
    let span = part(grammar, rule.name_span)?;
    let node = tree(rule.nodes.into_iter().zip(spans))?;
    Ok(ParserRule { name: rule.name, span, ty: rule.ty, node })
}

/// The grammar behind pairs: the text from the start of the first pair to the end of the last one. So what
/// was taken from the pairs before is not part of it. There is none where no pair is that of a rule.
pub(crate) fn grammar_of<'i>(pairs: &Pairs<'i, Rule>) -> Option<Span<'i>> {
    pairs.clone().find(|pair| pair.as_rule() == Rule::grammar_rule)?;
    let first = pairs.peek()?.as_span();
    let last = pairs.clone().next_back()?.as_span();
    Some(first.start_pos().span(&last.end_pos()))
}

/// The grammar behind pairs, if it has none of what this configuration does not read.
#[cfg(not(feature = "grammar-extras"))]
fn readable(pairs: Pairs<'_, Rule>) -> Result<Option<Span<'_>>, Vec<Error<Rule>>> {
    let grammar = grammar_of(&pairs);
    match pairs.flatten().find(|pair| pair.as_rule() == Rule::_push_literal) {
        Some(pair) => {
            let message = "PUSH_LITERAL requires feature grammar-extras".to_owned();
            Err(vec![Error::new_from_span(ErrorVariant::CustomError { message }, pair.as_span())])
        }
        None => Ok(grammar),
    }
}

/// The grammar behind pairs. All of it is read in this configuration.
#[cfg(feature = "grammar-extras")]
fn readable(pairs: Pairs<'_, Rule>) -> Result<Option<Span<'_>>, Vec<Error<Rule>>> {
    Ok(grammar_of(&pairs))
}

/// Returns the words of errors for a rule: a sign between grave accents, a word for some rules, and the name
/// for any other rule.
pub fn rename_meta_rule(rule: &Rule) -> String {
    let name = match rule {
        Rule::grammar_rule => "rule",
        Rule::_push => "PUSH",
        Rule::_push_literal => "PUSH_LITERAL",
        Rule::assignment_operator => "`=`",
        Rule::opening_brace => "`{`",
        Rule::closing_brace => "`}`",
        Rule::opening_brack => "`[`",
        Rule::closing_brack => "`]`",
        Rule::opening_paren => "`(`",
        Rule::closing_paren => "`)`",
        Rule::silent_modifier => "`_`",
        Rule::atomic_modifier => "`@`",
        Rule::compound_atomic_modifier => "`$`",
        Rule::non_atomic_modifier | Rule::negative_predicate_operator => "`!`",
        Rule::positive_predicate_operator | Rule::sequence_operator => "`&`",
        Rule::choice_operator => "`|`",
        Rule::optional_operator => "`?`",
        Rule::repeat_operator => "`*`",
        Rule::repeat_once_operator => "`+`",
        Rule::comma => "`,`",
        Rule::insensitive_string => "`^`",
        Rule::range_operator => "`..`",
        Rule::quote => "`\"`",
        Rule::single_quote => "`'`",
        Rule::grammar_doc => "//!",
        Rule::line_doc => "///",
        other => other.name(),
    };
    name.to_owned()
}
