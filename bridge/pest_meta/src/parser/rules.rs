//! The rules of the meta-grammar.

/// Declares the enum, the list of all rules but `EOI`, and their names.
macro_rules! rules {
    ($($(#[doc = $doc:literal])* $rule:ident,)*) => {
        /// A rule of the meta-grammar, the grammar in which grammars are written.
        ///
        /// A later version may have more of them.
        #[allow(non_camel_case_types, clippy::upper_case_acronyms)]
        #[derive(Clone, Copy, Debug, Eq, Hash, Ord, PartialEq, PartialOrd)]
        pub enum Rule {
            /// The end of the text.
            EOI,
            $($(#[doc = $doc])* $rule,)*
        }

        impl Rule {
            /// All rules of the meta-grammar, in its order; `EOI` is not among them.
            pub fn all_rules() -> &'static [Rule] {
                &[$(Rule::$rule),*]
            }

            /// A rule's name.
            pub(crate) fn name(self) -> &'static str {
                match self {
                    Rule::EOI => "EOI",
                    $(Rule::$rule => stringify!($rule),)*
                }
            }

            /// The rule of that number: one more than its index in `all_rules`, and for `EOI` the number after them.
            pub(crate) fn numbered(number: usize) -> Option<Rule> {
                let rules = Rule::all_rules();
                let index = number.checked_sub(1)?;
                rules.get(index).copied().or((index == rules.len()).then_some(Rule::EOI))
            }

            /// The rule of that name.
            pub(crate) fn named(name: &str) -> Option<Rule> {
                match name {
                    "EOI" => Some(Rule::EOI),
                    $(stringify!($rule) => Some(Rule::$rule),)*
                    _ => None,
                }
            }
        }
    };
}

rules! {
    /// A whole grammar.
    grammar_rules,
    /// A rule, or a line that documents the next one.
    grammar_rule,
    /// `=`
    assignment_operator,
    /// `{`
    opening_brace,
    /// `}`
    closing_brace,
    /// `(`
    opening_paren,
    /// `)`
    closing_paren,
    /// `[`
    opening_brack,
    /// `]`
    closing_brack,
    /// The sign before a rule's brace.
    modifier,
    /// `_`
    silent_modifier,
    /// `@`
    atomic_modifier,
    /// `$`
    compound_atomic_modifier,
    /// `!` before a brace.
    non_atomic_modifier,
    /// A tag with its `#`.
    tag_id,
    /// A tag with its `=`.
    node_tag,
    /// A choice of sequences of terms.
    expression,
    /// An operand of `~` and `|`, with its prefixes and postfixes.
    term,
    /// What stands between prefixes and postfixes.
    node,
    /// What holds no operators, or has its own parentheses.
    terminal,
    /// `&` or `!`.
    prefix_operator,
    /// `~` or `|`.
    infix_operator,
    /// A sign or counts of a repetition, or `?`.
    postfix_operator,
    /// `&`
    positive_predicate_operator,
    /// `!` before an expression.
    negative_predicate_operator,
    /// `~`
    sequence_operator,
    /// `|`
    choice_operator,
    /// `?`
    optional_operator,
    /// `*`
    repeat_operator,
    /// `+`
    repeat_once_operator,
    /// `{2}`
    repeat_exact,
    /// `{2,}`
    repeat_min,
    /// `{,2}`
    repeat_max,
    /// `{2,3}`
    repeat_min_max,
    /// A count.
    number,
    /// A place in the stack, which may have a minus.
    integer,
    /// `,`
    comma,
    /// `PUSH(..)`
    _push,
    /// `PUSH_LITERAL(..)`
    _push_literal,
    /// `PEEK[..]`
    peek_slice,
    /// The name of a rule or a builtin.
    identifier,
    /// An ASCII letter.
    alpha,
    /// An ASCII letter or digit.
    alpha_num,
    /// A literal in double quotes.
    string,
    /// A literal behind `^`.
    insensitive_string,
    /// Two characters with `..` between them.
    range,
    /// A character in single quotes.
    character,
    /// What stands in double quotes.
    inner_str,
    /// What stands in single quotes.
    inner_chr,
    /// A backslash with what it escapes.
    escape,
    /// A number of a character in two digits: `x41`.
    code,
    /// A number of a character in braces: `u{1f600}`.
    unicode,
    /// A hexadecimal digit.
    hex_digit,
    /// `"`
    quote,
    /// `'`
    single_quote,
    /// `..`
    range_operator,
    /// The end of a line.
    newline,
    /// A blank, or the end of a line.
    WHITESPACE,
    /// `// ..`, up to the end of the line.
    line_comment,
    /// `/* .. */`, which may hold others.
    block_comment,
    /// A comment.
    COMMENT,
    /// A blank or a tabulator.
    space,
    /// `//! ..`, which documents the grammar.
    grammar_doc,
    /// `/// ..`, which documents a rule.
    line_doc,
    /// The text of a line that documents.
    inner_doc,
}
