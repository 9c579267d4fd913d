//! Macros for tests of parsers.

/// Asserts that tokens are those of some pairs.
#[doc(hidden)]
#[macro_export]
macro_rules! consumes_to {
    ($rules:ident, $tokens:expr, []) => {};
    ($rules:ident, $tokens:expr, [ $name:ident $pair:tt $(, $names:ident $pairs:tt)* $(,)* ]) => {
        $crate::consumes_to!(@pair $rules, $tokens, $name $pair);
        $crate::consumes_to!($rules, $tokens, [ $($names $pairs),* ]);
    };
    (@pair $rules:ident, $tokens:expr, $name:ident ( $start:expr, $end:expr $(,)* )) => {
        $crate::consumes_to!(@pair $rules, $tokens, $name ($start, $end, []));
    };
    (@pair $rules:ident, $tokens:expr, $name:ident ( $start:expr, $end:expr, [ $($inner:tt)* ] $(,)* )) => {
        match $tokens.next() {
            ::core::option::Option::Some($crate::Token::Start { rule, pos })
                if rule == $rules::$name && pos.pos() == $start => {}
            found => ::core::panic!("expected the start of {:?} at {}, but found {:?}", $rules::$name, $start, found),
        }
        $crate::consumes_to!($rules, $tokens, [ $($inner)* ]);
        match $tokens.next() {
            ::core::option::Option::Some($crate::Token::End { rule, pos })
                if rule == $rules::$name && pos.pos() == $end => {}
            found => ::core::panic!("expected the end of {:?} at {}, but found {:?}", $rules::$name, $end, found),
        }
    };
}

/// Asserts that a parser gives these pairs for a text, and no more but `EOI`.
///
/// ```ignore
/// parses_to! {
///     parser: MyParser,
///     input: "abcde",
///     rule: Rule::a,
///     tokens: [ a(0, 3, [ b(1, 2) ]), c(4, 5) ]
/// }
/// ```
#[macro_export]
macro_rules! parses_to {
    (parser: $parser:ident, input: $text:expr, rule: $rules:tt :: $rule:tt,
     tokens: [ $($names:ident $pairs:tt),* $(,)* ] $(,)*) => {{
        let mut tokens = match <$parser as $crate::Parser<_>>::parse($rules::$rule, $text) {
            ::core::result::Result::Ok(pairs) => pairs.tokens(),
            ::core::result::Result::Err(error) => ::core::panic!("{}", error),
        };
        let tokens = &mut tokens;
        $crate::consumes_to!($rules, tokens, [ $($names $pairs),* ]);
        let rest: $crate::macros_need::Vec<_> = tokens.collect();
        let is_end = match &rest[..] {
            [] => true,
            [$crate::Token::Start { rule: start, .. }, $crate::Token::End { rule: end, .. }] => {
                [start, end].iter().all(|rule| $crate::macros_need::format!("{:?}", rule) == "EOI")
            }
            _ => false,
        };
        ::core::assert!(is_end, "expected end of input, but found {:?}", rest);
    }};
}

/// Asserts that a parser fails on a text, at this byte and with these expected and unexpected rules.
///
/// ```ignore
/// fails_with! {
///     parser: MyParser,
///     input: "abcdf",
///     rule: Rule::a,
///     positives: vec![Rule::c],
///     negatives: vec![],
///     pos: 4
/// }
/// ```
#[macro_export]
macro_rules! fails_with {
    (parser: $parser:ident, input: $text:expr, rule: $rules:tt :: $rule:tt,
     positives: $positives:expr, negatives: $negatives:expr, pos: $pos:expr $(,)*) => {{
        let error = <$parser as $crate::Parser<_>>::parse($rules::$rule, $text).unwrap_err();
        match error.variant {
            $crate::error::ErrorVariant::ParsingError { positives, negatives } => {
                ::core::assert_eq!(positives, $positives, "positives");
                ::core::assert_eq!(negatives, $negatives, "negatives");
            }
            other => ::core::panic!("expected a failure, but found {:?}", other),
        }
        match error.location {
            $crate::error::InputLocation::Pos(pos) => ::core::assert_eq!(pos, $pos, "pos"),
            other => ::core::panic!("expected a position, but found {:?}", other),
        }
    }};
}
