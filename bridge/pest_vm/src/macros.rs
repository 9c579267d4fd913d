//! Macros for tests of machines.

/// Asserts that tokens are those of some pairs.
#[doc(hidden)]
#[macro_export]
macro_rules! consumes_to {
    ($tokens:expr, []) => {};
    ($tokens:expr, [ $name:ident $pair:tt $(, $names:ident $pairs:tt)* $(,)* ]) => {
        $crate::consumes_to!(@pair $tokens, $name $pair);
        $crate::consumes_to!($tokens, [ $($names $pairs),* ]);
    };
    (@pair $tokens:expr, $name:ident ( $start:expr, $end:expr $(,)* )) => {
        $crate::consumes_to!(@pair $tokens, $name ($start, $end, []));
    };
    (@pair $tokens:expr, $name:ident ( $start:expr, $end:expr, [ $($inner:tt)* ] $(,)* )) => {
        match $tokens.next() {
            ::core::option::Option::Some($crate::runtime::Token::Start { rule, pos })
                if rule == stringify!($name) && pos.pos() == $start => {}
            found => panic!("expected the start of {} at {}, but found {:?}", stringify!($name), $start, found),
        }
        $crate::consumes_to!($tokens, [ $($inner)* ]);
        match $tokens.next() {
            ::core::option::Option::Some($crate::runtime::Token::End { rule, pos })
                if rule == stringify!($name) && pos.pos() == $end => {}
            found => panic!("expected the end of {} at {}, but found {:?}", stringify!($name), $end, found),
        }
    };
}

/// Asserts that a machine gives these pairs for a text, and no more but `EOI`.
///
/// ```ignore
/// parses_to! {
///     parser: vm,
///     input: "abcde",
///     rule: "a",
///     tokens: [ a(0, 3, [ b(1, 2) ]), c(4, 5) ]
/// }
/// ```
#[macro_export]
macro_rules! parses_to {
    (parser: $parser:expr, input: $text:expr, rule: $rule:expr,
     tokens: [ $($names:ident $pairs:tt),* $(,)* ] $(,)*) => {{
        let vm = $parser;
        let mut tokens = match vm.parse($rule, $text) {
            ::core::result::Result::Ok(pairs) => pairs.tokens(),
            ::core::result::Result::Err(error) => panic!("{}", error),
        };
        let tokens = &mut tokens;
        $crate::consumes_to!(tokens, [ $($names $pairs),* ]);
        let rest: ::std::vec::Vec<_> = tokens.collect();
        let is_end = match &rest[..] {
            [] => true,
            [$crate::runtime::Token::Start { rule: "EOI", .. }, $crate::runtime::Token::End { rule: "EOI", .. }] => true,
            _ => false,
        };
        assert!(is_end, "expected end of input, but found {:?}", rest);
    }};
}

/// Asserts that a machine fails on a text, at this byte and with these expected and unexpected rules.
///
/// ```ignore
/// fails_with! {
///     parser: vm,
///     input: "abcdf",
///     rule: "a",
///     positives: vec!["c"],
///     negatives: vec![],
///     pos: 4
/// }
/// ```
#[macro_export]
macro_rules! fails_with {
    (parser: $parser:expr, input: $text:expr, rule: $rule:expr,
     positives: $positives:expr, negatives: $negatives:expr, pos: $pos:expr $(,)*) => {{
        let vm = $parser;
        let error = vm.parse($rule, $text).unwrap_err();
        match error.variant {
            $crate::runtime::error::ErrorVariant::ParsingError { positives, negatives } => {
                let (wanted, unwanted): (::std::vec::Vec<&str>, ::std::vec::Vec<&str>) =
                    ($positives, $negatives);
                assert_eq!(positives, wanted, "positives");
                assert_eq!(negatives, unwanted, "negatives");
            }
            other => panic!("expected a failure, but found {:?}", other),
        }
        match error.location {
            $crate::runtime::error::InputLocation::Pos(pos) => assert_eq!(pos, $pos, "pos"),
            other => panic!("expected a position, but found {:?}", other),
        }
    }};
}
