//! The code of a parser.

use pest_meta::matching::TaggedBlock;
use proc_macro2::{Ident, Literal, Span, TokenStream};
use quote::{format_ident, quote};
use syn::DeriveInput;

use crate::grammar::{self, Grammar};

/// The enum `Rule` of a struct's grammar, and the struct as a parser for it.
pub(crate) fn parser(input: &DeriveInput) -> syn::Result<TokenStream> {
    let grammar = grammar::of_attributes(input)?;
    let mut variants = Vec::new();
    for name in &grammar.names {
        variants.push(variant(name)?);
    }
    let is_open = input.attrs.iter().any(|attribute| attribute.path().is_ident("non_exhaustive"));
    let rules = rule_enum(&grammar, &variants, is_open);
    let parser = parser_impl(input, &grammar, &variants);
    let files = grammar.files.iter().map(|file| file.display().to_string());
    // The compiler reads the files as well, so that the crate is built again when one has changed.
    Ok(quote! {
        #(const _: &str = ::core::include_str!(#files);)*
        #rules
        #parser
    })
}

/// The name of a rule as one of a variant, which may be a keyword.
fn variant(name: &str) -> syn::Result<Ident> {
    match name {
        "_" | "crate" | "self" | "super" | "Self" => {
            Err(syn::Error::new(Span::call_site(), format!("grammar error\n\n{name} is a rust keyword")))
        }
        _ => Ok(format_ident!("r#{}", name)),
    }
}

/// An error, and beside it what a program may name: `Rule` with the rules that the grammar defines, as far as they are
/// found, and the struct as a parser. So the compiler tells of the grammar's error, and not of what lacks by it.
pub(crate) fn refused(input: &DeriveInput, error: &syn::Error) -> TokenStream {
    let error = error.to_compile_error();
    let names = grammar::defined_names(input);
    let variants: Vec<Ident> = names.iter().filter_map(|name| variant(name).ok()).collect();
    let name = &input.ident;
    let (impl_generics, type_generics, where_clause) = input.generics.split_for_impl();
    quote! {
        #error

        #[allow(dead_code, missing_docs, non_camel_case_types, clippy::upper_case_acronyms)]
        #[derive(Clone, Copy, Debug, Eq, Hash, Ord, PartialEq, PartialOrd)]
        pub enum Rule {
            #(#variants,)*
        }

        impl #impl_generics ::pest::Parser<Rule> for #name #type_generics #where_clause {
            fn parse<'i>(
                _rule: Rule,
                _input: &'i str,
            ) -> ::core::result::Result<::pest::iterators::Pairs<'i, Rule>, ::pest::error::Error<Rule>> {
                ::core::unreachable!("the grammar has errors")
            }
        }
    }
}

fn rule_enum(grammar: &Grammar, variants: &[Ident], is_open: bool) -> TokenStream {
    let docs = &grammar.docs;
    let open = is_open.then(|| quote!(#[non_exhaustive]));
    let end = grammar.uses_eoi.then(|| {
        quote!(
            #[doc = "End-of-input"]
            EOI,
        )
    });
    let rules = grammar.names.iter().zip(variants).map(|(rule, variant)| {
        let docs = grammar.rule_docs.iter().find(|(name, _)| name == rule);
        let docs = docs.into_iter().flat_map(|(_, docs)| docs);
        quote!(#(#[doc = #docs])* #variant,)
    });
    quote! {
        #(#[doc = #docs])*
        #[allow(dead_code, non_camel_case_types, clippy::upper_case_acronyms)]
        #[derive(Clone, Copy, Debug, Eq, Hash, Ord, PartialEq, PartialOrd)]
        #open
        pub enum Rule {
            #end
            #(#rules)*
        }

        #[allow(dead_code)]
        impl Rule {
            /// The rules of the grammar, in its order.
            pub fn all_rules() -> &'static [Rule] {
                &[#(Rule::#variants),*]
            }
        }
    }
}

fn parser_impl(input: &DeriveInput, grammar: &Grammar, variants: &[Ident]) -> TokenStream {
    let name = &input.ident;
    let (impl_generics, type_generics, where_clause) = input.generics.split_for_impl();
    let block = Literal::byte_string(&grammar.block);
    let source = Literal::byte_string(&grammar.source);
    let tagged = match &grammar.tagged {
        Some(TaggedBlock { block, tags }) => {
            let block = Literal::byte_string(block);
            quote!(::core::option::Option::Some(::pest::machine::Tagged { block: #block, tags: &[#(#tags),*] }))
        }
        None => quote!(::core::option::Option::None),
    };
    let end = grammar.uses_eoi.then(|| format_ident!("EOI"));
    let count = grammar.row_of_eoi as u32;
    // The rows between have no pairs, and no error names them.
    let added = variants.iter().cycle().take(grammar.row_of_eoi - variants.len());
    let rules: Vec<&Ident> = variants.iter().chain(added).chain(&end).collect();
    // `EOI` is the first of the enum and the last of the rows.
    let row = match grammar.uses_eoi {
        true => quote!((rule as u32).checked_sub(1).unwrap_or(#count)),
        false => quote!(rule as u32),
    };
    quote! {
        #[allow(clippy::all)]
        impl #impl_generics ::pest::Parser<Rule> for #name #type_generics #where_clause {
            fn parse<'i>(
                rule: Rule,
                input: &'i str,
            ) -> ::core::result::Result<::pest::iterators::Pairs<'i, Rule>, ::pest::error::Error<Rule>> {
                static GRAMMAR: ::pest::machine::Grammar<Rule> = ::pest::machine::Grammar {
                    block: #block,
                    source: #source,
                    rules: &[#(Rule::#rules),*],
                    end: #count,
                    tagged: #tagged,
                };
                ::pest::machine::parse(&GRAMMAR, #row, input)
            }
        }
    }
}
