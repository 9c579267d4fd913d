//! The calls of a proved front end and matcher for grammars of [pest](https://pest.rs).
//!
//! The crates for Rust use this one: `pest_meta`, `pest_vm`, and the runtime and the derive macro of pest. It links the
//! static library, and has all their `unsafe` code. [`foreign`] has the calls of the library, and [`code`] runs
//! compiled grammars on texts.
#![no_std]
#![warn(missing_docs, rust_2018_idioms, unused_qualifications)]
// Each file but `foreign` forbids it.
#![deny(unsafe_code)]

extern crate alloc;

pub mod code;
#[allow(unsafe_code)]
#[cfg_attr(pest_meta_unlinked, path = "unlinked.rs")]
pub mod foreign;

/// A call of the library that takes one text.
#[derive(Clone, Copy, Debug)]
pub enum Call {
    /// The builtins that a grammar uses, or the errors of its names.
    Names,
    /// The error of a name, if it is a keyword of Rust.
    RustKeyword,
    /// The rules of a grammar, or its errors.
    Rules,
    /// The rules of a grammar with their spans, or the errors for which they cannot be read.
    Nodes,
    /// The optimized rules of rules in JSON.
    Optimize,
    /// The used builtins and the optimized rules of a grammar, or its errors.
    ParseAndOptimize,
    /// The diagnostics of a grammar, in lines.
    Diagnostics,
}

/// A node of a match. In a list of nodes, each is before the nodes inside it.
#[repr(C)]
#[derive(Clone, Copy, Debug, PartialEq, Eq)]
pub struct Node {
    /// The index of the rule in the grammar. For `EOI` it is the number of the rules.
    pub row: u32,
    /// The byte at which the node starts.
    pub start: u32,
    /// The byte after the node.
    pub end: u32,
    /// The index of the next node that is not inside this one.
    pub after: u32,
}
