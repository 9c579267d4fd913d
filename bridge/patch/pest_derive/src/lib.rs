//! The derive macro of the crate `kingorewa_pest_derive` by the name of the original.
#![no_std]
#![forbid(unsafe_code)]

pub use derive::Parser;
