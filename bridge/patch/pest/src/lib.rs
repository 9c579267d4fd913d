//! The crate `kingorewa_pest` by the name of the original.
#![no_std]
#![forbid(unsafe_code)]

pub use runtime::*;
