//! Stands in the place of the library where build.rs finds none. This crate can be checked and documented then,
//! and a build of it is an error that says why.
#![forbid(unsafe_code)]
#![allow(missing_docs)]

use alloc::boxed::Box;
use alloc::vec::Vec;
use core::ops::Deref;

use crate::{Call, Node};

/// A list of the library.
#[derive(Debug)]
pub struct Given<T>(Box<[T]>);

impl<T> Given<T> {
    pub fn new() -> Given<T> {
        Given(Box::new([]))
    }
}

impl<T> Default for Given<T> {
    fn default() -> Self {
        Given::new()
    }
}

impl<T> From<Vec<T>> for Given<T> {
    fn from(list: Vec<T>) -> Self {
        Given(list.into())
    }
}

impl<T> Deref for Given<T> {
    type Target = [T];

    fn deref(&self) -> &[T] {
        &self.0
    }
}

/// What a call answers. The compiler asks for it where it makes code, and not where it only checks some.
struct Answer<T>(T);

impl<T> Answer<T> {
    const REFUSED: u8 = panic!("{}", env!("PEST_META_UNLINKED"));
}

fn refused() -> u8 {
    Answer::<()>::REFUSED
}

pub fn grammar(_: &str, _: &mut [u8], _: &mut usize) -> u8 {
    refused()
}

pub fn over_text(_: Call, _: &str, _: &mut [u8], _: &mut usize) -> u8 {
    refused()
}

pub fn tokens(_: &str, _: &str, _: &mut [u8], _: &mut usize) -> u8 {
    refused()
}

pub fn token_numbers(_: &str, _: &str, _: &mut [usize], _: &mut usize) -> u8 {
    refused()
}

pub fn compile_prepared(_: &[u8], _: &mut Given<u8>) -> u8 {
    refused()
}

pub fn run(_: &[u8], _: u32, _: &str, _: u64, _: &mut Given<Node>, _: &mut usize) -> u8 {
    refused()
}

pub fn expected(_: &[u8], _: u32, _: &str, _: usize, _: u64, _: &mut Given<u32>) -> u8 {
    refused()
}

pub fn attempts(
    _: &[u8],
    _: u32,
    _: &str,
    _: u64,
    _: &mut usize,
    _: &mut Given<u32>,
    _: &mut Given<u32>,
) -> u8 {
    refused()
}

pub fn version(_: &mut [u8], _: &mut usize) -> u8 {
    refused()
}
