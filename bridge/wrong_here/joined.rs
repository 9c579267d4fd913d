//! A grammar of two files, of which the second is wrong.
use pest_derive::Parser;

#[derive(Parser)]
#[grammar = "first.pest"]
#[grammar = "second.pest"]
struct Wrong;

fn main() {}
