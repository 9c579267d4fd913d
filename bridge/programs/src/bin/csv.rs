//! Adds the numbers of records, and counts the records: `csv FILE..`.
use std::{env, fs};

use pest::Parser;
use pest_derive::Parser;

#[derive(Parser)]
#[grammar = "csv.pest"]
pub struct CsvParser;

fn main() {
    for path in env::args().skip(1) {
        let text = fs::read_to_string(&path).expect("the file can be read");
        let file = match CsvParser::parse(Rule::file, &text) {
            Ok(mut pairs) => pairs.next().unwrap(),
            Err(error) => {
                println!("{error}");
                continue;
            }
        };
        let (mut sum, mut records) = (0.0, 0);
        for record in file.into_inner() {
            match record.as_rule() {
                Rule::record => {
                    records += 1;
                    for field in record.into_inner() {
                        sum += field.as_str().parse::<f64>().unwrap();
                    }
                }
                Rule::EOI => {}
                _ => unreachable!(),
            }
        }
        println!("the sum of {records} records is {sum}");
    }
}
