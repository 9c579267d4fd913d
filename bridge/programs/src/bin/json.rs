//! Reads JSON into values, and prints them without blanks: `json FILE..`.
use std::{env, fs};

use pest::error::Error;
use pest::iterators::Pair;
use pest::Parser;
use pest_derive::Parser;

#[derive(Parser)]
#[grammar = "json.pest"]
struct JsonParser;

enum Value<'a> {
    Object(Vec<(&'a str, Value<'a>)>),
    Array(Vec<Value<'a>>),
    Text(&'a str),
    Number(f64),
    Boolean(bool),
    Null,
}

fn read(text: &str) -> Result<Value<'_>, Box<Error<Rule>>> {
    let json = JsonParser::parse(Rule::json, text)?.next().unwrap();
    Ok(value(json))
}

fn value(pair: Pair<'_, Rule>) -> Value<'_> {
    match pair.as_rule() {
        Rule::object => Value::Object(pair.into_inner().map(member).collect()),
        Rule::array => Value::Array(pair.into_inner().map(value).collect()),
        Rule::string => Value::Text(pair.into_inner().next().unwrap().as_str()),
        Rule::number => Value::Number(pair.as_str().parse().unwrap()),
        Rule::boolean => Value::Boolean(pair.as_str().parse().unwrap()),
        Rule::null => Value::Null,
        other => unreachable!("{other:?} is no value"),
    }
}

fn member(pair: Pair<'_, Rule>) -> (&str, Value<'_>) {
    let mut parts = pair.into_inner();
    let name = parts.next().unwrap().into_inner().next().unwrap().as_str();
    (name, value(parts.next().unwrap()))
}

fn written(value: &Value<'_>) -> String {
    match value {
        Value::Object(members) => {
            let members: Vec<_> =
                members.iter().map(|(name, value)| format!("\"{name}\":{}", written(value))).collect();
            format!("{{{}}}", members.join(","))
        }
        Value::Array(values) => format!("[{}]", values.iter().map(written).collect::<Vec<_>>().join(",")),
        Value::Text(text) => format!("\"{text}\""),
        Value::Number(number) => format!("{number}"),
        Value::Boolean(boolean) => format!("{boolean}"),
        Value::Null => "null".to_owned(),
    }
}

fn main() {
    for file in env::args().skip(1) {
        let text = fs::read_to_string(&file).expect("the file can be read");
        match read(&text) {
            Ok(value) => println!("{}", written(&value)),
            Err(error) => println!("{}", error.with_path(&file)),
        }
    }
}
