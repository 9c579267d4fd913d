// The examples of the page, the first of which it opens with.
const EXAMPLES = [
  {
    name: "JSON",
    rule: "json",
    grammar: String.raw`//! JSON, as pest's book and repository have it.

json = { SOI ~ value ~ EOI }

value = { string | number | object | array | bool | null }

object = { "{" ~ pair ~ ("," ~ pair)* ~ "}" | "{" ~ "}" }
pair = { string ~ ":" ~ value }
array = { "[" ~ value ~ ("," ~ value)* ~ "]" | "[" ~ "]" }

string = @{ "\"" ~ inner ~ "\"" }
inner = @{ (!("\"" | "\\") ~ ANY)* ~ (escape ~ inner)? }
escape = @{ "\\" ~ ("b" | "t" | "n" | "f" | "r" | "\"" | "\\" | "/" | unicode) }
unicode = @{ "u" ~ ASCII_HEX_DIGIT{4} }

number = @{ "-"? ~ int ~ ("." ~ ASCII_DIGIT+ ~ exp? | exp)? }
int = @{ "0" | ASCII_NONZERO_DIGIT ~ ASCII_DIGIT* }
exp = @{ ("E" | "e") ~ ("+" | "-")? ~ ASCII_DIGIT+ }

bool = { "true" | "false" }
null = { "null" }

WHITESPACE = _{ " " | "\t" | "\r" | "\n" }
`,
    text: `{
  "name": "pest",
  "stars": [4, 5.5e3],
  "is_small": true
}
`,
  },
  {
    name: "Calculator",
    rule: "calculation",
    grammar: `calculation = _{ SOI ~ expression ~ EOI }
expression = { term ~ ((add | subtract) ~ term)* }
term = { factor ~ ((multiply | divide) ~ factor)* }
factor = _{ number | "(" ~ expression ~ ")" }

add = { "+" }
subtract = { "-" }
multiply = { "*" }
divide = { "/" }
number = @{ "-"? ~ ASCII_DIGIT+ ~ ("." ~ ASCII_DIGIT+)? }

WHITESPACE = _{ " " }
`,
    text: "1 + 2 * (3 - 4.5) / 6",
  },
  {
    name: "Errors, with fixes",
    rule: "",
    grammar: `list = { "[" ~ (item ~ ("," item)*)? ~ "]" }
item = { word }
word = @{ alpha+ }
`,
    text: "[a, b]",
  },
  {
    name: "Left recursion",
    rule: "",
    grammar: `expression = { expression ~ "+" ~ number | number }
number = @{ ASCII_DIGIT+ }
blanks = { (" "*)* }
`,
    text: "1+2",
  },
  {
    name: "Warnings",
    rule: "keyword",
    grammar: `keyword = { "in" | "int" | "if" }
greeting = { "hello" ~ ("," | ",") ~ name? ~ EOI }
name = @{ ASCII_ALPHA* }
`,
    text: "int",
  },
  {
    name: "A text that fails",
    rule: "pairs",
    grammar: `pairs = { SOI ~ pair ~ (";" ~ pair)* ~ EOI }
pair = { key ~ "=" ~ value }
key = @{ ASCII_ALPHA+ }
value = { number | quoted }
number = @{ ASCII_DIGIT+ }
quoted = @{ "'" ~ (!"'" ~ ANY)* ~ "'" }
WHITESPACE = _{ " " }
`,
    text: "width = 80; height = ; title = 'x'",
  },
  {
    name: "Blocks by indentation (the stack)",
    rule: "lines",
    grammar: `lines = { SOI ~ block_content* ~ EOI }
block_content = _{ line ~ (NEWLINE | &EOI) ~ block? }
block = { PEEK_ALL ~ PUSH("  " ~ " "*) ~ block_content ~ (PEEK_ALL ~ block_content)* ~ DROP }
line = @{ (!NEWLINE ~ !" " ~ ANY) ~ (!NEWLINE ~ ANY)* }
`,
    text: `one
  two
    three
  four
five
`,
  },
  {
    name: "Characters past ASCII",
    rule: "words",
    grammar: `words = { SOI ~ word ~ (" "+ ~ word)* ~ EOI }
word = @{ (letter | sign)+ }
letter = { LETTER | MARK }
sign = { '☀'..'🧿' }
`,
    text: "Grüße 👋 żółw мир ☀",
  },
];
