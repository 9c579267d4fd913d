// Tests the package: node --test bridge/javascript/test.mjs. It needs pest_meta.wasm (bridge/web/build) beside it. Where the
// variable SMALL_STACK names the same module with a stack of 4,096 bytes, a call that traps is tried, too.
import assert from "node:assert/strict";
import { readFileSync } from "node:fs";
import { test } from "node:test";
import * as pest from "./index.js";

const LIST = 'list = { item ~ ("," ~ item)* ~ EOI }\nitem = @{ LETTER+ }\n';

test("a grammar is compiled once, kept as bytes, opened and run", () => {
  const block = pest.compile(LIST), matcher = pest.open(block);
  assert.deepEqual(matcher.names, ["list", "item"]);
  const { end, trees } = matcher.parse("list", "a,ñandú,😀".slice(0, 7));
  assert.equal(end, 7);
  assert.deepEqual([...trees[0].walk()].map((it) => [it.rule, it.start, it.end, it.text]),
    [["list", 0, 7, "a,ñandú"], ["item", 0, 1, "a"], ["item", 2, 7, "ñandú"], ["EOI", 7, 7, ""]]);
  assert.deepEqual(trees[0].children.map((it) => it.children.length), [0, 0, 0]);
  assert.equal(pest.parse(LIST, "item", "ab,").end, 2);
});

test("positions are indices of the string, lines and columns count characters", () => {
  const matcher = pest.open('a = { sign* ~ "!" }\nsign = { "é" | "😀" | NEWLINE }');
  for (const [before, line, column] of [["é😀", 1, 3], ["é😀\n😀é", 2, 3], ["😀".repeat(1000) + "\r\n", 2, 1]]) {
    const error = caught(() => matcher.parse("a", `${before}x`));
    assert.equal(error.name, "MatchError");
    assert.deepEqual([error.position, error.line, error.column], [before.length, line, column]);
    assert.deepEqual(matcher.paths("a", `${before}x`, error.position), [[{ rule: "a", start: 0 }, { rule: "sign", start: before.length }]]);
  }
  const [found] = pest.diagnose('/* 😀 */ a = { "é" "x" }');
  const text = '/* 😀 */ a = { "é" "x" }';
  assert.equal(text.slice(0, found.fix.start) + found.fix.replacement + text.slice(found.fix.end), '/* 😀 */ a = { "é" ~ "x" }');
});

test("a text that a rule refuses has a place, what is expected, and why", () => {
  const matcher = pest.open(LIST), error = caught(() => matcher.parse("list", "a,b,"));
  assert.equal(error.message, "1:5: expected item");
  assert.deepEqual([error.position, error.line, error.column, error.expected], [4, 1, 5, ["item"]]);
  assert.deepEqual(matcher.paths("list", "a,b,", 4), [[{ rule: "list", start: 0 }, { rule: "item", start: 4 }]]);
});

test("a refused grammar has all its problems", () => {
  const error = caught(() => pest.compile("a = { b }\nc = { d }"));
  assert.equal(error.name, "GrammarError");
  assert.deepEqual(error.problems.map((it) => [it.message, it.start, it.end, it.line, it.column, it.source]),
    [["rule b is undefined", 6, 7, 1, 7, "a = { b }"], ["rule d is undefined", 16, 17, 2, 7, "c = { d }"]]);
  for (const call of [pest.optimize, pest.open, pest.compile]) assert.equal(caught(() => call("a = {")).name, "GrammarError");
  assert.equal(caught(() => pest.format("a = {")).problems[0].line, 1);
  assert.equal(caught(() => pest.tokens("a = {")).name, "GrammarError");
});

test("diagnostics have codes, helps and fixes; a grammar without any has none", () => {
  const [error] = pest.diagnose('a = { "x" "y" }');
  assert.deepEqual([error.kind, error.code, error.line, error.column, error.help],
    ["error", "pest::syntax", 1, 11, "a sequence is written with `~`"]);
  assert.deepEqual(error.fix, { applicability: "safe", start: 9, end: 9, replacement: " ~" });
  assert.equal(pest.diagnose('a = { "in" | "int" }')[0].kind, "warning");
  assert.deepEqual(pest.diagnose(LIST), []);
});

test("format, document, tokens, optimized rules, versions", () => {
  assert.equal(pest.format('a={"x"~b}b={"é"}'), 'a = { "x" ~ b }\nb = { "é" }\n');
  assert.match(pest.document(LIST), /<svg[^]*list/);
  assert.deepEqual(pest.optimize('a = { "x"{2} | ANY }').builtins, ["ANY"]);
  assert.deepEqual(pest.tokens('é = { "x" }'.replace("é", "e"))[1], { rule: "identifier", start: 0, end: 1, depth: 1, after: 2 });
  assert.equal(pest.versions().version, "2.9.5");
});

test("terminals say what a text was missing", () => {
  const ini = pest.terminals('file = { SOI ~ part* ~ EOI } part = { "[" ~ name ~ "]" } name = @{ ASCII_ALPHA+ } WHITESPACE = _{ " " }');
  const { line, column, expected } = ini.missing("file", "[server");
  assert.deepEqual([line, column, expected], [1, 8, ['"]"', "ASCII_ALPHA"]]);
  assert.equal(ini.missing("file", "[server]"), undefined);
  assert.throws(() => ini.missing("none", ""), RangeError);
});

test("bytes that are no block of this version are refused", () => {
  const block = pest.compile(LIST), changed = block.slice();
  changed[block.length - 1] ^= 1;
  assert.match(caught(() => pest.open(changed)).message, /changed/);
  assert.match(caught(() => pest.open(new Uint8Array(20))).message, /no compiled grammar/);
  const other = block.slice();
  other[4] += 1;
  assert.match(caught(() => pest.open(other)).message, /another version/);
});

test("a run is stopped by its limit, or where it has no outcome", () => {
  assert.equal(caught(() => pest.open(LIST).parse("list", "x,".repeat(1000), { steps: 10 })).name, "RunError");
  assert.match(caught(() => pest.open("a = { POP }").parse("a", "x")).message, /empty stack/);
  assert.throws(() => pest.open(LIST).parse("none", ""), RangeError);
  assert.throws(() => pest.open(LIST).parse("list", "", { steps: -1 }), RangeError);
  assert.throws(() => pest.open(LIST).parse("list", 5), TypeError);
  assert.throws(() => pest.diagnose("a\ud800"), TypeError);
});

test("texts that make other matchers slow or deep have their answers", () => {
  const nest = pest.open('nest = { "(" ~ nest? ~ ")" }'), deep = 100_000;
  assert.equal(nest.parse("nest", "(".repeat(deep) + ")".repeat(deep)).end, 2 * deep);
  const slow = pest.open('a = { b ~ "!" | b ~ "?" }\nb = { "x" ~ b ~ "." | "x" ~ b ~ "," | "x" }');
  assert.equal(caught(() => slow.parse("a", "x".repeat(5000))).name, "MatchError");
  assert.equal(pest.diagnose(`a = { ${"(".repeat(20_000)}"x"${")".repeat(20_000)} }`).filter((it) => it.kind === "error").length, 0);
});

test("memory that calls take is given back", async () => {
  const library = new pest.Library(await WebAssembly.compile(readFileSync(new URL("pest_meta.wasm", import.meta.url))));
  const grow = (times) => {
    for (let at = 0; at < times; at++) {
      const matcher = library.open(LIST);
      matcher.parse("list", "a,".repeat(1000) + "b");
      caught(() => matcher.parse("list", "a,"));
      library.diagnose(LIST + "x");
      library.document(LIST);
    }
  };
  grow(20);
  const before = process.memoryUsage().arrayBuffers;
  grow(200);
  assert.ok(process.memoryUsage().arrayBuffers - before < 64 << 20);
});

test("after a call that traps the next one has its answer", { skip: !process.env.SMALL_STACK }, async () => {
  const library = new pest.Library(await WebAssembly.compile(readFileSync(process.env.SMALL_STACK)));
  const error = caught(() => library.document(LIST));
  assert.equal(error.name, "LibraryError");
  assert.ok(error.cause instanceof WebAssembly.RuntimeError, String(error.cause));
  assert.deepEqual(library.versions(), pest.versions());
});

function caught(work) {
  try {
    work();
  } catch (error) {
    return error;
  }
  throw new assert.AssertionError({ message: "nothing was thrown" });
}
