// As conform.c, by a WebAssembly module: node conform.mjs MODULE CASES > ANSWERS
import { openSync, readFileSync, writeSync } from "node:fs";

const [, , module, file] = process.argv;
const calls = new WebAssembly.Instance(new WebAssembly.Module(readFileSync(module))).exports;
const cases = readFileSync(file), output = openSync("/dev/stdout", "w");
let next = 0, caseNumber = 0, textNumber = 0;

function readWord() {
  next += 4;
  return cases.readUInt32LE(next - 4);
}

function readBytes() {
  const count = readWord();
  next += count;
  return cases.subarray(next - count, next);
}

// The module's memory: a view of bytes or words, a copy of bytes, and room for words.
const bytes = (at, count) => new Uint8Array(calls.memory.buffer, Number(at), Number(count));
const words = (at, count) => new BigUint64Array(calls.memory.buffer, Number(at), count);
const copy = (at, count) => (count ? bytes(at, count).slice() : new Uint8Array(0));
const take = (count) => calls.host_malloc(BigInt(count));
const free = (at) => calls.host_free(at);
const eight = (value) => new Uint8Array(BigUint64Array.of(BigInt(value)).buffer);

function give(data) {
  const at = take(data.length || 1);
  bytes(at, data.length).set(data);
  return [at, BigInt(data.length)];
}

const slots = take(64);
/** An empty list in a pair of words. */
function list(slot) {
  words(slots, 8).set([8n, 0n], slot);
  return slots + BigInt(8 * slot);
}

/** What a call has handed out there, of so many bytes each. */
function handed(slot, size) {
  const [at, count] = words(slots, 8).subarray(slot, slot + 2), found = copy(at, Number(count) * size);
  if (count) free(at);
  return found;
}

function writeAll(data) {
  for (let at = 0; at < data.length; ) {
    try {
      at += writeSync(output, data, at);
    } catch (error) {
      // A pipe that is full.
      if (error.code !== "EAGAIN") throw error;
    }
  }
}

let pending = [], size = 0;
function writeAnswer(call, status, data) {
  const head = Buffer.from(`${caseNumber} ${textNumber} ${call} ${status} ${data.length}\n`);
  pending.push(head, data, Buffer.from("\n"));
  size += head.length + data.length + 1;
  if (size > 1 << 20) flush();
}

function flush() {
  writeAll(Buffer.concat(pending));
  [pending, size] = [[], 0];
}

/** Calls with more room, until there is enough, and copies what is written. */
function filled(call, unit, first) {
  const needed = slots + 48n;
  for (let length = first; ; ) {
    const room = take(length * unit);
    const status = call(room, BigInt(length), needed) & 255, count = Number(words(needed, 1)[0]);
    const found = status < 2 && (unit === 1 || status === 0) ? copy(room, unit * count) : new Uint8Array(0);
    free(room);
    if (status !== 4) return [status, found];
    length = count;
  }
}

function ask(name, text) {
  const given = give(text);
  const [status, found] = filled((...room) => calls[`pest_meta_${name}`](...given, ...room), 1, 64);
  free(given[0]);
  writeAnswer(name, status, found);
  return status ? new Uint8Array(0) : found;
}

function askTokens(text, rule) {
  const given = [...give(text), ...give(Buffer.from(rule))];
  writeAnswer("tokens", ...filled((...room) => calls.pest_meta_tokens(...given, ...room), 1, 64));
  writeAnswer("token_numbers", ...filled((...room) => calls.pest_meta_token_numbers(...given, ...room), 8, 1));
  free(given[0]);
  free(given[2]);
}

function askHanded(name, text) {
  const given = give(text);
  const status = calls[`pest_meta_${name}`](...given, list(0)) & 255;
  const found = handed(0, 1);
  free(given[0]);
  writeAnswer(name, status, found);
  return found;
}

function askRules(grammar) {
  const rules = ask("rules", grammar);
  if (rules.length) askHanded("compile_prepared", ask("prepare", ask("optimize", rules)));
}

function runUntil(run, steps) {
  const status = calls.pest_meta_run(...run, steps, list(0), slots + 56n) & 255;
  writeAnswer("run_until", status, handed(0, 16));
}

function runText(block, row, text, from, steps) {
  const run = [...block, row, ...text, BigInt(from)], end = slots + 48n;
  words(end, 1)[0] = 0n;
  let status = calls.pest_meta_run(...run, steps, list(0), end) & 255;
  writeAnswer("run", status, handed(0, 16));
  writeAnswer("end", status, eight(words(end, 1)[0]));

  // Within the steps it has an answer, so it has one without a limit.
  if (status <= 1) runUntil(run, 2n ** 64n - 1n);
  runUntil(run, 16n);
  if (status !== 1) return;

  const place = words(end, 1)[0];
  status = calls.pest_meta_expected(...run, place, steps, list(0)) & 255;
  writeAnswer("expected", status, handed(0, 4));
  status = calls.pest_meta_paths(...run, place, steps, list(0)) & 255;
  writeAnswer("paths", status, handed(0, 24));
  status = calls.pest_meta_attempts(...run, steps, end, list(0), list(2)) & 255;
  writeAnswer("place", status, eight(words(end, 1)[0]));
  writeAnswer("positives", status, handed(0, 4));
  writeAnswer("negatives", status, handed(2, 4));
}

function askNames(block) {
  const count = calls.pest_meta_rule_count(...block), room = take(4096), needed = slots + 48n;
  writeAnswer("rule_count", 0, eight(BigInt.asUintN(64, count)));
  const last = BigInt.asUintN(64, count) < 100n ? count : 100n;
  for (let rule = 0n; rule <= last; rule++) {
    const status = calls.pest_meta_rule_name(...block, Number(rule), room, 4096n, needed) & 255;
    writeAnswer("rule_name", status, status ? new Uint8Array(0) : copy(room, Number(words(needed, 1)[0])));
  }
  free(room);
}

function askGrammar(grammar) {
  textNumber = 0;
  for (const name of ["diagnostics", "names", "rust_keyword", "nodes", "parse_and_optimize", "grammar"]) ask(name, grammar);
  askTokens(grammar, "grammar_rules");
  askTokens(grammar, "no_such_rule");
  askRules(grammar);
  for (const name of ["format", "page"]) askHanded(name, grammar);
  const block = askHanded("compile", grammar), whole = give(block), other = give(block);
  writeAnswer("check", calls.pest_meta_check(...whole) & 255, new Uint8Array(0));
  if (block.length) bytes(other[0], block.length)[Math.floor((block.length * 2) / 3)] ^= 1;
  writeAnswer("check", calls.pest_meta_check(...other) & 255, new Uint8Array(0));
  for (const it of [whole, other, [whole[0], whole[1] / 2n]]) askNames(it);
  for (let left = readWord(); left; left--) {
    textNumber++;
    const row = readWord(), from = readWord(), text = give(readBytes());
    runText(whole, row, text, from, 200000n);
    runText(whole, row, text, from, 40n);
    runText(other, row, text, from, 2000n);
    runText([whole[0], whole[1] / 2n], row, text, from, 2000n);
    free(text[0]);
  }
  free(whole[0]);
  free(other[0]);
}

writeAnswer("version", ...filled((...room) => calls.pest_meta_version(...room), 1, 100));
while (next < cases.length) {
  caseNumber++;
  askGrammar(readBytes());
}
flush();
