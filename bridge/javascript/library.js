// The library over its WebAssembly module, for any host that has WebAssembly with BigInt. index.js loads the module.

/** A grammar is refused: `problems` has all that is wrong with it, one at least. */
export class GrammarError extends Error {
  constructor(problems) {
    super(problems.map((it) => `${it.line}:${it.column}: ${it.message}`).join("\n"));
    this.name = "GrammarError";
    this.problems = problems;
  }
}

/** A rule does not match a text. */
export class MatchError extends Error {
  constructor(position, line, column, expected, note) {
    const expectation = expected.length ? `expected ${expected.join(", ")}` : "unknown parsing error";
    super(`${line}:${column}: ${note ?? expectation}`);
    Object.assign(this, { name: "MatchError", position, line, column, expected });
  }
}

/** A rule was stopped: it takes more steps than it may, or has no outcome. */
export class RunError extends Error {
  constructor(message) {
    super(message);
    this.name = "RunError";
  }
}

/** The module is not of this release, has no memory left, or stopped at a fault: then a new instance takes its place. */
export class LibraryError extends Error {
  constructor(message, options) {
    super(message, options);
    this.name = "LibraryError";
  }
}

// The statuses of pest_meta.h.
const ANSWERED = 0, REFUSED = 1, MEMORY = 2, NO_ROOM = 4, NO_BLOCK = 5, UNFIT = 6;
const OUT_OF_STEPS = 8, EMPTY_STACK = 9, LONG_TEXT = 10, OTHER_VERSION = 11, CHANGED = 12;
const FORMAT = 1, NO_LIMIT = 2n ** 64n - 1n;
const FLAWS = {
  [NO_BLOCK]: "the bytes are no compiled grammar",
  [OTHER_VERSION]: "the grammar was compiled by another version: compile it again",
  [CHANGED]: "the bytes are those of a compiled grammar, changed",
};
/** The steps in which expected rules are looked for, if no limit is given. */
const errorSteps = (source) => 32n * BigInt(source.length) + 2n ** 23n;

/** A limit of steps as a number of 64 bits. 2^64 - 1 is none. */
function limitOf(steps) {
  const limit = BigInt(steps);
  if (limit < 0n) throw new RangeError("a limit of steps is not negative");
  return limit < NO_LIMIT ? limit : NO_LIMIT;
}

const encoder = new TextEncoder(), decoder = new TextDecoder("utf-8", { ignoreBOM: true });

/** The UTF-8 of a text. A text with half of a surrogate pair has none. */
function encode(text) {
  if (typeof text !== "string") throw new TypeError(`a text is wanted, and not ${typeof text}`);
  if (/\p{Surrogate}/u.test(text)) throw new TypeError("the text has half of a surrogate pair");
  return encoder.encode(text);
}

/** Where the bytes of a text lie in its string, and in its lines. */
class Places {
  // The index of each 256th byte.
  #marks;

  constructor(source) {
    this.source = source;
  }

  /** The index in the string of a byte at the start of a character. */
  index(byte) {
    this.#marks ??= this.#mark();
    const mark = byte >>> 8;
    return this.#marks[mark] + units(this.source, mark << 8, byte);
  }

  #mark() {
    const marks = new Float64Array((this.source.length >>> 8) + 1);
    for (let mark = 1; mark < marks.length; mark++) {
      marks[mark] = marks[mark - 1] + units(this.source, (mark - 1) << 8, mark << 8);
    }
    return marks;
  }

  /** The line and the column of a byte, from 1. A column is a character. */
  lineAndColumn(byte) {
    let line = 1, start = 0;
    for (let at = this.source.indexOf(10); at >= 0 && at < byte; at = this.source.indexOf(10, at + 1)) {
      line++;
      start = at + 1;
    }
    let column = 1;
    for (let at = start; at < byte; at++) column += (this.source[at] & 0xc0) !== 0x80;
    return [line, column];
  }
}

/** How many units of UTF-16 the characters take that start at these bytes. */
function units(source, start, end) {
  let count = 0;
  for (let at = start; at < end; at++) count += ((source[at] & 0xc0) !== 0x80) + (source[at] >= 0xf0);
  return count;
}

/** An instance of the module, and the memory that the calls at work have of it. */
class Instance {
  #taken = [];

  constructor(module) {
    this.calls = new WebAssembly.Instance(module).exports;
  }

  /** Memory of so many bytes. It is freed by `release`. */
  take(bytes) {
    const at = this.calls.host_malloc(BigInt(bytes || 1));
    if (!at) throw new LibraryError("the module has no memory left");
    this.#taken.push(at);
    return at;
  }

  /** A copy of the bytes: its address, and its length. */
  give(bytes) {
    const at = this.take(bytes.length);
    this.bytes(at, bytes.length).set(bytes);
    return [at, BigInt(bytes.length)];
  }

  /** Room for a list that a call hands out, which is empty so far. */
  list() {
    const at = this.take(16);
    this.words(at, 2).set([8n, 0n]);
    return at;
  }

  /** A copy of the items of a list that a call has handed out, of so many bytes each. */
  handed(list, size) {
    const [at, count] = this.words(list, 2);
    if (!count) return new Uint8Array(0);
    this.#taken.push(at);
    return this.bytes(at, Number(count) * size).slice();
  }

  release() {
    for (const at of this.#taken.splice(0)) this.calls.host_free(at);
  }

  // Views are made anew, since memory that grows leaves the old ones.
  bytes(at, length) {
    return new Uint8Array(this.calls.memory.buffer, Number(at), length);
  }

  words(at, length) {
    return new BigUint64Array(this.calls.memory.buffer, Number(at), length);
  }

  /** The status of a call. The upper bits of an answer of eight bits are not set by the module. */
  status(name, ...words) {
    return this.calls[name](...words) & 255;
  }
}

/** The calls of the library, over a `WebAssembly.Module`. */
export class Library {
  #module;
  #instance;

  constructor(module) {
    this.#module = module;
    const { format } = this.#read("pest_meta_version");
    if (format !== FORMAT) throw new LibraryError(`the module speaks format ${format}, and this package ${FORMAT}`);
  }

  /** The version of the crate pest_meta that the library ports, and the number of its format. */
  versions() {
    return this.#read("pest_meta_version");
  }

  /** The errors with which a grammar is refused, or else its warnings. */
  diagnose(grammar) {
    const source = encode(grammar), places = new Places(source);
    const span = (it) => ({ start: places.index(it.start), end: places.index(it.end) });
    const [, written] = this.#fill("pest_meta_diagnostics", [source]);
    const lines = decoder.decode(written).split("\n").filter(Boolean);
    return lines.map((line) => {
      const { file: _, fix, related, ...found } = JSON.parse(line);
      const mended = fix && { ...fix, ...span(fix) };
      return { ...found, ...span(found), fix: mended, related: related.map((it) => ({ ...it, ...span(it) })) };
    });
  }

  /** The formatted text of a grammar. Its names need not be known. */
  format(grammar) {
    const source = encode(grammar);
    const [status, text] = this.#hand("pest_meta_format", source);
    if (status === UNFIT) return grammar;
    if (status === REFUSED) throw this.#refusal("pest_meta_nodes", source);
    return this.#answer(status, "pest_meta_format", () => decoder.decode(text));
  }

  /** The document of a grammar in HTML, with a railroad diagram for each rule. It has no script. */
  document(grammar) {
    const source = encode(grammar);
    const [status, page] = this.#hand("pest_meta_page", source);
    if (status === REFUSED) throw this.#refusal("pest_meta_parse_and_optimize", source);
    return this.#answer(status, "pest_meta_page", () => decoder.decode(page));
  }

  /** The builtins that a grammar uses, and its optimized rules as docs/FORMAT.md has them. */
  optimize(grammar) {
    return this.#read("pest_meta_parse_and_optimize", encode(grammar));
  }

  /** The tokens that a rule of the meta-grammar gives for a text, from its start on: each with the next that is not in it. */
  tokens(text, rule = "grammar_rules") {
    const source = encode(text), places = new Places(source);
    const tokens = [], open = [];
    for (const [first, second, partner] of this.#read("pest_meta_tokens", source, encode(rule))) {
      if (partner === undefined) {
        const token = open.pop();
        token.end = places.index(first);
        token.after = tokens.length;
      } else {
        open.push({ rule: first, start: places.index(second), end: 0, depth: open.length, after: 0 });
        tokens.push(open.at(-1));
      }
    }
    return tokens;
  }

  /** A grammar, read, checked, optimized and compiled: bytes for `open`, which may be kept in a file. */
  compile(grammar) {
    return this.#compile("pest_meta_compile", grammar);
  }

  /** The terminals of a grammar, which say what a text was missing. */
  terminals(grammar) {
    return new Terminals(this.open(this.#compile("pest_meta_compile_exposed", grammar)));
  }

  #compile(name, grammar) {
    const source = encode(grammar);
    const [status, block] = this.#hand(name, source);
    if (status === REFUSED) throw this.#refusal("pest_meta_parse_and_optimize", source);
    if (status === UNFIT) throw new RangeError("a range of the grammar has a bound that is not one character");
    return this.#answer(status, name, () => block);
  }

  /** The matcher of a compiled grammar, or of the text of a grammar. */
  open(grammar) {
    const block = typeof grammar === "string" ? this.compile(grammar) : grammar.slice();
    const status = this.#use((it) => it.status("pest_meta_check", ...it.give(block)));
    if (status !== ANSWERED) throw new RangeError(FLAWS[status] ?? `pest_meta_check: status ${status}`);
    return new Matcher(block, (work) => this.#use(work));
  }

  /** Works with the instance. After a trap it is given up, since a call has ended halfway. */
  #use(work) {
    const instance = (this.#instance ??= new Instance(this.#module));
    try {
      return work(instance);
    } catch (error) {
      if (error instanceof WebAssembly.RuntimeError || isStackOverflow(error)) {
        this.#instance = undefined;
        throw new LibraryError(`the module stopped: ${error.message}`, { cause: error });
      }
      throw error;
    } finally {
      if (this.#instance === instance) instance.release();
    }
  }

  /** The status of a call about texts that writes into room of the caller, and what it writes. */
  #fill(name, sources) {
    return this.#use((it) => {
      const given = sources.flatMap((source) => it.give(source)), needed = it.take(8);
      let room = sources.reduce((sum, source) => sum + 16 * source.length, 4096);
      for (;;) {
        const out = it.take(room);
        const status = it.status(name, ...given, out, BigInt(room), needed);
        const length = Number(it.words(needed, 1)[0]);
        if (status !== NO_ROOM) return [status, it.bytes(out, length).slice()];
        room = length;
      }
    });
  }

  /** The status of a call about a text that hands out bytes, and these. */
  #hand(name, source) {
    return this.#use((it) => {
      const list = it.list();
      const status = it.status(name, ...it.give(source), list);
      return [status, it.handed(list, 1)];
    });
  }

  /** What a call about texts answers in JSON. */
  #read(name, ...sources) {
    const [status, written] = this.#fill(name, sources);
    if (status === REFUSED) throw problemsOf(written, sources[0]);
    return this.#answer(status, name, () => JSON.parse(decoder.decode(written)));
  }

  /** Why a call refuses a text. */
  #refusal(name, source) {
    const [status, written] = this.#fill(name, [source]);
    return status === REFUSED ? problemsOf(written, source) : stop(status, name);
  }

  #answer(status, name, answer) {
    if (status !== ANSWERED) throw stop(status, name);
    return answer();
  }
}

/** Compiled rules of a grammar, to run them on texts. */
export class Matcher {
  #block;
  #use;
  #rows;

  constructor(block, use) {
    this.#block = block;
    this.#use = use;
    /** The names of the rules, in the order of the grammar. */
    this.names = namesOf(block);
    this.#rows = new Map(this.names.map((name, row) => [name, row]));
  }

  /** Matches a text by the rule of a name, from the text's start on. `steps` is a limit, if one is given. */
  parse(rule, text, { steps } = {}) {
    const source = encode(text), row = this.#row(rule), places = new Places(source);
    const limit = steps === undefined ? undefined : limitOf(steps);
    const { status, end, nodes } = this.#use((it) => this.#run(it, row, source, limit ?? NO_LIMIT));
    if (status === REFUSED) throw this.#failure(row, source, end, limit);
    if (status !== ANSWERED) throw stop(status, rule, limit ?? NO_LIMIT);
    const match = new Nodes(new Uint32Array(nodes.buffer), places, text, [...this.names, "EOI"]);
    return { end: places.index(end), trees: match.trees(0, match.count) };
  }

  /** Where in the grammar the rules of a MatchError at a position are expected: the open calls, the outermost first. */
  paths(rule, text, position, { steps } = {}) {
    const source = encode(text), row = this.#row(rule), places = new Places(source);
    const place = encoder.encode(text.slice(0, position)).length;
    const limit = steps === undefined ? errorSteps(source) : limitOf(steps);
    const [status, numbers] = this.#use((it) => {
      const calls = it.list();
      const status = it.status("pest_meta_paths", ...this.#words(it, row, source), BigInt(place), limit, calls);
      return [status, new BigUint64Array(it.handed(calls, 24).buffer)];
    });
    if (status !== ANSWERED) throw stop(status, rule, limit);
    const paths = [], names = [...this.names, "EOI"];
    for (let at = 0; at < numbers.length; at += 3) {
      const [path, called, start] = numbers.subarray(at, at + 3);
      (paths[Number(path)] ??= []).push({ rule: names[Number(called)], start: places.index(Number(start)) });
    }
    return paths;
  }

  #row(rule) {
    const row = this.#rows.get(rule);
    if (row === undefined) throw new RangeError(`no rule has the name ${JSON.stringify(rule)}`);
    return row;
  }

  /** What the module is told of a run of a rule, up to the byte where it starts. */
  #words(it, row, source) {
    return [...it.give(this.#block), row, ...it.give(source), 0n];
  }

  #run(it, row, source, limit) {
    const words = this.#words(it, row, source), nodes = it.list(), end = it.take(8);
    const status = it.status("pest_meta_run", ...words, limit, nodes, end);
    return { status, end: Number(it.words(end, 1)[0]), nodes: it.handed(nodes, 16) };
  }

  /** The error of a run that fails at a byte, with the rules that are expected there, sorted by name. */
  #failure(row, source, place, limit) {
    const most = limit ?? errorSteps(source), places = new Places(source);
    const [status, rows] = this.#use((it) => {
      const list = it.list();
      const status = it.status("pest_meta_expected", ...this.#words(it, row, source), BigInt(place), most, list);
      return [status, new Uint32Array(it.handed(list, 4).buffer)];
    });
    const at = [places.index(place), ...places.lineAndColumn(place)];
    if (status === OUT_OF_STEPS && limit === undefined) {
      return new MatchError(...at, [], `what is expected here was not found in ${most} steps`);
    }
    if (status !== ANSWERED) return stop(status, this.names[row], most);
    const names = new Set([...rows].map((it) => this.names[it] ?? "EOI"));
    return new MatchError(...at, [...names].sort());
  }
}

/** The terminals of a grammar, which say what a text was missing. */
export class Terminals {
  #matcher;

  /** `matcher` is that of the exposed rules, in which each terminal is a rule of its own. */
  constructor(matcher) {
    this.#matcher = matcher;
  }

  /** The error with the terminals that were tried furthest if a rule fails on a text, or undefined if it matches. */
  missing(rule, text, limit) {
    try {
      this.#matcher.parse(rule, text, limit);
      return undefined;
    } catch (error) {
      if (!(error instanceof MatchError)) throw error;
      const { position, line, column, expected } = error;
      const all = [...new Set(expected.map((it) => it.slice(it.indexOf("#") + 1)))].sort();
      const told = all.filter((it) => it !== "WHITESPACE" && it !== "COMMENT");
      return new MatchError(position, line, column, told.length ? told : all);
    }
  }
}

/** The nodes of a match: four numbers each, as docs/FORMAT.md has them. */
class Nodes {
  constructor(numbers, places, text, names) {
    Object.assign(this, { numbers, places, text, names, count: numbers.length / 4 });
  }

  /** The trees from a node on and before another, without those inside them. */
  trees(at, end) {
    const trees = [];
    for (; at < end; at = this.numbers[4 * at + 3]) trees.push(new Tree(this, at));
    return trees;
  }
}

/** A token pair of a matched text: its rule, its span, and the trees inside it, which are made when asked for. */
export class Tree {
  #nodes;
  #at;

  constructor(nodes, at) {
    this.#nodes = nodes;
    this.#at = at;
  }

  get rule() {
    return this.#nodes.names[this.#nodes.numbers[4 * this.#at]];
  }

  get start() {
    return this.#nodes.places.index(this.#nodes.numbers[4 * this.#at + 1]);
  }

  get end() {
    return this.#nodes.places.index(this.#nodes.numbers[4 * this.#at + 2]);
  }

  get text() {
    return this.#nodes.text.slice(this.start, this.end);
  }

  get children() {
    return this.#nodes.trees(this.#at + 1, this.#nodes.numbers[4 * this.#at + 3]);
  }

  /** The tree and all trees inside it, each before its children. */
  *walk() {
    const end = this.#nodes.numbers[4 * this.#at + 3];
    for (let at = this.#at; at < end; at++) yield new Tree(this.#nodes, at);
  }
}

/** The names of the rules of a block. */
function namesOf(block) {
  const words = (part) => new DataView(part.buffer, part.byteOffset, part.byteLength);
  const section = (part, number) => {
    const view = words(part);
    return part.subarray(view.getUint32(4 * number, true), view.getUint32(4 * number + 4, true));
  };
  const names = section(block.subarray(16), 2), count = words(names).getUint32(0, true) / 4 - 1;
  return Array.from({ length: count }, (_, number) => decoder.decode(section(names, number)));
}

/** The error for what the library says of a text that it refuses. */
function problemsOf(written, source) {
  const answer = JSON.parse(decoder.decode(written));
  if (!Array.isArray(answer)) return new RangeError(answer.message);
  const places = new Places(source);
  const problems = answer.map(({ message, location, line_col: [[line, column]], line: text, expected = [] }) => {
    const [start, end] = [location[0], location.at(-1)].map((it) => places.index(it));
    return { message, start, end, line, column, source: text, expected };
  });
  return new GrammarError(problems);
}

/** The error for a call that has no answer. */
function stop(status, name, steps) {
  if (status === OUT_OF_STEPS) return new RunError(`${name} takes more than ${steps} steps`);
  if (status === EMPTY_STACK) return new RunError(`${name} has no outcome: PEEK or POP met the empty stack`);
  if (status === LONG_TEXT) return new RangeError("the text has 4 GiB or more");
  if (status === MEMORY) return new LibraryError("there is no memory for this text");
  return new LibraryError(`${name}: status ${status} is none of this release`);
}

/** Whether the host's own stack has overflowed, which is no trap in some hosts. */
function isStackOverflow(error) {
  return (error instanceof RangeError && /call stack/i.test(error.message)) || error.name === "InternalError";
}
