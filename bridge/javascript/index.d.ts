// Positions are indices of the string that was given, as `slice` takes them. Lines and columns count from 1, and a column
// is a character.

/** Something that is wrong with a grammar. `end` is `start` where it is a position and no span. */
export interface Problem {
  message: string;
  start: number;
  end: number;
  line: number;
  column: number;
  /** That line of the grammar, without its line break. */
  source: string;
  /** The rules of the meta-grammar that would have let a syntax error's text get further. */
  expected: string[];
}

/** A change of a grammar that mends something: `replacement` goes between `start` and `end`. */
export interface Fix {
  start: number;
  end: number;
  replacement: string;
  /** `pest-lint --fix` applies safe fixes. An unsafe one can change what the rules match. */
  applicability: "safe" | "unsafe";
}

/** Another part of a grammar that matters to a diagnostic. */
export interface Related {
  message: string;
  start: number;
  end: number;
  line: number;
  column: number;
}

/** An error or a warning of a grammar. */
export interface Diagnostic {
  kind: "error" | "warning";
  /** The code, as `pest::left_recursion`. */
  code: string;
  message: string;
  start: number;
  end: number;
  line: number;
  column: number;
  /** How to mend it, where that is known. */
  help: string | null;
  fix: Fix | null;
  related: Related[];
  /** What would have let a syntax error's text get further, as a message names it. */
  expected: string[];
}

/** A node of a rule's expression: its form and arguments, in preorder (docs/FORMAT.md). */
export type Node = [form: string, ...arguments: unknown[]];

export interface OptimizedRule {
  name: string;
  type: "normal" | "silent" | "atomic" | "compound_atomic" | "non_atomic";
  expr: Node[];
}

export interface Optimized {
  builtins: string[];
  rules: OptimizedRule[];
}

/** A token of a text by the meta-grammar. `after` is the index of the next one that is not inside it. */
export interface Token {
  rule: string;
  start: number;
  end: number;
  depth: number;
  after: number;
}

/** A token pair of a matched text. */
export class Tree {
  private constructor();
  readonly rule: string;
  readonly start: number;
  readonly end: number;
  readonly text: string;
  /** The trees inside it, in the order of the text. */
  readonly children: Tree[];
  /** The tree and all trees inside it, each before its children. */
  walk(): Generator<Tree, void, void>;
}

/** The match of a rule. A rule that does not end in EOI may match a part of the text: `end` is after the match. */
export interface Match {
  end: number;
  trees: Tree[];
}

/** A call that is open where a rule is expected. */
export interface Call {
  rule: string;
  start: number;
}

export interface Limit {
  /** The steps that a run may take. Without a limit it runs until it has an answer: give one if the grammar uses the stack. */
  steps?: number | bigint;
}

/** Compiled rules of a grammar, to run them on texts. */
export class Matcher {
  private constructor();
  /** The names of the rules, in the order of the grammar. */
  readonly names: readonly string[];
  /**
   * Matches a text by the rule of a name, from the text's start on.
   * @throws {MatchError} if the rule does not match, {RunError} if the run is stopped, {RangeError} if no rule has the name.
   */
  parse(rule: string, text: string, limit?: Limit): Match;
  /**
   * Where in the grammar the rules of a MatchError at a position are expected: for each the calls that are open there, the
   * outermost first.
   */
  paths(rule: string, text: string, position: number, limit?: Limit): Call[][];
}

/** The terminals of a grammar, which say what a text was missing. */
export class Terminals {
  private constructor();
  /**
   * Undefined if the rule of a name matches a text. Else an error with the furthest position at which anything was tried. It
   * expects the literals, ranges and builtins that were tried there, as a grammar has them, and rules that are one token.
   * @throws {RunError} if the run is stopped, {RangeError} if no rule has the name.
   */
  missing(rule: string, text: string, limit?: Limit): MatchError | undefined;
}

/** The calls of the library over a compiled module, for hosts that load it by themselves. */
export class Library {
  constructor(module: WebAssembly.Module);
  compile: typeof compile;
  open: typeof open;
  terminals: typeof terminals;
  diagnose: typeof diagnose;
  format: typeof format;
  document: typeof document;
  optimize: typeof optimize;
  tokens: typeof tokens;
  versions: typeof versions;
}

/** A grammar is refused. */
export class GrammarError extends Error {
  constructor(problems: Problem[]);
  /** All that is wrong, in the order in which the front end reports it: one at least. */
  readonly problems: Problem[];
}

/** A rule does not match a text. */
export class MatchError extends Error {
  constructor(position: number, line: number, column: number, expected: string[], note?: string);
  /** The furthest position at which a rule failed. */
  readonly position: number;
  readonly line: number;
  readonly column: number;
  /** The rules that would have let the run get further, sorted by name. */
  readonly expected: string[];
}

/** A rule was stopped: it takes more steps than it may, or has no outcome. */
export class RunError extends Error {}

/** The module has no memory left, or stopped at a fault: then a new instance takes its place. */
export class LibraryError extends Error {}

/** A grammar, read, checked, optimized and compiled: bytes for `open`. @throws {GrammarError} if anything is wrong with it. */
export function compile(grammar: string): Uint8Array;
/** The matcher of a compiled grammar, or of the text of one. @throws {RangeError} if the bytes are none, or were changed. */
export function open(grammar: Uint8Array | string): Matcher;
/** The terminals of a grammar, which say what a text was missing. @throws {GrammarError} if anything is wrong with it. */
export function terminals(grammar: string): Terminals;
/** Matches a text by a rule of a grammar: `open` once, if there are several texts. */
export function parse(grammar: Uint8Array | string, rule: string, text: string, limit?: Limit): Match;
/** The errors with which a grammar is refused, or else its warnings. */
export function diagnose(grammar: string): Diagnostic[];
/** The formatted text of a grammar. @throws {GrammarError} if its syntax is wrong. */
export function format(grammar: string): string;
/** The document of a grammar in HTML, with a railroad diagram for each rule, and no script. */
export function document(grammar: string): string;
/** The builtins that a grammar uses, and its optimized rules. */
export function optimize(grammar: string): Optimized;
/** The tokens that a rule of the meta-grammar gives for a text, from its start on; `grammar_rules`, where none is named. */
export function tokens(text: string, rule?: string): Token[];
/** The version of the crate pest_meta that the library ports, and the number of its format. */
export function versions(): { version: string; format: number };
