// Answers what the page asks, in a worker, by the module. Behind this file's text stands that of ../javascript/library.js.

let library;

const tasks = {
  start({ module }) {
    library = new Library(module);
    return library.versions();
  },

  /** The errors and warnings of a grammar, the names of its rules, and the spans of its colours. */
  check({ grammar }) {
    const problems = library.diagnose(grammar);
    const isRefused = problems.some((it) => it.kind === "error");
    const { builtins, rules } = isRefused ? { builtins: [], rules: [] } : library.optimize(grammar);
    const syntax = problems.find((it) => it.code === "pest::syntax");
    const parts = syntax ? partsAround(grammar, syntax.start) : [[0, grammar.length]];
    const colours = parts.flatMap(([start, end]) => coloursOf(grammar.slice(0, end), start, builtins));
    return { problems, names: rules.map((it) => it.name), colours, isRefused };
  },

  format: ({ grammar }) => library.format(grammar),
  document: ({ grammar }) => library.document(grammar),
  optimize: ({ grammar }) => library.optimize(grammar),

  /** The rows of the tree of a match, or where it fails and why. */
  run({ grammar, rule, text }) {
    const matcher = matcherOf(grammar);
    try {
      const { end, trees } = matcher.parse(rule, text);
      return { end, rows: rowsOf(trees) };
    } catch (error) {
      if (error.name !== "MatchError") throw error;
      const { position, line, column, expected } = error;
      const failure = { position, line, column, expected, missing: missingIn(grammar, rule, text), message: error.message };
      return { failure: { ...failure, ...pathsOf(matcher, rule, text, position) } };
    }
  },
};

// The matcher of the last grammar that was run.
let last = {};
function matcherOf(grammar) {
  if (last.grammar !== grammar) last = { grammar, matcher: library.open(grammar) };
  return last.matcher;
}

/** What a text was missing: the furthest position at which anything was tried, and the terminals there. */
function missingIn(grammar, rule, text) {
  last.terminals ??= library.terminals(grammar);
  try {
    const missing = last.terminals.missing(rule, text);
    if (!missing?.expected.length) return undefined;
    const { position, line, column, expected } = missing;
    return { position, line, column, expected };
  } catch (error) {
    if (error.name === "RunError") return undefined;
    throw error;
  }
}

/** Where the rules that are expected are called. A run that is stopped has a note in the place of paths. */
function pathsOf(matcher, rule, text, position) {
  try {
    return { paths: matcher.paths(rule, text, position) };
  } catch (error) {
    if (error.name === "LibraryError" && error.cause) throw error;
    return { paths: [], note: error.message };
  }
}

/** The trees of a match as rows, each before those inside it. `after` is the row behind the last of those. */
function rowsOf(trees) {
  const rows = [], open = [];
  const left = trees.toReversed?.() ?? [...trees].reverse();
  const depths = left.map(() => 0);
  while (left.length) {
    const tree = left.pop(), depth = depths.pop(), children = tree.children;
    while (open.length && open.at(-1).depth >= depth) open.pop().after = rows.length;
    const row = { rule: tree.rule, start: tree.start, end: tree.end, depth, after: 0, isLeaf: !children.length };
    rows.push(row);
    open.push(row);
    for (let at = children.length - 1; at >= 0; at--) {
      left.push(children[at]);
      depths.push(depth + 1);
    }
  }
  for (const row of open) row.after = rows.length;
  return rows;
}

/** The parts of a grammar before and after the rule with a syntax error, as it seems by its lines. */
function partsAround(grammar, place) {
  const heads = [...grammar.matchAll(/^[ \t]*[A-Za-z_]\w*[ \t]*=/gm)].map((it) => it.index);
  const before = heads.findLast((it) => it <= place) ?? 0, after = heads.find((it) => it > place);
  return after === undefined ? [[0, before]] : [[0, before], [after, grammar.length]];
}

const CLASSES = {
  string: "string", insensitive_string: "string", character: "string", inner_str: "string",
  number: "number", integer: "number", line_doc: "doc", grammar_doc: "doc", tag_id: "tag",
  assignment_operator: "operator", infix_operator: "operator", sequence_operator: "operator",
  choice_operator: "operator", positive_predicate_operator: "operator", negative_predicate_operator: "operator",
  optional_operator: "operator", repeat_operator: "operator", repeat_once_operator: "operator",
  range_operator: "operator", silent_modifier: "modifier", atomic_modifier: "modifier",
  compound_atomic_modifier: "modifier", non_atomic_modifier: "modifier",
};

/** The spans of colours in a grammar from a place on: [start, end, class]. What is between tokens is a comment, or blank. */
function coloursOf(grammar, from, builtins) {
  let tokens;
  try {
    tokens = library.tokens(grammar.slice(from));
  } catch (error) {
    // A part of a refused grammar may be refused, too.
    if (error.name === "GrammarError") return [];
    throw error;
  }
  const known = new Set(builtins), spans = [];
  let last = 0, parent = "";
  const add = (start, end, name) => end > start && spans.push([from + start, from + end, name]);
  for (let at = 0; at < tokens.length; at++) {
    const { rule, start, end, after } = tokens[at];
    if (rule === "grammar_rule") parent = rule;
    const text = grammar.slice(from + start, from + end);
    let name = CLASSES[rule];
    if (rule === "identifier") {
      name = parent ? "definition" : known.has(text) ? "builtin" : "call";
      parent = "";
    }
    if (name || after === at + 1) {
      addComments(grammar, from, last, start, add);
      if (name) add(start, end, name);
      last = Math.max(last, end);
      if (name) at = after - 1;
    }
  }
  addComments(grammar, from, last, grammar.length - from, add);
  return spans;
}

/** Adds the comments of a gap between two tokens. */
function addComments(grammar, from, start, end, add) {
  for (const it of grammar.slice(from + start, from + end).matchAll(/\S(?:[^]*\S)?/g)) {
    add(start + it.index, start + it.index + it[0].length, "comment");
  }
}

onmessage = ({ data: { id, task, ...words } }) => {
  try {
    postMessage({ id, answer: tasks[task](words) });
  } catch (error) {
    last = {};
    postMessage({ id, error: { name: error.name, message: error.message, problems: error.problems } });
  }
};
