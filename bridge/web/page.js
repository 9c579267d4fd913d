// The script of the page: it asks the worker, and shows what it answers. Text of a grammar or a text goes into the page
// as text alone; the diagrams, which the library writes as HTML, into a frame that runs no script.
"use strict";

const at = (id) => document.getElementById(id);

/** An element with properties, and children that are elements or text. */
function element(name, properties, ...children) {
  const { data, ...plain } = properties ?? {};
  const made = Object.assign(document.createElement(name), plain);
  for (const key in data) made.setAttribute(key, data[key]);
  made.append(...children);
  return made;
}

/** The bytes that are packed in the page under an id. */
async function unpack(id) {
  const packed = Uint8Array.from(atob(at(id).textContent.trim()), (it) => it.charCodeAt(0));
  return through(packed, new DecompressionStream("gzip"));
}

async function through(bytes, stream) {
  return new Uint8Array(await new Response(new Blob([bytes]).stream().pipeThrough(stream)).arrayBuffer());
}

// The worker that asks the module. It can be ended, and then another takes its place.
const desk = {
  module: null,
  worker: null,
  waiting: new Map(),
  next: 0,

  start() {
    this.worker = new Worker(this.source);
    this.worker.onmessage = ({ data: { id, answer, error } }) => {
      const { done, fail } = this.waiting.get(id);
      this.waiting.delete(id);
      if (error) fail(Object.assign(new Error(error.message), error));
      else done(answer);
    };
    this.worker.onerror = (event) => this.restart(event.message ?? "the worker ended");
    return this.ask("start", { module: this.module });
  },

  ask(task, words) {
    const id = this.next++;
    return new Promise((done, fail) => {
      this.waiting.set(id, { done, fail, since: performance.now() });
      this.worker.postMessage({ id, task, ...words });
    });
  },

  /** Since when the oldest question waits, in milliseconds. */
  waits() {
    const oldest = Math.min(...[...this.waiting.values()].map((it) => it.since));
    return this.waiting.size ? performance.now() - oldest : 0;
  },

  /** Gives up questions that nobody waits for any more, if one of them takes long. */
  giveUpOld() {
    if (this.waits() > 250) this.restart("stopped").catch(() => {});
  },

  /** Ends the worker, whatever it does, and starts another. */
  restart(why) {
    this.worker.terminate();
    const left = [...this.waiting.values()];
    this.waiting.clear();
    const started = this.start();
    for (const { fail } of left) fail(Object.assign(new Error(why), { name: "Stopped" }));
    return started;
  },
};

// What is shown now. `version` counts the changes, so that an answer to an older question is let go.
const shown = { version: 0, checked: null, result: null, tab: "tree", rule: "", document: "", frame: "" };
let grammar, text;

/** Shows the answer to a question, unless something has changed meanwhile. */
async function answer(task, words) {
  const version = shown.version;
  try {
    const it = await desk.ask(task, words);
    return version === shown.version ? it : undefined;
  } catch (error) {
    if (version !== shown.version) return undefined;
    throw error;
  }
}

// Editors.

function editor(id, label) {
  const made = CodeMirror(at(id), {
    lineNumbers: true, lineWrapping: true, lineSeparator: "\n", gutters: ["CodeMirror-linenumbers", "dots"],
    indentUnit: 4, undoDepth: 1000, viewportMargin: 20, screenReaderLabel: label,
    extraKeys: { Tab: false, "Shift-Tab": false, F8: () => step(1), "Shift-F8": () => step(-1), "Shift-Alt-F": format, "Ctrl-.": fixHere, "Cmd-.": fixHere },
  });
  made.on("changes", () => {
    shown.version++;
    later();
  });
  return made;
}

function clear(marks) {
  for (const it of marks.splice(0)) it.clear();
}

/** Marks a span of an editor. A position, or a span of nothing, is marked before it, too. */
function mark(of, start, end, className, title) {
  const [from, to] = [of.posFromIndex(start), of.posFromIndex(end)];
  if (start === end) return of.setBookmark(from, { widget: element("span", { className: `m-place ${className}`, title }) });
  return of.markText(from, to, { className: `m-${className}`, attributes: { title } });
}

function goTo(of, start, end = start) {
  of.focus();
  of.setSelection(of.posFromIndex(start), of.posFromIndex(end));
  of.scrollIntoView({ from: of.posFromIndex(start), to: of.posFromIndex(end) }, 60);
}

// The colours of a line are made anew where they or the line differ.
const coloured = new WeakMap();

function colour(spans) {
  const lines = [];
  for (const [start, end, name] of spans) {
    const from = grammar.posFromIndex(start), to = grammar.posFromIndex(end);
    for (let line = from.line; line <= to.line; line++) {
      const ends = line === to.line ? to.ch : grammar.getLine(line).length;
      (lines[line] ??= []).push([line === from.line ? from.ch : 0, ends, name]);
    }
  }
  grammar.operation(() => {
    let number = 0;
    grammar.eachLine((handle) => {
      const line = number++, wanted = lines[line] ?? [], sign = `${handle.text}\n${wanted.join()}`;
      const was = coloured.get(handle) ?? { marks: [] };
      if (was.sign === sign) return;
      clear(was.marks);
      const marks = wanted.map(([from, to, name]) => grammar.markText({ line, ch: from }, { line, ch: to }, { className: `c-${name}` }));
      coloured.set(handle, { sign, marks });
    });
  });
}

// The grammar: its errors and warnings, with a button for each fix.

const problemMarks = [];

function showProblems({ problems, isRefused }) {
  clear(problemMarks);
  grammar.clearGutter("dots");
  grammar.operation(() => {
    for (const it of problems) {
      problemMarks.push(mark(grammar, it.start, it.end, it.kind, `${it.message}${it.help ? `\nhelp: ${it.help}` : ""}`));
      const dot = element("div", { className: `dot ${it.kind}`, title: it.message }, "●");
      const { line } = grammar.posFromIndex(it.start);
      if (!grammar.lineInfo(line).gutterMarkers || it.kind === "error") grammar.setGutterMarker(line, "dots", dot);
    }
  });
  const many = (count, what) => `${count} ${what}${count === 1 ? "" : "s"}`;
  const errors = problems.filter((it) => it.kind === "error").length, warnings = problems.length - errors;
  at("count").textContent = isRefused ? many(errors, "error") : warnings ? `accepted, with ${many(warnings, "warning")}` : "accepted, without a warning";
  at("count").className = `told ${isRefused ? "error" : warnings ? "warning" : "good"}`;
  at("problems").replaceChildren(...problems.map(problemItem));
  at("problems-part").classList.toggle("is-empty", !problems.length);
}

function problemItem(it) {
  const place = (label, start, end) => element("button", { className: "place", type: "button", onclick: () => goTo(grammar, start, end) }, label);
  const item = element("li", {}, element("p", {},
    place(`${it.line}:${it.column}`, it.start, it.end), " ", element("b", { className: it.kind }, it.kind), `: ${it.message} `,
    element("span", { className: "faint" }, it.code)));
  for (const other of it.related) item.append(element("p", {}, place(`${other.line}:${other.column}`, other.start, other.end), ` ${other.message}`));
  if (it.help) item.append(element("p", { className: "good" }, `help: ${it.help}`));
  if (it.fix) {
    const old = grammar.getValue().slice(it.fix.start, it.fix.end);
    const fix = it.fix.applicability === "safe" ? "Fix" : "Unsafe fix";
    const label = !it.fix.replacement ? `${fix}: remove ${clip(old)}` : !old ? `${fix}: write ${clip(it.fix.replacement)}` : `${fix}: ${clip(old)} → ${clip(it.fix.replacement)}`;
    item.append(element("button", { className: "fix", type: "button", onclick: () => applyFix(it.fix) }, label));
  }
  return item;
}

const clip = (part) => {
  const line = part.replace(/\n/g, "⏎");
  return line.length > 40 ? `${line.slice(0, 39)}…` : line;
};

function applyFix({ start, end, replacement }) {
  grammar.replaceRange(replacement, grammar.posFromIndex(start), grammar.posFromIndex(end));
  goTo(grammar, start, start + replacement.length);
}

function fixHere() {
  const cursor = grammar.indexFromPos(grammar.getCursor());
  const fitting = shown.checked?.problems.filter((it) => it.fix);
  const found = fitting?.find((it) => it.start <= cursor && cursor <= it.end) ?? fitting?.[0];
  if (found) applyFix(found.fix);
}

/** Goes to the next problem of the grammar, or the last. */
function step(by) {
  const places = (shown.checked?.problems ?? []).map((it) => it.start).sort((a, b) => a - b);
  const cursor = grammar.indexFromPos(grammar.getCursor("from"));
  const next = by > 0 ? places.find((it) => it > cursor) ?? places[0] : places.findLast((it) => it < cursor) ?? places.at(-1);
  if (next !== undefined) goTo(grammar, next);
}

async function format() {
  try {
    const formatted = await answer("format", { grammar: grammar.getValue() });
    if (formatted === undefined) return;
    const cursor = grammar.getCursor();
    if (formatted !== grammar.getValue()) grammar.setValue(formatted);
    grammar.setCursor(cursor);
    at("state").textContent = "formatted";
  } catch (error) {
    at("state").textContent = `not formatted: ${error.message}`;
  }
}

// The text: its tree, with spans that light up in the text and back, or where it fails and why.

const textMarks = [], litMarks = [];

function showRun(result, took) {
  shown.result = result;
  clear(textMarks);
  clear(litMarks);
  const whole = text.getValue();
  if (result.failure) {
    const { position, line, column, message } = result.failure;
    textMarks.push(mark(text, position, Math.min(position + 1, whole.length), position < whole.length ? "failure" : "error", message));
    told(`fails at ${line}:${column} (${took})`, "error");
  } else if (result.end < whole.length) {
    const { line, ch } = text.posFromIndex(result.end);
    textMarks.push(mark(text, result.end, whole.length, "rest", "not matched: the rule ends before"));
    told(`matches up to ${line + 1}:${[...text.getLine(line).slice(0, ch)].length + 1}, not the rest (${took})`, "warning");
  } else told(`matches (${took})`, "good");
  if (shown.tab === "tree") showTree();
}

function told(what, className) {
  at("ran").textContent = what;
  at("ran").className = `told ${className}`;
}

const FEW = 2000;
let tree = { rows: [], elements: [], folded: new Set(), held: -1 };

function showTree() {
  const { result } = shown, pane = at("tab-pane");
  tree = { rows: result?.rows ?? [], elements: [], folded: new Set(), held: -1 };
  at("shown").textContent = result?.rows ? `${result.rows.length} tokens` : "";
  if (!result) return pane.replaceChildren(element("p", { className: "failure faint" }, shown.checked?.isRefused ? "The grammar has errors." : "Nothing was run."));
  if (result.failure) return pane.replaceChildren(failureOf(result.failure));
  if (!tree.rows.length) return pane.replaceChildren(element("p", { className: "failure faint" }, "The rule matches, and gives no token."));
  const list = element("div", { data: { role: "tree", "aria-label": "Tokens" } });
  list.onkeydown = treeKey;
  pane.replaceChildren(list);
  addRows(list);
}

/** Adds the next rows of the tree, and a button for the others. */
function addRows(list) {
  const start = tree.elements.length, end = Math.min(start + FEW, tree.rows.length), source = text.getValue();
  for (let at = start; at < end; at++) tree.elements.push(rowOf(tree.rows[at], at, source));
  list.append(...tree.elements.slice(start));
  if (end === tree.rows.length) return;
  const more = element("button", { type: "button", onclick: () => { more.remove(); addRows(list); } }, `${tree.rows.length - end} more`);
  list.append(more);
}

function rowOf(row, at, source) {
  const indent = Math.min(row.depth, 60), part = source.slice(row.start, row.end);
  const fold = element("span", { className: "fold", data: { "aria-hidden": "true" } }, row.isLeaf ? " " : "▾");
  const made = element("div", {
    className: "row", tabIndex: at ? -1 : 0,
    data: { role: "treeitem", "aria-level": row.depth + 1, ...(row.isLeaf ? {} : { "aria-expanded": "true" }) },
  }, fold, element("span", { className: "name" }, row.rule));
  if (row.isLeaf) made.append(element("span", { className: "leaf" }, JSON.stringify(part.length > 80 ? `${part.slice(0, 79)}…` : part)));
  made.append(element("span", { className: "span" }, `${row.start}..${row.end}`));
  made.style.paddingLeft = `${0.5 + 1.1 * indent}rem`;
  fold.onclick = (event) => {
    event.stopPropagation();
    foldRow(at);
  };
  made.onmouseenter = () => light(at);
  made.onfocus = () => light(at);
  made.onclick = () => hold(at, true);
  made.ondblclick = () => goTo(text, row.start, row.end);
  return made;
}

/** Lights up the span of a row in the text. */
function light(at) {
  const { start, end } = tree.rows[at];
  clear(litMarks);
  const [from, to] = [text.posFromIndex(start), text.posFromIndex(end)];
  if (start < end) litMarks.push(text.markText(from, to, { className: "m-lit" }));
  text.scrollIntoView({ from, to: text.posFromIndex(Math.min(end, start + 200)) });
}

/** Makes a row the current one. */
function hold(at, takesFocus) {
  const was = tree.elements[tree.held], now = tree.elements[at];
  if (was) {
    was.classList.remove("held");
    was.tabIndex = -1;
  } else if (tree.elements[0]) tree.elements[0].tabIndex = -1;
  tree.held = at;
  if (!now) return;
  now.classList.add("held");
  now.tabIndex = 0;
  now.scrollIntoView({ block: "nearest" });
  if (takesFocus) now.focus({ preventScroll: true });
}

/** Folds or unfolds a row. Rows inside one that is folded stay hidden. */
function foldRow(at) {
  if (tree.rows[at].isLeaf) return;
  const { folded } = tree;
  if (!folded.delete(at)) folded.add(at);
  tree.elements[at].setAttribute("aria-expanded", String(!folded.has(at)));
  tree.elements[at].firstChild.textContent = folded.has(at) ? "▸" : "▾";
  for (let inside = at + 1; inside < Math.min(tree.rows[at].after, tree.elements.length); ) {
    tree.elements[inside].hidden = folded.has(at);
    tree.elements[inside].style.display = folded.has(at) ? "none" : "";
    inside = !folded.has(at) && folded.has(inside) ? tree.rows[inside].after : inside + 1;
  }
}

function treeKey(event) {
  const at = tree.elements.indexOf(document.activeElement);
  if (at < 0) return;
  const isShown = (it) => tree.elements[it].style.display !== "none";
  const row = tree.rows[at], isFolded = tree.folded.has(at);
  let to = at;
  if (event.key === "ArrowDown") do to++; while (to < tree.elements.length && !isShown(to));
  else if (event.key === "ArrowUp") do to--; while (to >= 0 && !isShown(to));
  else if (event.key === "Home") to = 0;
  else if (event.key === "End") { to = tree.elements.length - 1; while (!isShown(to)) to--; }
  else if (event.key === "ArrowRight" && isFolded) foldRow(at);
  else if (event.key === "ArrowRight" && !row.isLeaf) to = at + 1;
  else if (event.key === "ArrowLeft" && !row.isLeaf && !isFolded) foldRow(at);
  else if (event.key === "ArrowLeft") { do to--; while (to >= 0 && tree.rows[to].depth >= row.depth); }
  else if (event.key === "Enter") return event.preventDefault(), goTo(text, row.start, row.end);
  else return;
  event.preventDefault();
  if (to !== at && tree.elements[to]) hold(to, true);
}

/** Holds the innermost row at the cursor of the text. */
function holdAtCursor() {
  if (!text.hasFocus() || shown.tab !== "tree" || !tree.rows.length) return;
  const cursor = text.indexFromPos(text.getCursor());
  let found = -1;
  for (let row = 0; row < tree.rows.length; ) {
    const { start, end, after } = tree.rows[row];
    if (start <= cursor && cursor < end) found = row++;
    else row = after;
  }
  if (found < 0) return;
  hold(found, false);
  clear(litMarks);
  const { start, end } = tree.rows[found];
  litMarks.push(text.markText(text.posFromIndex(start), text.posFromIndex(end), { className: "m-lit" }));
}

function failureOf({ position, line, column, expected, missing, paths, note }) {
  const found = text.getValue().slice(position), shownPart = found ? JSON.stringify([...found.slice(0, 20)].slice(0, 12).join("")) : "the end of the text";
  const made = element("div", { className: "failure" }, ...missingPart(missing),
    element("p", {}, element("button", { className: "place", type: "button", onclick: () => goTo(text, position) }, `${line}:${column}`), " the text fails here, at ", element("code", {}, shownPart)),
    element("p", {}, expected.length ? "Expected: " : "Nothing is known to be expected here.", ...names(expected)));
  if (note) made.append(element("p", { className: "faint" }, note));
  if (paths.length) {
    made.append(element("p", {}, "Why: the calls that are open there, with the place where each begins"));
    made.append(element("ol", { className: "paths" }, ...paths.slice(0, MOST_PATHS).map(pathItem)));
    if (paths.length > MOST_PATHS) made.append(element("p", { className: "faint" }, `${paths.length - MOST_PATHS} more`));
  }
  return made;
}

/** What the text was missing, where that is known: the furthest place, and the terminals that were tried there. */
function missingPart(missing) {
  if (!missing) return [];
  const { position, line, column, expected } = missing;
  const terminals = expected.slice(0, MOST_PATHS).flatMap((it, at) => [at ? ", " : "", ruleLink(it)]);
  const place = element("button", { className: "place", type: "button", onclick: () => goTo(text, position) }, `${line}:${column}`);
  return [element("p", {}, "Missing at ", place, ": ", ...terminals, expected.length > MOST_PATHS ? ", .." : "")];
}

// So many paths are shown, and of a long one so many calls at its start and at its end.
const MOST_PATHS = 20, FIRST_CALLS = 4, LAST_CALLS = 20;

function pathItem(path) {
  const left = path.length - FIRST_CALLS - LAST_CALLS, call = (it) => [ruleLink(it.rule), " ", placeOf(it.start)];
  const parts = left > 0 ? [...path.slice(0, FIRST_CALLS).map(call), [`${left} more calls`], ...path.slice(-LAST_CALLS).map(call)] : path.map(call);
  return element("li", {}, ...parts.flatMap((it, at) => (at ? [" › ", ...it] : it)));
}

function placeOf(start) {
  const { line, ch } = text.posFromIndex(start);
  const column = [...text.getLine(line).slice(0, ch)].length + 1;
  return element("button", { className: "place faint", type: "button", onclick: () => goTo(text, start) }, `${line + 1}:${column}`);
}

const names = (rules) => rules.flatMap((it, at) => [at ? ", " : "", ruleLink(it)]);

/** A rule's name, which goes to its definition. */
function ruleLink(rule) {
  const span = shown.checked?.colours.find(([start, end, name]) => name === "definition" && grammar.getValue().slice(start, end) === rule);
  if (!span) return element("code", {}, rule);
  return element("button", { className: "place", type: "button", onclick: () => goTo(grammar, span[0], span[1]) }, element("code", {}, rule));
}

// The other tabs.

const FRAME_STYLE = "<style>nav, h1, .back { display: none } body { margin: 0; padding: 0 1rem 1rem; font-size: 14px } section:first-of-type { border: 0 }</style>";

const tabs = {
  tree: { show: async () => showTree() },
  diagrams: {
    async show(pane) {
      const page = await answer("document", { grammar: grammar.getValue() });
      if (page === undefined || (page === shown.document && pane.querySelector("iframe"))) return;
      shown.document = page;
      // Not by srcdoc, whose links to places in the document would lead to those of this page.
      const styled = new Blob([page.replace("</head>", `${FRAME_STYLE}</head>`)], { type: "text/html" });
      const frame = element("iframe", { title: "Railroad diagrams" });
      frame.setAttribute("sandbox", "");
      URL.revokeObjectURL(shown.frame);
      frame.src = shown.frame = URL.createObjectURL(styled);
      pane.replaceChildren(frame);
    },
  },
  optimized: {
    async show(pane) {
      const found = await answer("optimize", { grammar: grammar.getValue() });
      if (found === undefined) return;
      at("shown").textContent = `${found.rules.length} rules; builtins: ${found.builtins.join(", ") || "none"}`;
      pane.replaceChildren(element("pre", {}, found.rules.map(ruleText).join("\n")));
    },
  },
  formatted: {
    async show(pane) {
      const formatted = await answer("format", { grammar: grammar.getValue() });
      if (formatted === undefined) return;
      at("shown").textContent = formatted === grammar.getValue() ? "the grammar is formatted so" : "Format takes this over";
      pane.replaceChildren(element("pre", {}, formatted));
    },
  },
};

async function showTab() {
  const pane = at("tab-pane");
  for (const name in tabs) {
    const isChosen = name === shown.tab;
    at(`tab-${name}`).setAttribute("aria-selected", String(isChosen));
    at(`tab-${name}`).tabIndex = isChosen ? 0 : -1;
  }
  pane.setAttribute("aria-labelledby", `tab-${shown.tab}`);
  at("shown").textContent = "";
  try {
    await tabs[shown.tab].show(pane);
  } catch (error) {
    const why = error.name === "GrammarError" ? "The grammar has errors." : error.message;
    pane.replaceChildren(element("p", { className: "failure faint" }, why));
  }
}

const SIGNS = { normal: "", silent: "_", atomic: "@", compound_atomic: "$", non_atomic: "!" };
// How a form with operands is written: its strength, and its text of those of its operands.
const FORMS = {
  choice: [0, (a, b) => `${a} | ${b}`], seq: [1, (a, b) => `${a} ~ ${b}`],
  pos_pred: [3, (a) => `&${a}`], neg_pred: [3, (a) => `!${a}`],
  opt: [4, (a) => `${a}?`], rep: [4, (a) => `${a}*`], rep_once: [4, (a) => `${a}+`],
  push: [5, (a) => `PUSH(${a})`], restore_on_err: [5, (a) => `restore(${a})`], node_tag: [2, (a, name) => `#${name} = ${a}`],
};
const quote = (it, by = '"') => by + [...JSON.stringify(it).slice(1, -1).replace(/\\u([0-9a-f]{4})/g, "\\u{$1}").replace(/\\"/g, '"')].map((c) => (c === by ? `\\${c}` : c)).join("") + by;
const LEAVES = {
  str: (it) => quote(it), insens: (it) => `^${quote(it)}`, range: (a, b) => `${quote(a, "'")}..${quote(b, "'")}`, ident: (it) => it,
  peek_slice: (a, b) => `PEEK[${a}..${b ?? ""}]`, push_literal: (it) => `PUSH_LITERAL(${quote(it)})`,
  skip: (texts) => `(!(${texts.map((it) => quote(it)).join(" | ")}) ~ ANY)*`,
};

/** An optimized rule as it would stand in a grammar. Nodes are joined from the last to the first. */
function ruleText({ name, type, expr }) {
  const left = [];
  for (const [form, ...words] of [...expr].reverse()) {
    if (LEAVES[form]) left.push([9, LEAVES[form](...words)]);
    else if (form === "seq" || form === "choice") {
      const [strength, write] = FORMS[form];
      const [a, b] = [left.pop(), left.pop()];
      left.push([strength, write(inside(a, strength + (form === "seq" ? 1 : 0)), inside(b, strength))]);
    } else {
      const [strength, write] = FORMS[form], operand = left.pop();
      left.push([strength, write(inside(operand, strength === 5 ? 0 : strength), ...words)]);
    }
  }
  return `${name} = ${SIGNS[type]}{ ${left[0][1]} }`;
}

const inside = ([strength, written], least) => (strength < least ? `(${written})` : written);

// Asking.

let timer, watch;
function later() {
  clearTimeout(timer);
  timer = setTimeout(refresh, 120);
}

/** Asks anew about the grammar and the text. A question that is not answered in time is given up. */
async function refresh() {
  const version = ++shown.version;
  desk.giveUpOld();
  keepState();
  const source = grammar.getValue(), began = performance.now();
  try {
    const checked = await desk.ask("check", { grammar: source });
    if (version !== shown.version) return;
    shown.checked = checked;
    shown.source = source;
    showProblems(checked);
    colour(checked.colours);
    at("checked").textContent = `${(performance.now() - began).toFixed(0)} ms`;
    showNames(checked);
    run();
    if (shown.tab !== "tree") showTab();
  } catch (error) {
    if (version === shown.version) at("count").textContent = error.message;
  }
}

function showNames({ names, isRefused }) {
  if (isRefused) return;
  const wanted = names.includes(shown.rule) ? shown.rule : names[0] ?? "";
  at("rule").replaceChildren(...names.map((name) => new Option(name)));
  at("rule").value = shown.rule = wanted;
}

async function run() {
  const version = shown.version, began = performance.now();
  shown.result = null;
  clearInterval(watch);
  at("stop").hidden = true;
  if (shown.checked?.isRefused || !shown.rule) {
    clear(textMarks);
    clear(litMarks);
    told(shown.checked?.isRefused ? "the grammar has errors" : "the grammar has no rule", "faint");
    if (shown.tab === "tree") showTree();
    return;
  }
  watch = setInterval(() => {
    const seconds = (performance.now() - began) / 1000;
    if (seconds < 0.4) return;
    at("stop").hidden = false;
    told(`runs, for ${seconds.toFixed(0)} s`, "warning");
  }, 200);
  try {
    const result = await desk.ask("run", { grammar: grammar.getValue(), rule: shown.rule, text: text.getValue() });
    if (version === shown.version) showRun(result, `${(performance.now() - began).toFixed(0)} ms`);
  } catch (error) {
    if (version !== shown.version) return;
    told(error.name === "Stopped" ? "stopped" : error.message, "error");
    if (shown.tab === "tree") showTree();
  } finally {
    if (version === shown.version) {
      clearInterval(watch);
      at("stop").hidden = true;
    }
  }
}

// The state in the address, behind '#', packed.

const LONGEST = 60_000;

async function stateText() {
  const state = JSON.stringify({ grammar: grammar.getValue(), text: text.getValue(), rule: shown.rule, tab: shown.tab });
  const packed = await through(new TextEncoder().encode(state), new CompressionStream("deflate-raw"));
  let letters = "";
  for (let at = 0; at < packed.length; at += 8192) letters += String.fromCharCode(...packed.subarray(at, at + 8192));
  return `#${btoa(letters).replaceAll("+", "-").replaceAll("/", "_").replaceAll("=", "")}`;
}

async function keepState() {
  const hash = await stateText();
  if (hash.length > LONGEST) return false;
  if (hash !== location.hash) history.replaceState(null, "", hash);
  return true;
}

/** Opens the state that the address has. */
async function openState() {
  if (location.hash.length < 2) return false;
  try {
    const letters = atob(location.hash.slice(1).replaceAll("-", "+").replaceAll("_", "/"));
    const bytes = await through(Uint8Array.from(letters, (it) => it.charCodeAt(0)), new DecompressionStream("deflate-raw"));
    const state = JSON.parse(new TextDecoder().decode(bytes));
    if (typeof state.grammar !== "string" || typeof state.text !== "string") return false;
    open(state);
    return true;
  } catch {
    at("state").textContent = "the address has no state that can be read";
    return false;
  }
}

function open(state) {
  shown.rule = String(state.rule ?? "");
  at("rule").replaceChildren();
  if (Object.hasOwn(tabs, state.tab)) shown.tab = state.tab;
  if (grammar.getValue() !== state.grammar) grammar.setValue(state.grammar);
  if (text.getValue() !== state.text) text.setValue(state.text);
  grammar.clearHistory();
  text.clearHistory();
  clearTimeout(timer);
  showTab();
  return refresh();
}

async function share() {
  if (!(await keepState())) return (at("state").textContent = "the grammar and the text are too long for a link");
  try {
    await navigator.clipboard.writeText(location.href);
    at("state").textContent = "the link is copied";
  } catch {
    at("state").textContent = "the link is in the address bar";
  }
}

function listen() {
  at("examples").append(new Option("choose …", ""), ...EXAMPLES.map(({ name }, at) => new Option(name, at)));
  at("examples").onchange = () => at("examples").value && open({ ...EXAMPLES[at("examples").value], tab: shown.tab });
  at("share").onclick = share;
  at("format").onclick = format;
  at("stop").onclick = () => desk.restart("stopped").catch(() => {});
  at("rule").onchange = () => {
    shown.rule = at("rule").value;
    shown.version++;
    desk.giveUpOld();
    keepState();
    run();
  };
  for (const name in tabs) {
    at(`tab-${name}`).onclick = () => {
      shown.tab = name;
      keepState();
      showTab();
    };
  }
  at("tabs").onkeydown = (event) => {
    const all = Object.keys(tabs), by = { ArrowRight: 1, ArrowLeft: -1 }[event.key];
    if (!by) return;
    const next = all[(all.indexOf(shown.tab) + by + all.length) % all.length];
    at(`tab-${next}`).click();
    at(`tab-${next}`).focus();
  };
  text.on("cursorActivity", holdAtCursor);
  addEventListener("hashchange", openState);
}

async function begin() {
  const began = performance.now();
  const [module, code] = await Promise.all([unpack("packed-module"), unpack("packed-editor")]);
  desk.source = URL.createObjectURL(new Blob([at("worker-source").textContent], { type: "text/javascript" }));
  desk.module = await WebAssembly.compile(module);
  const started = desk.start();
  await new Promise((done, fail) => {
    const script = element("script", { src: URL.createObjectURL(new Blob([code], { type: "text/javascript" })), onload: done, onerror: fail });
    document.head.append(script);
  });
  [grammar, text] = [editor("grammar", "Grammar"), editor("text", "Text")];
  listen();
  await started;
  const ready = performance.now() - began;
  if (!(await openState())) await open(EXAMPLES[0]);
  at("state").textContent = `ready after ${ready.toFixed(0)} ms`;
}

begin().catch((error) => {
  at("state").textContent = `the page cannot start: ${error.message}`;
  at("state").className = "state error";
});
