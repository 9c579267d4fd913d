// The library, loaded once: `import * as pest from "kingorewa-pest"`.
import { Library } from "./library.js";

export { GrammarError, Library, LibraryError, MatchError, Matcher, RunError, Terminals, Tree } from "./library.js";

const place = new URL("pest_meta.wasm", import.meta.url);

/** The bytes of the module: of a file, where the host reads files, and else fetched. */
async function bytesOfModule() {
  if (place.protocol === "file:" && globalThis.process?.versions?.node) {
    const { readFile } = await import("node:fs/promises");
    return readFile(place);
  }
  const answer = await fetch(place);
  if (!answer.ok) throw new Error(`${place} is not to be had: ${answer.status} ${answer.statusText}`);
  return answer.arrayBuffer();
}

const library = new Library(await WebAssembly.compile(await bytesOfModule()));

export const compile = (grammar) => library.compile(grammar);
export const open = (grammar) => library.open(grammar);
export const terminals = (grammar) => library.terminals(grammar);
export const parse = (grammar, rule, text, options) => library.open(grammar).parse(rule, text, options);
export const diagnose = (grammar) => library.diagnose(grammar);
export const format = (grammar) => library.format(grammar);
export const document = (grammar) => library.document(grammar);
export const optimize = (grammar) => library.optimize(grammar);
export const tokens = (text, rule) => library.tokens(text, rule);
export const versions = () => library.versions();
