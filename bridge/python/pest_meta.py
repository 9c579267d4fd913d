"""Grammars of pest (https://pest.rs), read, validated and optimized by a proved library.

    >>> import pest_meta
    >>> pest_meta.check('a = { b ~ ANY } b = { "x" }')
    ['ANY']
    >>> [error] = pest_meta.diagnostics('a = { "x" "y" }')
    >>> error.code, error.line, error.column, error.help
    ('pest::syntax', 1, 11, 'a sequence is written with `~`')
    >>> error.fix.apply('a = { "x" "y" }')
    'a = { "x" ~ "y" }'
    >>> [rule] = pest_meta.rules('a = @{ "x"? }')
    >>> rule.name, rule.type, str(rule.expr)
    ('a', 'atomic', '(opt (str "x"))')
    >>> matcher = pest_meta.Matcher('list = { item ~ ("," ~ item)* ~ EOI } item = @{ ASCII_ALPHA+ }')
    >>> [list] = matcher.parse("list", "a,bc").trees
    >>> [(tree.rule, tree.text) for tree in list]
    [('item', 'a'), ('item', 'bc'), ('EOI', '')]
    >>> list[1].column, len(list), list.find("item").text
    (3, 3, 'a')
    >>> block = pest_meta.compile('a = { "x"* }')
    >>> pest_meta.load(block).parse("a", "xx").end
    2

If a grammar is refused, GrammarError is raised. It has all errors of the grammar. Only the call `diagnostics` does not
raise it, and returns the errors. If a rule does not match a text, MatchError is raised. If an argument for a text is no
str, TypeError is raised. If an allocation fails, MemoryError is raised. If the library is missing, or is not of the
release of this file, LibraryError is raised.

Positions are in bytes of UTF-8, from 0, as in docs/FORMAT.md. A Tree also has positions in characters. Lines and
columns count from 1, and columns are in characters.

This file needs Python 3.8 and the shared library, and nothing else. It looks for the library in these folders, in this
order: the folder of this file, the folder ../lib, into which bridge/build puts the library, the folders of a release,
and the folders of the system. If the variable PEST_META_LIB is set, only the folder that it names is searched. Several
threads may make calls at the same time.
"""
import bisect
import ctypes
import json
import os
import re
import sys
from typing import Any, Dict, Iterator, List, NamedTuple, Optional, Sequence, Tuple, Union, overload

__all__ = [
    "Diagnostic",
    "Expr",
    "Fix",
    "GrammarError",
    "LibraryError",
    "Match",
    "MatchError",
    "Matcher",
    "Optimized",
    "Problem",
    "Related",
    "Rule",
    "RunError",
    "Terminals",
    "Token",
    "Tree",
    "check",
    "compile",
    "diagnostics",
    "load",
    "optimize",
    "optimize_rules",
    "rules",
    "tokens",
    "versions",
]

# The shared library, by the system.
_LIBRARY = {"win32": "pest_meta_c.dll", "darwin": "libpest_meta_c.dylib"}.get(sys.platform, "libpest_meta_c.so.1")
_FORMAT = 1
_ANSWERED, _REFUSED, _MEMORY, _NO_TEXT, _NO_ROOM = range(5)
_NO_BLOCK, _UNFIT, _NO_RULE, _OUT_OF_STEPS, _EMPTY_STACK, _LONG_TEXT, _OTHER_VERSION, _CHANGED = range(5, 13)
_NO_LIMIT = 2**64 - 1
# How many operands the nodes of a form have (docs/FORMAT.md).
_OPERANDS = {
    **dict.fromkeys(["str", "insens", "range", "ident", "peek_slice", "skip", "push_literal"], 0),
    **dict.fromkeys(["pos_pred", "neg_pred", "opt", "rep", "rep_once", "rep_exact", "rep_min", "rep_max"], 1),
    **dict.fromkeys(["rep_min_max", "push", "node_tag", "restore_on_err"], 1),
    **dict.fromkeys(["seq", "choice"], 2),
}


class LibraryError(Exception):
    """The library is missing, or is not of this file's release."""


class Problem(NamedTuple):
    """An error of a grammar."""

    message: str
    """What is wrong."""
    start: int
    """The byte at which it starts."""
    end: int
    """The byte before which it ends. If the error has a position and no span, this is `start`."""
    line: int
    """The line on which it starts, from 1."""
    column: int
    """The column at which it starts, in characters, from 1."""
    source: str
    """The line of the grammar on which it starts, without its line break."""
    expected: Tuple[str, ...]
    """The rules of the meta-grammar that were expected at a syntax error. Empty for any other error."""

    def __str__(self) -> str:
        return f"{self.line}:{self.column}: {self.message}"


class Fix(NamedTuple):
    """A change of a grammar that fixes a diagnostic."""

    start: int
    """The first byte of the grammar that is replaced."""
    end: int
    """The byte after the last one that is replaced."""
    replacement: str
    """The text that takes the place of these bytes."""
    is_safe: bool = False
    """Whether `pest-lint --fix` applies this fix. An unsafe fix can change what the rules match."""

    def apply(self, grammar: str) -> str:
        """Returns `grammar` with this change. The other fixes do not fit the result: call diagnostics again."""
        source = grammar.encode()
        return (source[: self.start] + self.replacement.encode() + source[self.end :]).decode()


class Related(NamedTuple):
    """Another part of a grammar that matters to a diagnostic."""

    message: str
    start: int
    """The byte at which the part starts."""
    end: int
    """The byte before which it ends."""
    line: int
    column: int


class Diagnostic(NamedTuple):
    """An error or a warning, as pest-lint prints it."""

    kind: str
    """`error` or `warning`."""
    code: str
    """The code, such as `pest::left_recursion`. `pest-lint --explain CODE` prints a page about it."""
    message: str
    """What is wrong."""
    start: int
    """The byte of the grammar at which it starts."""
    end: int
    """The byte before which it ends. If the diagnostic has a position and no span, this is `start`."""
    line: int
    """The line on which it starts, from 1."""
    column: int
    """The column at which it starts, in characters, from 1."""
    help: Optional[str]
    """How to correct the grammar, or None if that is not known."""
    fix: Optional[Fix]
    """A change that corrects the grammar, or None if no such change is known."""
    related: Tuple[Related, ...]
    """Other parts of the grammar that the message is about."""
    expected: Tuple[str, ...]
    """What was expected at a syntax error, in the words of messages, such as "`~`". Empty for any other diagnostic."""

    def __str__(self) -> str:
        return f"{self.line}:{self.column}: {self.kind}[{self.code}]: {self.message}"


class GrammarError(ValueError):
    """A grammar is refused. The text of the exception has the errors of the linter, each with its help, if any."""

    def __init__(self, problems: Sequence[Problem], diagnostics: Sequence[Diagnostic] = ()) -> None:
        helps = [f"\n  help: {it.help}" if it.help else "" for it in diagnostics]
        told = [f"{it}{help}" for it, help in zip(diagnostics, helps)]
        super().__init__(problems, diagnostics)
        self.problems = tuple(problems)
        """All errors of the grammar, in the order in which the front end reports them. There is at least one."""
        self.diagnostics = tuple(diagnostics)
        """The errors of the grammar as the linter reports them. Empty if the refused text is no whole grammar."""
        self._told = "\n".join(told or map(str, problems))

    def __str__(self) -> str:
        return self._told


class Expr:
    """An expression: the name of its form, its arguments and its operands, as docs/FORMAT.md names them.

    `Expr("rep_exact", (2,), (Expr("str", ("x",)),))` is `"x"{2}`. The constructor raises ValueError if the form has
    another number of operands. No method recurses, so an expression may have any depth.
    """

    __slots__ = ("form", "arguments", "operands")

    def __init__(self, form: str, arguments: Sequence[Any] = (), operands: Sequence["Expr"] = ()) -> None:
        if _OPERANDS.get(form, len(operands)) != len(operands):
            raise ValueError(f"{form} has {_OPERANDS[form]} operands, and not {len(operands)}")
        self.form = form
        self.arguments = tuple(arguments)
        self.operands = tuple(operands)

    def walk(self) -> Iterator["Expr"]:
        """Returns the expression and all expressions inside it, each before its operands."""
        left = [self]
        while left:
            expr = left.pop()
            yield expr
            left.extend(reversed(expr.operands))

    def _nodes(self) -> List[List[Any]]:
        return [[expr.form, *expr.arguments] for expr in self.walk()]

    def __eq__(self, other: object) -> bool:
        return isinstance(other, Expr) and self._nodes() == other._nodes()

    def __hash__(self) -> int:
        return hash(json.dumps(self._nodes()))

    def __repr__(self) -> str:
        return f"<Expr {self}>"

    def __str__(self) -> str:
        """The forms in prefix notation."""
        words: List[str] = []
        left: List[Union[Expr, str]] = [self]
        while left:
            item = left.pop()
            if isinstance(item, str):
                words[-1] += item
                continue
            words.append("(" + " ".join([item.form, *(json.dumps(it, ensure_ascii=False) for it in item.arguments)]))
            left += [")", *reversed(item.operands)]
        return " ".join(words)


class Rule(NamedTuple):
    """A rule."""

    name: str
    type: str
    """`normal`, `silent`, `atomic`, `compound_atomic` or `non_atomic`."""
    expr: Expr


class Optimized(NamedTuple):
    """The builtins that a grammar uses, and its optimized rules."""

    builtins: List[str]
    """The builtins that it uses, in the order of their first calls."""
    rules: List[Rule]
    """Its optimized rules."""


class Token(NamedTuple):
    """The start or the end of a tree of the meta-grammar."""

    rule: Optional[str]
    """At a start, the name of the rule of the tree. At an end, None."""
    position: int
    """The position in the text, in bytes, from 0."""
    partner: int
    """The index, from 0, of the other token of the same tree in the list of tokens."""


class _Places:
    """Where lines start in UTF-8, and how many characters are before each block of it."""

    _BLOCK = 256
    # The bytes at which no character starts.
    _INNER = bytes(range(0x80, 0xC0))

    def __init__(self, source: bytes) -> None:
        self._source = source
        self._starts = [0, *(it.end() for it in re.finditer(b"\n", source))]
        self._before = [0]
        for at in range(0, len(source), self._BLOCK):
            self._before.append(self._before[-1] + self._count(at, at + self._BLOCK))

    def _count(self, start: int, end: int) -> int:
        return len(self._source[start:end].translate(None, self._INNER))

    def character(self, position: int) -> int:
        """Returns the number of characters before the byte `position`."""
        block = position // self._BLOCK
        return self._before[block] + self._count(block * self._BLOCK, position)

    def line_column(self, position: int) -> Tuple[int, int]:
        """Returns the line and the column of the byte `position`, both from 1. The column is in characters."""
        line = bisect.bisect_right(self._starts, position)
        return line, self.character(position) - self.character(self._starts[line - 1]) + 1


class _Nodes:
    """The nodes of a match: four numbers each, as docs/FORMAT.md has them."""

    __slots__ = ("numbers", "source", "names", "_places")

    def __init__(self, nodes: bytes, source: bytes, names: Sequence[str]) -> None:
        self.numbers = memoryview(nodes).cast("I")
        self.source = source
        self.names = names
        self._places: Optional[_Places] = None

    def __reduce__(self) -> Any:
        return _Nodes, (bytes(self.numbers), self.source, self.names)

    @property
    def places(self) -> "_Places":
        """Returns the positions of lines and characters in the text. They are counted at the first call."""
        if self._places is None:
            self._places = _Places(self.source)
        return self._places

    def trees(self, at: int, end: int) -> List["Tree"]:
        """Returns the outermost trees among the nodes with the indices from `at` up to `end`, without `end`."""
        trees, numbers = [], self.numbers
        while at < end:
            trees.append(Tree(self, at))
            at = numbers[4 * at + 3]
        return trees


class Tree:
    """A token pair of a matched text: its rule, its span, and the trees inside it. Each is made when it is used.

    A tree is a sequence of its children, the trees directly inside it: `for inner in tree`, `len(tree)`, `tree[0]`,
    `tree[-1]`. `bool(tree)` is True, even if the tree has no children. A copy that copy.copy makes is equal to the
    tree. A copy that copy.deepcopy makes is not.
    """

    __slots__ = ("_nodes", "_at")

    def __init__(self, nodes: _Nodes, at: int) -> None:
        self._nodes = nodes
        self._at = at

    @property
    def rule(self) -> str:
        """The name of its rule."""
        return self._nodes.names[self._nodes.numbers[4 * self._at]]

    @property
    def start(self) -> int:
        """The byte at which it starts."""
        return self._nodes.numbers[4 * self._at + 1]

    @property
    def end(self) -> int:
        """The byte before which it ends. Positions are in bytes of UTF-8, from 0."""
        return self._nodes.numbers[4 * self._at + 2]

    @property
    def start_character(self) -> int:
        """Its start in characters, from 0: `text[tree.start_character:tree.end_character]` is the text of the tree."""
        return self._nodes.places.character(self.start)

    @property
    def end_character(self) -> int:
        """Its end in characters, from 0."""
        return self._nodes.places.character(self.end)

    @property
    def line(self) -> int:
        """The line on which it starts."""
        return self._nodes.places.line_column(self.start)[0]

    @property
    def column(self) -> int:
        """The column at which it starts."""
        return self._nodes.places.line_column(self.start)[1]

    @property
    def children(self) -> List["Tree"]:
        """The trees inside it, in the order of the text."""
        return self._nodes.trees(self._at + 1, self._nodes.numbers[4 * self._at + 3])

    def __iter__(self) -> Iterator["Tree"]:
        return iter(self.children)

    def __len__(self) -> int:
        return len(self.children)

    def __bool__(self) -> bool:
        return True

    @overload
    def __getitem__(self, index: int) -> "Tree": ...

    @overload
    def __getitem__(self, index: slice) -> List["Tree"]: ...

    def __getitem__(self, index: Union[int, slice]) -> Union["Tree", List["Tree"]]:
        return self.children[index]

    def find(self, rule: str) -> Optional["Tree"]:
        """Returns the first tree of the rule named `rule` inside this tree, at any depth, or None if there is none."""
        return next(self.find_all(rule), None)

    def find_all(self, rule: str) -> Iterator["Tree"]:
        """Returns the trees of the rule named `rule` inside this tree, at any depth, each before those inside it."""
        return (tree for tree in self.walk() if tree.rule == rule and tree._at != self._at)

    @property
    def text(self) -> str:
        """The part of the text that it spans."""
        return self._nodes.source[self.start : self.end].decode()

    def walk(self) -> Iterator["Tree"]:
        """Returns this tree and all trees inside it, at any depth, each before its children."""
        nodes = self._nodes
        return (Tree(nodes, at) for at in range(self._at, nodes.numbers[4 * self._at + 3]))

    def __eq__(self, other: object) -> bool:
        return isinstance(other, Tree) and self._nodes is other._nodes and self._at == other._at

    def __hash__(self) -> int:
        return hash((id(self._nodes), self._at))

    def __repr__(self) -> str:
        return f"<Tree {self.rule} {self.start}..{self.end}>"


class Match(NamedTuple):
    """The match of a rule."""

    end: int
    """The end of the match, in bytes of UTF-8, from 0. The match starts at 0."""
    trees: List[Tree]
    """The trees of the match, in the order of the text."""


class MatchError(ValueError):
    """A rule does not match a text."""

    def __init__(self, position: int, expected: Sequence[str], source: bytes, note: Optional[str] = None) -> None:
        before = source[:position].decode()
        start = source.rfind(b"\n", 0, position) + 1
        end = source.find(b"\n", position)
        self.position = position
        """The furthest position at which a rule failed, in bytes of UTF-8, from 0."""
        self.expected = tuple(expected)
        """The names that were expected at this position, sorted. If they were not found, the message says so."""
        self.line = before.count("\n") + 1
        self.column = len(before) - before.rfind("\n")
        self.source = source[start : end if end >= 0 else None].decode()
        """The line of the text that has this position, without its line break."""
        expectation = f"expected {', '.join(expected)}" if expected else "unknown parsing error"
        shown, mark = _shown(self.source, self.column - 1)
        super().__init__(f"{self.line}:{self.column}: {note or expectation}\n  {shown}\n  {' ' * mark}^")

    def __reduce__(self) -> Any:
        return _copied_error, (self.args, self.__dict__)


def _copied_error(args: Any, state: Dict[str, Any]) -> MatchError:
    error = MatchError.__new__(MatchError, *args)
    error.args = args
    error.__dict__.update(state)
    return error


# The number of characters of a line that are shown before the position of a failure, and also after it.
_SHOWN = 60


def _shown(line: str, column: int) -> Tuple[str, int]:
    """Returns the part of `line` around `column`, and the column of the same place in this part.

    `column` counts from 0. Characters that cannot be printed are escaped.
    """
    before, after = line[max(0, column - _SHOWN) : column], line[column : column + _SHOWN]
    before, after = (re.sub("[^ -~]", _printable, part) for part in (before, after))
    return before + after, len(before)


def _printable(character: "re.Match[str]") -> str:
    return character[0] if character[0].isprintable() else ascii(character[0])[1:-1]


class RunError(RuntimeError):
    """The run of a rule was stopped: it takes more steps than the limit, or `PEEK` or `POP` met the empty stack."""


class Matcher:
    """The compiled rules of a grammar, which are run on texts. Any number of threads may use one Matcher."""

    def __init__(self, grammar: str) -> None:
        """Reads, checks, optimizes and compiles `grammar`. Raises what compile raises."""
        self._take(compile(grammar))

    def __repr__(self) -> str:
        return f"<Matcher of {', '.join(self.names)}>"

    def __reduce__(self) -> Any:
        return load, (self._block,)

    def _take(self, block: bytes) -> None:
        self._block = block
        self.names = tuple(_names(block))
        """The names of the rules, in the order of the grammar."""
        self._rows = {name: row for row, name in enumerate(self.names)}
        self._all_names = (*self.names, "EOI")

    def parse(self, rule: str, text: str, steps: Optional[int] = None) -> Match:
        """Matches `text` by the rule named `rule`, from the start of `text` on.

        A rule that does not end in EOI may match only a part of the text: see Match.end.

        If no rule of the grammar uses pest's stack, the match needs no limit: its turns are linear in the bytes of the
        text and in the trees. If one uses the stack, the match may take exponential time, as in pest. Then give `steps`
        if the text comes from an untrusted source.

        If the match fails, a second run searches for the rules that were expected. Each of both runs takes at most
        `steps` steps. If `steps` is None, the match has no limit. The search then takes at most 2**23 steps, and 32
        more for each byte of the text. The number 2**64 - 1 means no limit.

        Raises MatchError if the rule does not match. Raises ValueError if no rule has the name, or if the text has
        4 GiB or more. Raises RunError if the match is stopped. If `steps` is given, RunError is also raised if the
        search is stopped. Raises MemoryError if an allocation fails.
        """
        source = _encoded(text)
        words = self._words(rule, source)
        nodes, end = _List(), ctypes.c_size_t()
        limit = _NO_LIMIT if steps is None else steps
        status = _library().pest_meta_run(*words, limit, ctypes.byref(nodes), ctypes.byref(end))
        if status == _ANSWERED:
            trees = _Nodes(_taken(nodes, 16), source, self._all_names)
            return Match(end.value, trees.trees(0, len(trees.numbers) // 4))
        if status == _REFUSED:
            most = _error_steps(source) if steps is None else steps
            raise self._failure(words, end.value, most, steps is None)
        raise _stop(status, "pest_meta_run", rule, limit)

    def paths(self, rule: str, text: str, position: int, steps: Optional[int] = None) -> List[List[Tuple[str, int]]]:
        """Returns the paths to the rules that are expected at the byte `position` when `rule` is run on `text`.

        To explain a MatchError, give its `position`. A path has the calls that are open there: the outermost first,
        and the expected one last. A call is the name of its rule and its start in bytes. The run takes at most `steps`
        steps. If `steps` is None, it takes at most 2**23 steps, and 32 more for each byte of the text. Raises what
        parse raises, except for MatchError. Raises MemoryError if there are more than 1,024 paths.
        """
        source, calls = _encoded(text), _List()
        steps = _error_steps(source) if steps is None else steps
        status = _library().pest_meta_paths(*self._words(rule, source), position, steps, ctypes.byref(calls))
        if status != _ANSWERED:
            raise _stop(status, "pest_meta_paths", rule, steps)
        numbers = memoryview(_taken(calls, 3 * ctypes.sizeof(ctypes.c_size_t))).cast("N")
        paths: Dict[int, List[Tuple[str, int]]] = {}
        for path, row, start in zip(numbers[::3], numbers[1::3], numbers[2::3]):
            paths.setdefault(path, []).append((self._all_names[row], start))
        return list(paths.values())

    def _words(self, rule: str, source: bytes) -> List[Any]:
        """Returns the first arguments of a run of the rule named `rule` on `source`, from the block to the start, 0."""
        row = self._rows.get(rule)
        if row is None:
            raise ValueError(f"no rule has the name {rule!r}")
        return [self._block, len(self._block), row, source, len(source), 0]

    def _failure(self, words: List[Any], position: int, steps: int, may_lack: bool) -> Exception:
        """Returns the error of a run that fails at the byte `position`, with the names that are expected there, sorted.

        The search for these names takes at most `steps` steps. If that is not enough, the error has no names if
        `may_lack` is true. Otherwise it is a RunError.
        """
        rows = _List()
        status = _library().pest_meta_expected(*words, position, steps, ctypes.byref(rows))
        if status == _OUT_OF_STEPS and may_lack:
            note = f"what is expected here was not found in {steps} steps"
            return MatchError(position, (), words[3], note)
        if status != _ANSWERED:
            return _stop(status, "pest_meta_expected", self.names[words[2]], steps)
        names = sorted({self._all_names[row] for row in memoryview(_taken(rows, 4)).cast("I")})
        return MatchError(position, names, words[3])


def _encoded(text: str) -> bytes:
    """A text in UTF-8."""
    if not isinstance(text, str):
        raise TypeError(f"a text is wanted, and not {type(text).__name__}")
    return text.encode()


def _error_steps(source: bytes) -> int:
    """Returns the limit of steps of the search for expected rules, if the caller gives no limit."""
    return 32 * len(source) + 2**23


def compile(grammar: str) -> bytes:
    """Reads, checks, optimizes and compiles `grammar`. Returns a block of bytes for load (docs/FORMAT.md).

    A program can keep the block in a file. To load it, the grammar is not needed. Raises GrammarError if the grammar is
    refused, ValueError if a bound of a range is not one character, and MemoryError if an allocation fails.
    """
    return _compiled("pest_meta_compile", grammar)


def _compiled(function: str, grammar: str) -> bytes:
    """Returns the block that the function `function` of the library makes of `grammar`."""
    source, block = _encoded(grammar), _List()
    status = getattr(_library(), function)(source, len(source), ctypes.byref(block))
    if status == _REFUSED:
        check(grammar)
    if status == _UNFIT:
        raise ValueError("a range of the grammar has a bound that is not one character")
    if status != _ANSWERED:
        raise _stop(status, function, "the grammar", 0)
    return _taken(block, 1)


class Terminals:
    """The rules of a grammar, compiled to find the literals, ranges and builtins that a text was missing."""

    def __init__(self, grammar: str) -> None:
        """Reads, checks, optimizes and compiles `grammar`. Raises what compile raises."""
        self._matcher = load(_compiled("pest_meta_compile_exposed", grammar))

    def missing(self, rule: str, text: str, steps: Optional[int] = None) -> Optional[MatchError]:
        """Returns what `text` was missing if the rule named `rule` fails on it, or None if the rule matches.

        The result is a MatchError, which is returned and not raised. Its position is the furthest one at which anything
        was tried. Its expected names are the literals, ranges and builtins that were tried there, as a grammar writes
        them. A rule that is one token, such as an atomic one, is named by its own name. If everything that failed there
        stands below a `!`, there are no names. Raises what Matcher.parse raises, except for MatchError.
        """
        try:
            self._matcher.parse(rule, text, steps)
        except MatchError as error:
            names = {name.partition("#")[2] or name for name in error.expected}
            told = sorted(names - {"WHITESPACE", "COMMENT"} or names)
            return MatchError(error.position, told, text.encode())
        return None


def load(block: bytes) -> Matcher:
    """Returns the matcher of the compiled grammar `block`, which `compile` made.

    Raises ValueError if the bytes are no compiled grammar, are one of another version, or were changed.
    """
    block = bytes(block)
    status = _library().pest_meta_check(block, len(block))
    if status != _ANSWERED:
        raise ValueError(_FLAWS[status])
    matcher = Matcher.__new__(Matcher)
    matcher._take(block)
    return matcher


# Why bytes are not loaded, by the status.
_FLAWS = {
    _NO_BLOCK: "the bytes are no compiled grammar",
    _OTHER_VERSION: "the grammar was compiled by another version: compile it again",
    _CHANGED: "the bytes are those of a compiled grammar, changed",
}


def _names(block: bytes) -> Iterator[str]:
    """Returns the names of the rules of `block`, in the order of the grammar."""
    count = _library().pest_meta_rule_count(block, len(block))
    return (_name(block, row) for row in range(count))


def _name(block: bytes, row: int) -> str:
    """Returns the name of the rule of `block` with the index `row`."""
    size = ctypes.c_size_t(64)
    status = _NO_ROOM
    while status == _NO_ROOM:
        room = ctypes.create_string_buffer(size.value)
        status = _library().pest_meta_rule_name(block, len(block), row, room, len(room), ctypes.byref(size))
    return room.raw[: size.value].decode()


class _List(ctypes.Structure):
    """A list that the caller owns after a call of the library: its address, and the number of its elements."""

    _fields_ = [("at", ctypes.c_void_p), ("count", ctypes.c_size_t)]

    def __init__(self) -> None:
        super().__init__(ctypes.addressof(_SOMEWHERE), 0)


# An empty list lies at an address that is not null.
_SOMEWHERE = ctypes.c_uint64()


def _taken(found: _List, size: int) -> bytes:
    """Returns the bytes of the list `found`, whose elements have `size` bytes each, and frees the list."""
    if not found.count:
        return b""
    taken = ctypes.string_at(found.at, found.count * size)
    _library().pest_meta_free(found.at)
    return taken


def _stop(status: int, function: str, rule: str, steps: int) -> Exception:
    """Returns the exception for the call `function` that ended with `status`, which is neither 0 nor 1."""
    if status == _OUT_OF_STEPS:
        return RunError(f"{rule} takes more than {steps} steps")
    if status == _EMPTY_STACK:
        return RunError(f"{rule} has no outcome: PEEK or POP met the empty stack")
    if status == _LONG_TEXT:
        return ValueError("the text has 4 GiB or more")
    if status == _MEMORY:
        return MemoryError("there is no memory for this text")
    return LibraryError(f"{function}: status {status} is none of this file's release")


def check(grammar: str) -> List[str]:
    """Returns the builtins that `grammar` uses, in the order of their first calls.

    Raises GrammarError if the grammar is refused. The call `diagnostics` returns more about each error. It also returns
    the warnings of an accepted grammar.
    """
    return optimize(grammar).builtins


def diagnostics(grammar: str) -> List[Diagnostic]:
    """Returns the errors of a grammar, or its warnings if it has no errors, in the order of pest-lint.

    A refused grammar raises nothing here. If there are neither errors nor warnings, the list is empty.
    """
    lines = _fill("pest_meta_diagnostics", grammar)[1]
    return [_diagnostic(json.loads(line)) for line in lines.split(b"\n") if line]


def rules(grammar: str) -> List[Rule]:
    """Returns the rules of `grammar`, in order, as they are written. Names are not checked: see check.

    Raises GrammarError if the grammar has another error.
    """
    return [_rule(rule) for rule in _ask("pest_meta_rules", grammar)]


def optimize(grammar: str) -> Optimized:
    """Returns the builtins that `grammar` uses, and its optimized rules. Raises GrammarError if it is refused."""
    answer = _ask("pest_meta_parse_and_optimize", grammar)
    return Optimized(answer["builtins"], [_rule(rule) for rule in answer["rules"]])


def optimize_rules(rules: Sequence[Rule]) -> List[Rule]:
    """Returns the optimized rules of `rules`, which a program has made or changed. Only the form of `rules` is checked.

    Raises ValueError if a rule or a node does not have a form of docs/FORMAT.md. The message has the index of the rule
    and of the node, from 0.
    """
    written = [{"name": rule.name, "type": rule.type, "expr": rule.expr._nodes()} for rule in rules]
    return [_rule(rule) for rule in _ask("pest_meta_optimize", json.dumps(written))]


def tokens(text: str, rule: str = "grammar_rules") -> List[Token]:
    """Returns the tokens of `text` by the rule named `rule` of pest's grammar of grammars, from the start of `text` on.

    Raises GrammarError if the rule does not match, and ValueError if that grammar has no such rule.
    """
    entries = _ask("pest_meta_tokens", text, rule)
    return [Token(*entry) if len(entry) == 3 else Token(None, *entry) for entry in entries]


def versions() -> Tuple[str, int]:
    """Returns the version of the crate pest_meta that the library ports, and the number of its JSON format."""
    answer = _call(_library(), "pest_meta_version")
    return answer["version"], answer["format"]


def _rule(rule: Any) -> Rule:
    """Returns the rule of the JSON object `rule`. Its nodes are joined from the last one to the first."""
    operands: List[Expr] = []
    for form, *arguments in reversed(rule["expr"]):
        count = _OPERANDS.get(form)
        if count is None:
            raise LibraryError(f"the library knows a form {form!r} that this file does not: use that of its release")
        taken = [operands.pop() for _ in range(count)]
        operands.append(Expr(form, arguments, taken))
    [expr] = operands
    return Rule(rule["name"], rule["type"], expr)


def _ask(function: str, *texts: str) -> Any:
    """Returns the JSON that the function `function` answers for `texts`. Loads the library before the first call."""
    return _call(_library(), function, *texts)


def _fill(function: str, *texts: str) -> Tuple[int, bytes]:
    """Returns the status of the function `function` for `texts`, and the bytes that it writes."""
    return _filled(_library(), function, *texts)


def _call(library: Any, function: str, *texts: str) -> Any:
    """What the library answers in JSON."""
    status, written = _filled(library, function, *texts)
    answer = json.loads(written)
    if status == _REFUSED:
        raise _refusal(answer, texts[0] if function in _OVER_GRAMMARS else None)
    return answer


# The functions whose text is a whole grammar.
_OVER_GRAMMARS = ("pest_meta_rules", "pest_meta_parse_and_optimize")


def _filled(library: Any, function: str, *texts: str) -> Tuple[int, bytes]:
    """Calls the library, and once more if the buffer was too small for the answer. Returns the status and the bytes."""
    words: List[Any] = []
    for text in texts:
        encoded = _encoded(text)
        words += [encoded, len(encoded)]
    needed = ctypes.c_size_t(4096 + 16 * sum(map(len, texts)))
    status = _NO_ROOM
    while status == _NO_ROOM:
        room = ctypes.create_string_buffer(needed.value)
        status = getattr(library, function)(*words, room, len(room), ctypes.byref(needed))
    if status == _MEMORY:
        raise MemoryError(f"{function}: there is no memory for this text")
    if status not in (_ANSWERED, _REFUSED):
        raise LibraryError(f"{function}: status {status} is none of this file's release")
    return status, room.raw[: needed.value]


def _refusal(answer: Any, grammar: Optional[str]) -> Exception:
    """Returns the exception for `answer`, the JSON about a refused text: `grammar`, if the text is a whole grammar."""
    if isinstance(answer, list):
        errors = [it for it in diagnostics(grammar) if it.kind == "error"] if grammar is not None else []
        return GrammarError([_problem(problem) for problem in answer], errors)
    at = [f"{name} {answer[name]}" for name in ("rule", "node", "line", "column") if name in answer]
    return ValueError(", ".join([answer["message"], *at]))


def _diagnostic(found: Any) -> Diagnostic:
    """A diagnostic of JSON."""
    places = (found["start"], found["end"], found["line"], found["column"])
    fix = found["fix"]
    change = Fix(fix["start"], fix["end"], fix["replacement"], fix["applicability"] == "safe") if fix else None
    related = tuple(Related(*(part[name] for name in Related._fields)) for part in found["related"])
    heading = (found["kind"], found["code"], found["message"])
    return Diagnostic(*heading, *places, found["help"], change, related, tuple(found["expected"]))


def _problem(problem: Any) -> Problem:
    places = problem["location"]
    line, column = problem["line_col"][0]
    expected = tuple(problem.get("expected", ()))
    return Problem(problem["message"], places[0], places[-1], line, column, problem["line"], expected)


def _folders() -> Iterator[str]:
    """The folders that may have the library, in the order in which they are tried."""
    named = os.environ.get("PEST_META_LIB")
    if named:
        yield named
        return
    here = os.path.dirname(os.path.realpath(__file__))
    yield here
    yield os.path.join(here, "..", "lib")
    # A release: share/kingorewa/python beside lib, and /usr/lib/python3/dist-packages beside /usr/lib/x86_64-linux-gnu.
    yield os.path.join(here, "..", "..", "..", "lib")
    yield os.path.join(here, "..", "..", "x86_64-linux-gnu")


# How many texts each function takes.
_FUNCTIONS = {
    "pest_meta_version": 0,
    "pest_meta_diagnostics": 1,
    "pest_meta_rules": 1,
    "pest_meta_optimize": 1,
    "pest_meta_parse_and_optimize": 1,
    "pest_meta_tokens": 2,
}


def _declare(function: Any, texts: int) -> None:
    """Declares `function` as pest_meta.h does, with `texts` texts, the buffer `out` and the pointer `needed`."""
    room = [ctypes.c_char_p, ctypes.c_size_t]
    function.argtypes = [*(texts * room), *room, ctypes.POINTER(ctypes.c_size_t)]
    function.restype = ctypes.c_uint8


def _declare_runs(library: Any) -> None:
    """Declares what pest_meta.h says of compiled grammars."""
    text, found = [ctypes.c_char_p, ctypes.c_size_t], ctypes.POINTER(_List)
    rule, place = ctypes.c_uint32, ctypes.c_size_t
    run = [*text, rule, *text, place]
    library.pest_meta_compile.argtypes = [*text, found]
    library.pest_meta_compile_exposed.argtypes = [*text, found]
    library.pest_meta_check.argtypes = library.pest_meta_rule_count.argtypes = text
    library.pest_meta_rule_count.restype = place
    library.pest_meta_rule_name.argtypes = [*text, rule, *text, ctypes.POINTER(place)]
    library.pest_meta_run.argtypes = [*run, ctypes.c_uint64, found, ctypes.POINTER(ctypes.c_size_t)]
    library.pest_meta_expected.argtypes = [*run, place, ctypes.c_uint64, found]
    library.pest_meta_paths.argtypes = [*run, place, ctypes.c_uint64, found]
    for name in ("compile", "check", "rule_name", "run", "expected", "paths"):
        getattr(library, f"pest_meta_{name}").restype = ctypes.c_uint8
    library.pest_meta_free.argtypes, library.pest_meta_free.restype = [ctypes.c_void_p], None


_loaded: Any = None


def _library() -> Any:
    """The library, which is loaded at the first call."""
    global _loaded
    if _loaded is None:
        _loaded = _load()
    return _loaded


def _load() -> Any:
    paths = [os.path.join(folder, _LIBRARY) for folder in _folders()]
    found = [path for path in paths if os.path.isfile(path)]
    # For a name without a folder, the system searches its own folders. This is done only if PEST_META_LIB is not set.
    fallback = paths[0] if os.environ.get("PEST_META_LIB") else _LIBRARY
    try:
        library = ctypes.CDLL(found[0] if found else fallback)
        for function, texts in _FUNCTIONS.items():
            _declare(getattr(library, function), texts)
        _declare_runs(library)
        answer = _call(library, "pest_meta_version")
    except (OSError, AttributeError) as error:
        looked = ", ".join(os.path.normpath(os.path.dirname(path)) for path in paths)
        raise LibraryError(
            f"{_LIBRARY} is not to be had ({error}): it was looked for in {looked}. `bridge/build` makes it, and the"
            " variable PEST_META_LIB names a folder that has it"
        ) from error
    if answer["format"] != _FORMAT:
        raise LibraryError(f"the library speaks format {answer['format']}, and this file {_FORMAT}: use one release")
    return library
