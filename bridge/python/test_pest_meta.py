"""Tests of pest_meta.py over the library: python3 -m unittest, in this folder."""
import copy
import doctest
import os
import pickle
import re
import subprocess
import sys
import threading
import unittest

import pest_meta
from pest_meta import Expr, GrammarError, LibraryError, Matcher, MatchError, Problem, Rule, RunError

HERE = os.path.dirname(os.path.realpath(__file__))


def load_tests(loader, tests, pattern):
    tests.addTests(doctest.DocTestSuite(pest_meta))
    return tests


def string(text):
    return Expr("str", [text])


class Calls(unittest.TestCase):
    def test_a_grammar_is_checked(self):
        self.assertEqual(pest_meta.check("a = { SOI ~ b ~ ANY ~ EOI } b = { HAN | ANY }"), ["SOI", "ANY", "EOI", "HAN"])
        self.assertEqual(pest_meta.check(""), [])

    def test_a_syntax_error_has_its_position_and_what_was_expected(self):
        with self.assertRaises(GrammarError) as caught:
            pest_meta.check('a = { "x" }\nb = { "x" "ä" }')
        [problem] = caught.exception.problems
        self.assertEqual((problem.start, problem.end, problem.line, problem.column), (22, 22, 2, 11))
        self.assertEqual(problem.source, 'b = { "x" "ä" }')
        self.assertIn("sequence_operator", problem.expected)
        told, help = str(caught.exception).split("\n")
        self.assertTrue(told.startswith("2:11: error[pest::syntax]: expected `}`, `~`, "), told)
        self.assertEqual(help, "  help: a sequence is written with `~`")
        self.assertEqual([it.help for it in caught.exception.diagnostics], ["a sequence is written with `~`"])

    def test_errors_come_all_at_once(self):
        with self.assertRaises(GrammarError) as caught:
            pest_meta.check('ANY = { x } x = { "" } x = { y }')
        found = [(problem.message, problem.start, problem.end) for problem in caught.exception.problems]
        wanted = [("ANY is a pest keyword", 0, 3), ("rule x already defined", 23, 24), ("rule y is undefined", 29, 30)]
        self.assertEqual(found, wanted)
        self.assertTrue(all(isinstance(problem, Problem) for problem in caught.exception.problems))
        self.assertIsInstance(caught.exception, ValueError)

    def test_rules_are_trees(self):
        first, second = pest_meta.rules('a = _{ "x"{2,3} | ^"y" ~ \'a\'..\'z\' } b = ${ PEEK[-1..] ~ !a }')
        times = Expr("rep_min_max", [2, 3], [string("x")])
        pair = Expr("seq", [], [Expr("insens", ["y"]), Expr("range", ["a", "z"])])
        self.assertEqual(first, Rule("a", "silent", Expr("choice", [], [times, pair])))
        self.assertEqual((second.name, second.type), ("b", "compound_atomic"))
        forms = [expr.form for expr in second.expr.walk()]
        self.assertEqual(forms, ["seq", "peek_slice", "neg_pred", "ident"])
        self.assertEqual(second.expr.operands[0].arguments, (-1, None))
        self.assertNotEqual(first.expr, second.expr)
        self.assertEqual(hash(times), hash(Expr("rep_min_max", (2, 3), (string("x"),))))

    def test_rules_of_unknown_names_are_read(self):
        self.assertEqual(str(pest_meta.rules("a = { b+ }")[0].expr), '(rep_once (ident "b"))')
        with self.assertRaises(GrammarError):
            pest_meta.rules("a = { a }")

    def test_grammars_and_rules_are_optimized(self):
        builtins, rules = pest_meta.optimize('a = @{ ANY ~ "x" ~ "y" }')
        wanted = Expr("seq", [], [Expr("ident", ["ANY"]), string("xy")])
        self.assertEqual((builtins, rules), (["ANY"], [Rule("a", "atomic", wanted)]))
        three = Expr("rep_exact", [3], [string("é\"\n")])
        self.assertEqual(pest_meta.optimize_rules([Rule("a", "atomic", three)])[0].expr, string("é\"\n" * 3))
        self.assertEqual(pest_meta.optimize_rules([]), [])

    def test_rules_of_no_form_are_refused(self):
        with self.assertRaisesRegex(ValueError, "rule 1, node 0"):
            pest_meta.optimize_rules([Rule("a", "normal", string("x")), Rule("b", "normal", Expr("strong", ["x"]))])
        with self.assertRaises(ValueError):
            pest_meta.optimize_rules([Rule("a", "loud", string("x"))])
        with self.assertRaises(ValueError):
            Expr("seq", [], [string("x")])

    def test_tokens_pair_up(self):
        tokens = pest_meta.tokens('"x"', "string")
        self.assertEqual((tokens[0].rule, tokens[0].position), ("string", 0))
        for number, token in enumerate(tokens):
            self.assertEqual(tokens[token.partner].partner, number)
            self.assertEqual(token.rule is None, token.partner < number)
        with self.assertRaises(ValueError):
            pest_meta.tokens("x", "no_rule")

    def test_texts_are_texts(self):
        with self.assertRaises(TypeError):
            pest_meta.check(b"a = { b }")
        with self.assertRaises(ValueError):
            pest_meta.check('a = { "\ud800" }')
        self.assertEqual(pest_meta.rules('a = { "\0" }')[0].expr, string("\0"))

    def test_versions_are_numbers(self):
        version, number = pest_meta.versions()
        self.assertRegex(version, r"^\d+\.\d+\.\d+$")
        self.assertEqual(number, 1)


def problems_of(text):
    """The spans of what is wrong with a grammar, as check has them."""
    try:
        pest_meta.check(text)
        return []
    except GrammarError as error:
        return [(problem.start, problem.end) for problem in error.problems]


class Diagnosing(unittest.TestCase):
    def test_errors_come_with_help(self):
        text = 'a = { "ä" "y" }'
        [found] = pest_meta.diagnostics(text)
        self.assertEqual((found.kind, found.code), ("error", "pest::syntax"))
        self.assertEqual((found.start, found.end, found.line, found.column), (11, 11, 1, 11))
        self.assertEqual(found.help, "a sequence is written with `~`")
        self.assertIn("`~`", found.expected)
        self.assertEqual(str(found), f"1:11: error[pest::syntax]: {found.message}")
        self.assertEqual((found.fix.apply(text), found.fix.is_safe), ('a = { "ä" ~ "y" }', True))
        self.assertEqual(pest_meta.diagnostics(found.fix.apply(text)), [])

    def test_warnings_are_those_of_an_accepted_grammar(self):
        text = "a = { 'z'..'a' }"
        [found] = pest_meta.diagnostics(text)
        self.assertEqual((found.kind, found.code, found.start, found.end), ("warning", "pest::reversed_range", 6, 14))
        self.assertEqual((found.fix, found.expected), (pest_meta.Fix(6, 14, "'a'..'z'", is_safe=False), ()))
        self.assertEqual(pest_meta.check(text), [])
        self.assertEqual(pest_meta.diagnostics(""), [])

    def test_errors_are_those_of_check(self):
        texts = ["ANY = { x } x = { y } x = { z }", "a = { a }", 'a = { (""?)* ~ b', "\0", "a = { #t = b }"]
        for text in texts:
            found = pest_meta.diagnostics(text)
            self.assertTrue(found and all(each.kind == "error" for each in found))
            self.assertEqual([(each.start, each.end) for each in found], problems_of(text))

    def test_other_parts_matter(self):
        text = 'a = { "x" }\na = { "y" }'
        [found] = pest_meta.diagnostics(text)
        [first] = found.related
        self.assertEqual((found.start, found.end, found.line), (12, 13, 2))
        self.assertEqual(first, ("it is first defined here", 0, 1, 1, 1))

    def test_texts_are_texts(self):
        with self.assertRaises(TypeError):
            pest_meta.diagnostics(b"a = { b }")

    @unittest.skipUnless(os.environ.get("EXAMPLES"), "EXAMPLES names no folder, as examples/lint of the repository")
    def test_they_are_those_of_pest_lint(self):
        heading = re.compile(r"^(error|warning)\[([a-z_:]+)\]: .*\n --> [^:\n]*:(\d+):(\d+)$", re.M)
        folder, count = os.environ["EXAMPLES"], 0
        for name in sorted(os.listdir(folder)):
            stem, ending = os.path.splitext(os.path.join(folder, name))
            if ending == ".pest" and not os.path.exists(stem + ".args"):
                with open(stem + ending, encoding="utf-8", newline="") as file:
                    found = pest_meta.diagnostics(file.read())
                with open(stem + ".expected", encoding="utf-8", newline="") as file:
                    told = heading.findall(file.read())
                rows = [(each.kind, each.code, str(each.line), str(each.column)) for each in found]
                self.assertEqual(rows, told, name)
                count += len(told)
        self.assertGreater(count, 100)


# Between two calls of `item` at a place it is called at others, so that steps grow by three times with each parenthesis.
NESTED = """
list = { first | second | pair | item }
first = { item ~ list ~ "!" }
second = { item ~ list ~ "?" }
pair = { item ~ list }
item = { "(" ~ list ~ ")" | "x" }
"""


def nested(depth):
    return "(" * depth + "x" + ")x" * depth


def answer_of(matcher, text, steps):
    """The end and all trees of a match of `list`, or where it fails."""
    try:
        match = matcher.parse("list", text, steps)
        trees = [each for tree in match.trees for each in tree.walk()]
        return match.end, [(tree.rule, tree.start, tree.end) for tree in trees]
    except MatchError as error:
        return error.position


LISTS = """
list = { "[" ~ (item ~ ("," ~ item)*)? ~ "]" ~ EOI }
item = @{ letter+ }
letter = { LETTER | "-" }
WHITESPACE = _{ " " }
"""


class Matching(unittest.TestCase):
    def test_trees_are_those_of_the_match(self):
        match = Matcher(LISTS).parse("list", "[aä , b]")
        [root] = match.trees
        found = [(tree.rule, tree.start, tree.end, tree.text) for tree in root.walk()]
        wanted = [("list", 0, 9, "[aä , b]"), ("item", 1, 4, "aä"), ("item", 7, 8, "b"), ("EOI", 9, 9, "")]
        self.assertEqual((found, match.end), (wanted, 9))
        self.assertEqual(repr(root.children[0]), "<Tree item 1..4>")

    def test_a_rule_may_match_a_part(self):
        match = Matcher(LISTS).parse("item", "ab c")
        self.assertEqual((match.end, [tree.text for tree in match.trees]), (2, ["ab"]))

    def test_a_failure_has_its_position_and_what_was_expected(self):
        with self.assertRaises(MatchError) as caught:
            Matcher(LISTS).parse("list", "[a,\n7]")
        error = caught.exception
        self.assertEqual((error.position, error.line, error.column, error.expected), (3, 1, 4, ("item",)))
        self.assertEqual((str(error), error.source), ("1:4: expected item\n  [a,\n     ^", "[a,"))
        with self.assertRaises(MatchError) as caught:
            Matcher(LISTS).parse("list", "[]x")
        self.assertEqual((caught.exception.position, caught.exception.expected), (2, ("EOI",)))

    def test_terminals_say_what_was_missing(self):
        terminals = pest_meta.Terminals(
            'file = { SOI ~ section* ~ EOI } section = { "[" ~ name ~ "]" } name = @{ ASCII_ALPHA+ } '
            'WHITESPACE = _{ " " }'
        )
        missing = terminals.missing("file", "[server")
        self.assertEqual((missing.position, missing.expected), (7, ('"]"', "ASCII_ALPHA")))
        self.assertEqual(terminals.missing("file", "[a] b").expected, ('"["', "EOI"))
        self.assertIsNone(terminals.missing("file", "[server]"))
        with self.assertRaises(ValueError):
            terminals.missing("absent", "[server]")

    def test_the_line_of_a_failure_is_escaped_and_cut(self):
        matcher = Matcher('a = { "x"* ~ EOI }')
        line = "x" * 90 + "\x1b[31mä" + "y" * 90
        with self.assertRaises(MatchError) as caught:
            matcher.parse("a", f"{line}\nz")
        told = str(caught.exception).split("\n")
        self.assertEqual(told[1:], ["  " + "x" * 60 + "\\x1b[31mä" + "y" * 54, "  " + " " * 60 + "^"])
        self.assertEqual(caught.exception.source, line)

    def test_a_tree_is_a_sequence_of_those_inside_it(self):
        [root] = Matcher(LISTS).parse("list", "[aä , b]").trees
        self.assertEqual([tree.text for tree in root], ["aä", "b", ""])
        self.assertEqual((len(root), root[1].text, root[-1].rule, [it.text for it in root[:2]]), (3, "b", "EOI", ["aä", "b"]))
        self.assertEqual((len(root[0]), bool(root[0])), (0, True))
        self.assertRaises(IndexError, lambda: root[3])
        self.assertEqual((root.find("item"), root.find("list"), len(list(root.find_all("item")))), (root[0], None, 2))

    def test_a_tree_has_places_in_characters(self):
        grammar = 'all = { (word | ANY)* } word = @{ (!(" " | NEWLINE) ~ ANY)+ }'
        for text in ["ä b\n漢字 \U0001f600x\r\ny", "ab ä" * 200, "ä\n" * 300, "", "\n"]:
            [root] = Matcher(grammar).parse("all", text).trees
            for tree in root.walk():
                before = text[: tree.start_character]
                self.assertEqual(len(before.encode()), tree.start)
                self.assertEqual(text[tree.start_character : tree.end_character], tree.text)
                self.assertEqual((tree.line, tree.column), (before.count("\n") + 1, len(before) - before.rfind("\n")))

    def test_trees_and_errors_are_copied(self):
        matcher = Matcher(LISTS)
        [root] = matcher.parse("list", "[a]").trees
        self.assertEqual(copy.copy(root), root)
        for copied in (copy.deepcopy(root), pickle.loads(pickle.dumps(root))):
            self.assertEqual([(it.rule, it.start, it.end) for it in copied.walk()], [(it.rule, it.start, it.end) for it in root.walk()])
        self.assertEqual(copy.deepcopy(matcher).parse("list", "[a]").end, 3)
        self.assertEqual(repr(matcher), "<Matcher of list, item, letter, WHITESPACE>")
        for call in (lambda: matcher.parse("list", "["), lambda: Matcher("a = { b }")):
            with self.assertRaises(ValueError) as caught:
                call()
            for copied in (copy.deepcopy(caught.exception), pickle.loads(pickle.dumps(caught.exception))):
                self.assertEqual((type(copied), str(copied)), (type(caught.exception), str(caught.exception)))
                self.assertEqual(sorted(copied.__dict__), sorted(caught.exception.__dict__))

    def test_bytes_are_no_text(self):
        matcher = Matcher(LISTS)
        calls = (lambda: matcher.parse("list", b"[]"), lambda: Matcher(b"a = { ANY }"), lambda: matcher.paths("list", b"[", 1))
        for call in calls:
            with self.assertRaisesRegex(TypeError, "a text is wanted, and not bytes"):
                call()

    def test_paths_have_the_open_calls_of_a_failure(self):
        matcher = Matcher(LISTS)
        self.assertEqual(matcher.paths("list", "[a,\n7]", 3), [[("list", 0), ("item", 3)]])
        self.assertEqual(matcher.paths("list", "[]", 1), [[("list", 0), ("item", 1)]])
        self.assertEqual(matcher.paths("list", "[]", 9), [])
        with self.assertRaisesRegex(ValueError, "no rule has the name 'none'"):
            matcher.paths("none", "", 0)
        with self.assertRaisesRegex(RunError, "more than 10 steps"):
            matcher.paths("list", "[a,b,c,d,e,f]", 3, steps=10)

    def test_what_can_not_be_run_is_told_apart(self):
        with self.assertRaisesRegex(ValueError, "no rule has the name 'none'"):
            Matcher(LISTS).parse("none", "")
        with self.assertRaises(GrammarError):
            Matcher("a = { b }")
        with self.assertRaisesRegex(RunError, "empty stack"):
            Matcher("a = { POP }").parse("a", "x")
        with self.assertRaisesRegex(RunError, "more than 10 steps"):
            Matcher(LISTS).parse("list", "[a,b,c,d,e,f]", steps=10)

    def test_a_failure_takes_no_exponential_time(self):
        ambiguous = Matcher('s = { a ~ EOI } a = { "x" ~ a ~ "y" | "x" ~ a ~ "z" | "x" }')
        self.assertEqual(ambiguous.parse("a", "x" * 20_000).end, 1)
        for length in (10, 60, 20_000):
            with self.assertRaises(MatchError) as caught:
                ambiguous.parse("s", "x" * length, steps=2**64 - 1)
            self.assertEqual((caught.exception.position, caught.exception.expected), (length, ("a",)))

    def test_no_text_makes_a_plain_grammar_slow(self):
        matcher, depth = Matcher(NESTED), 2_000
        [root] = matcher.parse("list", nested(depth)).trees
        self.assertEqual(sum(1 for _ in root.walk()), 5 * depth + 2)
        with self.assertRaisesRegex(RunError, "more than 1000 steps"):
            matcher.parse("list", nested(depth), steps=1_000)
        ahead = Matcher('a = { "(" ~ &a ~ a ~ ")" | "x" }')
        self.assertEqual(ahead.parse("a", "(" * 100_000 + "x" + ")" * 100_000).end, 200_001)
        with self.assertRaisesRegex(MatchError, "1:1: what is expected here was not found") as caught:
            ahead.parse("a", "(" * 100_000 + "x" + ")" * 99_999)
        words = Matcher('file = { SOI ~ (word | x)* ~ EOI } word = { letter* ~ "!" } letter = { "x" } x = { "x" }')
        self.assertEqual(len(words.parse("file", "x" * 20_000).trees[0].children), 20_001)
        with self.assertRaisesRegex(MatchError, "1:20001: what is expected here was not found in 9028640 steps") as caught:
            words.parse("file", "x" * 20_000 + "?")
        self.assertEqual((caught.exception.position, caught.exception.expected), (20_000, ()))

    def test_a_limit_that_suffices_changes_no_answer(self):
        matcher = Matcher(NESTED)
        for text in ["x", "(x)x", "xx!", "(xx?)x", "((x)x)x?", nested(6), "", "(", "(x)x!y", "((x)y"]:
            answer = answer_of(matcher, text, None)
            for steps in (10**5, 10**7, 2**64 - 1):
                self.assertEqual(answer_of(matcher, text, steps), answer)

    def test_a_grammar_that_uses_the_stack_has_a_limit_if_one_is_given(self):
        matcher = Matcher(NESTED.replace('| "x"', '| PUSH("x") ~ DROP'))
        with self.assertRaisesRegex(RunError, "more than 7001000 steps"):
            matcher.parse("list", nested(2_000), steps=7_001_000)
        doubled = Matcher("a = { PUSH(b) ~ DROP } b = { c ~ c ~ c ~ c } c = { d ~ d ~ d ~ d } d = { \"x\"{64} }")
        self.assertEqual(doubled.parse("a", "x" * 1024).end, 1024)

    def test_long_and_deep_texts(self):
        matcher = Matcher('a = { "(" ~ a ~ ")" | "x"* }')
        depth = 20_000
        [root] = matcher.parse("a", "(" * depth + "x" + ")" * depth).trees
        self.assertEqual(sum(1 for _ in root.walk()), depth + 1)
        many = Matcher("a = { b* } b = { ANY }").parse("a", "y" * 50_000)
        self.assertEqual(len(many.trees[0].children), 50_000)


class Loading(unittest.TestCase):
    def test_a_compiled_grammar_is_loaded(self):
        block = pest_meta.compile("list = { item ~ (\",\" ~ item)* } item = @{ ASCII_DIGIT+ }")
        matcher = pest_meta.load(block)
        self.assertEqual(matcher.names, ("list", "item"))
        trees = matcher.parse("list", "1,23").trees
        self.assertEqual([tree.text for tree in trees[0].children], ["1", "23"])

    def test_bytes_that_are_none_are_told_apart(self):
        block = pest_meta.compile("a = { \"x\" }")
        version = int.from_bytes(block[4:8], "little") + 1
        other = block[:4] + version.to_bytes(4, "little") + block[8:]
        for at in range(8, len(block)):
            changed = block[:at] + bytes([block[at] ^ 1]) + block[at + 1 :]
            with self.assertRaisesRegex(ValueError, "changed"):
                pest_meta.load(changed)
        for bytes_, why in ((other, "another version"), (b"", "no compiled grammar"), (block[1:], "no compiled grammar")):
            with self.assertRaisesRegex(ValueError, why):
                pest_meta.load(bytes_)


class Limits(unittest.TestCase):
    def test_depth_is_no_matter(self):
        depth = 50_000
        [rule] = pest_meta.rules("a = { " + "(" * depth + '"x"' + ")?" * depth + " }")
        self.assertEqual(sum(1 for _ in rule.expr.walk()), depth + 1)
        self.assertEqual(rule.expr, rule.expr)
        self.assertTrue(str(rule.expr).endswith(")" * 10))
        self.assertIsInstance(hash(rule.expr), int)

    def test_long_answers_get_their_room(self):
        [rule] = pest_meta.optimize_rules([Rule("a", "normal", Expr("rep_exact", [20_000], [Expr("ident", ["b"])]))])
        self.assertEqual(sum(expr.form == "ident" for expr in rule.expr.walk()), 20_000)

    def test_many_diagnostics_get_their_room(self):
        text = "".join(f"r{number} = {{ 'z'..'a' ~ r{number + 1} }}\n" for number in range(2_000)) + "r2000 = { ANY }"
        found = [each for each in pest_meta.diagnostics(text) if each.code == "pest::reversed_range"]
        self.assertEqual([each.line for each in found], list(range(1, 2_001)))

    def test_threads_get_their_own_answers(self):
        found = {}

        def work(number):
            text = f'r{number} = {{ "{number}" }}'
            found[number] = all(pest_meta.rules(text)[0].expr == string(str(number)) for _ in range(50))

        threads = [threading.Thread(target=work, args=[number]) for number in range(8)]
        for thread in threads:
            thread.start()
        for thread in threads:
            thread.join()
        self.assertEqual(found, dict.fromkeys(range(8), True))

    def test_a_missing_library_is_reported(self):
        program = "import pest_meta\ntry: pest_meta.versions()\nexcept pest_meta.LibraryError as error: print(error)"
        run = subprocess.run(
            [sys.executable, "-c", program],
            cwd=HERE,
            env={"PEST_META_LIB": "/nowhere"},
            stdout=subprocess.PIPE,
            text=True,
            check=True,
        )
        self.assertIn("it was looked for in /nowhere", run.stdout)
        self.assertTrue(issubclass(LibraryError, Exception))


if __name__ == "__main__":
    unittest.main()
