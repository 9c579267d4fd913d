# cases.py SEED COUNT [stack]: random accepted grammars with texts, as cases for matcher_trial; with the stack
import random, sys
seed, count = int(sys.argv[1]), int(sys.argv[2]); r = random.Random(seed)
LIT = ['"a"', '"b"', '"c"', '"ab"', '"ba"', '"é"', '"aé"', '^"a"', '^"bc"', '^"É"', "'a'..'c'", "'b'..'é'", "ANY", "NEWLINE", "ASCII_DIGIT", "ASCII_ALPHA", '"1"', '" "', '"\\n"', '"\\r"','("a" | "b" | "1")', '("a" | "é" | NEWLINE)', '(!NEWLINE ~ ANY)', '(!("a" | "b" | "c") ~ ANY)', '(!("a" | "b1" | NEWLINE) ~ ANY)','(!("a" | "b1") ~ ANY)*', '(!"é1" ~ ANY)*','(!("11"|^"b") ~ ANY)+', '(!(NEWLINE | "a") ~ ANY)*']
def solid(k, names):
    # not nullable
    x = r.random()
    if k == 0 or x < .3:
        while True:
            l = r.choice(LIT)
            if not l.endswith('*'): return l
    if x < .6: return "(" + " ~ ".join([solid(k-1, names)] + [expr(k - 1, names) for _ in range(r.randint(1, 2))]) + ")"
    if x < .8: return "(" + " | ".join(solid(k - 1, names) for _ in range(r.randint(2, 4))) + ")"
    if x < .9 and names: return r.choice(names)
    return "(" + solid(k-1, names) + ")+"
def expr(k, names):
    x = r.random()
    if k == 0 or x < .25: return r.choice(names) if names and r.random() < .5 else r.choice(LIT)
    if x < .5: return "(" + " ~ ".join(expr(k - 1, names) for _ in range(r.randint(2, 3))) + ")"
    if x < .7: return "(" + " | ".join(solid(k - 1, names) for _ in range(r.randint(2, 4))) + ")"
    if x < .75: return r.choice("&!") + "(" + solid(k - 1, names) + ")"
    if x < .8: return '#tag = (' + solid(k-1, names) + ')'
    return "(" + solid(k - 1, names) + ")" + r.choice(["?", "*", "+", "{2}", "{1,3}", "{,2}"])
def grammar():
    names = ["a", "b", "c", "d", "e"][: r.randint(2, 5)]; out = []
    for i, n in enumerate(names):
        body = solid(r.randint(1, 3), names[i+1:])
        if n == "a" and r.random() < .6: body += " ~ EOI"
        if r.random() < .35 and n != names[-1]: body = r.choice(['"a"','"b"','"("','ANY']) + " ~ (" + r.choice(LIT) + " | " + body + " | " + r.choice(names) + ") ~ " + expr(1, names[i+1:])
        out.append(f"{n} = {r.choice(['', '', '_', '@', '$', '!'])}{{ {body} }}")
    if r.random() < .7: out.append("WHITESPACE = %s{ %s }" % (r.choice("_______$@ ").strip(), r.choice(['" "', '" " | "\\n"', '" " | "\\n" | "c"', '" " | "\\t" | "\\r" | "\\n"', '" " | "  "', '" "+', '"c"'])))
    if r.random() < .5: out.append("COMMENT = %s{ %s }" % (r.choice("_____$@ ").strip(), r.choice(['"1" ~ (!"1" ~ ANY)* ~ "1"', '"11"', '"1" ~ ASCII_ALPHA*', '"1" ~ b', '"1" ~ (!"é1" ~ ANY)* ~ "é1" | "c" ~ (!NEWLINE ~ ANY)*', '^"c"', '!"a" ~ "1"', '"éa" | "1b"'])))
    return "\n".join(out) + "\n"
def text(): return "".join(r.choice("aaabbbccé1 11 \n\r\nABC漢é") for _ in range(r.randint(0, 12)))
cases = ['a = { ("x"? ~ "y" | "z") ~ EOI }\nWHITESPACE = _{ " " }\n\x1f y\x1fxy\x1fx y\x1fz', 'a = { "x" ~ ("ab" | b) ~ "c" }\nb = { "z" }\n\x1fxabd\x1fxabc\x1fxz\x1fxzc']
if sys.argv[3:] == ["stack"]:
    PUSHES = ['PUSH("a")', 'PUSH(("a" | "b")*)', 'PUSH("é"?)', 'PUSH(ANY)', 'PUSH(ASCII_ALPHA+)', 'PUSH("")', 'PUSH_LITERAL("a")', 'PUSH_LITERAL("b1")', 'PUSH_LITERAL("")']
    READS = ['PEEK', 'POP', 'DROP', 'PEEK_ALL', 'POP_ALL', 'PEEK[..]', 'PEEK[0..1]', 'PEEK[1..]', 'PEEK[-1..]', 'PEEK[..-1]', 'PEEK[0..2]', 'PEEK[-2..-1]', 'PEEK[1..0]']
    plain_solid, plain_expr = solid, expr
    def solid(k, names):
        x = r.random(); e = plain_solid(max(k - 1, 0), names) if x < .4 else plain_solid(k, names)
        if x < .15: return f"PUSH({e})"
        if x < .3: return f"({r.choice(PUSHES)} ~ {e} ~ {r.choice(READS)})"
        if x < .4: return f"({e} ~ {r.choice(PUSHES + READS)})"
        return e
    def expr(k, names):
        x = r.random()
        return r.choice(READS) if x < .18 else r.choice(PUSHES) if x < .3 else plain_expr(k, names)
    def text(): return "".join(r.choice("aaaaabbbé1 ") for _ in range(r.randint(0, 10)))
    cases += ['a = { PUSH("a") ~ PUSH("b") ~ PEEK_ALL ~ POP_ALL ~ EOI }\n\x1fabbaba\x1fab\x1fabba', 'a = { (PUSH("a") ~ PUSH("b") | PUSH("a")) ~ PEEK }\n\x1faa\x1faba\x1fabb', 'a = { (PUSH("a") ~ "x")? ~ PEEK }\n\x1fax\x1faxa\x1faa', 'a = { &PUSH("a") ~ PEEK }\n\x1faa\x1faba', 'a = { PUSH("b") ~ (!PUSH("a") ~ ANY)* ~ "a" ~ POP }\n\x1fbcab\x1fbca', 'a = { PUSH("a") ~ PUSH("b") ~ PUSH("c") ~ PEEK[0..2] ~ PEEK[-1..] ~ PEEK[..] ~ EOI }\n\x1fabcabcabc\x1fabcab']
for _ in range(count): cases.append("\x1f".join([grammar()] + [text() for _ in range(12)]))
sys.stdout.write("\x1e".join(cases))
