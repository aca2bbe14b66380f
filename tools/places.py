#!/usr/bin/env python3
"""Counts, over crates/*/src, the places that docs/DESIGN-PASS.md speaks of.

usage: tools/places.py POINT [-l] [CRATE..]      at the top of the repository; POINT is 1 to 7, -l lists the places, CRATE.. looks at these alone
"""

import collections
import glob
import itertools
import re
import sys

POINT, REST = sys.argv[1], sys.argv[2:]
LISTS = "-l" in REST
CRATES = [a for a in REST if a != "-l"]
FILES = {f: open(f).read() for f in sorted(glob.glob("crates/*/src/**/*.rt", recursive=True)) if not CRATES or f.split("/")[1] in CRATES}
LITERAL = r"""b?"(?:\\.|[^"\\])*"|b?'(?:\\.|[^'\\])'"""
STD = (
    "byte|is_in|is_digit|is_letter|is_hex|is_printable|lower|higher|same|same_\\w+|compare|natural_at_most|is_zero|severity|worse|is_fit|magnitude|more|"
    "past|has_room|wide|one_if|counted_if|twos_complement|byte_signed|big_endian|half|wrapping_mul|clear|put|put_byte|put_digit|put_decimal|put_integer|"
    "\\w+_number|\\w+_of_number|sensor_of|bit_count|low_byte|bytes_of|number|write_number|write_bytes"
)


def plain(text):
    """the text without comments and literals, each character at its place"""
    return re.sub(LITERAL + r"|//[^\n]*", lambda m: re.sub(r"[^\n]", " " if m[0].startswith("//") else "x", m[0]), text)


def close(text, i):
    """past the bracket that opens at i"""
    depth = 0
    while True:
        depth += (text[i] in "({[") - (text[i] in ")}]")
        i += 1
        if depth == 0:
            return i


def line(text, i):
    return text.count("\n", 0, i) + 1


def split(text):
    """at the commas outside brackets"""
    out, depth = [""], 0
    for c in text:
        depth += (c in "({[<") - (c in ")}]>")
        if c == "," and depth == 0:
            out.append("")
        else:
            out[-1] += c
    return [re.sub(r"\s+", " ", x).strip() for x in out if x.strip()]


def functions():
    """file, line, name, parameters, what it requires, its body, and that without comments and literals"""
    for f, raw in FILES.items():
        text = plain(raw)
        for m in re.finditer(r"\bfn (\w+)", text):
            i = text.index("(", m.end())
            j = k = close(text, i)
            asks = []
            while True:
                clause = re.compile(r"\s*(requires|ensures)(\s+\w+)?\s*(?=\{)").match(text, k)
                if clause:
                    k = close(text, clause.end())
                    if clause[1] == "requires":
                        asks.append(text[clause.end() + 1 : k - 1])
                elif text[k] in "{;":
                    break
                else:
                    k += 1
            if text[k] == "{":
                e = close(text, k)
                yield f, line(text, m.start()), m[1], split(text[i + 1 : j - 1]), asks, raw[k + 1 : e - 1], text[k + 1 : e - 1]


def enums():
    for f, raw in FILES.items():
        text = plain(raw)
        for m in re.finditer(r"\benum (\w+)[^{]*(?=\{)", text):
            yield f, line(text, m.start()), m[1], split(text[m.end() + 1 : close(text, m.end()) - 1])


def structs():
    for f, raw in FILES.items():
        text = plain(raw)
        for m in re.finditer(r"\bstruct (\w+)[^{;]*\{([^}]*)\}", text):
            yield f, line(text, m.start()), m[1], split(m[2])


def lines(pattern):
    return [(f, n, l.strip()) for f, t in FILES.items() for n, l in enumerate(t.split("\n"), 1) if re.search(pattern, l.split("//")[0])]


def tell(what, places, count=None):
    print(f"{len(places) if count is None else count:5}  {what}")
    if LISTS:
        for place in places:
            print("        ", *place)


def facts(clause):
    """the facts that × joins"""
    clause = re.sub(r"\s+", " ", clause).strip()
    while clause[:1] == "(" and close(clause, 0) == len(clause):
        clause = clause[1:-1].strip()
    out, depth = [""], 0
    for c in clause:
        depth += (c == "(") - (c == ")")
        if c == "×" and depth == 0:
            out.append("")
        else:
            out[-1] += c
    return [clause] if len(out) == 1 else [f for part in out for f in facts(part)]


def shape(body):
    """a body with one word for all names and constants"""
    words = "let mut if else while loop for in match return true false".split()
    out = [t if t in words or not re.match(r"[\w\"']", t) else "I" for t in re.findall(LITERAL + r"|\w+|[^\s\w]", body)]
    return re.sub(r", (?=[)}\]])", "", re.sub(r"I( : : I)+", "I", " ".join(out)))


def held(variant):
    return "(" in variant or "{" in variant


def point_1():
    all_enums = list(enums())
    data = [(f, l, n, v) for f, l, n, v in all_enums if any(map(held, v))]
    tell("enums with data in some variants and one variant without", [e for e in data if sum(not held(x) for x in e[3]) == 1])
    tell("enums with data in some variants and several without", [e for e in data if sum(not held(x) for x in e[3]) > 1])
    let_else = re.compile(r"let ([A-Z]\w*(?:::\w+)?)(?:\([^=]*\)|\s*\{[^}]*\})\s*=\s*[^;{]*?else \{\s*return ([^;]*);")
    found = [(f, line(t, m.start()), m[1], m[2]) for f, t in FILES.items() for m in let_else.finditer(t)]
    tell("`let X::Y(..) = .. else { return .. }` over own enums", [x for x in found if "::" in x[2]])
    tell("`let Some(..) = .. else { return None }`", [x for x in found if x[2] == "Some" and x[3] == "None"])
    tell("bool fields beside others", [(f, l, n, x) for f, l, n, xs in structs() for x in xs if x.endswith(": bool")])
    tell("bools beside a value in a variant", [(f, l, n, x) for f, l, n, v in all_enums for x in v if re.search(r"\bbool\b.*,|,.*\bbool\b", x)])
    tell("arms by a number", lines(r"^\s+[0-9]+( \| [0-9]+)* =>"))
    tell("tests of a kind against a number", lines(r"\b(k|kind|number|class|code|verb) (==|!=) [0-9]+\b"))
    tell("kinds passed as numbers (k: u8, k: u64)", [(f, l, n) for f, l, n, ps, *_ in functions() if {"k: u8", "k: u64"} & set(ps)])
    numbers = [(f, l, n) for f, l, n, ps, _, b, _ in functions() if re.search(r"return [1-9]\d*;", b) and re.search(rf"fn {n}\b[^{{]*-> u8", FILES[f])]
    tell("refusals returned as numbers (`return N;` in a function -> u8)", numbers)


def point_2():
    alike = collections.defaultdict(list)
    for f, l, n, _, _, body, _ in functions():
        if len(re.findall(r"\w+|[^\s\w]", body)) >= 15:
            alike[shape(body)].append((f"{f}:{l}", n))
    groups = [g for g in alike.values() if len(g) > 1]
    tell(f"functions whose body is another's but for names and constants, in {len(groups)} groups", groups, sum(map(len, groups)))
    alike = collections.defaultdict(list)
    for f, l, n, v in enums():
        alike[tuple(sorted(re.sub(r"\b(?!bool)\w+", "T", re.sub(r"^\w+", "V", x)) for x in v))].append((f"{f}:{l}", n))
    for f, l, n, xs in structs():
        alike[tuple(sorted(xs))].append((f"{f}:{l}", n))
    groups = [g for g in alike.values() if len(g) > 1]
    tell(f"types that differ in names and field types alone, in {len(groups)} groups", groups, sum(map(len, groups)))
    names = {(f.split("/")[1], n) for f, _, n, *_ in functions()}
    pairs = [(f, l, n) for f, l, n, *_ in functions() if n.startswith("put_") and (f.split("/")[1], n[4:] + "_length") in names]
    tell("pairs put_X and X_length", pairs)


def point_3():
    found = []
    for f, l, n, _, _, _, body in functions():
        for m in re.finditer(r"\b(while\b[^{]*|loop\s*)(?=\{)", body):
            inner = body[m.end() : close(body, m.end())]
            counted = set(re.findall(r"\b(\w+) [+-]= 1;", inner)) | set(re.findall(r"\b(\w+) = \(?\1 [+-] 1", inner))
            found.append((f, l, n, m[1].strip(), *sorted(counted)))
    tell("loops by while or loop", found)
    tell("of these: one that counts by 1", [x for x in found if len(x) > 4])
    tell("for loops", lines(r"^\s*('\w+: )?for .* in "))


def point_4():
    tell("functions that std, a derive or From has (by name)", [(f, l, n) for f, l, n, *_ in functions() if re.fullmatch(STD, n)])
    tell("arms from a variant to a number or back", lines(r"^\s*\w+::\w+(\(\w*\))? => [0-9]+,|^\s*[0-9]+ => .*\w+::\w+"))
    tell("types that derive Clone and Copy alone", lines(r"#\[derive\(Clone, Copy\)\]"))
    tell("fields copied to a local before use", lines(r"^\s+let (mut )?\w+ = \w+\.\w+;$"))
    byte = r"\b(byte\([^)]*\)|b|s\[[^]]*\]|line\[[^]]*\]) (==|!=) (1[0-9]|[2-9][0-9]|1[0-2][0-9])\b|is_in\([0-9]+, [0-9]+|put_byte\(\w+, \w+, [0-9]+\)"
    tell("bytes by their numbers", lines(byte))


def point_5():
    pairs, asked = collections.defaultdict(set), collections.defaultdict(set)
    for f, l, n, ps, asks, *_ in functions():
        for pair in itertools.combinations(sorted(set(ps)), 2):
            pairs[pair].add((f, l, n))
        for fact in {fact for clause in asks for fact in facts(clause)}:
            asked[fact].add((f, l, n))
    for what, of in (("a pair of parameters that three or more have", pairs), ("a fact to require that three or more require", asked)):
        often = {x: places for x, places in of.items() if len(places) >= 3}
        rows = sorted(((len(places), x) for x, places in often.items()), reverse=True)
        tell(f"functions with {what} ({len(often)} of them)", rows[:40], len(set().union(*often.values()) if often else ()))


def point_6():
    tell("arrays of a fixed length (locals and fields)", lines(r": \[[A-Za-z0-9]+; \w+\]|= \[[^]]*; \w+\];"))
    tell("lengths beside a buffer", lines(r"\b(written|size|end|length): usize|&\w+\[\.\.(n|end|written|size|length)\]"))
    tell("a part from..to in place of a slice", lines(r"&\w+\[(from|a|c|start)\.\.(to|b|d|end)\]"))
    types = [*structs(), *enums()]
    tell("fields and variants that hold a position or a part", [(f, l, n, x) for f, l, n, xs in types for x in xs if re.search(r"\b(usize|Part)\b", x)])


def point_7():
    steps = {n for _, _, n, v in enums() if not any(map(held, v))} | {"bool"}
    taking = [(f, l, n, p, body) for f, l, n, ps, _, _, body in functions() for p in ps if p.split(": ")[-1] in steps]
    matching = [(f, l, n, p) for f, l, n, p, body in taking if re.search(rf"\b(match|if) !?{p.split(':')[0]}\b", body)]
    tell("functions that match or test a parameter that chooses the step (a bool, or an enum without data)", matching)
    tell("functions that take one", sorted({x[:3] for x in taking}))


{"1": point_1, "2": point_2, "3": point_3, "4": point_4, "5": point_5, "6": point_6, "7": point_7}[POINT]()
