#!/usr/bin/env python3
"""Lists places of docs/DESIGN-PASS.md, point by point, in the src/ of a checkout: tools/design_places.py [ROOT] [POINT..].
What needs judgement is not found here: the page says how those were counted."""
import collections
import glob
import os
import re
import sys


def sources(root):
    for path in sorted(glob.glob(os.path.join(root, "crates/*/src/*.rt"))):
        with open(path, encoding="utf-8") as f:
            yield os.path.relpath(path, root), f.read()


def line_of(text, at):
    return text.count("\n", 0, at) + 1


def items(text, kind):
    """Each item of a kind: its name, where it starts and its text up to the closing brace in column 0."""
    for m in re.finditer(r"^(?:pub )?%s (\w+)" % kind, text, re.M):
        end = text.find("\n}", m.start())
        yield m.group(1), m.start(), text[m.start() : end]


def functions(text):
    """Name, start, parameters and body of each function, methods too."""
    for m in re.finditer(r"^( *)(?:pub )?fn (\w+)(?:<[^(]*>)?\(", text, re.M):
        depth, i = 1, m.end()
        while depth and i < len(text):
            depth += {"(": 1, ")": -1}.get(text[i], 0)
            i += 1
        params = text[m.end() : i - 1]
        end = text.find("\n%s}" % m.group(1), i)
        body = text[i:end]
        start = body.find("\n%s{" % m.group(1))
        yield m.group(2), m.start(), params, body[start:] if start >= 0 else body


def parameters(params):
    depth, part, out = 0, "", []
    for c in params:
        depth += {"(": 1, "<": 1, "[": 1, ")": -1, ">": -1, "]": -1}.get(c, 0)
        if c == "," and depth == 0:
            out.append(part)
            part = ""
        else:
            part += c
    out.append(part)
    return [p.strip() for p in out if p.strip()]


def point_1(root):
    """Enums with a case that says that there is no value, structs with a flag, constants and parameters that number kinds."""
    for path, text in sources(root):
        for name, at, body in items(text, "enum"):
            cases = re.findall(r"^    (\w+)", body, re.M)
            if set(cases) & {"Nothing", "Refused", "Failed", "Short", "Bad", "None"}:
                yield path, line_of(text, at), "enum %s { %s }" % (name, ", ".join(cases))
        for name, at, body in items(text, "struct"):
            if re.search(r"^    (?:pub )?\w+: bool,", body, re.M):
                yield path, line_of(text, at), "struct %s, with a flag" % name
        for m in re.finditer(r"^const ([A-Z_]+): u64 = \d+;", text, re.M):
            yield path, line_of(text, m.start()), "const %s" % m.group(1)
        for name, at, params, _ in functions(text):
            for p in parameters(params):
                if re.match(r"(kind|part|tag|number): u(8|64)$", p):
                    yield path, line_of(text, at), "fn %s(%s)" % (name, p)


SIZES = r"_(?:64|512|1024|4096|8192|16384|32768|65536|small|large)$"


def point_2(root):
    """Functions named by a size, and functions of one text but for names, types and numbers in one crate or of one name in two."""
    same = collections.defaultdict(list)
    for path, text in sources(root):
        for name, at, params, body in functions(text):
            where = (path, line_of(text, at), "fn %s" % name)
            if re.search(SIZES, name):
                yield where
                continue
            flat = re.sub(r"\s+", " ", re.sub(r"//.*", "", body)).strip()
            if len(flat) > 20:
                plain = re.sub(r"\b(u8|u16|u32|u64|usize|i32|i64|\d+|[A-Z]\w*)\b", "_", re.sub(r"\b%s\b" % name, "f", flat))
                key = (re.sub(r"\b(u8|u16|u32|u64|usize)\b", "_", re.sub(r"\s+", " ", params)), plain)
                same[key].append(where)
    for places in same.values():
        if len(places) > 1:
            yield from places


def loops(text):
    for m in re.finditer(r"^( *)(while|for) ([^\n]*)\{\n", text, re.M):
        end = text.find("\n%s}" % m.group(1), m.end())
        yield m.group(2), m.group(3).strip(), line_of(text, m.start()), text[m.end() : end]


def point_3(root):
    """`while` loops that step a number of their test by a constant, and `for` loops over a range that only index by it."""
    for path, text in sources(root):
        for kind, head, line, body in loops(text):
            if kind == "while":
                names = re.findall(r"\b[a-z_]\w*(?:\.\w+)?", head)
                if any(re.search(r"(?<![\w.])%s (?:[+-]= \d+|= %s [+-] \d+);" % ((re.escape(n),) * 2), body) for n in names):
                    yield path, line, "while %s" % head
            else:
                m = re.match(r"(\w+) in .*\.\.", head)
                if m and m.group(1) != "_":
                    uses = re.findall(r"(\S?)\b%s\b(\S?)" % m.group(1), body)
                    if uses and all(u == ("[", "]") for u in uses):
                        yield path, line, "for %s" % head


HANDS = r"^(same_\w+|least|less|both|one_if\w*|wide\w*|widened|size|is_digit|is_integer|is_string|is_register|is_jump|missing|one_of|block_part|block_number|net_kind|print_refusal|print_signed|print_span|refusal_number|refusal_place|kind_number|kind_of|action_at|action_number|place_of|event_of|log_word|token_of|word_of|\w+_word|(?:action|operand|label|level|block|net)_of|zero|is_standard_input)$"


def point_4(root):
    """Functions that compare, order, copy, convert or print by hand, by their names."""
    for path, text in sources(root):
        for name, at, _, _ in functions(text):
            if re.match(HANDS, name):
                yield path, line_of(text, at), "fn %s" % name


def point_5(root):
    """Functions with four or more parameters that stand together, by name, in three or more functions."""
    groups = collections.defaultdict(list)
    seen = []
    for path, text in sources(root):
        for name, at, params, _ in functions(text):
            names = tuple(re.sub(r"^(mut|held_)\s*", "", p.split(":")[0].strip()) for p in parameters(params))
            names = tuple(n for n in names if n not in ("rt", "&self", "self", "&mut self"))
            seen.append((path, line_of(text, at), name, names))
    for known in (
        ("tokens", "actions", "operands", "levels", "labels"),
        ("s", "actions", "operands", "labels"),
        ("text", "s", "operands", "action"),
        ("text", "s", "events", "c"),
        ("letters", "starts", "firsts"),
        ("text", "s", "log"),
        ("text", "s", "out", "index"),
        ("text", "s", "labels", "index"),
        ("list", "c"),
        ("out", "c"),
    ):
        found = [f for f in seen if set(known) <= set(f[3])]
        for path, line, name, _ in found:
            groups[known].append((path, line, "fn %s (%s)" % (name, ", ".join(known))))
    told = set()
    for known, places in groups.items():
        if len(places) >= 3:
            for p in places:
                if p[:2] not in told:
                    told.add(p[:2])
                    yield p


def point_6(root):
    """Functions that take a slice and a count of what of it is used or how far it is filled."""
    for path, text in sources(root):
        for name, at, params, _ in functions(text):
            ps = parameters(params)
            for a, b in zip(ps, ps[1:]):
                if re.search(r": &(mut )?\[", a) and re.match(r"(n|m|len|count|c): (usize|u64|Cursor|Coded|At)$", b):
                    yield path, line_of(text, at), "fn %s(%s, %s)" % (name, a, b)


def point_7(root):
    """Functions with a parameter that says which step to run: a flag, or an enum that a `match` takes apart."""
    for path, text in sources(root):
        for name, at, params, body in functions(text):
            for p in parameters(params):
                if re.match(r"(words|row|stream|style|inside): (bool|Row|Stream|Style)$", p):
                    if re.search(r"\b(match|if) (!)?%s\b" % p.split(":")[0], body):
                        yield path, line_of(text, at), "fn %s(%s)" % (name, p)


POINTS = {"1": point_1, "2": point_2, "3": point_3, "4": point_4, "5": point_5, "6": point_6, "7": point_7}


def main():
    args = sys.argv[1:]
    root = args.pop(0) if args and args[0] not in POINTS else "."
    for point in args or sorted(POINTS):
        places = list(dict.fromkeys(POINTS[point](root)))
        print("%s: %d places" % (point, len(places)))
        for path, line, what in places:
            print("  %s:%d: %s" % (path, line, what))


if __name__ == "__main__":
    main()
