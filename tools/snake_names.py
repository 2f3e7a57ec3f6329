#!/usr/bin/env python3
"""Writes the repository's own definitions and lemmas in snake case, in specs/, proofs/, clauses and must-fail edits.

usage: snake_names.py [--list] ROOT

Run once, right after port.py, at the top of the repository. sameWord becomes same_word, and a lemma letter-range letter_range;
a dash stays between two words of specs/, as in length-bytes. A lemma that would get its function's name gets _lem.
Names that Rattle makes (F-spec, invariant-.., decreases-..) and names of the source are left as they are.
--list prints old and new names and writes nothing.
"""

import collections
import glob
import os
import re
import sys

WORD = r"[^\s(){};,\"«»\[\]\\.@?`]+"
SIGNATURE = re.compile(r"^\s*(?:(?:abbrev|unfoldable|pub|data|record|ruleset) )*(" + WORD + r"(?: " + WORD + r")*?) :(?=\s|$)")
HEAD = re.compile(r"^\s*(?:(?:abbrev|unfoldable|pub) )*(?:data|record|ruleset) (" + WORD + ")")
MADE = re.compile(r"^(invariant|decreases|returns|loop|overflow|bounds|slice|Need|ensures|ghost)-|-(spec|requires|preserved|smaller|init)(-\d+)?$")
STD = set("length append take drop map set sets get_or slice cond cons nil reverse concat flatten min max sum replicate filter foldr".split())


def read(path):
    with open(path, encoding="utf-8", newline="") as f:
        return f.read()


def snake(name):
    out = re.sub(r"(?<=[a-z0-9'])([A-Z])", lambda m: "_" + m[1].lower(), name)
    return out


def own_names(root):
    specs, all_names = set(), collections.OrderedDict()
    for path in sorted(glob.glob(os.path.join(root, "crates", "*", "*", "**", "*.antt"), recursive=True)):
        kind = path[len(root):].strip("/").split("/")[2]
        if kind not in ("specs", "proofs"):
            continue
        for line in read(path).split("\n"):
            if line.lstrip().startswith("--"):
                continue
            m = SIGNATURE.match(line) or HEAD.match(line)
            if not m:
                continue
            for name in m[1].split(" "):
                if "◌" in name or not re.match(r"[A-Za-z]", name):
                    continue
                all_names.setdefault(name, []).append(path)
                if kind == "specs":
                    specs.add(snake(name))
    return specs, all_names


def bound_names(root):
    """The names that files of specs/ and proofs/ import or bind, and those of parameters, fields and constants in src/."""
    out = set()
    for path in glob.glob(os.path.join(root, "crates", "*", "**", "*.antt"), recursive=True):
        text = re.sub(r"--(?=\s)[^\n]*", "", read(path))
        for m in re.finditer(r"(?m)^\s*(?:pub )?use [^{\n]*\{([^}]*)\}", text):
            out.update(re.findall(WORD, m[1].replace(",", " ")))
        for m in re.finditer(r"(?:λ|let|as) ([^.=:\n]*)[.=:]", text):
            out.update(re.findall(WORD, m[1]))
        for m in re.finditer(r"[({]([^(){}:\n]*) :", text):
            out.update(re.findall(WORD, m[1]))
    for path in glob.glob(os.path.join(root, "crates", "*", "src", "**", "*.rt"), recursive=True):
        out.update(re.findall(r"\b([A-Za-z_]\w*):(?!:)", read(path)))
    return out


def table(root):
    specs, names = own_names(root)
    words = specs | STD
    tokens = bound_names(root) | set(names)
    turned, taken = collections.OrderedDict(), collections.defaultdict(list)
    for name in names:
        if MADE.search(name):
            continue
        camel = name[0].islower() and re.search(r"[a-z0-9'][A-Z]", name)
        if not camel and "-" not in name:
            continue
        parts = [snake(p) if p[:1].islower() else p for p in name.split("-")]
        new = parts[0]
        for a, b in zip(parts, parts[1:]):
            new += ("-" if a in words and b in words else "_") + b
        if new != name:
            turned[name] = new
            taken[new].append(name)
    for new, olds in list(taken.items()):
        held = list(olds) + ([new] if new in tokens else [])
        if len(held) == 1:
            continue
        # the function keeps the plain name: one of specs/ first, then who is there already
        keep = next((o for o in sorted(olds, key=lambda o: "-" in o) if any("/specs/" in p for p in names[o])), new if new in tokens else olds[0])
        for o in olds:
            if o != keep:
                turned[o] = new + "_lem"
        if keep != new and any("/proofs/" in p for p in names.get(new, [])):
            turned[new] = new + "_lem"
    after = collections.defaultdict(set)
    for o, n in turned.items():
        after[n].add(o)
    bad = {n: o for n, o in after.items() if len(o) > 1 or (n in names and n not in turned)}
    return turned, bad


def clause_lines(text):
    """The lines of a source that hold clauses, ghost items or ghost use items."""
    deep, out = 0, []
    for line in text.split("\n"):
        bare = line.split("//")[0]
        if deep > 0 or re.match(r"\s*(ghost\b|requires\b|ensures\b)", bare):
            out.append(line)
            deep = max(0, deep + bare.count("{") - bare.count("}"))
        else:
            deep = 0
    return out


def turn_words(text, turned):
    def turn(m):
        plain = "-" not in m[0] and m[0] == m[0].lower()
        # a snake name may be a step or a module too
        beside = text[max(0, m.start() - 1) : m.start()] == "." or text[m.end() : m.end() + 1] == "."
        return m[0] if plain and beside else turned.get(m[0], m[0])

    return re.sub(WORD, turn, text)


def turn_antt(text, turned):
    def line(l):
        m = re.match(r"^(.*?)(--(?=\s|$).*)?$", l)
        code, note = m[1], m[2] or ""
        return turn_words(code, turned) + re.sub(r"`[^`]*`", lambda q: turn_words(q[0], turned), note)

    return "\n".join(line(l) for l in text.split("\n"))


def turn_rt(text, turned):
    held = collections.Counter(clause_lines(text))
    camel = {o: n for o, n in turned.items() if "-" not in o}

    def line(l):
        if held.get(l):
            return turn_words(l, turned)
        m = re.match(r"^(.*?)(//.*)?$", l)
        return m[1] + re.sub(r"`[^`]*`", lambda q: turn_words(q[0], camel), m[2] or "") if '"' not in m[1] else l

    return "\n".join(line(l) for l in text.split("\n"))


def turn_edit(text, turned):
    kind = re.search(r"(?m)^file: *(\S+)", text)
    out = []
    for l in text.split("\n"):
        m = re.match(r"^(old|new): ?(.*)$", l)
        if m and kind:
            rt = kind[1].endswith(".rt")
            clause = re.match(r"\s*(ghost\b|requires\b|ensures\b)", m[2])
            l = l if rt and not clause else f"{m[1]}: " + turn_words(m[2], turned)
        out.append(l)
    return "\n".join(out)


def main(argv):
    root = argv[-1]
    turned, bad = table(root)
    if "--list" in argv:
        for o, n in turned.items():
            print(o, n)
    for n, o in bad.items():
        print("two names fall together:", n, *sorted(o), file=sys.stderr)
    if "--list" in argv or bad:
        return 1 if bad else 0
    for path in sorted(glob.glob(os.path.join(root, "crates", "*", "**", "*"), recursive=True)):
        if "/out/" in path or not os.path.isfile(path):
            continue
        turn = turn_antt if path.endswith(".antt") else turn_rt if path.endswith(".rt") else turn_edit if path.endswith(".edit") else None
        if turn:
            old = read(path)
            new = turn(old, turned)
            if new != old:
                with open(path, "w", encoding="utf-8", newline="") as f:
                    f.write(new)
    return 0


if __name__ == "__main__":
    raise SystemExit(main(sys.argv[1:]))
