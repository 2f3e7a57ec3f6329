"""Texts of p-code: every action's name, every form of a record, and seeded ones of many levels."""

import random

from .names import CODES, TAGS

STRINGS = ['""', '"a"', '"two words"', r'"\n\r\t\\\"\'"', r'"\x\0"', '"Käse €"', '"日本 😀"', '"tab\t"', '"<&>\'"', '"{,:}"']
NUMBERS = "0 1 -1 -0 127 255 256 65536 2147483647 -2147483648 2147483648 -2147483649 4294967295 infinity nan".split()
NUMBERS += "0.5 1.5 -1.25 0.1 1.1 -0.0 0.0 25e-1 1e22 3e-22 1234567.0e15 123456789.123 0.3333333333333333".split()
NUMBERS += "9007199254740991 9007199254740992".split()
WORDS = "null undefined true false register0 register1 register254 register255 constant0 constant255 constant256 constant65535".split()
SIMPLE = [name for name, code in CODES.items() if code < 0x80] + ["Call"]
BOOLS = ["true", "false"]
TARGETS = ["", '""', '"e"', '"error_1"', '"fehlé"', "register0", "register255"]


def bools(n, ones):
    return ", ".join(BOOLS[i not in ones] for i in range(n))


def each_name():
    """Every action's name, with operands where it must have some, between two actions."""
    operands = {
        "ConstantPool": '"a"', "DefineFunction": '"f", 1, "p" {\nReturn\n}', "GetUrl": '"u", "t"', "GetUrl2": "true, false, 1",
        "DefineFunction2": f'"f", 1, 2, {bools(9, [0])}, 1, "p" {{\nReturn\n}}', "GotoFrame": "1", "GotoFrame2": "true, true, 1",
        "GotoLabel": '"l"', "If": "l", "Jump": "l", "Push": "1", "SetTarget": '"t"', "StoreRegister": "1",
        "Try": "{\nThrow\n}\ncatch {\n}", "WaitForFrame": "1, 1", "WaitForFrame2": "1", "With": "{\nPop\n}",
    }
    return [f"Play\n{name} {operands.get(name, '')}\nl: Stop\n" for name in TAGS]


def each_form():
    """Every form of a record, and the ends of each field's range."""
    values = STRINGS + NUMBERS + WORDS
    texts = [f"Push {v}\nTrace\n" for v in values + ['"\x01\x7f"']]
    texts += ["Push\nPush " + ", ".join(values) + "\nTrace\n", "Push " + ", ".join(["1"] * 13107) + "\n"]
    pools = [[], STRINGS, [f'"{i}"' for i in range(300)]]
    texts += ["ConstantPool " + ", ".join(pool) + "\nPop\n" for pool in pools]
    texts += [f"GetUrl {a}, {b}\nPop\n" for a, b in zip(STRINGS, reversed(STRINGS))]
    texts += ["".join(f"GetUrl2 {a}, {b}, {m}\n" for a in BOOLS for b in BOOLS for m in range(4))]
    texts += ["".join(f"GotoFrame {n}\nWaitForFrame {n}, {n % 256}\nGotoFrame2 true, {b}, {n}\nGotoFrame2 false, {b}\n"
                      for n in (0, 1, 255, 256, 65535) for b in BOOLS)]
    texts += ["".join(f"StoreRegister {n}\nWaitForFrame2 {n}\n" for n in (0, 1, 127, 128, 255))]
    texts += ["".join(f"GotoLabel {s}\nSetTarget {s}\n" for s in STRINGS)]
    texts += ['GotoLabel "ab\nPush "c\\d\nTrace\n']  # strings without their closing quote
    return texts + functions() + tries() + jumps()


def functions():
    texts = [f"DefineFunction {s}, {n} {{\n{body}}}\nPop\n" for s in STRINGS for n in (0, -3) for body in ("", "Push 1\nReturn\n")]
    texts += [f'DefineFunction "f", {len(STRINGS)}, {", ".join(STRINGS)} {{\nEnd\n}}\nPop\n']
    flags = [[i] for i in range(9)] + [[], range(9), [0, 3, 8], [1, 2, 7]]
    texts += [f'DefineFunction2 "f", 0, {i * 21}, {bools(9, ones)} {{\nAdd\n}}\nPop\n' for i, ones in enumerate(flags)]
    pairs = ", ".join(f"{i * 25}, {s}" for i, s in enumerate(STRINGS))
    texts += [f'DefineFunction2 "", {len(STRINGS)}, 255, {bools(9, [8])}, {pairs} {{\n}}\nPop\n']
    opening = ["With", 'DefineFunction "", 0', f'DefineFunction2 "", 0, 0, {bools(9, [])}', "Try"]
    deep = [opening[i % 4] + " {\nPop\n" for i in range(64)]
    return texts + ["".join(deep) + "}\n" * 64 + "Trace\n", "With {\n}\nWith {\nEnd\nWith {\n}\n}\nEnd\nTrace\nEnd\n"]


def tries():
    """Every target with and without a catch block and a finally block, each empty and filled."""
    ends = ["", "catch {\n%s}\n", "finally {\n%s}\n", "catch {\n%s}\nfinally {\nStop\nPlay\n}\n"]
    return [
        "Try " + target + " {\n" + body + "}\n" + (end % body if end else "") + "Trace\n"
        for target in TARGETS
        for end in ends
        for body in ("", "Push 1\nThrow\n")
    ]


def jumps():
    """Forward, backward, to itself, to the next action and to the level's end, over and in each kind of body; and as far as can be."""
    bodies = [
        "Play\n", "WaitForFrame2 200\n", "GotoFrame2 true, true, 1542\n", 'Try "face" {\n}\ncatch {\n}\n',
        "With {\nPop\nJump in\nPop\nin: Pop\n}\n", 'DefineFunction "f", 0 {\nin: If in\nJump out\nout: }\n',
        f'DefineFunction2 "f", 0, 1, {bools(9, [3])} {{\nJump out\nWith {{\n}}\nIf in\nin: End\nout: }}\n',
        "Try {\nJump out\nAdd\nout: }\ncatch {\nin: Add\nIf in\n}\nfinally {\nIf in\nin: }\n",
    ]
    around = "first: Push true\nIf last\n%sIf first\nself: Jump self\n%sJump next\nnext: Trace\nJump last\nlast:\n"
    filling = lambda n: 'Push "' + "x" * (n - 5) + '"\n'
    return [around % (body, body) for body in bodies] + [
        "a: Pop\na: Pop\nJump a\nb: A: Jump b\nJump A\n",
        "Jump far\n" + filling(32767) + "far: Trace\n",
        "near: " + filling(32763) + "Jump near\n",
        "With {\nPush " + ",".join(["8."] * 7281) + "\nPop\nPop\nPop\n}\nTrace\n",  # a body of 65,535 bytes
    ]


class Writer:
    """Texts of many levels; each jump names a label of its own level."""

    def __init__(self, seed):
        self.random = random.Random(seed)

    def one(self, of):
        return of[self.random.randrange(len(of))]

    def level(self, depth):
        n = self.random.randrange(0 if depth else 3, 8)
        labels = [f"l{i}" for i in range(self.random.randrange(3))]
        at = [self.random.randrange(n + 1) for _ in labels]
        lines = []
        for i in range(n + 1):
            lines += [f"{label}:" for label, position in zip(labels, at) if position == i]
            if i < n:
                lines.append(self.action(labels, depth))
        return "\n".join(lines) + "\n"

    def action(self, labels, depth):
        kinds = [self.simple, self.push, self.record, self.record]
        if labels:
            kinds += [lambda: self.one(["If ", "Jump "]) + self.one(labels)] * 2
        if depth < 5:
            kinds += [lambda: self.block(depth)] * 2
        return self.one(kinds)()

    def simple(self):
        return self.one(SIMPLE)

    def push(self):
        return "Push " + ", ".join(self.one(STRINGS + NUMBERS + WORDS) for _ in range(self.random.randrange(5)))

    def record(self):
        n, s, b = self.random.randrange, lambda: self.one(STRINGS), lambda: self.one(BOOLS)
        forms = [
            lambda: "ConstantPool " + ", ".join(s() for _ in range(n(4))), lambda: f"GetUrl {s()}, {s()}", lambda: f"GotoLabel {s()}",
            lambda: f"SetTarget {s()}", lambda: f"GetUrl2 {b()}, {b()}, {n(4)}", lambda: f"GotoFrame {n(65536)}",
            lambda: f"GotoFrame2 true, {b()}, {n(3) * n(30000)}", lambda: f"GotoFrame2 false, {b()}", lambda: f"StoreRegister {n(256)}",
            lambda: f"WaitForFrame {n(65536)}, {n(256)}", lambda: f"WaitForFrame2 {n(256)}",
        ]
        return self.one(forms)()

    def block(self, depth):
        body = lambda: "{\n" + self.level(depth + 1) + "}"
        names = [self.one(STRINGS) for _ in range(self.random.randrange(3))]
        pairs = "".join(f", {self.random.randrange(256)}, {s}" for s in names)
        flags = [i for i in range(9) if self.random.randrange(2)]
        kind = self.random.randrange(4)
        if kind == 0:
            return "With " + body()
        if kind == 1:
            return f"DefineFunction {self.one(STRINGS)}, {len(names)}" + "".join(", " + s for s in names) + " " + body()
        if kind == 2:
            return f"DefineFunction2 {self.one(STRINGS)}, {len(names)}, {self.random.randrange(256)}, {bools(9, flags)}{pairs} " + body()
        text = f"Try {self.one(TARGETS)} " + body()
        for word in ("catch", "finally"):
            text += f"\n{word} " + body() if self.random.randrange(2) else ""
        return text


def generated(count, seed):
    """As many texts as said; the names and the forms are among them in any case."""
    texts = each_name() + each_form()
    writer = Writer(seed)
    while len(texts) < count:
        texts.append(writer.level(0))
    return [text.encode() for text in texts]
