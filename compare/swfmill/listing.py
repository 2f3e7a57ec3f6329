"""What pcode-show lists of a text, and what the records of its export must say."""

import collections
import re
import struct

from .faults import Unable

FILE = re.compile(r"file  (\d+): \d+ actions?, \d+ operands?, \d+ levels?, \d+ labels?")
REFUSED = re.compile(r"(\d+):\d+:\d+: refused \d+: .*")
LEVEL = re.compile(r"level +\d+ +(?:(the top level)|(body|try|catch|finally) of action (\d+) \w+) +(\d+) actions? +net .*")
LABEL = re.compile(r"label +\d+ +\S+ +position \d+")
ACTION = re.compile(r"action +\d+ +level (\d+) +line \d+ +(\w+) +delta \S+")
OPERAND = re.compile(
    r"operand \d+ +.*  (?:string of \d+ bytes?(?:: (?P<string>[0-9a-f ]+))?(?:, not closed: .*)?|integer (?P<integer>-?\d+)"
    r"|double (?P<double>[0-9a-f]{16})|(?P<word>true|false|null|undefined)|register (?P<register>\d+)|constant (?P<constant>\d+)"
    r"|label at position (?P<position>\d+)|(?P<none>label not in this level|Long, kept as typed))"
)
WHOLE = {"integer", "register", "constant", "position"}
Listing = collections.namedtuple("Listing", "levels actions")  # a level: block, owner, actions; an action: level, name, operands


def operand(line):
    """Kind and value of an operand, as pcode-show says what it became."""
    m = OPERAND.fullmatch(line)
    if m is None:
        raise Unable(f"pcode-show: a line that is not known: {line}")
    for kind, value in m.groupdict().items():
        if value is not None and kind in WHOLE:
            return kind, int(value)
        if value is not None and kind == "double":
            return kind, int(value, 16)
        if value is not None and kind == "word":
            return ("boolean", int(value == "true")) if value in ("true", "false") else (value, None)
        if value is not None and kind == "none":
            return value, None
    return "string", bytes.fromhex(m["string"] or "")


def listings(out, count):
    """The listing of each text, None of a refused one, from what pcode-show printed of the files 0, 1, .."""
    listed, listing = [], None
    for line in out.decode().split("\n"):
        if m := FILE.fullmatch(line):
            listing = Listing([], [])
            listed.append((int(m[1]), listing))
        elif m := REFUSED.fullmatch(line):
            listing = None
            listed.append((int(m[1]), listing))
        elif listing is None or line == "":
            continue  # a refused text's line and its mark
        elif m := LEVEL.fullmatch(line):
            listing.levels.append(("top", None, int(m[4])) if m[1] else (m[2], int(m[3]), int(m[4])))
        elif m := ACTION.fullmatch(line):
            listing.actions.append((int(m[1]), m[2], []))
        elif not LABEL.fullmatch(line):
            listing.actions[-1][2].append(operand(line))
    if [number for number, _ in listed] != list(range(count)):
        raise Unable(f"pcode-show told of {len(listed)} texts of {count}")
    return [listing for _, listing in listed]


# ---- what a record says

ESCAPES = {b"n": b"\n", b"r": b"\r", b"t": b"\t", b"\\": b"\\", b'"': b'"', b"'": b"'"}


def decoded(raw):
    """Escapes as `string` of as2/parser.rs decodes them: before another byte the backslash stays."""
    return re.sub(rb"\\(.)", lambda m: ESCAPES.get(m[1], m[0]), raw, flags=re.S)


def digits(bits):
    """The double of these bits as swfmill shows it."""
    return "%#.16g" % struct.unpack(">d", bits.to_bytes(8, "big"))


def pushed(kind, value):
    if kind == "string":
        return kind, decoded(value)
    if kind == "double":
        return kind, f"{digits(value)} ({value:016x})"
    if kind == "constant":
        return ("constant8" if value < 256 else "constant16"), value
    return kind, value


def url_byte(variables, target, method, as_printed):
    return method << 6 | target << 1 | variables if as_printed else variables << 7 | target << 6 | method


def catch_target(operands, owned):
    """A target without a catch block is dropped, and a catch without a target has the empty name."""
    if "catch" not in owned or not operands:
        return "name", b""
    kind, value = operands[0]
    return ("register", value) if kind == "register" else ("name", decoded(value))


def said(name, operands, owned, as_printed):
    """The fields of an action's record, each with what it is; `owned` are the action's blocks."""
    v = [decoded(value) if kind == "string" else value for kind, value in operands]
    match name:
        case "Push":
            return [pushed(*o) for o in operands]
        case "ConstantPool":
            return [("string", s) for s in v]
        case "GetUrl2":
            return [("number", url_byte(*v, as_printed))]
        case "GotoFrame2":
            bias = v[2] if v[0] else 0
            return [("number", 2 * (bias != 0) + v[1])] + ([("number", bias)] if bias else [])
        case "DefineFunction":
            return [("name", v[0]), ("parameters", max(v[1], 0))] + [("parameter", s) for s in v[2:]]
        case "DefineFunction2":
            flags = [("flag", b) for b in v[3:12]]
            return [("name", v[0]), ("parameters", max(v[1], 0)), ("registers", v[2])] + flags + [("parameter", p) for p in v[12:]]
        case "Try":
            return [("catch block", int("catch" in owned)), ("finally block", int("finally" in owned)), catch_target(operands, owned)]
        case "GetUrl" | "GotoLabel" | "SetTarget":
            return [("string", s) for s in v]
        case "If" | "Jump":
            return [("position", v[0])]
    return [("number", n) for n in v]
