"""The fields of a record as swfmill shows them in XML, and how many bytes the record has with them."""

from .faults import Difference
from .names import CODES, NAMES

# swfmill writes control characters as they are, which no reader of XML takes: they are moved to the end of Unicode, and back.
CONTROLS = {c: chr(0x10FF00 + c) for c in range(32) if chr(c) not in "\t\n\r"}
BACK = {0x10FF00 + c: c for c in range(32)}

FLAGS = "preloadParent preloadRoot suppressSuper preloadSuper suppressArguments preloadArguments suppressThis preloadThis".split()
FLAGS.append("preloadGlobal")

# A pushed value but a string: what it is, the attribute that has it, its bytes behind the type.
VALUES = {
    "StackFloat": ("float", "value", 4),
    "StackNull": ("null", None, 0),
    "StackUndefined": ("undefined", None, 0),
    "StackRegister": ("register", "reg", 1),
    "StackBoolean": ("boolean", "value", 1),
    "StackDouble": ("double", "value", 8),
    "StackInteger": ("integer", "value", 4),
    "StackDictionaryLookup": ("constant8", "index", 1),
    "StackLargeDictionaryLookup": ("constant16", "index", 2),
}


def text(element, key="value"):
    return element.get(key).translate(BACK).encode()


def strings(what, elements):
    """A field for each string, and their bytes with the closing zeros."""
    read = [text(e) for e in elements]
    return [(what, s) for s in read], sum(len(s) + 1 for s in read)


def pushed(items):
    """A double is shown with digits alone, so it comes with the place of its bytes in the record."""
    fields, size = [], 3
    for e in items:
        if e.tag == "StackString":
            fields.append(("string", text(e)))
            size += 2 + len(text(e))
            continue
        what, key, width = VALUES[e.tag]
        value = e.get(key) if key else None
        if what == "double":
            value = value, size + 1
        elif key and what != "float":
            value = int(value)
        fields.append((what, value))
        size += 1 + width
    return fields, size


def function(e):
    names, size = strings("parameter", e.find("args"))
    return [("name", text(e, "name")), ("parameters", int(e.get("argc")))] + names, 8 + len(text(e, "name")) + size


def function2(e):
    if e.get("reserved") != "0":
        raise Difference(f"DefineFunction2 has reserved bits {e.get('reserved')}")
    pairs = [(int(p.get("reg")), text(p, "name")) for p in e.find("args")]
    fields = [("name", text(e, "name")), ("parameters", int(e.get("argc"))), ("registers", int(e.get("regc")))]
    fields += [("flag", int(e.get(flag))) for flag in FLAGS]
    size = 11 + len(text(e, "name")) + sum(2 + len(name) for _, name in pairs)
    return fields + [("parameter", p) for pair in pairs for p in pair], size


def fields(e):
    """What each field is and its value; the bytes of the record, a body and a catch name aside."""
    numbers = lambda *keys: [("number", int(e.get(key))) for key in keys]
    match e.tag:
        case "PushData":
            return pushed(e.find("items"))
        case "Dictionary":
            read, size = strings("string", e.find("strings"))
            return read, 5 + size
        case "GetURL":
            return [("string", text(e, "url")), ("string", text(e, "target"))], 5 + len(text(e, "url") + text(e, "target"))
        case "GotoLabel" | "SetTarget":
            return [("string", text(e, "label"))], 4 + len(text(e, "label"))
        case "GetURL2":
            return numbers("method"), 4
        case "GotoFrame":
            return numbers("frame"), 5
        case "WaitForFrame":
            return numbers("frame", "skip"), 6
        case "GotoExpression":
            return numbers("play"), 4
        case "StoreRegister":
            return numbers("reg"), 4
        case "BranchAlways" | "BranchIfTrue":
            return [("offset", (int(e.get("byteOffset")) ^ 0x8000) - 0x8000)], 5
        case "DeclareFunction":
            return function(e)
        case "DeclareFunction2":
            return function2(e)
        case "With":
            return [], 5
        case "Try":
            register = [] if e.get("reg") is None else [("register", int(e.get("reg")))]
            return [("catch block", int(e.get("doCatch"))), ("finally block", int(e.get("doFinally")))] + register, 10 + len(register)
        case "CallFrame":
            return [], 3
    if e.attrib or len(e) or CODES[NAMES[e.tag]] >= 0x80:
        raise Difference(f"swfmill read {e.tag} {e.attrib}")
    return [], 1


def blocks(e):
    """The blocks that stand behind a record, with their sizes; DefineFunction2's is shown inside it instead."""
    if e.tag == "Try":
        for block, there in [("try", "1"), ("catch", e.get("doCatch")), ("finally", e.get("doFinally"))]:
            size = int(e.get(block + "Size"))
            if there == "1":
                yield block, size
            elif size:
                raise Difference(f"a Try has no {block} block, and {size} bytes for it")
    elif e.tag == "With":
        yield "body", int(e.get("size"))
    elif e.tag == "DeclareFunction":
        yield "body", int(e.get("length"))
