"""The movie that is made of an export."""

import struct

from .faults import Difference
from .names import CODES


# swfmill reads a copy of the bytes. Where it would lose step, one byte in it is changed: a code to one whose record has as many bytes of
# fields, a letter of a catch name to a code that has no length. Nothing moves, and the true byte is held to the listing.
WAIT_AS, GOTO_AS, LETTER_AS = CODES["StoreRegister"], CODES["WaitForFrame"], 0x7F


def tag(code, body):
    return struct.pack("<HI", code << 6 | 63, len(body)) + body


def wrapped(actions):
    """An SWF file of version 8: an empty rectangle, twelve frames a second, one frame, its actions and their closing zero byte."""
    body = b"\0" + struct.pack("<HH", 12 << 8, 1) + tag(12, actions + b"\0") + tag(1, b"") + tag(0, b"")
    return b"FWS\x08" + struct.pack("<I", 8 + len(body)) + body


def unwrapped(movie):
    """The actions of a movie's first DoAction, without the closing zero byte."""
    at = 8 + (5 + 4 * (movie[8] >> 3) + 7) // 8 + 4
    while at + 2 <= len(movie):
        (head,) = struct.unpack_from("<H", movie, at)
        at, size = at + 2, head & 63
        if size == 63:
            (size,), at = struct.unpack_from("<I", movie, at), at + 4
        if head >> 6 == 12:
            return movie[at : at + size - 1]
        at += size
    raise Difference("swfmill wrote a movie without actions")


def records(actions):
    """Start and end of each record, by the codes and the lengths alone; bodies stand behind their records."""
    at = 0
    while at < len(actions):
        size = 1 if actions[at] < 0x80 else 3 + int.from_bytes(actions[at + 1 : at + 3], "little")
        yield at, at + size
        at += size
    if at != len(actions):
        raise Difference(f"the last record's length goes {at - len(actions)} bytes past the end")


def changes(actions):
    """The places where swfmill would lose step, each with the byte that it is given."""
    for start, end in records(actions):
        if actions[start] == CODES["WaitForFrame2"]:
            yield start, WAIT_AS
        elif actions[start] == CODES["GotoFrame2"] and end - start == 6:
            yield start, GOTO_AS
        elif actions[start] == CODES["Try"] and not actions[start + 3] & 4:
            yield from ((at, LETTER_AS) for at in range(start + 10, end) if actions[at] >= 0x80)


def with_stand_ins(actions):
    """The copy, and the places that were changed in it."""
    copy, changed = bytearray(actions), dict(changes(actions))
    for at, byte in changed.items():
        copy[at] = byte
    return bytes(copy), set(changed)
