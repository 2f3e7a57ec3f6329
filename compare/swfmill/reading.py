"""The levels and actions of an export, as swfmill read them."""

import collections
import struct

from .faults import Difference
from .fields import blocks, fields
from .listing import digits
from .names import CODES, NAMES


def neighbour_alike(bits):
    return digits(bits) in [digits(b) for b in (bits - 1, bits + 1) if 0 <= b < 1 << 64]


class Reading:
    """Levels and actions are numbered as in the listing. swfmill tells no places: where a record starts follows from the bytes of the
    fields before it, and each length must say the same. `written` is what swfmill should write of what it read."""

    def __init__(self, actions, copy, changed, items):
        self.bytes, self.copy, self.changed = actions, copy, changed
        self.levels, self.actions, self.written = [], [], bytearray(copy)
        self.left_out = collections.Counter(copy[at] for at in changed)
        items = collections.deque(items)
        self.level(items, 0, len(actions), "top", None)
        if [e.tag for e in items] != ["EndAction"]:
            raise Difference(f"behind the last action swfmill read {[e.tag for e in items]}")

    def level(self, items, at, end, block, owner):
        """A level from a byte on, to an end or to the end of the items; where it ended."""
        number, starts, jumps = len(self.levels), [], []
        self.levels.append(None)
        while items if end is None else at < end:
            starts.append(at)
            index, element = len(self.actions), items[0]
            name, read, at = self.record(items, at)
            self.actions.append((number, name, read))
            if name in ("If", "Jump"):
                jumps.append((read, at + read[0][1]))
            for part, size in blocks(element):
                at = self.level(items, at, at + size, part, index)
            if name == "DefineFunction2":
                at = self.level(collections.deque(element.find("actions")), at, None, "body", index)
        if end is not None and at != end:
            raise Difference(f"the {block} of action {owner} should end at byte {end}, and swfmill read a record over it")
        self.levels[number] = (block, owner, len(starts))
        position = {byte: i for i, byte in enumerate(starts + [at])}
        for read, target in jumps:
            read[:] = [("position", position.get(target, f"byte {target}, where no action of its level starts"))]
        return at

    def record(self, items, at):
        """Name, fields and end of the next record."""
        e = items.popleft()
        name = NAMES.get(e.tag)
        if name is None or self.copy[at] != CODES[name]:
            raise Difference(f"byte {at} is {self.copy[at]:#04x}, and swfmill read {e.tag} {e.attrib}")
        read, size = fields(e)
        if e.tag == "Try" and e.get("reg") is None:
            letters = self.catch_name(items, at + size)
            read.append(("name", letters))
            size += len(letters) + 1
            self.written[at + 1 : at + 3] = b"\x07\0"
            self.left_out["try"] += 1
        self.left_out["url"] += name == "GetUrl2"
        if CODES[name] >= 0x80 and self.copy[at + 1 : at + 3] != (size - 3).to_bytes(2, "little"):
            raise Difference(f"byte {at}: the fields of {name} have {size - 3} bytes, and its length is another")
        read = [self.double(value, at) if what == "double" else (what, value) for what, value in read]
        if at in self.changed:
            name, read = self.stood_for(read)
        return name, read, at + size

    def double(self, value, at):
        """A double with the digits that swfmill shows, and with its bits. What swfmill writes is the double of the digits."""
        shown, place = value
        high, low = struct.unpack_from("<II", self.bytes, at + place)
        self.left_out["double"] += neighbour_alike(high << 32 | low)
        of_digits = struct.unpack(">II", struct.pack(">d", float(shown)))
        self.written[at + place : at + place + 8] = struct.pack("<II", *of_digits)
        return "double", f"{shown} ({high:08x}{low:08x})"

    def catch_name(self, items, at):
        """swfmill does not read it: its bytes come as actions, the last of them the zero byte."""
        end = at
        while True:
            e = items.popleft()
            code = int(e.get("id"), 16) if e.tag == "UnknownAction" else CODES[NAMES[e.tag]]
            if code >= 0x80 or self.copy[end] != code:
                raise Difference(f"byte {end}: swfmill read {e.tag} in a catch name")
            if code == 0:
                return self.bytes[at:end]
            end += 1

    def stood_for(self, read):
        """What a record with another code says: WaitForFrame2's skip count; or GotoFrame2's flags and bias."""
        if len(read) == 1:
            return "WaitForFrame2", read
        low, high = read[0][1], read[1][1]
        return "GotoFrame2", [("number", low & 255), ("number", low >> 8 | high << 8)]
