"""swfmill as it is run, and the ways it has of its own."""

import re
import resource
import shutil
import subprocess
import xml.etree.ElementTree as ElementTree

from .faults import Difference, Unable
from .fields import CONTROLS
from .movie import unwrapped, wrapped

# What it is, the bytes that show it, and what swfmill reads there. Each run sees them again.
WAYS = [
    (
        "a length is not looked at, but of Push: here it is 3, and two bytes are read",
        "810300ffff00",
        "GotoFrame frame=65535, EndAction",
    ),
    (
        "WaitForFrame2 is read with three bytes where its length says one",
        "8d0100072617",
        "WaitForFrameDynamic frame=9735 skip=23",
    ),
    (
        "GotoFrame2's bias is not read, though its length counts it: its bytes are taken for actions",
        "9f0300030700",
        "GotoExpression play=3, Stop, EndAction",
    ),
    (
        "a Try's catch name is not read, though its length counts it: its bytes are taken for actions",
        "8f0900010000000000006500",
        "Try doFinally=0 doCatch=1 trySize=0 catchSize=0 finallySize=0, ShiftRightUnsigned, EndAction",
    ),
    ("GetUrl2's byte is shown as a number", "9a0100c2", "GetURL2 method=194"),
    ("an offset is shown without its sign", "990200fbff", "BranchAlways byteOffset=65531"),
    (
        "a double is shown with 16 digits: these two differ in their last bit",
        "961200069999b93f9a999999069999b93f9b999999",
        "PushData [StackDouble value=0.1000000000000000, StackDouble value=0.1000000000000000]",
    ),
]


# Bytes that are no records can make swfmill take all memory that there is, and all time.
SECONDS, MEMORY = 20, 1 << 30


def limit():
    resource.setrlimit(resource.RLIMIT_CPU, (SECONDS, SECONDS))
    resource.setrlimit(resource.RLIMIT_AS, (MEMORY, MEMORY))


class Swfmill:
    """Runs swfmill in a folder."""

    def __init__(self, folder):
        self.folder = folder
        if shutil.which("swfmill") is None:
            raise Unable("swfmill is not installed (--help)")
        said = subprocess.run(["swfmill", "-h"], capture_output=True, text=True)
        self.version = (re.search(r"swfmill [\d.]+", said.stdout + said.stderr) or ["swfmill"])[0]

    def run(self, command, source, target):
        path = self.folder / target
        path.unlink(missing_ok=True)
        done = subprocess.run(["swfmill", command, source, target], cwd=self.folder, capture_output=True, preexec_fn=limit)
        return (path.read_bytes() if path.exists() and done.returncode == 0 else b""), done.stderr.decode(errors="replace").strip()

    def read(self, actions):
        """The elements of the list of actions, and what swfmill complained of."""
        (self.folder / "movie.swf").write_bytes(wrapped(actions))
        out, complaint = self.run("swf2xml", "movie.swf", "movie.xml")
        self.controls = any(c in CONTROLS for c in out)
        if not out:
            raise Difference(f"swfmill does not read the movie: {complaint or 'it was ended'}")
        try:
            tree = ElementTree.fromstring(out.decode().translate(CONTROLS))
        except (ElementTree.ParseError, UnicodeDecodeError) as e:
            raise Difference(f"what swfmill wrote of the movie is no XML: {e}")
        lists = tree.findall("Header/tags/DoAction/actions")
        if len(lists) != 1:
            raise Difference(f"swfmill read {len(lists)} lists of actions")
        return list(lists[0]), complaint

    def write(self):
        """The actions that swfmill writes of what it read last; None if it does not read its own XML."""
        out, _ = self.run("xml2swf", "movie.xml", "written.swf")
        return unwrapped(out) if out else None

    def see_ways(self):
        """What swfmill is said to do in its own way must be what it does."""
        print(f"{self.version} has these ways of its own, seen again now:")
        for what, actions, reads in WAYS:
            now = in_a_line(self.read(bytes.fromhex(actions))[0])
            if now not in (reads, reads + ", EndAction"):
                raise Unable(f"this swfmill reads {actions} as {now}, and not as {reads}: the script does not know its ways")
            print(f"  {what}\n    {actions}: {reads}")


def in_a_line(elements):
    one = lambda e: " ".join([e.tag] + [f"{k}={v}" for k, v in e.attrib.items()] + [f"[{in_a_line(part)}]" for part in e])
    return ", ".join(map(one, elements))
