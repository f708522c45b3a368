"""PDML and PSML, as npd writes them, packet by packet: what the tools beside this file share. A text is read as it comes,
and of it one batch of packets is kept at a time."""

import argparse
import datetime
import os
import re
import signal
import sys
from xml.parsers import expat

# how much is read at once: a pipe gives what it has, and at most so much
PIECE = 1 << 16
# npd's elements stand at most some 70 deep
DEEPEST = 200
# of each element of PDML: what it stands in, the attributes that it has, and which of them are numbers
PLACE = ("pos", "size")
ELEMENTS = {
    "pdml": ((None,), (), ()),
    "packet": (("pdml",), ("number", "caplen", "length", "timestamp"), ("number", "caplen", "length")),
    "proto": (("packet",), ("name", *PLACE), PLACE),
    "block": (("proto", "block"), ("name", *PLACE), PLACE),
    "field": (("proto", "block"), ("name", *PLACE, "value", "show"), PLACE),
    "note": (("proto", "block"), ("reason", "pos"), ("pos",)),
}
NEEDED = {kind: frozenset(needed) for kind, (_, needed, _) in ELEMENTS.items()}
# a long name that tells words for numbers at its end: `Operation (1 request, 2 reply)`, `Type (0x0800 IPv4)`
WORDS = re.compile(r"(.+?) ?\(((?:0x[0-9a-f]+|\d+) [^(),]+(?:, ?(?:0x[0-9a-f]+|\d+) [^(),]+)*)\)$")


class Refused(Exception):
    """A text that isn't what it is read as: its file, the line, from 1, and why."""

    def __init__(self, name, line, why):
        super().__init__(f"{'standard input' if name == '-' else name}: line {line}: {why}")


class Node:
    """An element of PDML: its kind, its attributes, and the elements in it."""

    __slots__ = ("kind", "at", "nodes")

    def __init__(self, kind, at):
        self.kind, self.at, self.nodes = kind, at, []


class Reader:
    """Reads a file of markup in pieces; `start`, `end` and `text` are those of the form, and add to `batch`."""

    form = ""

    def __init__(self, name):
        self.name, self.stream, self.batch, self.open = name, opened(name), [], []
        self.parser = expat.ParserCreate()
        self.parser.buffer_text = True
        self.parser.StartElementHandler, self.parser.EndElementHandler = self.start, self.end
        self.parser.CharacterDataHandler = self.text
        self.parser.StartDoctypeDeclHandler = lambda *_: self.refuse("a document type isn't read")

    def refuse(self, why):
        raise Refused(self.name, self.parser.CurrentLineNumber, why)

    def batches(self):
        """The packets of each piece that was read, as lists. What was made of them goes out before more is waited for."""
        has_more = True
        while has_more:
            sys.stdout.flush()
            piece = os.read(self.stream, PIECE)
            has_more = bool(piece)
            try:
                self.parser.Parse(piece, not piece)
            except expat.ExpatError as err:
                self.batch, found = [], self.batch
                yield found
                raise Refused(self.name, err.lineno, self.broken(err)) from None
            self.batch, found = [], self.batch
            yield found

    def broken(self, err):
        if err.code in (expat.errors.codes[it] for it in (expat.errors.XML_ERROR_NO_ELEMENTS, expat.errors.XML_ERROR_UNCLOSED_TOKEN)):
            return f"the text ends before its closing: {self.form} is written whole only where the run ended"
        return f"this is no {self.form}: {expat.errors.messages[err.code]}"

    def packets(self):
        for batch in self.batches():
            yield from batch


class Pdml(Reader):
    """A packet is a `Node`, in which its protocols stand."""

    form = "PDML"

    def start(self, kind, at):
        around = self.open[-1] if self.open else None
        inside, needed, numbers = ELEMENTS.get(kind, ((), (), ()))
        if (around and around.kind) not in inside:
            self.refuse(f"this is no PDML of npd: {kind} {f'in {around.kind}' if around else 'at the top'}")
        if not NEEDED[kind] <= at.keys():
            self.refuse(f"this is no PDML of npd: {kind} without {next(it for it in needed if it not in at)}")
        for name in numbers:
            if not at[name].isdecimal():
                self.refuse(f"{name} of {kind} is no number")
        if len(self.open) == DEEPEST:
            self.refuse(f"an element stands deeper than {DEEPEST}")
        node = Node(kind, at)
        if len(self.open) > 1:
            around.nodes.append(node)
        self.open.append(node)

    def end(self, kind):
        node = self.open.pop()
        if kind == "packet":
            self.batch.append(node)

    def text(self, text):
        if text.strip():
            self.refuse("this is no PDML of npd: text between elements")


class Psml(Reader):
    """A packet is the list of its texts. `names` are those of the sections, known when the first packet is."""

    form = "PSML"
    INSIDE = {"psml": [()], "structure": [("psml",)], "packet": [("psml",)]}
    INSIDE["section"] = [("psml", "structure"), ("psml", "packet")]

    def __init__(self, name):
        super().__init__(name)
        self.names, self.texts, self.is_told = [], [], False

    def start(self, kind, at):
        if tuple(self.open) not in self.INSIDE.get(kind, []):
            self.refuse(f"this is no PSML: {kind} {f'in {self.open[-1]}' if self.open else 'at the top'}")
        if kind == "structure" and self.is_told:
            self.refuse("this is no PSML: a second structure")
        if kind == "packet" and not self.is_told:
            self.refuse("this is no PSML: a packet before the structure")
        self.open.append(kind)
        if kind == "section":
            self.texts.append("")

    def end(self, kind):
        self.open.pop()
        if kind == "structure":
            self.names, self.texts, self.is_told = self.texts, [], True
        elif kind == "packet":
            if len(self.texts) != len(self.names):
                self.refuse(f"a packet of {len(self.texts)} sections, where the structure has {len(self.names)}")
            self.batch.append(self.texts)
            self.texts = []

    def text(self, text):
        if self.open[-1] == "section":
            self.texts[-1] += text
        elif text.strip():
            self.refuse("this is no PSML: text outside of sections")


class Clock:
    """How a moment is written: `seconds` as it stands, `utc` and `local` as a date with the time of day, `first` as the
    seconds since the first packet."""

    FORMS = ("seconds", "utc", "local", "first")

    def __init__(self, form):
        self.form, self.first = form, None

    def show(self, moment):
        whole, point, rest = moment.partition(".")
        if self.form == "seconds" or not (whole.isdecimal() and rest.isdecimal() and len(rest) == 9):
            return moment
        if self.form == "first":
            nanoseconds = int(whole + rest)
            self.first = nanoseconds if self.first is None else self.first
            passed = abs(nanoseconds - self.first)
            return f"{'-' * (nanoseconds < self.first)}{passed // 10**9}.{passed % 10**9:09}"
        zone = datetime.timezone.utc if self.form == "utc" else None
        try:
            day = datetime.datetime.fromtimestamp(int(whole), zone)
        except (OverflowError, OSError, ValueError):
            return moment
        return f"{day:%Y-%m-%d %H:%M:%S}.{rest}"


def walk(node):
    """The fields, blocks and notes in a protocol, in order, each with the blocks around it."""
    todo = [(it, ()) for it in reversed(node.nodes)]
    while todo:
        it, around = todo.pop()
        yield it, around
        if it.nodes:
            inner = (*around, it.at["name"])
            todo += [(each, inner) for each in reversed(it.nodes)]


def named(at):
    """What people call a protocol, a block or a field, and what its long name says of a field's number."""
    long = at.get("longname") or at["name"]
    words = WORDS.match(long)
    value = at.get("value", "")
    if not words:
        return long, ""
    number = int(value, 16) if 0 < len(value) <= 8 else None
    for it in words[2].split(","):
        key, word = it.strip().split(" ", 1)
        if int(key, 0 if key.startswith("0x") else 10) == number:
            return words[1], word
    return words[1], ""


def opened(name):
    """The file of a name as a descriptor; standard input for `-`."""
    try:
        return 0 if name == "-" else os.open(name, os.O_RDONLY)
    except OSError as err:
        sys.exit(f"{program()}: {name}: {err.strerror}")


def program():
    return os.path.basename(sys.argv[0])


def words(text, epilog, more):
    """The words of a tool: FILE and what `more` adds to the parser."""
    parser = argparse.ArgumentParser(
        prog=program(), description=text, epilog=epilog, formatter_class=argparse.RawDescriptionHelpFormatter
    )
    more(parser)
    parser.add_argument("file", nargs="?", default="-", metavar="FILE", help="what is read; standard input if not given")
    return parser.parse_args()


def plain(text):
    """A text as one that fits into a line and leaves a terminal as it is."""
    return text if text.isprintable() else "".join(it if it.isprintable() else "." for it in text)


def run(tool, args):
    """Runs a tool over a file. It ends as other filters do where nobody reads what it writes, and tells where a text isn't
    what it should be."""
    for sign in (signal.SIGPIPE, signal.SIGINT):
        signal.signal(sign, signal.SIG_DFL)
    sys.stdout.reconfigure(encoding="utf-8", errors="backslashreplace")
    try:
        tool(args)
        sys.stdout.flush()
    except Refused as err:
        sys.stdout.flush()
        sys.exit(f"{program()}: {err}")
    except OSError as err:
        sys.exit(f"{program()}: {err.filename or args.file}: {err.strerror}")
