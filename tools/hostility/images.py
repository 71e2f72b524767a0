"""Damaged images: each is opened, and must be refused by its number or give the documents that its bytes say.

What an image says is found here by a reader of its own, from docs/IMAGES.md: field by field from the front, the first
fault is the answer. The documents stay as they were where an image is refused.
"""
import random
import re
import struct
from collections.abc import Callable, Iterator
from dataclasses import dataclass
from pathlib import Path

from .running import Limits, Report, differs, room, run

LONGEST = 1 << 48
SHOWN = 32
MAGIC, VERSION, CUT, KIND, CHILD, BALANCE, LENGTH, ROOT, NAME, REPEAT, REST, COUNT = range(1, 13)
NO_ROOT = b"\xff" * 8


class Refused(Exception):
    """The number of what is wrong first."""


@dataclass(frozen=True, slots=True)
class Text:
    """The text of a record: a byte, or so many times the text of two others or of one."""

    length: int
    height: int
    parts: "tuple[Text, ...]" = ()
    times: int = 1
    byte: int = 0


def some_bytes(text: Text | None, count: int, last: bool) -> bytes:
    """The first bytes of a text, or the last ones, at most so many."""
    found = bytearray()
    left = [(text, 1)] if text else []
    while left and len(found) < count:
        part, times = left.pop()
        if times > 1:
            left.append((part, times - 1))
        if not part.parts:
            found.append(part.byte)
        elif len(part.parts) == 1:
            left.append((part.parts[0], part.times))
        else:
            left += [(it, 1) for it in (part.parts if last else part.parts[::-1])]
    return bytes(found[::-1] if last else found)


class Reader:
    """An image that is read from the front."""

    def __init__(self, image: bytes):
        self.image, self.at = image, 0
        self.texts: list[Text] = []

    def take(self, count: int) -> bytes:
        if self.at + count > len(self.image):
            raise Refused(CUT)
        self.at += count
        return self.image[self.at - count : self.at]

    def number(self) -> int:
        return struct.unpack(">Q", self.take(8))[0]

    def child(self) -> Text:
        if (place := self.number()) >= len(self.texts):
            raise Refused(CHILD)
        return self.texts[place]

    def record(self, version: int) -> Text:
        kind = self.take(1)[0]
        if kind == 0:
            return Text(1, 0, byte=self.take(1)[0])
        if kind == 1:
            left, right = self.child(), self.child()
            if version == 1 and abs(left.height - right.height) > 1:
                raise Refused(BALANCE)
            if left.length + right.length > LONGEST:
                raise Refused(LENGTH)
            return Text(left.length + right.length, max(left.height, right.height) + 1, (left, right))
        if kind == 2 and version == 2:
            child, times = self.child(), self.number()
            if times == 0:
                raise Refused(COUNT)
            if child.length * times > LONGEST:
                raise Refused(LENGTH)
            return Text(child.length * times, 0, (child,), times)
        raise Refused(KIND)

    def documents(self) -> dict[bytes, Text | None]:
        if self.take(4) != b"SLPI":
            raise Refused(MAGIC)
        if (version := self.take(1)[0]) not in (1, 2):
            raise Refused(VERSION)
        for _ in range(self.number()):
            self.texts.append(self.record(version))
        found: dict[bytes, Text | None] = {}
        for _ in range(self.number()):
            name = self.take(self.take(1)[0])
            if not re.fullmatch(rb"[A-Za-z_][A-Za-z0-9_.-]{0,63}", name):
                raise Refused(NAME)
            if name in found:
                raise Refused(REPEAT)
            root = self.take(8)
            if root != NO_ROOT and int.from_bytes(root) >= len(self.texts):
                raise Refused(ROOT)
            found[name] = None if root == NO_ROOT else self.texts[int.from_bytes(root)]
        if self.at < len(self.image):
            raise Refused(REST)
        return found


def shown(text: bytes) -> bytes:
    """A line of `show`."""
    escaped = (b"\\" + bytes([it]) if it in b'"\\' else bytes([it]) if 32 <= it < 127 else b"\\x%02x" % it for it in text)
    return b'"' + b"".join(escaped) + b'"'


class Session:
    """A script over images, with what must be written for it. It grows by one `open` at a time."""

    def __init__(self) -> None:
        self.lines = [b"text was here"]
        self.wanted = [b'ok was 4 "here"']
        text = None
        for byte in b"here":
            leaf = Text(1, 0, byte=byte)
            text = leaf if text is None else Text(text.length + 1, 0, (text, leaf))
        self.documents: dict[bytes, Text | None] = {b"was": text}
        self.refused = False

    def line(self, line: bytes, *wanted: bytes) -> None:
        self.lines.append(line)
        self.wanted += wanted

    def open(self, name: str, image: bytes) -> None:
        """Opens the image, and looks at each document: how long it is, how it begins and how it ends."""
        try:
            self.documents = Reader(image).documents()
            self.line(f"open {name}".encode(), b"ok %d" % len(self.documents))
        except Refused as fault:
            self.refused = True
            self.line(f"open {name}".encode(), b"line %d: BadImage %d" % (len(self.lines) + 1, fault.args[0]))
        lengths = {it: text.length if text else 0 for it, text in self.documents.items()}
        self.line(b"names", *(b"%s %d" % it for it in lengths.items()), b"end")
        for it, text in self.documents.items():
            end = lengths[it] + 1
            self.line(b"show %s 1 %d" % (it, min(SHOWN + 1, end)), shown(some_bytes(text, SHOWN, last=False)))
            self.line(b"show %s %d %d" % (it, max(end - SHOWN, 1), end), shown(some_bytes(text, SHOWN, last=True)))

    def fault(self, program: Path, folder: Path, limits: Limits) -> tuple[str | None, float]:
        """Runs the script, and says what is wrong, and how long it took."""
        ran = run(program, b"\n".join(self.lines), folder, limits)
        status = 1 if self.refused else 0
        fault = None if ran.status == status else f"it {ran.told()}"
        return fault or differs(ran.wrote, b"\n".join(self.wanted) + b"\n") or ran.complaint(), ran.seconds


# ----------------------------------------------------------------------------------------------------------- small images


def number(value: int) -> bytes:
    return value.to_bytes(8)


def byte(value: int) -> bytes:
    return bytes([0, value])


def pair(left: int, right: int) -> bytes:
    return b"\1" + number(left) + number(right)


def times(child: int, count: int) -> bytes:
    return b"\2" + number(child) + number(count)


def image_of(version: int, records: list[bytes], documents: list[tuple[bytes, int | None]], count: int | None = None) -> bytes:
    """An image with these records and documents; the count of nodes may be another than theirs."""
    roots = [bytes([len(name)]) + name + (NO_ROOT if root is None else number(root)) for name, root in documents]
    nodes = len(records) if count is None else count
    return b"SLPI" + bytes([version]) + number(nodes) + b"".join(records) + number(len(documents)) + b"".join(roots)


AB = [byte(97), byte(98), pair(0, 1)]
SMALL = {
    "one document": image_of(1, AB, [(b"d", 2)]),
    "three documents": image_of(1, [*AB, pair(2, 2), pair(3, 2)], [(b"d", 4), (b"e", None), (b"x" * 64, 2)]),
    "a run": image_of(2, [*AB, times(2, 1 << 47)], [(b"d", 3)]),
    "runs and a chain": image_of(2, [*AB, pair(0, 2), pair(3, 0), times(4, 3), times(5, 1)], [(b"d", 6), (b"e", 4)]),
}
EXTREMES = [0, 1, 2, 3, 0xFF, 1 << 16, (1 << 31) - 1, 1 << 31, (1 << 32) - 1, 1 << 32, (1 << 47) - 1, 1 << 47, (1 << 47) + 1]
EXTREMES += [(1 << 48) - 1, 1 << 48, (1 << 48) + 1, (1 << 63) - 1, 1 << 63, (1 << 64) - 2, (1 << 64) - 1]


def fields(image: bytes) -> Iterator[int]:
    """Where the numbers of eight bytes of a good image stand."""
    at, count = 13, struct.unpack_from(">Q", image, 5)[0]
    yield 5
    for _ in range(count):
        if image[at] == 0:
            at += 2
        else:
            yield from (at + 1, at + 9)
            at += 17
    yield at
    documents, at = struct.unpack_from(">Q", image, at)[0], at + 8
    for _ in range(documents):
        at += 1 + image[at]
        yield at
        at += 8


def damaged(image: bytes, quick: bool, seed: int) -> Iterator[bytes]:
    """The image cut to each length, with each byte as each other one, with each number as each extreme one, and with a
    stretch taken out, put in twice or moved."""
    yield from (image[:length] for length in range(len(image) + 1))
    values = [0, 2, 0xFF] if quick else range(256)
    for at in range(len(image)):
        yield from (image[:at] + bytes([it]) + image[at + 1 :] for it in values if it != image[at])
    for at in fields(image):
        yield from (image[:at] + number(it) + image[at + 8 :] for it in EXTREMES)
    chance = random.Random(seed)
    for _ in range(40 if quick else 4000):
        one, other = sorted(chance.choices(range(len(image) + 1), k=2))
        put = chance.randrange(len(image) + 1)
        yield image[:one] + image[other:]
        yield image[:put] + image[one:other] + image[put:]
        several = bytearray(image)
        for _ in range(chance.randrange(2, 5)):
            several[chance.randrange(len(image))] = chance.choice([0, 1, 2, 3, chance.randrange(256)])
        yield bytes(several)


IMAGES_A_RUN = 500


def small_images(program: Path, report: Report) -> None:
    for name, image in SMALL.items():
        images = list(damaged(image, report.quick, len(image)))
        for first in range(0, len(images), IMAGES_A_RUN):
            some = {f"i{at}": it for at, it in enumerate(images[first : first + IMAGES_A_RUN])}
            session = Session()
            for file, it in some.items():
                session.open(file, it)
            with room(some) as folder:
                fault, _ = session.fault(program, folder, Limits(seconds=60, memory=1 << 30))
            report.runs += len(some)
            report.check(f"images of {name} from {first} on", fault)


# ----------------------------------------------------------------------------------------------------------- large images


@dataclass(frozen=True)
class Large:
    """An image of many records, with the seconds and the memory that its run may take."""

    name: str
    image: Callable[[int], bytes]
    seconds: float
    memory: int = 1 << 30


LETTERS = [byte(it) for it in range(256)]


def chain(link: Callable[[int], bytes], start: list[bytes], version: int = 2) -> Callable[[int], bytes]:
    """An image of so many records, each made of those before it, whose last one is the document `d`."""

    def image(count: int) -> bytes:
        records = start + [link(at) for at in range(len(start), count)]
        return image_of(version, records, [(b"d", len(records) - 1)])

    return image


def just_over(*counts: int) -> Callable[[int], bytes]:
    """Runs of runs: the last one has the product of the counts as its length."""
    return lambda _: image_of(2, [byte(97), *(times(at, it) for at, it in enumerate(counts))], [(b"d", len(counts))])


def many_names(count: int) -> bytes:
    return image_of(1, AB, [(b"n%d" % it, 2 if it % 2 else None) for it in range(count)])


def doubled(version: int, doublings: int) -> Callable[[int], bytes]:
    pairs = [pair(at, at) for at in range(doublings)]
    return lambda _: image_of(version, [byte(97), *pairs], [(b"d", doublings)])


def long_runs(at: int) -> bytes:
    """Runs of each letter with counts of 47 digits, all different."""
    return times(at % 256, (1 << 46) + (at * 0x9E3779B97F4A7C15) % (1 << 46))


LARGE = [
    Large("a chain to the left", chain(lambda at: pair(at - 1, at % 256), LETTERS), 60),
    Large("a chain to the right", chain(lambda at: pair(at % 256, at - 1), LETTERS), 60),
    Large("a chain to both sides", chain(lambda at: pair(at - 1, at % 7) if at % 2 else pair(at % 5, at - 1), LETTERS), 60),
    Large("a run of a run, each once", chain(lambda at: times(at - 1, 1), LETTERS), 60),
    Large("a byte again and again", chain(lambda at: byte(97), []), 60),
    Large("pairs of version 1 that stand twice", chain(lambda at: pair(at % 256, at * 7 % 256), LETTERS, 1), 60),
    Large("a run to the limit", just_over(1 << 24, 1 << 24), 10),
    Large("a run just over the limit", just_over(1 << 24, (1 << 24) + 1), 10),
    Large("runs of three just over the limit", just_over(*[3] * 31), 10),
    Large("a run of 2^64 - 1", just_over((1 << 64) - 1), 10),
    Large("two runs whose product is 2^64", just_over(1 << 32, 1 << 32), 10),
    Large("pairs to the limit, version 1", doubled(1, 48), 10),
    Large("pairs just over the limit, version 1", doubled(1, 49), 10),
    Large("pairs to the limit, version 2", doubled(2, 48), 10),
    Large("pairs just over the limit, version 2", doubled(2, 49), 10),
    Large("2^64 - 1 nodes and none there", lambda _: image_of(1, [], [], (1 << 64) - 1), 10, 256 << 20),
    Large("2^64 - 1 documents and none there", lambda _: image_of(1, AB, [])[:-8] + NO_ROOT, 10, 256 << 20),
    Large("documents without a text", many_names, 60),
    Large("runs of 47 digits", chain(long_runs, LETTERS), 60, 8 << 30),
]


def large_images(program: Path, report: Report) -> None:
    for large in LARGE:
        image = large.image(1 << (12 if report.quick else 16 if "digits" in large.name else 20))
        session = Session()
        session.open("g", image)
        if large.name == "documents without a text":
            # a look at each of a million documents would only show the look
            session.lines, session.wanted = session.lines[:2], session.wanted[:2]
        with room({"g": image}) as folder:
            fault, seconds = session.fault(program, folder, Limits(seconds=large.seconds, memory=large.memory))
        report.runs += 1
        report.check(f"image with {large.name}", fault)
        if len(image) > 100_000:
            size = f"{len(image) / 1e6:.1f} MB"
            report.figure(f"`open` of {size}: {large.name}", f"{seconds:.2f} s", f"{large.seconds:.0f} s")


def images(program: Path, report: Report) -> None:
    small_images(program, report)
    large_images(program, report)
