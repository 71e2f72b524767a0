"""Chosen keys: texts, tables and names that are chosen to be slow to search for, beside random ones of the same make.

The store of nodes finds a pair by a hash without a key, which anyone can work out. A pair that finds its slot of the hash
table taken goes on to the next one. So pairs whose hashes all lead into one stretch of the slots make long walks, and the
walks grow with the pairs.

A text for this has each word of two bytes once at its front, so that their numbers are known, and then words of four bytes
that are searched for. An image may name any two nodes as a pair, and so needs no front. Each text and image must take at most
ten times as long as the one beside it: the store puts a pair into a search tree if 256 slots are taken.

A formula decides which tables a text has, and equal tables are found by a digest without a key. One formula here has rows
whose marked states spell a constant, which would make a factor of a digest zero; another one is given words whose digests
are searched for. Both must take at most ten times as long as a formula or words beside them.

Names are found by a B-tree over their bytes. Its costs depend on the order in which names come, and on how many bytes two of
them share. So names of the greatest length come in ascending and in descending order, and names that differ in their last
bytes alone come in any order. Other names are searched for having like hashes in an index without a key. A script makes
documents of each kind, and an image has them. Each must take at most ten times as long as one of random names as long.
"""
import itertools
import random
import string
from collections.abc import Iterator
from pathlib import Path

from .images import byte, image_of, pair
from .running import Limits, Report, fault_of, room, run

MASK = (1 << 64) - 1
SEED = 0x243F_6A88_85A3_08D3
MULTIPLIER = 0x9E37_79B9_7F4A_7C15
# by this a node's number is multiplied; the upper half of the product is the hash
SPREAD = 0xD134_2543_DE82_EF95
# a number of eight bytes is fed to the hash, or one byte, which then stands in it three times
FACTOR, BYTE_FACTOR, THRICE = MULTIPLIER ^ 16, MULTIPLIER ^ 2, 0x010101
# the most bytes of a name, and the bytes that may stand behind its first
NAME_LENGTH = 64
NAME_BYTES = (string.ascii_letters + string.digits + "_.-").encode()
# the text is cut into blocks of so many bytes at first
BLOCK = 512
# chosen keys may make a run slower by this factor
MOST_SLOWER = 10.0
# the digest of no rows, and the factors of a table's digest
NO_ROWS = 0x1319_8A2E_0370_7344_243F_6A88_85A3_08D3
ACROSS, BACK, STEP = 0x9E37_79B9_7F4A_7C15, 0xD6E8_FEB8_6659_FD93, 0xA076_1D64_78BD_642F
# the letters of texts whose tables differ, and how many sets of these stand in a row
LETTERS = "abcdefghijklmnop"
SETS = 31


def folded(state: int, factor: int = FACTOR) -> int:
    product = state * factor
    return (product & MASK) ^ (product >> 64)


def hash_of(left: int, right: int) -> int:
    """The hash of a pair in the table of the store, 32 bits."""
    return ((left << 32 | right) * SPREAD & MASK) >> 32


class Numbers:
    """The numbers that nodes get as a text is loaded."""

    def __init__(self) -> None:
        self.numbers: dict[object, int] = {}

    def number(self, node: object) -> int:
        return self.numbers.setdefault(node, len(self.numbers))

    def word(self, text: bytes) -> int:
        if len(text) == 1:
            return self.number(text[0])
        middle = len(text) // 2
        return self.number((self.word(text[:middle]), self.word(text[middle:])))

    def block(self, text: bytes) -> int:
        """Words of eight bytes, and then level by level."""
        blocks = [self.word(text[at : at + 8]) for at in range(0, len(text), 8)]
        while len(blocks) > 1:
            blocks = [self.number(it) for it in zip(blocks[::2], blocks[1::2], strict=True)]
        return blocks[0]

    def load(self, text: bytes) -> None:
        """Full blocks from the front, of which two of equal height become one at once."""
        blocks: list[tuple[int, int]] = []
        for at in range(0, len(text), BLOCK):
            height, block = 0, self.block(text[at : at + BLOCK])
            while blocks and blocks[-1][0] == height:
                block = self.number((blocks.pop()[1], block))
                height += 1
            blocks.append((height, block))


def all_words() -> tuple[bytes, list[tuple[int, bytes]]]:
    """A text with each word of two bytes, and their numbers in a store that has loaded it."""
    words = [bytes([one, other]) for one in range(256) for other in range(256)]
    front = b"".join(words)
    numbers = Numbers()
    numbers.load(front)
    byte_of = {it: numbers.numbers[it] for it in range(256)}
    return front, [(numbers.numbers[byte_of[it[0]], byte_of[it[1]]], it) for it in words]


def stretch_of(keys: int) -> range:
    """The bits of a hash that are 0 where it leads into the first sixteenth of the groups, once so many keys are there: the
    index has at most nine keys in each group on the mean, and doubles."""
    groups = 1
    while 9 * groups < keys:
        groups *= 2
    high = groups.bit_length() - 1
    return range(high - 4, high)


def leads_into(bits: range, hashed: int) -> bool:
    """Whether these bits of the hash are 0."""
    return (hashed >> bits.start) & ((1 << len(bits)) - 1) == 0


def chosen_words(words: list[tuple[int, bytes]], count: int, chance: random.Random) -> Iterator[bytes]:
    """So many different words of four bytes whose pairs lead into the first sixteenth of the slots."""
    found = 0
    for left, first in chance.sample(words, len(words)):
        for right, second in words[:: chance.randrange(1, 4)]:
            if hash_of(left, right) >> 28 == 0:
                yield first + second
                found += 1
                if found == count:
                    return


def texts(count: int) -> tuple[bytes, bytes]:
    """A text with so many words of four bytes that are searched for, and one with as many that are random."""
    front, words = all_words()
    chance = random.Random(23)
    searched = b"".join(chosen_words(words, count, chance))
    return front + searched, front + chance.randbytes(4 * count)


def seconds(
    program: Path, report: Report, name: str, file: bytes, script: bytes | None, limit: float, statuses: tuple[int, ...]
) -> float | None:
    with room({"f": file}) as folder:
        ran = run(program, file if script is None else script, folder, Limits(seconds=limit))
    report.runs += 1
    report.check(name, fault_of(ran, ran.status if ran.status in statuses else 0))
    return None if ran.late else ran.seconds


def compare(
    program: Path,
    report: Report,
    name: str,
    chosen: bytes,
    other: bytes,
    script: bytes | None,
    limit: float,
    statuses: tuple[int, ...] = (0, 1),
) -> None:
    """Times the script over both files, or the files as scripts, and compares. The time is that of the whole run."""
    kinds = (("random", other), ("chosen", chosen))
    took = [seconds(program, report, f"{name}, {kind}", it, script, limit, statuses) for kind, it in kinds]
    if took[0] is None or took[1] is None:
        return
    slower = took[1] / took[0]
    fault = f"the chosen one takes {slower:.0f} times as long" if slower > MOST_SLOWER and took[1] > 0.5 else None
    report.check(f"{name}: how much slower", fault)
    report.figure(f"{name}: random, chosen", f"{took[0]:.2f} s, {took[1]:.2f} s", f"{MOST_SLOWER:.0f} times")


def images_of(count: int) -> tuple[bytes, bytes]:
    """An image with so many pairs of pairs that are searched for, and one with as many that are random."""
    letters = [bytes([0, it]) for it in range(256)]
    low = [pair(one, other) for one in range(256) for other in range(256)]
    nodes = range(256, 256 + len(low))
    chance = random.Random(23)
    words = [(it, it.to_bytes(4)) for it in nodes]
    found = chosen_words(words, count, chance)
    searched = [pair(int.from_bytes(it[:4]), int.from_bytes(it[4:])) for it in found]
    other = [pair(chance.choice(nodes), chance.choice(nodes)) for _ in range(count)]
    document = [(b"d", 0)]
    return image_of(1, letters + low + searched, document), image_of(1, letters + low + other, document)


def searched_names(count: int) -> list[bytes]:
    """So many different names of eleven bytes whose hashes lead into one stretch of an index of names."""
    bits, searched = stretch_of(count), []
    before = 0
    while len(searched) < count:
        before += 1
        front = b"n%09d" % before
        state = folded(SEED ^ (len(front) + 1))
        for it in front:
            state = folded(state ^ it * THRICE, BYTE_FACTOR)
        for it in NAME_BYTES:
            hashed = folded(state ^ it * THRICE, BYTE_FACTOR)
            if leads_into(bits, (hashed ^ (hashed >> 32)) & 0xFFFF_FFFF):
                searched.append(front + bytes([it]))
    return searched[:count]


def random_names(count: int, front: bytes = b"n", length: int = NAME_LENGTH) -> list[bytes]:
    """So many different names of this length that begin alike and go on at random, in any order."""
    chance = random.Random(31)
    found: set[bytes] = set()
    while len(found) < count:
        found.add(front + bytes(chance.choices(NAME_BYTES, k=length - len(front))))
    return chance.sample(sorted(found), count)


def chosen_names(count: int) -> Iterator[tuple[str, list[bytes], list[bytes]]]:
    """So many chosen names of each kind, with as many random names as long."""
    searched = searched_names(count)
    yield "searched for", searched, random_names(count, length=len(searched[0]))
    others = random_names(count)
    yield "in ascending order", sorted(others), others
    yield "in descending order", sorted(others, reverse=True), others
    yield "different in the last three bytes", random_names(count, b"n" * (NAME_LENGTH - 3)), others


def script_with(names: list[bytes]) -> bytes:
    """Lines that make a document of each name."""
    return b"".join(b"text %s x\n" % it for it in names)


def image_with(names: list[bytes]) -> bytes:
    """An image with a document of each name."""
    return image_of(1, [byte(ord("x"))], [(it, 0) for it in names])


def letter_sets() -> list[set[str]]:
    """Sets of thirteen letters. In a row they make a formula over which most short texts have different tables."""
    chance = random.Random(3)
    return [set(chance.sample(LETTERS, 13)) for _ in range(SETS)]


def formula_of(sets: list[set[str]]) -> str:
    return "".join(f"[{''.join(sorted(it))}]" for it in sets)


def spelling(constant: int) -> str:
    """A formula with the sets in a row, and with a state that reaches the states 64 to 127 by marks, each over a letter, and over
    longer texts just those whose bits the constant has."""

    def mark(variables: tuple[int, ...]) -> int:
        return sum(3 * 4**it for it in variables)

    few = [it for size in (1, 2, 3) for it in itertools.combinations(range(8), size)]
    least = sorted(few, key=lambda it: (len(it), -mark(it)))[:63]
    ways = [tuple(range(8)), *sorted(least, key=mark, reverse=True)]
    alternatives = [
        "".join(f"${'abcdefgh'[it]}{{}}" for it in variables) + ("[a-p]*" if constant >> bit & 1 else "[a-p]")
        for bit, variables in enumerate(ways)
    ]
    return f"{formula_of(letter_sets())}|{'z' * 32}({'|'.join(alternatives)})"


def question(formula: str, text: str) -> bytes:
    """A script that asks whether the query has an answer on the text, which it makes of pieces that fit in lines."""
    pieces = [text[at : at + 65_000] for at in range(0, len(text), 65_000)]
    lines = [f"query q {formula}", f"text d {pieces[0]}"]
    for it in pieces[1:]:
        lines += [f"text e {it}", "let d = concat(d,e)"]
    return "\n".join([*lines, "test q d", ""]).encode()


def spelled(count: int, constant: int) -> tuple[bytes, bytes]:
    """Questions on so many random letters, with a formula that spells the constant, and with one that differs in a bit."""
    text = "".join(random.Random(1).choices(LETTERS, k=count))
    return question(spelling(constant), text), question(spelling(constant ^ 32), text)


def digest_of(codes: list[int]) -> int:
    """The digest of a table without marks, by one more than each state's next one, or 0."""
    first, second = NO_ROWS & MASK, NO_ROWS >> 64
    for code in codes:
        across = first * ACROSS
        back = (second + (across >> 64) & MASK) * BACK
        first, second = (across & MASK) + (back >> 64) + code * STEP & MASK, back & MASK
    return second << 64 | first


def word_digest(sets: list[set[str]], word: str) -> int:
    """The digest of a word's table over the formula of the sets: state p goes to p plus the word's length where the word fits."""
    fits = [all(it in sets[at + place] for place, it in enumerate(word)) for at in range(SETS - len(word) + 1)]
    codes = [at + len(word) + 1 if it else 0 for at, it in enumerate(fits)]
    return digest_of(codes + [0] * (SETS + 1 - len(codes)))


def table_words(count: int) -> tuple[bytes, bytes]:
    """Questions on so many words of eight letters whose tables' digests are searched for, since they lead into one sixteenth of
    the buckets, and on as many random words."""
    sets, chance = letter_sets(), random.Random(29)

    def words() -> Iterator[str]:
        while True:
            yield "".join(chance.choices(LETTERS, k=8))

    searched = (it for it in words() if word_digest(sets, it) & 15 == 0)
    formula = formula_of(sets)
    texts = ["".join(itertools.islice(it, count)) for it in (searched, words())]
    return question(formula, texts[0]), question(formula, texts[1])


def keys(program: Path, report: Report) -> None:
    counts = [4_000] if report.quick else [16_000, 64_000, 256_000]
    for count in counts:
        compare(program, report, f"`load` of {count:,} words of four bytes", *texts(count), b"load d f\n", 60)
    for count in counts:
        compare(program, report, f"`open` of {count:,} pairs", *images_of(count), b"open f\n", 60)
    for constant in (ACROSS, BACK, MULTIPLIER ^ MASK):
        scripts = spelled(16 * counts[0], constant)
        compare(program, report, f"tables whose marks spell {constant:#x}", *scripts, None, 60)
    compare(program, report, f"tables of {counts[0] // 4:,} words", *table_words(counts[0] // 4), None, 60)
    count = 4_000 if report.quick else 128_000
    for kind, chosen, others in chosen_names(count):
        what = f"{count:,} documents with names {kind}"
        compare(program, report, what, script_with(chosen), script_with(others), None, 60, (0,))
        compare(program, report, f"`open` of {what}", image_with(chosen), image_with(others), b"open f\n", 60, (0,))
