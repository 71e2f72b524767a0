"""Scripts for calls that fail: a small one, one with every command, and one whose replies end like tuples. What they must
write is worked out by hand."""
from collections.abc import Iterable, Sequence
from dataclasses import dataclass, field
from itertools import accumulate


@dataclass(frozen=True)
class Worked:
    """A script over files, with what it must write and its status."""

    name: str
    script: bytes
    wanted: bytes
    status: int = 0
    files: dict[str, bytes] = field(default_factory=dict)


def text_of(lines: Iterable[str]) -> bytes:
    """The lines as a script or an output."""
    return "".join(f"{line}\n" for line in lines).encode()


def ends_of(rows: Sequence[tuple[str, str]]) -> list[int]:
    """Where the reply of each row ends in the whole output."""
    return list(accumulate(len(reply) + 1 for _, reply in rows))


SMALL = Worked(
    "the small script",
    b"text d abab\nsave f\nopen f\nquery q .*$x{ab}.*\nlist q d\n",
    b'ok d 4 "abab"\nok 1 4\nok 1\nok q x\nx=[1,3)\nx=[3,5)\nend\n',
)
# the image that it saves has 4 nodes
SAVED = 69

EACH = [
    ("load d f", 'ok d 11 "abracadabra"'),
    ("text w X", 'ok w 1 "X"'),
    ("save g", "ok 2 16"),
    ("let e = concat(d,extract(d,5,12))", 'ok e 18 "abracadabracadabra"'),
    ("let e = insert(delete(copy(e,1,2,1),1,2),w,1)", 'ok e 19 "Xabracadabracadabra"'),
    ("query q .*$x{a}.*", "ok q x"),
    ("query r .*$y{b}.*", "ok r y"),
    ("union u q r", "ok u x y"),
    ("join j q r", "ok j x y"),
    ("project p j y", "ok p y"),
    ("test q d", "yes"),
    ("has q d x=[1,2)", "yes"),
    ("list q d after x=[1,2) limit 2", "x=[4,5)\nx=[6,7)\nmore"),
    ("listall p limit 1", "doc d\ny=[2,3)\nmore\ndoc w\nend\ndoc e\ny=[3,4)\nmore\ndone"),
    ("list u w", "end"),
    ("replace n q d w", 'ok n 11 "XbrXcXdXbrX"'),
    ("mark v", "ok"),
    ("drop e", "ok"),
    ("compact", "ok"),
    ("names", "d 11\nw 1\nn 11\nend"),
    ("show n 1 5", '"XbrX"'),
    ("back v", "ok"),
    ("show e 1 4", '"Xab"'),
    ("unmark v", "ok"),
    ("open g", "ok 2"),
    ("names", "d 11\nw 1\nend"),
    ("list q d limit 1", "x=[1,2)\nmore"),
    ("unquery u", "ok"),
    ("list u d", "line 29: NoSuchQuery u"),
]
WHOLE = Worked(
    "the script of every command",
    text_of(line for line, _ in EACH),
    text_of(reply for _, reply in EACH),
    1,
    {"f": b"abracadabra"},
)
SCRIPTS = (SMALL, WHOLE)

# lines of replies that end in ')' or '-', as those of tuples do, for each kind of reply that can
ENDINGS = [
    ("query q- a|$x-{b}", "ok q- x-"),
    ("query r- a", "ok r-"),
    ("union u- r- r-", "ok u-"),
    ("join j- r- r-", "ok j-"),
    ("project p- q- ()", "ok p-"),
    ("text d- a", 'ok d- 1 "a"'),
    ("text e- b", 'ok e- 1 "b"'),
    ("list q- d-", "x-=-\nend"),
    ("list q- e- limit 1", "x-=[1,2)\nend"),
    ("list u- d-", "()\nend"),
    ("listall q-", "doc d-\nx-=-\nend\ndoc e-\nx-=[1,2)\nend\ndone"),
    ("names", "d- 1\ne- 1\nend"),
    ("show n- 1 2", "line 13: NoSuchDocument n-"),
    ("has n- d- x=-", "line 14: NoSuchQuery n-"),
    ("back v-", "line 15: NoSuchVersion v-"),
    ("query q ($x-{a})*", "line 16: NotFunctional x-"),
    ("load d none-", "line 17: NoSuchFile none-"),
    ("open (none)", "line 18: NoSuchFile (none)"),
]
ENDED = Worked("the replies that end like tuples", text_of(line for line, _ in ENDINGS), text_of(reply for _, reply in ENDINGS), 1)
