"""Edits that make one text of another."""
import bisect
from collections import Counter
from collections.abc import Iterator
from dataclasses import dataclass
from difflib import SequenceMatcher
from itertools import accumulate

# stretches longer than this aren't compared by bytes, which takes time by the product of their lengths
LONGEST_BY_BYTES = 4000
# stretches of lines whose numbers have a greater product aren't compared line by line
MOST_COMPARED = 1_000_000
# the fewest bytes that an edit keeps; shorter common parts are replaced
SHORTEST_KEPT = 8


@dataclass(frozen=True)
class Edit:
    """The bytes from `start` on up to `end`, counted from 0, become others."""

    start: int
    end: int
    new: bytes


def common_prefix(old: bytes, new: bytes) -> int:
    """The length of the longest common prefix."""
    least, most = 0, min(len(old), len(new))
    while least < most:
        middle = (least + most + 1) // 2
        if old[least:middle] == new[least:middle]:
            least = middle
        else:
            most = middle - 1
    return least


def common_suffix(old: bytes, new: bytes) -> int:
    """The length of the longest common suffix."""
    least, most = 0, min(len(old), len(new))
    while least < most:
        middle = (least + most + 1) // 2
        if old[len(old) - middle : len(old) - least] == new[len(new) - middle : len(new) - least]:
            least = middle
        else:
            most = middle - 1
    return least


def trimmed(edit: Edit, old: bytes) -> Edit:
    """The edit without the bytes at its ends that it doesn't change."""
    gone = old[edit.start : edit.end]
    prefix = common_prefix(gone, edit.new)
    suffix = common_suffix(gone[prefix:], edit.new[prefix:])
    return Edit(edit.start + prefix, edit.end - suffix, edit.new[prefix : len(edit.new) - suffix])


def increasing(numbers: list[int]) -> list[int]:
    """The indices of a longest increasing subsequence of distinct numbers (M. L. Fredman, 1975)."""
    ends: list[int] = []
    indices: list[int] = []
    before: list[int | None] = []
    for index, number in enumerate(numbers):
        length = bisect.bisect_left(ends, number)
        before.append(indices[length - 1] if length else None)
        ends[length : length + 1] = [number]
        indices[length : length + 1] = [index]
    chosen: list[int] = []
    at = indices[-1] if indices else None
    while at is not None:
        chosen.append(at)
        at = before[at]
    return chosen[::-1]


def kept_lines(old: list[bytes], new: list[bytes]) -> list[tuple[int, int]]:
    """Pairs of equal lines in increasing order. Each occurs once in either text."""
    once = [{line: index for index, line in enumerate(each)} for each in (old, new)]
    counts = [Counter(each) for each in (old, new)]
    lines = [line for line in old if counts[0][line] == counts[1][line] == 1]
    return [(once[0][lines[it]], once[1][lines[it]]) for it in increasing([once[1][line] for line in lines])]


def line_edits(old: bytes, new: bytes) -> Iterator[Edit]:
    """Edits by a diff of lines. Lines that occur once in each text are paired first. Then the lines between the pairs are
    compared, unless they are too many."""
    lines = [text.splitlines(keepends=True) for text in (old, new)]
    starts = [list(accumulate(map(len, each), initial=0)) for each in lines]
    at, new_at = 0, 0
    for end, new_end in [*kept_lines(*lines), (len(lines[0]), len(lines[1]))]:
        gone, put = lines[0][at:end], lines[1][new_at:new_end]
        if gone != put:
            for first, last, new_first, new_last in changed_lines(gone, put):
                text = new[starts[1][new_at + new_first] : starts[1][new_at + new_last]]
                yield Edit(starts[0][at + first], starts[0][at + last], text)
        at, new_at = end + 1, new_end + 1


def changed_lines(old: list[bytes], new: list[bytes]) -> Iterator[tuple[int, int, int, int]]:
    """Which lines become which other ones, by the indices where they begin and end."""
    if len(old) * len(new) > MOST_COMPARED:
        yield 0, len(old), 0, len(new)
        return
    for kind, start, end, new_start, new_end in SequenceMatcher(None, old, new, autojunk=False).get_opcodes():
        if kind != "equal":
            yield start, end, new_start, new_end


def byte_edits(edit: Edit, old: bytes) -> Iterator[Edit]:
    """The edit as edits by a diff of bytes, where it is short."""
    gone = old[edit.start : edit.end]
    if max(len(gone), len(edit.new)) > LONGEST_BY_BYTES:
        yield edit
        return
    at, new_at = 0, 0
    for same in SequenceMatcher(None, gone, edit.new, autojunk=False).get_matching_blocks():
        if same.size >= SHORTEST_KEPT or same.size == 0:
            if at < same.a or new_at < same.b:
                yield Edit(edit.start + at, edit.start + same.a, edit.new[new_at : same.b])
            at, new_at = same.a + same.size, same.b + same.size


def edits_between(old: bytes, new: bytes, by_bytes: bool) -> list[Edit]:
    """Edits that make the new text of the old one, from the left."""
    whole = trimmed(Edit(0, len(old), new), old)
    parts = line_edits(old[whole.start : whole.end], whole.new)
    found = (trimmed(Edit(it.start + whole.start, it.end + whole.start, it.new), old) for it in parts)
    return [it for edit in found for it in (byte_edits(edit, old) if by_bytes else [edit])]
