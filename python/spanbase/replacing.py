"""Replacement by edits, for what the command `replace` can't do."""
import re
from collections.abc import Iterable, Iterator
from typing import TYPE_CHECKING

from spanbase.limits import MOST_LISTED
from spanbase.lines import LAST_POSITION

if TYPE_CHECKING:
    from spanbase.documents import Document
    from spanbase.query import Query

__all__ = ["chosen_spans", "replacing_edits"]

SPAN = re.compile(rb"=\[(\d+),(\d+)\)")
# about how many bytes an edit has; a line has at most 65,536
LONG_EDIT = 30_000


def chosen_spans(query: "Query", source: "Document", longest: bool) -> Iterator[tuple[int, int]]:
    """The spans that a replacement chooses, from the left. They don't overlap. Of several that start at one position the
    longest is chosen, or else the shortest."""
    end = 0
    best: tuple[int, int] | None = None
    none_chosen = True
    cursor = b""
    last = b"more"
    while last == b"more":
        *answers, last = query._list(source, cursor, MOST_LISTED)
        start = 0
        for answer in answers:
            # answers are sorted by the start and then by the end, and one without a span is the last
            found = SPAN.search(answer)
            if not found:
                continue
            start, stop = int(found[1]) - 1, int(found[2]) - 1
            if best and best[0] < start:
                yield best
                end, none_chosen, best = best[1], False, None
            if start < end:
                continue
            if not longest:
                yield start, stop
                end = stop
            elif none_chosen or (start, stop) != (end, end):
                best = start, stop
        cursor = answers[-1] if answers else b""
        if start < end and best is None:
            # the last tuple before those that start at `end`
            cursor = b"%s=[%d,%d)" % (query.variables[0].encode(), end, LAST_POSITION)
    if best:
        yield best


def replacing_edits(
    target: bytes, source: bytes, length: int, by: bytes, spans: Iterable[tuple[int, int]]
) -> Iterator[bytes]:
    """The edits that append to `target` the text of `source`, of which spans are replaced by the text of `by`."""
    parts: list[bytes] = []
    end = size = 0
    for start, stop in spans:
        if end < start:
            parts.append(b"extract(%s,%d,%d)" % (source, end + 1, start + 1))
        parts.append(by)
        size += len(b"".join(parts[-2:])) + 2 * len("concat(,)")
        end = stop
        if size > LONG_EDIT:
            yield appending_edit(target, parts)
            parts, size = [], 0
    if end < length:
        parts.append(b"extract(%s,%d,%d)" % (source, end + 1, length + 1))
    if parts:
        yield appending_edit(target, parts)


def appending_edit(target: bytes, parts: list[bytes]) -> bytes:
    """The edit that appends the parts, nested as little as possible."""
    while len(parts) > 1:
        pairs = [parts[at : at + 2] for at in range(0, len(parts), 2)]
        parts = [b"concat(%s)" % b",".join(pair) if len(pair) == 2 else pair[0] for pair in pairs]
    return b"let %s = concat(%s,%s)" % (target, target, parts[0])
