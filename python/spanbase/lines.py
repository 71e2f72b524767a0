"""Lines and columns of positions, from the newlines of a text, which are looked up once."""
import re
from bisect import bisect_left
from collections.abc import Collection
from typing import TYPE_CHECKING

from spanbase.limits import MOST_LISTED

if TYPE_CHECKING:
    from spanbase.database import Database
    from spanbase.documents import Text

__all__ = ["LAST_POSITION", "lines_and_columns"]

NEWLINE = re.compile(rb"\n")
# the greatest position of the script language
LAST_POSITION = (1 << 48) + 1
# shorter texts are read, and in longer ones newlines are found by a query
SHORT_TEXT = 1 << 16
PIECE = 1 << 20
# newlines are searched up to a position, unless it is so far ahead that counting them pays
FAR = 1 << 20


def lines_and_columns(
    database: "Database", key: str, text: "Text", positions: Collection[int]
) -> dict[int, tuple[int, int]]:
    """The line and the column of each position, both counted from 1, the column in bytes. `key` is a document of the program
    that has the text. The newlines that are found are kept with the text."""
    last = max(positions, default=0)
    if last - text.searched > FAR and not text.file and database.has_command("rank") and database.has_command("at"):
        return counted(database, key, positions)
    while text.searched < last:
        search_on(database, key, text)
    places: dict[int, tuple[int, int]] = {}
    for position in positions:
        before = bisect_left(text.newlines, position)
        begin = text.newlines[before - 1] + 1 if before else 0
        places[position] = before + 1, position - begin + 1
    return places


def counted(database: "Database", key: str, positions: Collection[int]) -> dict[int, tuple[int, int]]:
    """The same, by the number of newlines before each position and the position of the last of them."""
    query = database._newline_query()
    ranks = [f"rank {query} {key} x=[{it + 1},{it + 1})".encode() for it in positions]
    before = {it: int(reply[0]) for it, reply in zip(positions, database._request_all(ranks))}
    numbers = sorted(set(before.values()) - {0})
    lists = [f"list {query} {key} at {number} limit 1".encode() for number in numbers]
    begins = {0: 0}
    begins.update((number, newline_of(reply[0]) + 1) for number, reply in zip(numbers, database._request_all(lists)))
    return {it: (number + 1, it - begins[number] + 1) for it, number in before.items()}


def search_on(database: "Database", key: str, text: "Text") -> None:
    """Searches for some more newlines: in the file of the text while that is unchanged, in the text, or by a query."""
    since = text.searched
    if text.file:
        if found := text.file.read([(since, min(since + PIECE, text.length))]):
            add_newlines(text, found[0])
            return
        text.file = None
    if text.length <= SHORT_TEXT:
        add_newlines(text, database._read_span(key, since, text.length))
        return
    after = f" after x=[{since},{LAST_POSITION})" if since else ""
    *answers, last = database._request(f"list {database._newline_query()} {key}{after} limit {MOST_LISTED}".encode())
    text.newlines.extend(map(newline_of, answers))
    text.searched = text.newlines[-1] + 1 if last == b"more" else text.length


def add_newlines(text: "Text", piece: bytes) -> None:
    text.newlines.extend(text.searched + found.start() for found in NEWLINE.finditer(piece))
    text.searched += len(piece)


def newline_of(answer: bytes) -> int:
    """The position of the newline in an answer x=[I,J)."""
    return int(answer[len("x=[") : answer.index(b",")]) - 1
