"""Expressions over documents, such as `db["log"][10:20] + db["tail"]`.

An expression is evaluated when it is assigned or read, with the documents as they are then. Positions have the meaning that
they have in Python: they count from 0, negative ones from the end, and slices are clipped to the text.
"""
from abc import ABC, abstractmethod
from collections.abc import Callable, Iterable, Iterator
from dataclasses import dataclass, field
from typing import TYPE_CHECKING, Union, overload

if TYPE_CHECKING:
    from spanbase.database import Database

__all__ = ["Expression", "TextLike", "concat"]

# a text: bytes, a str for its UTF-8 bytes, a document or an expression
TextLike = Union[bytes, bytearray, memoryview, str, "Expression"]

# parts of an expression of the language that are nested deeper, or are longer, get a document of their own
DEEPEST = 58
LONGEST_PART = 15_000


def literal(text: TextLike) -> "Expression":
    """The text as an expression."""
    if isinstance(text, Expression):
        return text
    return Literal(encoded(text))


def encoded(text: bytes | bytearray | memoryview | str) -> bytes:
    """The bytes of a text; a str is UTF-8, with lone surrogates for bytes that aren't."""
    if isinstance(text, str):
        return text.encode("utf-8", "surrogateescape")
    if isinstance(text, bytes | bytearray | memoryview):
        return bytes(text)
    raise TypeError(f"a text is bytes, a str, a document or an expression, not {type(text).__name__}")


def concat(*parts: TextLike) -> "Expression":
    """The concatenation of the parts, nested as little as possible."""
    level: list[Expression] = [literal(part) for part in parts]
    if not level:
        return Literal(b"")
    while len(level) > 1:
        pairs = [level[at : at + 2] for at in range(0, len(level), 2)]
        level = [folded(Concat(*pair)) if len(pair) == 2 else pair[0] for pair in pairs]
    return level[0]


class Expression(ABC):
    """A text made of documents and bytes by concatenation and slices."""

    __hash__ = object.__hash__

    @property
    @abstractmethod
    def length(self) -> int:
        """The length of the text in bytes."""

    @abstractmethod
    def parts(self) -> tuple["Expression", ...]:
        """The operands."""

    def database(self) -> "Database | None":
        """The database of the documents in the expression, or None if it has none."""
        found: Database | None = None
        for node in nodes(self):
            own = node.own_database()
            if own is not None and found is not None and own is not found:
                raise ValueError("the documents of an expression are of one database, and these are of two")
            found = own or found
        return found

    def own_database(self) -> "Database | None":
        return None

    def __len__(self) -> int:
        return self.length

    def __bool__(self) -> bool:
        return self.length > 0

    def __add__(self, other: TextLike) -> "Expression":
        return folded(Concat(self, literal(other))) if isinstance(other, TEXTS) else NotImplemented

    def __radd__(self, other: TextLike) -> "Expression":
        return folded(Concat(literal(other), self)) if isinstance(other, TEXTS) else NotImplemented

    def __mul__(self, times: int) -> "Expression":
        """`times` copies of the text, made by doubling."""
        if not isinstance(times, int):
            return NotImplemented
        if times <= 0:
            return Literal(b"")
        copies: Expression = self
        for bit in bin(times)[3:]:
            copies = copies + copies
            if bit == "1":
                copies = copies + self
        return copies

    __rmul__ = __mul__

    @overload
    def __getitem__(self, place: int) -> int: ...
    @overload
    def __getitem__(self, place: slice) -> "Expression": ...
    def __getitem__(self, place: "int | slice") -> "int | Expression":
        if isinstance(place, slice):
            return folded(Slice(self, *bounds(place)))
        length = self.length
        at = place + length if place < 0 else place
        if not 0 <= at < length:
            raise IndexError(f"there is no byte {place} in a text of {length} bytes")
        return bytes(self[at : at + 1])[0]

    def __iter__(self) -> Iterator[int]:
        raise TypeError("a text isn't iterated byte by byte; bytes(..) reads it")

    def __contains__(self, piece: object) -> bool:
        raise TypeError("a text is searched by a query; bytes(..) reads it")

    def insert(self, at: int, text: TextLike) -> "Expression":
        """This text with another one inserted at a position."""
        return self.replace(at, at, text)

    def delete(self, start: int | None = None, stop: int | None = None) -> "Expression":
        """This text without the bytes from `start` to before `stop`."""
        return folded(Replaced(self, start, stop, None))

    def replace(self, start: int | None, stop: int | None, text: TextLike) -> "Expression":
        """This text with the bytes from `start` to before `stop` replaced by another text."""
        return folded(Replaced(self, start, stop, literal(text)))

    def __bytes__(self) -> bytes:
        # bytes without documents are a literal, see `folded`
        database = self.database()
        assert database is not None
        return database.read(self)


@dataclass(frozen=True, eq=False)
class Literal(Expression):
    """Bytes of the expression itself."""

    text: bytes

    @property
    def length(self) -> int:
        return len(self.text)

    def parts(self) -> tuple[Expression, ...]:
        return ()

    def __bytes__(self) -> bytes:
        return self.text


@dataclass(frozen=True, eq=False)
class Concat(Expression):
    """One text after the other."""

    left: Expression
    right: Expression

    @property
    def length(self) -> int:
        return lengths(self)[id(self)]

    def parts(self) -> tuple[Expression, ...]:
        return self.left, self.right


@dataclass(frozen=True, eq=False)
class Slice(Expression):
    """A part of a text."""

    source: Expression
    start: int | None
    stop: int | None

    @property
    def length(self) -> int:
        return lengths(self)[id(self)]

    def parts(self) -> tuple[Expression, ...]:
        return (self.source,)


@dataclass(frozen=True, eq=False)
class Replaced(Expression):
    """A text with a part replaced, or deleted if `by` is None."""

    source: Expression
    start: int | None
    stop: int | None
    by: Expression | None

    @property
    def length(self) -> int:
        return lengths(self)[id(self)]

    def parts(self) -> tuple[Expression, ...]:
        return (self.source,) if self.by is None else (self.source, self.by)


def folded(node: Expression) -> Expression:
    """The expression, or its bytes where it has no document."""
    if not all(isinstance(part, Literal) for part in node.parts()):
        return node
    match node:
        case Concat(Literal(left), Literal(right)):
            return Literal(left + right)
        case Slice(Literal(text), start, stop):
            return Literal(text[start:stop])
        case Replaced(Literal(text), start, stop, by):
            first, last = span_of(start, stop, len(text))
            return Literal(text[:first] + (by.text if isinstance(by, Literal) else b"") + text[last:])
        case _:
            return node


TEXTS = (bytes, bytearray, memoryview, str, Expression)


def bounds(place: slice) -> tuple[int | None, int | None]:
    if place.step not in (None, 1):
        raise ValueError("a slice of a text has the step 1")
    for it in (place.start, place.stop):
        if it is not None and not hasattr(it, "__index__"):
            raise TypeError(f"a slice of a text has whole numbers, not {type(it).__name__}")
    return (
        None if place.start is None else place.start.__index__(),
        None if place.stop is None else place.stop.__index__(),
    )


def nodes(root: Expression) -> list[Expression]:
    """The expression and all that it is made of, each once, operands first."""
    found: list[Expression] = []
    seen: set[int] = set()
    stack: list[tuple[Expression, bool]] = [(root, False)]
    while stack:
        node, done = stack.pop()
        if done:
            found.append(node)
        elif id(node) not in seen:
            seen.add(id(node))
            stack.append((node, True))
            stack.extend((part, False) for part in reversed(node.parts()))
    return found


def span_of(start: int | None, stop: int | None, length: int) -> tuple[int, int]:
    """The bounds of a slice in a text of that length, as Python cuts them."""
    first, last, _ = slice(start, stop).indices(length)
    return first, max(first, last)


def lengths(root: Expression) -> dict[int, int]:
    """The length of each expression in one, by its identity."""
    found: dict[int, int] = {}
    for node in nodes(root):
        match node:
            case Concat(left, right):
                found[id(node)] = found[id(left)] + found[id(right)]
            case Slice(source, start, stop):
                first, last = span_of(start, stop, found[id(source)])
                found[id(node)] = last - first
            case Replaced(source, start, stop, by):
                whole = found[id(source)]
                first, last = span_of(start, stop, whole)
                found[id(node)] = whole - (last - first) + (found[id(by)] if by is not None else 0)
            case _:
                found[id(node)] = node.length
    return found


@dataclass
class Program:
    """The edits that evaluate an expression: the name of a document and its expression of the language, in their order. The
    literals are documents that must be there before."""

    edits: list[tuple[str, str]] = field(default_factory=list)
    literals: dict[str, bytes] = field(default_factory=dict)


def compiled(root: Expression, target: str, fresh: Callable[[], str], name_of: Callable[[Expression], str]) -> Program:
    """The edits that set the document `target` to the text of the expression. `fresh` returns a name for a temporary
    document, which has a literal, or a part that is used twice, nested too deep or too long. `name_of` names a document."""
    program = Program()
    size = lengths(root)
    order = nodes(root)
    uses: dict[int, int] = {}
    for node in order:
        for part in node.parts():
            uses[id(part)] = uses.get(id(part), 0) + 1
    # each part as an expression of the language, and its nesting
    texts: dict[int, tuple[str, int]] = {}

    def operation(word: str, parts: Iterable[Expression], numbers: Iterable[int]) -> tuple[str, int]:
        inner = [texts[id(part)] for part in parts]
        arguments = ",".join([*(text for text, _ in inner), *map(str, numbers)])
        return f"{word}({arguments})", 1 + max(depth for _, depth in inner)

    for node in order:
        match node:
            case Literal(text):
                name = fresh()
                program.literals[name] = text
                formed = name, 0
            case Concat(left, right):
                formed = operation("concat", [left, right], [])
            case Slice(source, start, stop):
                first, last = span_of(start, stop, size[id(source)])
                formed = operation("extract", [source], [first + 1, last + 1])
            case Replaced(source, start, stop, by):
                first, last = span_of(start, stop, size[id(source)])
                formed = operation("delete", [source], [first + 1, last + 1]) if last > first else texts[id(source)]
                if by is not None:
                    inserted, depth = texts[id(by)]
                    formed = f"insert({formed[0]},{inserted},{first + 1})", 1 + max(formed[1], depth)
            case _:
                formed = name_of(node), 0
        is_shared = uses.get(id(node), 0) > 1 and formed[1] > 0
        if node is not root and (is_shared or formed[1] > DEEPEST or len(formed[0]) > LONGEST_PART):
            name = fresh()
            program.edits.append((name, formed[0]))
            formed = name, 0
        texts[id(node)] = formed
    program.edits.append((target, texts[id(root)][0]))
    return program
