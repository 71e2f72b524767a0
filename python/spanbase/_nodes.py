"""Syntax trees of formulas, and the parts of what a tree matches."""
from collections.abc import Iterable
from dataclasses import dataclass

Bytes = frozenset[int]
ALL: Bytes = frozenset(range(256))
NEWLINE: Bytes = frozenset(b"\n")
DIGITS: Bytes = frozenset(b"0123456789")
SPACES: Bytes = frozenset(b" \t\n\r\f\v")
LETTERS: Bytes = frozenset(b"ABCDEFGHIJKLMNOPQRSTUVWXYZabcdefghijklmnopqrstuvwxyz")
WORD: Bytes = LETTERS | DIGITS | frozenset(b"_")


@dataclass(frozen=True)
class Chars:
    """One byte of a set."""

    members: Bytes


@dataclass(frozen=True)
class Cat:
    """The concatenation of its parts; without parts, the empty word."""

    parts: tuple["Node", ...]


@dataclass(frozen=True)
class Alt:
    """The alternation of its parts."""

    parts: tuple["Node", ...]


@dataclass(frozen=True)
class Repeat:
    """The body with a postfix sign: `*`, `+` or `?`."""

    sign: str
    body: "Node"


@dataclass(frozen=True)
class Capture:
    """The body, whose span is that of the variable."""

    name: str
    body: "Node"


@dataclass(frozen=True)
class Side:
    """The neighbour of a position: a byte of the set, or the text's edge where `edge` is set. With `outermost` the byte
    must be the first or last one of the text."""

    members: Bytes
    edge: bool
    outermost: bool = False


@dataclass(frozen=True)
class Condition:
    """An empty match where one of the pairs is true of the left and the right neighbour. `at` is its index in the regex."""

    ways: tuple[tuple[Side, Side], ...]
    at: int


# a word of byte sets
Word = tuple[Bytes, ...]


@dataclass(frozen=True)
class Look:
    """An empty match where the body matches to the left or to the right, or doesn't where `negative` is set. `words` are
    all words that the body matches, where they are few. `at` is its index in the regex."""

    body: "Node"
    behind: bool
    negative: bool
    words: tuple[Word, ...] | None
    at: int


Node = Chars | Cat | Alt | Repeat | Capture | Condition | Look

EMPTY = Cat(())
NOTHING = Chars(frozenset())
ANYTHING = Repeat("*", Chars(ALL))


def cat(parts: Iterable[Node]) -> Node:
    """The concatenation, flat and without empty parts."""
    flat: list[Node] = []
    for part in parts:
        flat.extend(part.parts if isinstance(part, Cat) else [part])
    return flat[0] if len(flat) == 1 else Cat(tuple(flat))


def alt(parts: Iterable[Node]) -> Node:
    """The alternation of at least one part, flat, each part once, with sets joined and the empty word as `?`."""
    flat: list[Node] = []
    for part in parts:
        flat.extend(part.parts if isinstance(part, Alt) else [part])
    kept = list(dict.fromkeys(flat))
    sets = [part for part in kept if isinstance(part, Chars)]
    if len(sets) > 1:
        joined = Chars(frozenset().union(*(part.members for part in sets)))
        kept = [joined if part is sets[0] else part for part in kept if part not in sets[1:]]
    others = [part for part in kept if part != EMPTY]
    if not others:
        return EMPTY
    whole = others[0] if len(others) == 1 else Alt(tuple(others))
    return optional(whole) if len(others) < len(kept) else whole


def optional(body: Node) -> Node:
    """The body or the empty word."""
    if body == EMPTY or (isinstance(body, Repeat) and body.sign in "*?"):
        return body
    return Repeat("*", body.body) if isinstance(body, Repeat) and not variables(body) else Repeat("?", body)


def children(node: Node) -> tuple[Node, ...]:
    match node:
        case Cat(parts) | Alt(parts):
            return parts
        case Repeat(_, body) | Capture(_, body):
            return (body,)
        case Look():
            return (node.body,)
        case _:
            return ()


def variables(node: Node) -> list[str]:
    """The variables, in the order of their first appearance."""
    own = [node.name] if isinstance(node, Capture) else []
    return list(dict.fromkeys(own + [name for child in children(node) for name in variables(child)]))


def conditions(node: Node) -> list[Condition | Look]:
    own: list[Condition | Look] = [node] if isinstance(node, Condition | Look) else []
    return own + [it for child in children(node) for it in conditions(child)]


def count_sets(node: Node) -> int:
    return 1 if isinstance(node, Chars) else sum(map(count_sets, children(node)))


def is_empty(node: Node) -> bool:
    """Whether the tree matches no text because of a set without bytes."""
    match node:
        case Chars(members):
            return not members
        case Cat(parts):
            return any(map(is_empty, parts))
        case Alt(parts):
            return all(map(is_empty, parts))
        case Repeat("+", body) | Capture(_, body):
            return is_empty(body)
        case _:
            return False


def restricted(node: Node, members: Bytes) -> Node:
    """The tree with every set cut to the bytes of `members`, in lookarounds too."""
    match node:
        case Chars(own):
            return Chars(own & members)
        case Cat(parts):
            return Cat(tuple(restricted(part, members) for part in parts))
        case Alt(parts):
            return Alt(tuple(restricted(part, members) for part in parts))
        case Repeat(sign, body):
            return Repeat(sign, restricted(body, members))
        case Capture(name, body):
            return Capture(name, restricted(body, members))
        case Look(body, behind, negative, words, at):
            kept = None if words is None else tuple(tuple(each & members for each in word) for word in words)
            return Look(restricted(body, members), behind, negative, kept, at)
        case _:
            return node


# ------------------------------------------------------------------------------------------- parts of what a tree matches

# These functions take trees without conditions. None is a part that matches nothing.


def maybe_cat(parts: Iterable[Node | None]) -> Node | None:
    found = list(parts)
    kept = [part for part in found if part is not None]
    return cat(kept) if len(kept) == len(found) else None


def maybe_alt(parts: Iterable[Node | None]) -> Node | None:
    kept = [part for part in parts if part is not None]
    return alt(kept) if kept else None


def within(name: str, body: Node | None) -> Node | None:
    return None if body is None else Capture(name, body)


def empty_part(node: Node) -> Node | None:
    """The ways in which the tree matches the empty word."""
    match node:
        case Cat(parts):
            return maybe_cat(map(empty_part, parts))
        case Alt(parts):
            return maybe_alt(map(empty_part, parts))
        case Repeat("+", body):
            return empty_part(body)
        case Repeat(_, body):
            return maybe_alt([EMPTY, empty_part(body)])
        case Capture(name, body):
            return within(name, empty_part(body))
        case _:
            return None


def is_nullable(node: Node) -> bool:
    return empty_part(node) is not None


def single_part(node: Node, members: Bytes) -> Node | None:
    """The ways in which the tree matches exactly one byte, which is in the set."""
    match node:
        case Chars(own):
            return Chars(own & members) if own & members else None
        case Cat(parts):
            around = [[empty_part(part) for part in parts] for _ in parts]
            for index, part in enumerate(parts):
                around[index][index] = single_part(part, members)
            return maybe_alt(map(maybe_cat, around))
        case Alt(parts):
            return maybe_alt(single_part(part, members) for part in parts)
        case Repeat(_, body):
            return single_part(body, members)
        case Capture(name, body):
            return within(name, single_part(body, members))
        case _:
            return None


def outer_bytes(node: Node, front: bool) -> Bytes:
    """The first bytes of the words that the tree matches, or the last ones."""
    match node:
        case Chars(own):
            return own
        case Cat(parts):
            found: Bytes = frozenset()
            for part in parts if front else reversed(parts):
                found |= outer_bytes(part, front)
                if not is_nullable(part):
                    break
            return found
        case _:
            return frozenset().union(*(outer_bytes(child, front) for child in children(node)))


def outer_part(node: Node, members: Bytes, front: bool) -> Node | None:
    """The ways in which the tree matches a non-empty word whose first byte, or last one, is in the set."""
    if not is_nullable(node) and outer_bytes(node, front) <= members:
        return node
    match node:
        case Chars(own):
            return Chars(own & members) if own & members else None
        case Cat(parts):
            return outer_part_of_cat(parts, members, front)
        case Alt(parts):
            return maybe_alt(outer_part(part, members, front) for part in parts)
        case Repeat("?", body):
            return outer_part(body, members, front)
        case Repeat(_, body):
            outer = outer_part(body, members, front)
            if outer == body:
                return Repeat("+", body)
            more = Repeat("*", body)
            return maybe_cat([outer, more] if front else [more, outer])
        case Capture(name, body):
            return within(name, outer_part(body, members, front))
        case _:
            return None


def outer_part_of_cat(parts: tuple[Node, ...], members: Bytes, front: bool) -> Node | None:
    """The union over the part that has the outermost byte: the parts outside of it match the empty word."""
    found: list[Node | None] = []
    ordered = parts if front else parts[::-1]
    outside: list[Node | None] = []
    for index, part in enumerate(ordered):
        line = [*outside, outer_part(part, members, front), *ordered[index + 1 :]]
        found.append(maybe_cat(line if front else line[::-1]))
        outside.append(empty_part(part))
        if outside[-1] is None:
            break
    return maybe_alt(found)


# -------------------------------------------------------------------------------------------------------------- printing

ESCAPES = {ord("\n"): r"\n", ord("\t"): r"\t", ord("\r"): r"\r"}
SPECIAL = b".[](){}|*+?$\\"
SPECIAL_IN_SET = b"]\\-^"


def byte_text(byte: int, special: bytes) -> str:
    if byte in special:
        return "\\" + chr(byte)
    return ESCAPES.get(byte) or (chr(byte) if 0x20 <= byte < 0x7F else f"\\x{byte:02x}")


def ranges_text(members: Bytes) -> str:
    texts, ordered = [], sorted(members)
    while ordered:
        length = next((k for k in range(1, len(ordered)) if ordered[k] != ordered[0] + k), len(ordered))
        ends = [byte_text(byte, SPECIAL_IN_SET) for byte in (ordered[0], ordered[length - 1])]
        if length > 2:
            texts.append("-".join(ends))
        else:
            texts += ends[:length]
        ordered = ordered[length:]
    return "".join(texts)


def set_text(members: Bytes) -> str:
    if members == ALL:
        return "."
    if len(members) == 1:
        return byte_text(min(members), SPECIAL)
    return min(f"[{ranges_text(members)}]", f"[^{ranges_text(ALL - members)}]", key=len)


def text_of(node: Node) -> str:
    """The formula of a tree without conditions."""
    match node:
        case Chars(members):
            return set_text(members)
        case Cat(parts):
            return "".join(f"({text_of(part)})" if isinstance(part, Alt) else text_of(part) for part in parts)
        case Alt(parts):
            return "|".join(map(text_of, parts))
        case Repeat(sign, body):
            return (f"({text_of(body)})" if isinstance(body, Cat | Alt) else text_of(body)) + sign
        case Capture(name, body):
            return f"${name}{{{text_of(body)}}}"
        case Condition() | Look():
            raise AssertionError("a formula has no conditions")
