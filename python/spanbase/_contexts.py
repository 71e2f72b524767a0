"""Conditions such as `^`, `\\b` and `(?!..)` become contexts: the trees beside a condition are cut to what it allows."""
from collections.abc import Iterable
from dataclasses import dataclass
from itertools import chain, product
from typing import TypeGuard

from ._nodes import (
    ALL,
    ANYTHING,
    EMPTY,
    NOTHING,
    Alt,
    Bytes,
    Capture,
    Cat,
    Chars,
    Condition,
    Look,
    Node,
    Repeat,
    Side,
    Word,
    alt,
    cat,
    conditions,
    empty_part,
    is_nullable,
    outer_part,
    single_part,
    variables,
)

# the conditions of a regex may be met in at most this many combinations
MOST_WAYS = 64

FREE = Side(ALL, True)


@dataclass(frozen=True)
class Open:
    name: str


@dataclass(frozen=True)
class Close:
    name: str


# A way through a regex: trees without conditions, and between them conditions and the ends of captures.
Item = Node | Open | Close
Way = list[Item]


class NoFormula(Exception):
    """Why there is no formula, at which index of the regex, or None where that isn't known, and what to write instead."""

    def __init__(self, at: int | None, why: str, hint: str):
        super().__init__(why)
        self.at = at
        self.why = why
        self.hint = hint


def ways_through(node: Node) -> list[Way]:
    """The ways through a tree, such that no condition is inside a tree of a way."""
    if not (found := conditions(node)):
        return [[node]]
    ways: list[Way]
    match node:
        case Cat(parts):
            count = 1
            for part in parts:
                count *= len(ways_through(part))
            check_count(count, found[0].at)
            ways = [list(chain.from_iterable(line)) for line in product(*map(ways_through, parts))]
        case Alt(parts):
            plain = [part for part in parts if not conditions(part)]
            ways = [[alt(plain)]] if plain else []
            ways += [way for part in parts if conditions(part) for way in ways_through(part)]
        case Repeat("?", body):
            ways = [*ways_through(body), []]
        case Repeat(sign, body):
            ways = ways_of_loop(sign, body, found[0].at)
        case Capture(name, body):
            ways = [[Open(name), *way, Close(name)] for way in ways_through(body)]
        case _:
            ways = [[node]]
    check_count(len(ways), found[0].at)
    return ways


def check_count(count: int, at: int) -> None:
    if count > MOST_WAYS:
        raise NoFormula(
            at,
            f"the assertions from here on can be satisfied in more than {MOST_WAYS} combinations",
            "write its cases as separate regexes, and search for each of them",
        )


def is_tree(item: Item) -> TypeGuard[Node]:
    return not isinstance(item, Open | Close | Condition | Look)


# ------------------------------------------------------------------------------------------------------------------ loops


@dataclass(frozen=True)
class Step:
    """One repetition of a loop: a tree, and what it asks of the neighbours on its outside."""

    left: Side
    body: Node
    right: Side


def ways_of_loop(sign: str, body: Node, at: int) -> list[Way]:
    """The ways through a loop with conditions at the ends of its body, which each repetition meets by its neighbour.

    With a body B whose left neighbour must be in L and whose right one in R, the loop B+ is B, or B cut to end in L, then
    any number of B cut to begin in R and to end in L, and then B cut to begin in R.
    """
    through = [way for way in ways_through(body) if way]
    steps = [step for way in through for step in steps_of(way, at)]
    sides = {(step.left, step.right) for step in steps}
    if len(sides) > 1:
        raise unmet_in_loop(at)
    ways: list[Way] = [] if sign == "+" and len(through) == len(ways_through(body)) else [[]]
    if not steps:
        return ways
    ((left, right),) = sides
    one = alt(step.body for step in steps)
    begun, ended = outer_part(one, right.members, True), outer_part(one, left.members, False)
    more: Node | None = None
    if begun is not None and ended is not None:
        inner = outer_part(begun, left.members, False)
        more = cat([ended, *([Repeat("*", inner)] if inner is not None else []), begun])
    whole = Repeat("+", one) if begun == one == ended else alt([one, *([more] if more is not None else [])])
    before = [Condition(((left, FREE),), at)] if left != FREE else []
    after = [Condition(((FREE, right),), at)] if right != FREE else []
    return [[*before, whole, *after], *ways]


def unmet_in_loop(at: int) -> NoFormula:
    return NoFormula(
        at,
        "this assertion under a repetition is satisfied by different neighbours each time",
        "write the bytes between two repetitions, as in (?:a\\n)+ for (?:^a$\\n?)+",
    )


def steps_of(way: Way, at: int) -> list[Step]:
    """The repetitions of a way through a loop's body."""
    found_conditions = [(index, item) for index, item in enumerate(way) if isinstance(item, Condition | Look)]
    if not found_conditions:
        return [Step(FREE, joined(way), FREE)]
    index, condition = found_conditions[0]
    before, after = way[:index], way[index + 1 :]
    if isinstance(condition, Look) or any(side.outermost for pair in condition.ways for side in pair):
        raise unmet_in_loop(at)
    trees_before = [item for item in before if is_tree(item)]
    trees_after = [item for item in after if is_tree(item)]
    inner_left = any(not is_nullable(item) for item in trees_before)
    inner_right = any(not is_nullable(item) for item in trees_after)
    found: list[Step] = []
    for left, right in condition.ways:
        if (trees_before and not inner_left and left != FREE) or (trees_after and not inner_right and right != FREE):
            raise unmet_in_loop(at)
        if not (inner_left or inner_right) and (left, right) != (FREE, FREE):
            raise unmet_in_loop(at)
        lefts = beside(before, left, False) if inner_left else [before]
        rights = beside(after, right, True) if inner_right else [after]
        for one, other in product(lefts, rights):
            for step in steps_of(one + other, at):
                outer_left = left if not trees_before else FREE
                outer_right = right if not trees_after else FREE
                found.append(Step(both(step.left, outer_left), step.body, both(step.right, outer_right)))
    check_count(len(found), at)
    return found


def both(one: Side, other: Side) -> Side:
    return Side(one.members & other.members, one.edge and other.edge)


# ------------------------------------------------------------------------------------------------- conditions of one byte


def beside(way: Way, side: Side, front: bool) -> list[Way]:
    """The parts of a way whose first byte, or last one, the side allows. The way goes from a position to the text's edge."""
    if side.members == ALL and side.edge and not side.outermost:
        return [way]
    order = range(len(way)) if front else range(len(way) - 1, -1, -1)
    index, node = next(((index, item) for index in order if is_tree(item := way[index])), (None, EMPTY))
    if index is None:
        return [way] if side.edge else []
    near, far = (way[:index], way[index + 1 :]) if front else (way[index + 1 :], way[:index])

    def around(inner: Node, outside: Way) -> Way:
        return [*near, inner, *outside] if front else [*outside, inner, *near]

    found: list[Way] = []
    nothing = empty_part(node)
    rests = beside(far, side, front) if nothing is not None else []
    if side.outermost:
        if (one := single_part(node, side.members)) is not None:
            found += [around(one, end) for end in beside(far, Side(frozenset(), True), front)]
    elif (some := outer_part(node, side.members, front)) is not None:
        if nothing is not None and rests == [far]:
            return [around(alt([some, nothing]), far)]
        found.append(around(some, far))
    return found + [around(nothing, rest) for rest in rests if nothing is not None]


# ------------------------------------------------------------------------------------------------- conditions of more bytes


@dataclass(frozen=True)
class Split:
    """A way in which a tree matches a non-empty word: the items outside of its outermost byte, the set of that byte, and the
    items inside of it."""

    outside: tuple[Item, ...]
    members: Bytes
    inside: tuple[Item, ...]


def splits(node: Node, front: bool) -> list[Split]:
    """The ways in which the tree matches a non-empty word, by its first byte or its last one. The items of a split are in
    the order of the text."""

    def placed(outer: Iterable[Item], split: Split, inner: Iterable[Item]) -> Split:
        outer, inner = tuple(outer), tuple(inner)
        if front:
            return Split(outer + split.outside, split.members, split.inside + inner)
        return Split(split.outside + outer, split.members, inner + split.inside)

    match node:
        case Chars(own):
            return [Split((), own, ())] if own else []
        case Cat(parts):
            found: list[Split] = []
            order = range(len(parts)) if front else range(len(parts) - 1, -1, -1)
            for index in order:
                before, after = (parts[:index], parts[index + 1 :]) if front else (parts[index + 1 :], parts[:index])
                empties = [empty for part in before if (empty := empty_part(part)) is not None]
                found += [placed([it for it in empties if it != EMPTY], it, after) for it in splits(parts[index], front)]
                if not is_nullable(parts[index]):
                    break
            return found
        case Alt(parts):
            return [split for part in parts for split in splits(part, front)]
        case Repeat("?", body):
            return splits(body, front)
        case Repeat(_, body):
            return [placed([], split, [Repeat("*", body)]) for split in splits(body, front)]
        case Capture(name, body):
            outer: list[Item] = [Open(name) if front else Close(name)]
            inner: list[Item] = [Close(name) if front else Open(name)]
            return [placed(outer, split, inner) for split in splits(body, front)]
        case _:
            return []


def way_splits(way: Way, front: bool) -> tuple[list[Split], list[Way]]:
    """The splits of a way from a position to the text's edge, and the ways in which it is empty."""
    order = range(len(way)) if front else range(len(way) - 1, -1, -1)
    index, node = next(((index, item) for index in order if is_tree(item := way[index])), (None, EMPTY))
    if index is None:
        return [], [way]
    near, far = (way[:index], way[index + 1 :]) if front else (way[index + 1 :], way[:index])
    found: list[Split] = []
    for split in splits(node, front):
        if front:
            found.append(Split((*near, *split.outside), split.members, (*split.inside, *far)))
        else:
            found.append(Split((*split.outside, *near), split.members, (*far, *split.inside)))
    empties: list[Way] = []
    if (nothing := empty_part(node)) is not None:
        more, ends = way_splits(far, front)
        middle = [nothing] if nothing != EMPTY else []
        for split in more:
            outside = (*near, *middle, *split.outside) if front else (*split.outside, *middle, *near)
            found.append(Split(outside, split.members, split.inside))
        empties = [[*near, *middle, *end] if front else [*end, *middle, *near] for end in ends]
    return found, empties


def with_words(way: Way, words: tuple[Word, ...], negative: bool, front: bool, at: int) -> list[Way]:
    """The parts of a way that begin, or end, with one of the words; or with none of them where `negative` is set."""
    if not words:
        return [way] if negative else []
    if any(not word for word in words):
        return [] if negative else [way]
    split, empties = way_splits(way, front)
    found = empties if negative else []
    for each in split:
        for members, chosen in classes(each.members, [word[0 if front else -1] for word in words]):
            rests = tuple(words[index][1:] if front else words[index][:-1] for index in chosen)
            for rest in with_words(list(each.inside), rests, negative, front, at):
                one = Chars(members)
                found.append([*each.outside, one, *rest] if front else [*rest, one, *each.outside])
    trees = [[item for item in each if is_tree(item)] for each in found]
    if found and trees == found:
        return [[alt(map(cat, trees))]]
    check_count(len(found), at)
    return found


def classes(members: Bytes, sets: list[Bytes]) -> list[tuple[Bytes, list[int]]]:
    """The members by the sets that they are in: each class with the indices of its sets."""
    by_sets: dict[tuple[int, ...], set[int]] = {}
    for byte in sorted(members):
        key = tuple(index for index, each in enumerate(sets) if byte in each)
        by_sets.setdefault(key, set()).add(byte)
    return [(frozenset(found), list(key)) for key, found in by_sets.items()]


def is_outermost(way: Way, index: int, look: Look) -> bool:
    """Whether a positive lookahead follows everything else that a way matches, or a lookbehind precedes it."""
    outside = way[:index] if look.behind else way[index + 1 :]
    return not look.negative and [item for item in outside if is_tree(item)] == [ANYTHING]


def with_look(way: Way, index: int, look: Look) -> list[Way]:
    """The way with what a lookahead or lookbehind requires in the context beside it."""
    outside, inside = (way[:index], way[index + 1 :]) if look.behind else (way[index + 1 :], way[:index])
    if is_outermost(way, index, look):
        here = [item for item in outside if item != ANYTHING]
        bodies = ways_through(look.body)
        if look.behind:
            return [[ANYTHING, *body, *here, *inside] for body in bodies]
        return [[*inside, *here, *body, ANYTHING] for body in bodies]
    if look.words is not None:
        found = with_words(outside, look.words, look.negative, not look.behind, look.at)
        return [each + inside if look.behind else inside + each for each in found]
    raise no_words(look)


def no_words(look: Look) -> NoFormula:
    kind, end = ("lookbehind", "first") if look.behind else ("lookahead", "last")
    if variables(look.body):
        why, hint = f"a named group in a {kind} that isn't {end}", "put the group outside of it"
    elif conditions(look.body):
        why = f"a {kind} that contains an assertion and isn't {end}"
        hint = r"write the byte that the assertion tests, as in (?!end\W) for (?!end\b)"
    elif look.negative:
        why = f"a negative {kind} of unbounded or large length"
        hint = "search for the regex without it, and for the regex with its content; keep the first answers without the second"
    else:
        why = f"a {kind} of unbounded or large length that isn't {end}"
        hint = "write it as a separate regex, and join both queries"
    return NoFormula(look.at, f"{why} has no formula", hint)


def without_conditions(way: Way) -> list[Way]:
    """The way as ways that have no condition, since the trees beside each one are cut to what it allows."""
    looks = [(index, item) for index, item in enumerate(way) if isinstance(item, Look)]
    outermost = [(index, look) for index, look in looks if is_outermost(way, index, look)]
    conditional = [(index, item) for index, item in enumerate(way) if isinstance(item, Condition)]
    found: list[Way] = []
    if conditional and not outermost:
        index, condition = conditional[0]
        for before, after in condition.ways:
            for left, right in product(beside(way[:index], before, False), beside(way[index + 1 :], after, True)):
                found += without_conditions(left + right)
                check_count(len(found), condition.at)
        return found
    if not looks:
        return [way]
    index, look = (outermost or looks)[0]
    for each in with_look(way, index, look):
        found += without_conditions(each)
    check_count(len(found), look.at)
    return found


# ------------------------------------------------------------------------------------------------------- ways into a tree


def trees_of(way: Way) -> list[Node]:
    """The trees of a way without conditions, with its captures closed."""
    stack: list[list[Node]] = [[]]
    for item in way:
        if isinstance(item, Open):
            stack.append([])
        elif isinstance(item, Close):
            body = cat(stack.pop())
            stack[-1].append(Capture(item.name, body))
        else:
            assert is_tree(item)
            stack[-1].append(item)
    return stack[0]


def joined(way: Way) -> Node:
    return cat(trees_of(way))


def factored(rows: list[list[Node]]) -> Node:
    """The alternation of rows of trees, with equal beginnings and ends written once, and captures of a name joined."""
    for front in (True, False):
        groups: dict[Node | None, list[list[Node]]] = {}
        for distinct in dict.fromkeys(tuple(row) for row in rows):
            groups.setdefault(distinct[0 if front else -1] if distinct else None, []).append(list(distinct))
        rows = []
        for outer, group in groups.items():
            if outer is None or len(group) == 1:
                rows.append(group[0])
            else:
                rest = parts_of(factored([row[1:] if front else row[:-1] for row in group]))
                rows.append([outer, *rest] if front else [*rest, outer])
    bodies: dict[str, list[list[Node]]] = {}
    for row in rows:
        if len(row) == 1 and isinstance(row[0], Capture):
            bodies.setdefault(row[0].name, []).append(parts_of(row[0].body))
    others = [row for row in rows if len(row) != 1 or not isinstance(row[0], Capture)]
    return alt([*(Capture(name, factored(each)) for name, each in bodies.items()), *map(cat, others)])


def parts_of(node: Node) -> list[Node]:
    return list(node.parts) if isinstance(node, Cat) else [node]


def formula_of(regex: Node, whole: bool) -> Node:
    """The tree of a formula for a regex, which is found anywhere in a text, or must match the whole text."""
    context: list[Item] = [] if whole else [ANYTHING]
    ways = [[*context, *way, *context] for way in ways_through(regex)]
    found = [trees_of(it) for way in ways for it in without_conditions(way)]
    return factored(found) if found else NOTHING
