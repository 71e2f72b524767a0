"""Which variables of a formula have an end that their beginning doesn't fix."""
from dataclasses import dataclass, field

from ._nodes import Alt, Bytes, Capture, Cat, Chars, Node, Repeat, is_nullable, outer_bytes

# a body whose automaton has more states counts as open
MOST_STATES = 300


@dataclass
class Positions:
    """The automaton of a tree whose states are its byte sets (V. M. Glushkov, 1961)."""

    sets: list[Bytes] = field(default_factory=list)
    follow: list[set[int]] = field(default_factory=list)

    def add(self, node: Node) -> tuple[set[int], set[int]]:
        """Adds the tree, and returns its first and its last positions."""
        match node:
            case Chars(members):
                self.sets.append(members)
                self.follow.append(set())
                return {len(self.sets) - 1}, {len(self.sets) - 1}
            case Cat(parts):
                first: set[int] = set()
                last: set[int] = set()
                so_far_nullable = True
                for part in parts:
                    begin, end = self.add(part)
                    for position in last:
                        self.follow[position] |= begin
                    first |= begin if so_far_nullable else set()
                    last = end | last if is_nullable(part) else end
                    so_far_nullable = so_far_nullable and is_nullable(part)
                return first, last
            case Alt(parts):
                pairs = [self.add(part) for part in parts]
                return set().union(*(pair[0] for pair in pairs)), set().union(*(pair[1] for pair in pairs))
            case Repeat(sign, body):
                first, last = self.add(body)
                if sign != "?":
                    for position in last:
                        self.follow[position] |= first
                return first, last
            case Capture(_, body):
                return self.add(body)
            case _:
                return set(), set()


def extensions(body: Node) -> Bytes | None:
    """The bytes that can follow a word of the body inside of a longer word of it, or None where they aren't known."""
    automaton = Positions()
    first, last = automaton.add(body)
    start = frozenset(first)
    # bytes that are in the same sets lead to the same positions, so one of each class is tried
    distinct = set(automaton.sets)
    classes = {tuple(byte in each for each in distinct): byte for byte in range(256)}
    found = frozenset().union(*(automaton.sets[it] for it in start)) if is_nullable(body) else frozenset()
    seen, queue = {start}, [start]
    while queue:
        reachable = queue.pop()
        for byte in classes.values():
            reached = {it for it in reachable if byte in automaton.sets[it]}
            after = frozenset().union(*(automaton.follow[it] for it in reached))
            if reached & last:
                found |= frozenset().union(*(automaton.sets[it] for it in after))
            if after not in seen:
                if len(seen) == MOST_STATES:
                    return None
                seen.add(after)
                queue.append(after)
    return found


def open_ends(node: Node, after: Bytes = frozenset()) -> list[str]:
    """The variables that may have two spans with one beginning. `after` are the bytes that can follow the tree."""
    match node:
        case Cat(parts):
            found: list[str] = []
            for part in reversed(parts):
                found = open_ends(part, after) + found
                after = outer_bytes(part, True) | (after if is_nullable(part) else frozenset())
        case Alt(parts):
            found = [name for part in parts for name in open_ends(part, after)]
        case Repeat(sign, body):
            found = open_ends(body, after) if sign == "?" else []
        case Capture(name, body):
            longer = extensions(body)
            found = [name] if longer is None or longer & after else []
            found += open_ends(body, after)
        case _:
            found = []
    return list(dict.fromkeys(found))
