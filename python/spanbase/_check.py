"""Checks formulas as the program does, and says where and why it rejects one."""
import re
from dataclasses import dataclass, replace
from typing import NoReturn

from ._regex import CONTROLS
from .limits import DEEPEST, LONGEST_FORMULA, LONGEST_NAME, MOST_SETS, MOST_VARIABLES


@dataclass(frozen=True)
class Found:
    """The variables of a part with an index of each, and the first fault against the rule that a variable is met once."""

    places: dict[str, int]
    fault: tuple[str, int, str] | None = None


class FormulaError(ValueError):
    """A formula that the program rejects: its word, why, and at which index of the formula, or None where it is about the
    whole of it."""

    def __init__(self, word: str, message: str, position: int | None = None):
        super().__init__(f"{word}: {message}")
        self.word = word
        self.message = message
        self.position = position


class FormulaReader:
    """Reads a formula by its grammar, a character for each byte."""

    def __init__(self, formula: str):
        self.formula = formula
        self.place = 0
        self.sets = 0
        self.deepest = (0, 0)
        self.too_many_at = 0
        self.order: list[str] = []

    def bad(self, at: int, why: str) -> NoReturn:
        raise FormulaError("BadFormula", why, at)

    def peek(self) -> str:
        return self.formula[self.place : self.place + 1]

    def alternation(self, depth: int) -> Found:
        parts = [self.sequence(depth)]
        while self.peek() == "|":
            self.place += 1
            parts.append(self.sequence(depth))
        places = {name: at for part in reversed(parts) for name, at in part.places.items()}
        return Found(places, next((part.fault for part in parts if part.fault), None))

    def sequence(self, depth: int) -> Found:
        parts: list[Found] = []
        while self.peek() not in ("", "|", ")", "}"):
            parts.append(self.repeated(depth))
        return self.in_sequence(parts)

    def in_sequence(self, parts: list[Found]) -> Found:
        """Parts in a row may share no variable. The last two are compared first."""
        fault = next((part.fault for part in parts if part.fault), None)
        places: dict[str, int] = {}
        for part in reversed(parts):
            shared = [name for name in self.order if name in part.places and name in places]
            if shared and not fault:
                fault = shared[0], places[shared[0]], "it was captured before in the same sequence"
            places |= part.places
        return Found(places, fault)

    def repeated(self, depth: int) -> Found:
        body = self.atom(depth)
        while (sign := self.peek()) and sign in "*+?":
            if sign != "?" and body.places and not body.fault:
                name = next(name for name in self.order if name in body.places)
                body = replace(body, fault=(name, self.place, f"it is repeated by `{sign}`"))
            self.place += 1
        return body

    def atom(self, depth: int) -> Found:
        at, sign = self.place, self.peek()
        self.place += 1
        if sign == "(":
            return self.inside(at, depth + 1, ")")
        if sign == "$":
            return self.capture(at, depth)
        if sign in "*+?":
            self.bad(at, f"`{sign}` has nothing before it to repeat")
        if sign in "{]":
            self.bad(at, f"`{sign}` opens and closes nothing here; the byte itself is `\\{sign}`")
        if sign == "[":
            self.set(at)
        elif sign == "\\":
            self.escape(at)
        self.sets += 1
        if self.sets == MOST_SETS + 1:
            self.too_many_at = at
        return Found({})

    def inside(self, at: int, depth: int, closing: str) -> Found:
        self.deepest = max(self.deepest, (depth, -at))
        body = self.alternation(depth)
        if self.peek() != closing:
            self.bad(self.place if self.peek() else at, "it isn't closed" if not self.peek() else f"`{closing}` is due here")
        self.place += 1
        return body

    def capture(self, at: int, depth: int) -> Found:
        name = re.compile(r"[A-Za-z_][A-Za-z0-9_.-]*").match(self.formula, self.place)
        if not name or self.formula[name.end() : name.end() + 1] != "{":
            self.bad(at, "a name and `{` must follow `$`; the byte itself is `\\$`, and the end of a text has no symbol")
        if len(name[0]) > LONGEST_NAME:
            self.bad(at, f"the name has more than {LONGEST_NAME} bytes")
        self.place = name.end() + 1
        if name[0] not in self.order:
            self.order.append(name[0])
        body = self.inside(at, depth + 1, "}")
        inner = name[0], body.places.get(name[0], at), "it is in a capture of the same variable"
        fault = body.fault or (inner if name[0] in body.places else None)
        return Found(body.places | {name[0]: at}, fault)

    def escape(self, at: int) -> int:
        """The byte of an escape, whose backslash was read."""
        found = re.compile(r"[ntr]|x[0-9a-fA-F]{2}|[][.(){}|*+?$\\^-]").match(self.formula, self.place)
        if not found:
            sign = self.peek()
            why = "an escape is one of \\n \\t \\r, \\x with two hexadecimal digits, or a special byte, - or ^"
            self.bad(at, f"`\\{sign}` has no meaning; {why}" if " " <= sign <= "~" else why)
        self.place = found.end()
        kind = found[0][0]
        return int(found[0][1:], 16) if kind == "x" else CONTROLS[kind] if kind in "ntr" else ord(kind)

    def set(self, at: int) -> None:
        if self.peek() == "^":
            self.place += 1
        while self.peek() != "]":
            start = self.place
            first = self.member(at)
            if self.peek() == "-":
                self.place += 1
                if first > self.member(at):
                    self.bad(start, "the range goes from the greater byte to the smaller")
        self.place += 1

    def member(self, at: int) -> int:
        start, sign = self.place, self.peek()
        if not sign:
            self.bad(at, "the set isn't closed")
        if sign in "]-^":
            self.bad(start, f"in a set the byte `{sign}` is written `\\{sign}`")
        self.place += 1
        return self.escape(start) if sign == "\\" else ord(sign)


def check_formula(formula: bytes) -> FormulaReader:
    """Reads a formula, or raises the program's rejection. Only the program knows TooManyStates."""
    if len(formula) > LONGEST_FORMULA:
        raise FormulaError("FormulaTooLong", f"it has {len(formula)} bytes, and at most {LONGEST_FORMULA} are allowed")
    reader = FormulaReader(formula.decode("latin-1"))
    found = reader.alternation(0)
    if reader.peek():
        reader.bad(reader.place, f"`{reader.peek()}` closes nothing")
    depth, place = reader.deepest
    if depth > DEEPEST:
        raise FormulaError("TooDeep", f"{depth} groups and captures are open at once, and at most {DEEPEST} may be", -place)
    if reader.sets > MOST_SETS:
        why = f"it has {reader.sets} sets of bytes, and at most {MOST_SETS} are allowed"
        raise FormulaError("TooManyPositions", why, reader.too_many_at)
    if len(reader.order) > MOST_VARIABLES:
        at = found.places[reader.order[MOST_VARIABLES]]
        why = f"it has {len(reader.order)} variables, and at most {MOST_VARIABLES} are allowed"
        raise FormulaError("TooManyVariables", why, at)
    if found.fault:
        name, at, why = found.fault
        raise FormulaError("NotFunctional", f"the variable {name} could be assigned twice: {why}", at)
    return reader
