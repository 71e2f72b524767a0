"""Queries: rows and pages against Python's `re`, numbers, lines, replacements and tables."""
import csv
import functools
import gc
import io
import json
import operator
import pickle
import random
import re
import subprocess
import unittest.mock

import spanbase
from spanbase import Database, Query
from spanbase.replacing import chosen_spans
from tests.support import SHELL, TIMES, TOP, ShellCase, python_with

Bounds = tuple[int, int]


def found_by_re(regex: bytes, text: bytes) -> list[dict[str, Bounds | None]]:
    """The rows of a regex of which each match is found by `re` one after the other."""
    groups = list(re.compile(regex).groupindex)
    return [
        {group: found.span(group) if found.span(group) != (-1, -1) else None for group in groups}
        for found in re.finditer(regex, text)
    ]


def chosen_by_hand(spans: list[Bounds], longest: bool) -> list[Bounds]:
    """The spans that a replacement chooses, by its definition."""
    chosen: list[Bounds] = []
    end = 0
    while True:
        left = [it for it in spans if it[0] >= end and it not in chosen]
        if longest:
            left = [it for it in left if not chosen or it != (end, end)]
            left = [it for it in left if it[1] == max(other[1] for other in left if other[0] == it[0])]
        else:
            left = [it for it in left if not chosen or it > chosen[-1]]
        if not left:
            return chosen
        chosen.append(min(left))
        end = chosen[-1][1]


def replaced_by_hand(text: bytes, spans: list[Bounds], by: bytes) -> bytes:
    for start, end in reversed(spans):
        text = text[:start] + by + text[end:]
    return text


class Answers(ShellCase):
    LOG = b"".join(
        b"host%d GET /path/%d %d%s\n" % (number % 7, number, 200 + number % 300, b" slow" * (number % 3 == 0))
        for number in range(3000)
    )
    REGEX = rb"(?m)^(?P<host>\w+) GET (?P<path>\S+) (?P<status>4\d\d)(?P<slow> slow)?$"

    def test_rows(self) -> None:
        """All rows with their texts, by pages of any size, over documents of any number."""
        wanted = found_by_re(self.REGEX, self.LOG)
        texts = [{name: it and self.LOG[slice(*it)] for name, it in row.items()} for row in wanted]
        for old in (False, True):
            database = self.database(old=old)
            database["log"] = self.LOG
            query = database.query(self.REGEX)
            self.assertEqual(query.variables, ("host", "path", "status", "slow"))
            rows = list(query.rows("log"))
            self.assertEqual([row.spans for row in rows], wanted)
            self.assertEqual([row.texts for row in rows], texts)
            self.assertEqual([dict(row) for row in rows][3]["host"], wanted[3]["host"])
            for limit in (1, 7, len(wanted) - 1, len(wanted), 10_000, 20_000):
                pages = list(query.rows("log").pages(limit)) if limit > 5 else list(query.rows("log").pages(limit))[:20]
                self.assertLessEqual(max(map(len, pages)), limit)
                self.assertEqual([row for page in pages for row in page], rows[: sum(map(len, pages))])
                page = query.page("log", limit=limit)
                self.assertEqual((page.rows, page.more), (rows[:limit], limit < len(rows)))
                page = query.page("log", after=rows[4], limit=limit)
                self.assertEqual((list(page), page.more), (rows[5 : limit + 5], limit + 5 < len(rows)))
                page = query.page("log", start=990, limit=limit)
                self.assertEqual((list(page), page.more), (rows[990 : limit + 990], limit + 990 < len(rows)))
            self.assertEqual(list(query.rows("log", after=rows[800].cursor)), rows[801:])
            self.assertEqual(query.rows("log", after=rows[800]).count(), len(rows) - 801)
            self.assertEqual((query.page("log", start=5000).rows, query.page("log", start=0)[0]), ([], rows[0]))
            self.assertEqual((query.rows("log").first(), query.rows("log").count()), (rows[0], len(rows)))
            database["none"] = b""
            database["two"] = self.LOG[-400:]
            self.assertEqual(len(list(query.rows())), len(rows) + len(list(query.rows("two"))))
            self.assertEqual([row.document for row in query.rows("two", database["none"])], ["two"] * query.count("two"))
            self.assertIsNone(query.rows("none").first())
            everywhere = query.all(limit=3)
            self.assertEqual(list(everywhere), ["log", "none", "two"])
            self.assertEqual((everywhere["log"].rows, everywhere["log"].more), (rows[:3], True))
            self.assertEqual((everywhere["none"].rows, everywhere["none"].more), ([], False))
            database.mark("v")
            self.assertEqual(query.all(limit=20_000)["log"].rows, rows)

    def test_numbers(self) -> None:
        """count, at, rank, has and test, with the program's commands and without them."""
        for old in (False, True):
            database = self.database(old=old)
            database["d"], database["none"] = b"abracadabra" * 1500, b""
            query = database.query(r"a(?P<x>[a-z]{1,2})")
            rows = list(query.rows("d"))
            self.assertEqual((query.count("d"), query.count("none"), len(rows)), (len(rows), 0, len(rows)))
            self.assertGreater(len(rows), 10_000)
            for number in (0, 1, 9_999, 10_000, len(rows) - 1, -1, -len(rows)):
                row = query.at("d", number)
                self.assertEqual(row, rows[number])
                self.assertEqual(query.rank("d", row), number % len(rows))
                self.assertTrue(query.has("d", row))
            for number in (len(rows), -len(rows) - 1):
                with self.assertRaises(IndexError):
                    query.at("d", number)
            self.assertEqual(query.rank("d", {"x": (0, 0)}), 0)
            self.assertEqual(query.rank("d", {"x": (2, 2)}), 2)
            self.assertEqual(query.rank("d", {"x": None}), len(rows))
            self.assertEqual((query.has("d", {"x": (1, 2)}), query.has("d", {"x": (0, 2)})), (True, False))
            self.assertEqual((query.test("d"), query.test("none")), (True, False))

    def test_tuples(self) -> None:
        database = self.database()
        database["d"] = b"ab"
        query = database.formula(b"$x{a}$y{b}?")
        row = query.rows("d").first()
        assert row is not None
        self.assertEqual((row["y"], row.cursor), ((1, 2), "x=[1,2),y=[2,3)"))
        for told in (row, row.cursor, row.spans, dict(row), {"y": (1, 2), "x": row["x"]}):
            self.assertTrue(query.has("d", told))
        self.assertFalse(query.has("d", {"x": (0, 1)}))
        start, end = row["x"]  # type: ignore[misc]
        self.assertEqual((start, end, row["x"].slice, row["x"].length), (0, 1, slice(0, 1), 1))  # type: ignore[union-attr]
        self.assertEqual(len({row, query.at("d", 0)}), 1)
        for wrong, error in [
            ("x=[1,2)", spanbase.BadTuple),
            ("x=[1,", spanbase.BadTuple),
            ("x =[1,2)", spanbase.BadTuple),
            ("", spanbase.BadTuple),
            ({"z": (0, 1)}, spanbase.BadTuple),
            (5, TypeError),
        ]:
            with self.assertRaises(error):
                query.has("d", wrong)  # type: ignore[arg-type]
        for limit in (0, -1):
            with self.assertRaises(ValueError):
                query.page("d", limit=limit)
            with self.assertRaises(ValueError):
                query.all(limit=limit)
        with self.assertRaises(ValueError):
            query.page("d", after=row, start=1)
        nothing = database.formula(b"ab")
        self.assertEqual([dict(it) for it in nothing.rows("d")], [{}])
        self.assertEqual((nothing.has("d", {}), nothing.has("d", "()")), (True, True))

    def test_texts(self) -> None:
        """Texts of spans that are wide, that overlap, that are far apart, and of any bytes."""
        rng = random.Random(5)
        text = b"".join(b"<%s>" % rng.randbytes(rng.choice([0, 1, 50, 5000])).translate(None, b"<>") for _ in range(300))
        for old in (False, True):
            database = self.database(old=old)
            database["d"] = text
            for regex in (rb"(?s)<(?P<x>[^<>]*)>", rb"(?s)(?P<y>><(?P<x>[^<>]?))"):
                rows = list(database.query(regex).rows("d"))
                self.assertGreater(len(rows), 50)
                for row in rows:
                    self.assertEqual(row.texts, {name: text[slice(*it)] for name, it in row.spans.items() if it})
            for size in (10, 1 << 30):
                # whatever is read ahead
                with unittest.mock.patch("spanbase.query.READ_AHEAD", size):
                    rows = list(database.formula(b"$x{.*}>").rows("d"))
                    self.assertEqual([row["x"].text for row in rows], [text[:-1]])
        database["huge"] = database["d"] * (1 << 28)
        row = database.formula(rb".*$x{<[^<>]*>}").rows("huge").first()
        self.assertEqual((row["x"].end, row["x"].text), (len(text) << 28, text[text.rindex(b"<") :]))

    def test_documents_that_change(self) -> None:
        database = self.database()
        database["d"] = b"ab" * 20_000
        query = database.query(r"(?P<x>a)")
        for change in (
            lambda: database.edit("d", b"x"),
            lambda: database["d"].__delitem__(slice(0, 1)),
            lambda: database.__delitem__("d"),
        ):
            database["d"] = b"ab" * 20_000
            rows = iter(query.rows("d"))
            row, read = next(rows), query.at("d", 5)
            self.assertEqual((row["x"].text, read["x"].text, read["x"].line), (b"a", b"a", 1))
            late = query.page("d")[0]
            change()
            # what was read stays
            self.assertEqual((row["x"].text, row["x"].bounds, read["x"].line), (b"a", (0, 1), 1))
            for use in (lambda: late["x"].text, lambda: row["x"].line, lambda: list(rows)):
                with self.assertRaisesRegex(spanbase.DocumentChanged, "the document d has changed"):
                    use()

    def test_lines(self) -> None:
        """Lines and columns of texts of files, of short and of long texts, and of one that is too long to search."""
        text = self.LOG * 4
        path = self.file("file", text)
        regex = rb"GET (?P<x>/path/\d*9) "
        starts = [found.start(1) for found in re.finditer(regex, text)]
        wanted = [(text.count(b"\n", 0, it) + 1, it - text.rfind(b"\n", 0, it)) for it in starts]
        patched = unittest.mock.patch
        for old in (False, True):
            for far in (0, 1 << 40):
                with patched("spanbase.lines.FAR", far), patched("spanbase.documents.COARSEST_TIME", -(10**12)):
                    database = self.database(old=old)
                    database.load("file", path)
                    database["long"] = text
                    database["short"] = text[: len(text) // 10]
                    query = database.query(regex)
                    for name in database:
                        places = [(row["x"].line, row["x"].column) for row in query.rows(name)]
                        self.assertEqual(places, wanted[: len(places)])
                        self.assertGreater(len(places), 100)
                    # in any order
                    rows = list(query.rows("long"))
                    random.Random(1).shuffle(rows)
                    self.assertEqual(sorted((row["x"].line, row["x"].column) for row in rows), sorted(wanted))
        database = self.database()
        if database.has_command("rank"):
            database["d"] = b"ab\ncd\n"
            database["huge"] = database["d"] * (1 << 40)
            row = database.formula(rb".*\n$x{cd\n}").rows("huge").first()
            self.assertEqual((row["x"].line, row["x"].column), (1 << 41, 1))

    def test_algebra(self) -> None:
        database = self.database()
        database["d"] = b"GET /a 200 5\nPUT /b 500 70\nGET /c 404 90\n"
        failed = database.query(r"(?m)^\w+ (?P<path>\S+) (?P<status>[45]\d\d) ")
        slow = database.query(r"(?m)^\w+ (?P<path>\S+) \d+ (?P<ms>\d\d)$")
        fast = database.query(r"(?m)^\w+ (?P<path>\S+) \d+ \d$")
        self.assertEqual([row.texts for row in (failed & slow).rows("d")], [
            {"path": b"/b", "status": b"500", "ms": b"70"}, {"path": b"/c", "status": b"404", "ms": b"90"},
        ])  # fmt: skip
        self.assertEqual([row["path"].text for row in (slow | fast).project("path").rows("d")], [b"/a", b"/b", b"/c"])
        self.assertEqual((failed & slow).project("ms", "path").variables, ("ms", "path"))
        self.assertEqual((failed.project().variables, failed.project().count("d")), ((), 1))
        self.assertEqual(((failed | slow).formula, failed.formula is not None), (None, True))
        self.assertIn("&", repr(failed & slow))
        for wrong, word in [
            (lambda: failed.project("none"), "OtherVariables"),
            (lambda: failed.project("path", "path"), "OtherVariables"),
            (lambda: database.formula(b"("), "BadFormula"),
            (lambda: database.formula(b"a\\\nb"), "BadFormula"),
            (lambda: database.formula(b"a" * 2049), "FormulaTooLong"),
            (lambda: database.formula(b"a" * 70_000), "FormulaTooLong"),
            (lambda: database.formula(b"$x{a}$x{b}"), "NotFunctional"),
            (lambda: database.formula(b"[ab]*a" + b"[ab]" * 9), "TooManyStates"),
        ]:
            with self.assertRaises(ValueError) as refused:
                wrong()
            self.assertEqual(refused.exception.word, word)
        with self.assertRaises(TypeError):
            failed | 5  # type: ignore[operator]

    def test_regexes(self) -> None:
        """Patterns of each type, with flags, and the formula of what has newlines in it."""
        database = self.database()
        database["d"] = b"Error\nerror x\n\xc3\xa9"
        for pattern, flags, wanted in [
            ("error", 0, [(6, 11)]),
            (b"error", re.IGNORECASE, [(0, 5), (6, 11)]),
            (re.compile("^error$", re.I | re.M), 0, [(0, 5)]),
            (re.compile(b"^error ", re.M), re.I, [(6, 12)]),
            ("\u00e9", 0, [(14, 16)]),
            ("or\ner", 0, [(3, 8)]),
        ]:
            self.assertEqual([row["match"] for row in database.query(pattern, flags).rows("d")], wanted)
        self.assertEqual(database.query("(?s)E.*", whole=True, capture="w").count("d"), 1)
        self.assertEqual([row["x"] for row in database.formula(b".*$x{\n}[^\n]*\n[^\n]*").rows("d")], [(5, 6)])
        with self.assertRaises(spanbase.Untranslatable):
            database.query(r"(a)\1")

    def test_unused_queries(self) -> None:
        """A query is removed from the program when nothing refers to it."""
        database = self.database()
        database["d"] = b"a"
        kept, named = database.formula(b"$x{a}"), database.formula(b"$y{a}")
        database.queries["named"] = named
        row = kept.rows("d").first()
        keys = [kept.key, named.key, (kept | named).key]
        del kept, named
        gc.collect()
        told = [database.ask_all([f"test {key} d".encode()])[0] for key in keys]
        self.assertEqual(told[:2], [[b"yes"], [b"yes"]])
        self.assertIsInstance(told[2], spanbase.UnknownName)
        del row, database.queries["named"]
        gc.collect()
        told = [database.ask_all([f"test {key} d".encode()])[0] for key in keys[:2]]
        self.assertEqual([type(it) for it in told], [spanbase.UnknownName] * 2)

    def test_advice_for_too_many_states(self) -> None:
        """The message says what needs fewer states, by the operation, and a regex with a gap captured is tried."""
        database = self.database()
        field = r"(?m)^Package: (?P<package>.+)\n(?:.+\n)*{0}: (?P<{0}>.+)$"
        names = ("Version", "Section", "Depends", "Maintainer", "Priority", "Source")
        version, *fields, last = (database.query(field.format(it)) for it in names)
        joined = functools.reduce(operator.and_, fields, version)
        gap = "(?P<match>TTGACA(?P<gap>.{0,160})TATAAT)"
        ten = database.formula("$x{[ab]*}a" + "[ab]" * 9)
        for make, regex, subject, advice in [
            (lambda: database.query("TTGACA.{0,160}TATAAT"), gap, "query", f"capture a gap, as in {gap}"),
            (lambda: database.query(b"a.{9}(?P<x>b)"), "a(?P<gap>.{9})(?P<x>b)", "query", "capture a gap"),
            (lambda: database.formula("[ab]*a" + "[ab]" * 9), None, "query", "capture a gap of the"),
            (lambda: joined & last, None, "join", "write one regex"),
            (lambda: ten.project(), None, "projection", "keep a variable"),
        ]:
            with self.assertRaises(spanbase.TooManyStates) as refused:
                make()
            error = pickle.loads(pickle.dumps(refused.exception))
            wanted = f"TooManyStates: the automaton of the {subject} has more than 1,024 states; {advice}"
            self.assertEqual((error.states, str(error)[: len(wanted)]), (1024, wanted))
            if regex:
                self.assertEqual(error.regex, regex)
                self.assertIn("gap", database.query(error.regex).variables)
        database.query(field.format("Version").removesuffix("$") + r"\n(?:.+\n)*Depends: (?P<depends>.+)$")

    def test_number_of_states(self) -> None:
        """A query has the answers of a wide gap, up to the number of states that the caller allows."""
        text = b"TTGACA" + b"-" * 60 + b"TATAAT TTGACA" + b"-" * 61 + b"TATAAT"
        regex = "TTGACA.{0,60}TATAAT"
        for states in (1024, 423):
            database = self.database(states=states)
            database["d"] = text
            self.assertEqual([row["match"].bounds for row in database.query(regex).rows("d")], [(0, 72)])
        for states in (422, 128):
            database = self.database(states=states)
            with self.assertRaisesRegex(spanbase.TooManyStates, f"the query has more than {states} states; ") as refused:
                database.query(regex)
            self.assertEqual(refused.exception.states, states)
        for states in (0, 127, 1025):
            with self.assertRaisesRegex(ValueError, f"a query may have 128 to 1,024 states, not {states}"):
                spanbase.Database(SHELL, states=states)


class Replacements(ShellCase):
    def check(self, database: Database, query: Query, text: bytes, by: bytes) -> None:
        database["d"] = text
        spans = sorted(row["x"].bounds for row in query.rows("d") if row["x"])
        for longest in (True, False):
            chosen = chosen_by_hand(spans, longest)
            self.assertEqual(list(chosen_spans(query, database["d"], longest)), chosen)
            made = database.replace("e", query, "d", by, longest=longest)
            self.assertEqual(bytes(made), replaced_by_hand(text, chosen, by), (query, text, by, longest))
            self.assertEqual(len(made), len(bytes(made)))

    def test_random_replacements(self) -> None:
        rng = random.Random(4)
        formulas = [
            b".*$x{a*}.*", b".*$x{a+}.*", b".*$x{[ab]+}.*", b".*$x{ab?}.*", b"(.*b)?$x{a*}(b.*)?", b".*$x{}.*", b"$x{a}?.*",
            b".*$x{b[ab]*a}.*", b".*$x{ab|abab|b}.*", b"b",
        ]  # fmt: skip
        for old in (False, True):
            database = self.database(old=old)
            queries = [database.formula(it) for it in formulas if b"$x" in it]
            for _ in range(60 * TIMES):
                text = bytes(rng.choices(b"ab", k=rng.randint(0, 12)))
                self.check(database, rng.choice(queries), text, rng.choice([b"", b"-", b"\n+\n"]))
            database["by"] = b"["
            database["d"] = b"aab"
            query = queries[1]
            self.assertEqual(bytes(database.replace("d", query, database["d"], database["by"])), b"[b")
            self.assertEqual(bytes(database.replace("d", query, "d", database["by"] + b"]")), b"[b")
            database.mark("v")
            version = database.versions["v"]
            self.assertEqual(bytes(database.replace("f", queries[3], version["d"], version["by"])), b"[b")
            with self.assertRaises(spanbase.BadQuery) as refused:
                database.replace("e", database.formula(b"$x{a}$y{b}"), "d", b"")
            self.assertEqual((refused.exception.word, refused.exception.values), ("NotOneVariable", ("2",)))
            self.assertEqual(list(database), ["d", "e", "by", "f"])

    def test_addresses(self) -> None:
        """The longest match is replaced, and nothing of an address is left."""
        for old in (False, True):
            database = self.database(old=old)
            database["log"] = b"61.78.27.185 - 1.2.3.4:80\n"
            made = database.replace("log", database.query(r"(\d{1,3}\.){3}\d{1,3}"), "log", "x.x.x.x")
            self.assertEqual(bytes(made), b"x.x.x.x - x.x.x.x:80\n")

    def test_many_places(self) -> None:
        """More than one command replaces."""
        database = self.database()
        text = b"one 1, two 22, three 333;\n" * 14_000
        database["d"] = text
        query = database.query(r"\d+")
        for longest in (True, False):
            wanted = re.sub(rb"\d+" if longest else rb"\d", b"<number>", text)
            self.assertEqual(bytes(database.replace("e", query, "d", b"<number>", longest=longest)), wanted)
        self.assertEqual(len(database.ask(b"names")), 3)


class Tables(ShellCase):
    def rows(self) -> "spanbase.Rows":
        database = self.database()
        database["a"] = b'k=1;\nkey="x,y";\n\xff;\n'
        database["b"] = b"z;"
        self.query = database.query(rb"(?m)^(?P<key>[^=;\n]+)(=(?P<value>[^;\n]*))?;")
        return self.query.rows("a")

    def test_csv_and_json(self) -> None:
        rows = self.rows()
        self.assertEqual(rows.to_csv(), 'key,value\nk,1\nkey,"""x,y"""\n\udcff,\n')
        self.assertEqual(
            rows.to_csv(spans=True, lines=True, texts=False).splitlines()[:2],
            ["key_start,key_end,key_line,key_column,value_start,value_end,value_line,value_column", "0,1,1,1,2,3,1,3"],
        )
        self.assertEqual(self.query.rows().to_csv(delimiter="\t").splitlines()[-1], "b\tz\t")
        self.assertEqual(rows.to_csv(document=True).splitlines()[1], "a,k,1")
        self.assertEqual(list(rows.records(spans=True))[2], {
            "key": "\udcff", "key_start": 16, "key_end": 17, "value": None, "value_start": None, "value_end": None,
        })  # fmt: skip
        told = [json.loads(line) for line in rows.to_json_lines(errors="replace").splitlines()]
        self.assertEqual([it["key"] for it in told], ["k", "key", "\ufffd"])
        self.assertEqual([it["value"] for it in told], ["1", '"x,y"', None])
        self.assertEqual(self.query.page("a", limit=1).to_csv(), "key,value\nk,1\n")
        # into files, where all bytes are as they are in the text
        self.assertIsNone(rows.to_csv(self.folder / "table.csv"))
        self.assertEqual((self.folder / "table.csv").read_bytes(), b'key,value\nk,1\nkey,"""x,y"""\n\xff,\n')
        with open(self.folder / "table.json", "w") as file:
            self.assertIsNone(rows.to_json_lines(file))
        with open(self.folder / "table.json") as file:
            self.assertEqual([json.loads(line)["value"] for line in file], ["1", '"x,y"', None])
        with open(self.folder / "table.csv", newline="", errors="surrogateescape") as file:
            self.assertEqual([it["key"] for it in csv.DictReader(file)], ["k", "key", "\udcff"])

    def test_names_that_clash(self) -> None:
        database = self.database()
        database["d"] = b"ab"
        rows = database.formula(b"$x{a}$x_start{b}").rows("d")
        self.assertEqual(rows.to_csv(), "x,x_start\na,b\n")
        with self.assertRaisesRegex(ValueError, "x_start"):
            rows.to_csv(io.StringIO(), spans=True)

    def test_pandas(self) -> None:
        python = python_with("pandas")
        if not python:
            self.skipTest("pandas isn't installed")
        self.file("log", b"GET /a 200\nPUT /b\n")
        script = f"""
import spanbase
with spanbase.Database({SHELL!r}) as db:
    db.load("log", {str(self.folder / "log")!r})
    query = db.query(r"(?m)^(?P<method>[A-Z]+) (?P<path>\\S+)( (?P<status>\\d+))?$")
    frame = query.rows("log").to_pandas(spans=True, lines=True)
    print(frame.to_csv(index=False), end="")
    print(frame.dtypes["status_start"], frame.dtypes["path"], query.rows().to_pandas().shape)
    db["none"] = b""
    print(query.rows("none").to_pandas(lines=True).dtypes["path_line"], list(query.rows().to_pandas().columns))
"""
        ran = subprocess.run([python, "-c", script], capture_output=True, text=True, check=False, cwd=TOP / "python")
        self.assertEqual((ran.stderr, ran.returncode), ("", 0))
        self.assertEqual(ran.stdout.splitlines(), [
            "method,method_start,method_end,method_line,method_column,path,path_start,path_end,path_line,path_column,"
            "status,status_start,status_end,status_line,status_column",
            "GET,0,3,1,1,/a,4,6,1,5,200,7,10,1,8",
            "PUT,11,14,2,1,/b,15,17,2,5,,,,,",
            "Int64 object (2, 3)",
            "Int64 ['document', 'method', 'path', 'status']",
        ])  # fmt: skip


if __name__ == "__main__":
    unittest.main()
