"""Shards: the answers of all images are those of one database, whatever fails meanwhile, on this machine and on a cluster."""
import concurrent.futures
import functools
import json
import operator
import os
import shutil
import subprocess
import sys
import time
import unittest
from collections.abc import Callable
from pathlib import Path
from typing import Any

from spanbase import Database, shards
from spanbase.errors import BadTuple, TooManyStates, UnknownName
from spanbase.formula import FormulaError, translate
from tests.support import SHELL, TOP, ShellCase, python_with

FORMULA = ".*$x{a.}.*"
OTHER_FORMULA = ".*$y{b.?}.*"
# names of files with folders, spaces and bytes of any kind, and two files of the same name
FILES = {
    "f0.txt": b"abracadabra",
    "one/log": b"",
    "two/log": b"banana\nan\n",
    "two/a file\nof two lines\t": b"xyz",
    os.fsdecode(b"two/\xff"): b"aaaa",
    "bytes": b"\x00a\xff\"a\\" + b"." * 3000,
    "middle/log": b"bab" + b"\n" * 3000,
    "long": b"la la la" + b"." * 4200 + b"ab",
}
# no wait of the tests is longer, in seconds
PATIENCE = 600.0

# A program that goes on as the shell, but first does what the file `gate` of its folder says.
GATE = """#!{python}
import os, signal, sys, time
folder, shell = {folder!r}, {shell!r}
parent = os.getppid()
try:
    # of all programs that are started one takes the file
    os.rename(folder + "/hold", folder + "/held-%d" % parent)
    while not os.path.exists(folder + "/go") and os.getppid() == parent:
        time.sleep(0.01)
except FileNotFoundError:
    pass
try:
    os.rename(folder + "/die", folder + "/died")
    os.kill(os.getpid(), signal.SIGKILL)
except FileNotFoundError:
    pass
os.execv(shell, [shell, *sys.argv[1:]])
"""


def eventually(condition: Callable[[], Any]) -> Any:
    """Waits for a value that is true."""
    end = time.monotonic() + PATIENCE
    while not (found := condition()):
        if time.monotonic() > end:
            raise AssertionError("it took too long")
        time.sleep(0.01)
    return found


class Folder(ShellCase):
    """A folder with the files, which is the current one, and a program with a gate in it."""

    def setUp(self) -> None:
        super().setUp()
        self.folder = self.folder.resolve()
        self.addCleanup(os.chdir, os.getcwd())
        os.chdir(self.folder)
        for name, text in FILES.items():
            Path(name).parent.mkdir(exist_ok=True)
            Path(name).write_bytes(text)
        self.gate = self.folder / "gate"
        self.gate.write_text(GATE.format(python=sys.executable, folder=str(self.folder), shell=SHELL))
        self.gate.chmod(0o755)

    def made(self, count: int = 4) -> shards.Manifest:
        return shards.make(FILES, "parts", shards=count, program=SHELL, client=2)

    def ask(self, query: Any = FORMULA, **how: Any) -> shards.Answers:
        return shards.ask("parts", query, **{"program": SHELL, "client": 2, "texts": True, **how})

    def image(self, shard: int) -> Path:
        return Path("parts", shards.Manifest.read("parts").images[shard].file)

    def of_one_database(self, limit: int | None, query: Callable[[Database], Any] | None = None) -> list[Any]:
        """What one database over all files lists."""
        with Database(SHELL) as db:
            for number, name in enumerate(FILES):
                db.load(f"d{number}", name)
            asked = query(db) if query else db.formula(FORMULA)
            found = []
            for number, name in enumerate(FILES):
                rows = list(asked.rows(f"d{number}"))[:limit]
                found += [(name, row.cursor, row.spans, row.texts) for row in rows]
            return found


def plain(rows: Any) -> list[Any]:
    return [(row.document, row.cursor, row.spans, row.texts) for row in rows]


class Asking(Folder):
    def test_answers_are_those_of_one_database(self) -> None:
        for count in (1, 2, 3, 7, 20):
            with self.subTest(count=count):
                manifest = shards.make(FILES, "parts", shards=count, program=SHELL, client=2)
                self.assertLessEqual(len(manifest.images), count)
                self.assertEqual([it.name for it in manifest.documents], list(FILES))
                for limit in (1, 2, None) if count == 3 else (2,):
                    self.assertEqual(plain(self.ask(limit=limit)), self.of_one_database(limit))

    def test_pages(self) -> None:
        self.made()
        answers = self.ask(limit=2)
        pages = [(page.document, len(page.rows), page.more) for page in answers.pages()]
        whole = [sum(row[0] == name for row in self.of_one_database(None)) for name in FILES]
        self.assertEqual(pages, [(name, min(2, number), number > 2) for name, number in zip(FILES, whole)])
        self.assertEqual((answers.count, answers.more), (sum(it[1] for it in pages), [it[0] for it in pages if it[2]]))
        # page after page of one document, and of some
        rows: list[shards.Row] = []
        while page := list(self.ask(limit=1, documents=["f0.txt"], after=rows[-1] if rows else None)):
            rows += page
        self.assertEqual(plain(rows), [it for it in self.of_one_database(None) if it[0] == "f0.txt"])
        some = ["long", "two/log"]
        self.assertEqual(plain(self.ask(documents=some)), [it for it in self.of_one_database(None) if it[0] in some])
        self.assertEqual(rows[0]["x"] and rows[0]["x"].text, b"ab")
        with self.assertRaises(ValueError):
            [row.texts for row in self.ask(texts=False)]

    def test_queries_of_all_kinds(self) -> None:
        self.made()
        kinds: dict[str, Callable[[Database], Any]] = {
            "union": lambda db: db.formula(FORMULA) | db.formula(".*$x{b}.*"),
            "join": lambda db: db.formula(FORMULA) & db.formula("$y{.?}.*\n?"),
            "projection": lambda db: (db.formula("$y{.*}$x{a.}.*") | db.formula("$y{}.*$x{b}.*")).project("x"),
            "many parts": lambda db: functools.reduce(operator.or_, (db.formula(f".*$x{{{it}}}.*") for it in "abanalxyz" * 4)),
            "no variable": lambda db: db.formula(".*an.*").project(),
            "no span": lambda db: db.formula(".*$x{a.}.*|a*$y{[^]}.*"),
            "regex": lambda db: db.query(r"(?m)^(?P<first>\w)(?P<rest>.*)$"),
        }
        for kind, query in kinds.items():
            with self.subTest(kind), Database(SHELL) as db:
                self.assertEqual(plain(self.ask(query(db))), self.of_one_database(None, query))
        self.assertEqual(plain(self.ask(translate("a.", 0))), plain(self.ask(b"[^]*$match{a[^\\n]}[^]*")))
        for query, error in (("a)", FormulaError), (".*a" + 12 * "." + "$x{b}.*", TooManyStates), ("($x{a})*", FormulaError)):
            with self.subTest(query), self.assertRaises(error):
                list(self.ask(query))
        wide = "(?s)a.{0,60}ana"
        with self.assertRaises(ValueError):
            self.ask(translate(wide, 0), states=127)
        with self.assertRaisesRegex(TooManyStates, "more than 128 states"):
            list(self.ask(translate(wide, 0), states=128))
        self.assertEqual(plain(self.ask(translate(wide, 0))), self.of_one_database(None, lambda db: db.query(wide)))
        for cursor in ("y=[1,2)", "x", "x=[1, 2)", "x=[1,2)\n", ""):
            with self.subTest(cursor), self.assertRaises(BadTuple):
                list(self.ask(documents=["long"], after=cursor))
        with self.assertRaises(UnknownName):
            self.ask(documents=["nosuch"])

    def test_tables(self) -> None:
        self.made()
        rows = self.of_one_database(1)
        lines = [json.loads(line) for line in (self.ask(limit=1).to_json_lines(spans=True) or "").splitlines()]
        expected = [
            {"document": name, "x": os.fsdecode(texts["x"]), "x_start": spans["x"][0], "x_end": spans["x"][1]}
            for name, _, spans, texts in rows
        ]
        self.assertEqual(lines, expected)
        table = self.ask(limit=1, documents=["f0.txt"]).to_csv(texts=False, spans=True)
        self.assertEqual(table, "document,x_start,x_end\nf0.txt,0,2\n")


class Failing(Folder):
    def test_damaged_images(self) -> None:
        """An image that isn't what was made is named, and spoils no other one; `make` makes it again."""

        def flip(image: Path) -> None:
            content = bytearray(image.read_bytes())
            content[20] ^= 1
            image.write_bytes(content)

        damages: dict[str, tuple[Callable[[Path], object], str]] = {
            "cut": (lambda image: os.truncate(image, 40), "the image is cut: it has 40 of"),
            "empty": (lambda image: os.truncate(image, 0), "the image is cut: it has 0 of"),
            "longer": (lambda image: image.write_bytes(image.read_bytes() + b"x"), "the image was changed"),
            "a byte": (flip, "the image was changed"),
            "another": (lambda image: shutil.copy(self.image(0), image), "the image"),
            "missing": (lambda image: image.unlink(), "the image isn't there"),
        }
        whole = self.made()
        expected = self.of_one_database(None)
        others = [it for it in expected if it[0] not in {document.name for document in whole.images[1].documents}]
        self.assertLess(len(others), len(expected))
        for damage, (do, reason) in damages.items():
            with self.subTest(damage):
                do(self.image(1))
                reported: list[shards.Failure] = []
                answers = self.ask(report=reported.append)
                rows: list[shards.Row] = []
                with self.assertRaises(shards.ShardsFailed) as failed:
                    rows += iter(lambda: next(answers), None)
                self.assertEqual(plain(rows), others)
                [failure] = failed.exception.failures
                self.assertEqual((failure.shard, failure.file), (1, whole.images[1].file))
                self.assertTrue(failure.reason.startswith(reason), failure.reason)
                self.assertEqual((answers.failures, reported), ([failure], [failure]))
                self.assertEqual(shards.check("parts", client=2), [failure])
                remade: list[bool] = []
                again = shards.make(FILES, "parts", shards=4, program=SHELL, client=1, report=lambda _, it: remade.append(it))
                self.assertEqual((again, sorted(remade)), (whole, [False] * (len(whole.images) - 1) + [True]))
                self.assertEqual((shards.check("parts", client=2), plain(self.ask())), ([], expected))

    def test_program_that_is_killed(self) -> None:
        self.made()
        for retries, deaths in ((1, 1), (0, 1)):
            with self.subTest(retries=retries):
                Path("die").touch()
                answers = self.ask(program=self.gate, client=1, retries=retries)
                if retries:
                    self.assertEqual(plain(answers), self.of_one_database(None))
                else:
                    with self.assertRaisesRegex(shards.ShardsFailed, "shard 0 .*signal SIGKILL"):
                        list(answers)
                self.assertEqual(Path("died").exists(), bool(deaths))

    def test_answers_that_are_left(self) -> None:
        """The rows of a shard come before a later one is done, and programs end with the answers."""
        self.made()
        answers = self.ask(program=self.gate, client=1)
        first = next(answers)
        self.assertEqual(plain([first]), self.of_one_database(1)[:1])
        Path("hold").touch()
        held = self.ask(program=self.gate, client=2)
        reader = concurrent.futures.ThreadPoolExecutor(1)
        reading = reader.submit(list, held)
        eventually(lambda: list(self.folder.glob("held-*")))
        answers.close()
        self.assertEqual(list(answers), [])
        Path("go").touch()
        self.assertEqual(plain(reading.result(PATIENCE)), self.of_one_database(None))
        reader.shutdown()

    def test_results_of_another_question(self) -> None:
        """Results that aren't those of this query, limit or image are rejected, wherever they come from."""
        self.made()
        tasks: list[shards.AskTask] = []
        results: list[Any] = []

        class Recorder(concurrent.futures.Executor):
            def submit(self, function: Any, /, *given: Any, **_: Any) -> Any:
                future: concurrent.futures.Future[Any] = concurrent.futures.Future()
                tasks.append(given[1])
                results.append(function(*given))
                future.set_result(results[-1])
                return future

        class Mixed(concurrent.futures.Executor):
            """Answers each task by a stale result for its shard."""

            def submit(self, function: Any, /, *given: Any, **_: Any) -> Any:
                future: concurrent.futures.Future[Any] = concurrent.futures.Future()
                future.set_result(next(it for it in results if it.shard == given[1].shard))
                return future

        expected = plain(self.ask(client=Recorder(), limit=2))
        self.assertEqual(plain(self.ask(client=Mixed(), limit=2)), expected)
        others: list[dict[str, Any]] = [{"query": OTHER_FORMULA, "limit": 2}, {"limit": 3}, {"limit": None}, {"texts": False, "limit": 2}]
        for other in others:
            with self.subTest(other), self.assertRaises(shards.ShardsFailed) as failed:
                self.assertIsNone(next(self.ask(client=Mixed(), **other)))
            self.assertEqual(len(failed.exception.failures), len(tasks))
        Path("f0.txt").write_bytes(b"other text")
        self.made()
        with self.assertRaises(shards.ShardsFailed) as failed:
            list(self.ask(client=Mixed(), limit=2))
        self.assertEqual([it.shard for it in failed.exception.failures], [0])


    def test_cluster_without_workers(self) -> None:
        class Client:
            """A client of a cluster whose workers are gone."""

            def submit(self, *_: Any, **__: Any) -> Any:
                return concurrent.futures.Future()

            def nthreads(self) -> dict[str, int]:
                return {}

        self.made()
        with self.assertRaisesRegex(shards.ClusterLost, "no worker"):
            next(self.ask(client=Client(), patience=0))


class Making(Folder):
    def make(self, *files: str, **how: Any) -> tuple[shards.Manifest, int]:
        """The manifest, and how many images were made."""
        new: list[bool] = []
        how = {"shards": 3, "program": SHELL, "client": 2, "report": lambda _, made: new.append(made), **how}
        return shards.make(files or FILES, "parts", **how), sum(new)

    def listed(self) -> list[str]:
        return sorted(it.name for it in Path("parts").iterdir())

    def test_make_again(self) -> None:
        manifest, made = self.make()
        self.assertEqual(made, len(manifest.images))
        self.assertEqual(self.listed(), sorted([*(image.file for image in manifest.images), "manifest.json"]))
        self.assertEqual(self.make(), (manifest, 0))
        # a file that is changed, and left-overs of a task whose machine failed
        Path("long").write_bytes(FILES["long"][::-1])
        Path("parts/0000-0123456789abcdef.part").touch()
        Path("parts/0000-0123456789abcdef.image").touch()
        again, made = self.make()
        self.assertEqual((made, len(again.images)), (1, len(manifest.images)))
        self.assertEqual(self.listed(), sorted([*(image.file for image in again.images), "manifest.json"]))
        # another number of shards, and other files
        self.assertGreater(self.make(shards=7)[1], 0)
        with self.assertRaisesRegex(shards.ManifestError, "has shards of other files"):
            self.make("f0.txt")
        other, _ = self.make("f0.txt", replace=True)
        self.assertEqual(self.listed(), [other.images[0].file, "manifest.json"])

    def test_failing_shards(self) -> None:
        """The shards that can be made are kept for the next call, and until then there is no manifest."""
        locked = Path("two/log")
        locked.unlink()
        os.mkfifo(locked)
        with self.assertRaisesRegex(shards.ManifestError, "two/log is no plain file"):
            self.make()
        locked.unlink()
        locked.write_bytes(FILES["two/log"])
        Path("die").touch()
        with self.assertRaisesRegex(shards.ShardsFailed, "shard .: .*: the program ended.*SIGKILL"):
            self.make(program=self.gate, retries=0)
        with self.assertRaisesRegex(shards.ManifestError, "aren't all made"):
            self.ask()
        manifest, made = self.make(program=self.gate, retries=0)
        self.assertEqual((made, plain(self.ask())), (1, self.of_one_database(None)))
        self.assertEqual(len(self.listed()), len(manifest.images) + 1)

    def test_rejected(self) -> None:
        with self.assertRaisesRegex(shards.ManifestError, "nosuch: No such file.*f0.txt occurs twice"):
            self.make("nosuch", "f0.txt", "f0.txt")
        with self.assertRaisesRegex(shards.ManifestError, "no files"):
            shards.make([], "parts")
        with self.assertRaises(ValueError):
            self.make(shards=0)
        self.assertFalse(Path("parts").exists())
        with self.assertRaisesRegex(shards.ManifestError, "no shards in parts"):
            self.ask()
        Path("parts").mkdir()
        Path("parts/notes.txt").touch()
        with self.assertRaisesRegex(shards.ManifestError, "has other files than shards, such as notes.txt"):
            self.make()
        Path("parts/notes.txt").unlink()
        self.make()
        good = Path("parts/manifest.json").read_bytes()
        for bad in (b"", b"{}", b"[]", good[:-5], good.replace(b"shards 1", b"shards 9"), good.replace(b'"0000-', b'"../0-')):
            with self.subTest(bad[:20]), self.assertRaises(shards.ManifestError):
                Path("parts/manifest.json").write_bytes(bad)
                self.ask()


def command(*words: str | Path, python: str = sys.executable, given: bytes = b"") -> subprocess.CompletedProcess[bytes]:
    """Runs spanbase-shards."""
    surroundings = {**os.environ, "PYTHONPATH": str(TOP / "python"), "SPANBASE_SHELL": SHELL}
    line = [python, "-m", "spanbase.cli.shards", *words]
    return subprocess.run(line, input=given, capture_output=True, env=surroundings, check=False, timeout=PATIENCE)


class Command(Folder):
    def test_command(self) -> None:
        names = b"\0".join(map(os.fsencode, FILES))
        made = command("make", "parts", "--shards", "3", "--local", "2", "--files-from", "-", "-0", "-q", given=names)
        self.assertEqual((made.returncode, made.stdout, made.stderr), (0, b"8 files in 3 images\n", b""))
        shown = command("ask", "parts", "a.", "--texts", "-q").stdout.splitlines()
        expected = plain(self.ask(translate("a.")))
        self.assertEqual(len(shown), len(expected))
        self.assertIn(rb"bytes" + b"\tmatch=[2,4)\ta\xff", shown)
        self.assertEqual(command("ask", "parts", "xyz").stdout, b"two/a file\\nof two lines\\t\tmatch=[1,4)\n")
        table: list[tuple[list[str | Path], int, bytes, bytes]] = [
            (["ask", "parts", "nowhere"], 1, b"", b""),
            (["ask", "parts", "br", "--limit", "1"], 0, b"f0.txt\tmatch=[2,4)\n", b"1 file has more answers"),
            (["ask", "parts", "br", "--document", "f0.txt", "--after", "match=[2,4)"], 0, b"f0.txt\tmatch=[9,11)\n", b""),
            (["ask", "parts", "BR", "-i", "--csv", "--limit", "1", "-q"], 0, b"document,match_start,match_end\nf0.txt,1,3\n", b""),
            (["ask", "parts", ".*$x{ca}.*", "--formula", "--json"], 0, b'{"document": "f0.txt", "x_start": 4, "x_end": 6}\n', b""),
            (["ask", "parts", "a("], 2, b"", b"at position 1"),
            (["ask", "parts", "a)", "--formula"], 2, b"", b"BadFormula"),
            (["ask", "parts", "bc.{0,200}banana"], 2, b"", b"capture a gap, as in (?P<match>bc(?P<gap>.{0,200})banana)"),
            (["ask", "--states", "128", "parts", "a.{0,60}bc"], 2, b"", b"the query has more than 128 states; capture a gap, as in"),
            (["ask", "parts", "br", "--after", "match=[2,4)"], 2, b"", b"--after needs one --document"),
            (["ask", "nosuch", "br"], 2, b"", b"there are no shards in nosuch"),
            (["make", "parts", "f0.txt"], 2, b"", b"has shards of other files"),
            (["make", "parts"], 2, b"", b"name files"),
            (["tell"], 2, b"", b"invalid choice"),
            (["ask", "parts", "br", "--scheduler", "tcp://127.0.0.1:1", "--wait", "1"], 2, b"", b"scheduler"),
        ]
        for words, status, out, said in table:
            with self.subTest(words):
                ran = command(*words)
                self.assertEqual((ran.returncode, ran.stdout), (status, out), ran.stderr)
                self.assertIn(said, ran.stderr)
                self.assertEqual(bool(ran.stderr), bool(said))
        self.assertEqual([command(it).returncode for it in ("--help", "--version")], [0, 0])
        os.truncate(self.image(1), 10)
        asked = command("ask", "parts", "br", "--limit", "all")
        self.assertEqual((asked.returncode, asked.stdout), (2, b"f0.txt\tmatch=[2,4)\nf0.txt\tmatch=[9,11)\n"))
        self.assertIn(b"spanbase-shards: shard 1 (" + self.image(1).name.encode(), asked.stderr)
        status = command("status", "parts")
        self.assertEqual(status.returncode, 2)
        self.assertEqual([line.split(b"\t")[4][:20] for line in status.stdout.splitlines()], [b"ok", b"the image is cut: it", b"ok"])


DASK = python_with("distributed.cli.dask_worker")


@unittest.skipUnless(DASK, "no Python here has distributed: apt-get install python3-distributed")
class Cluster(Folder):
    """A scheduler and four workers, each a process of its own."""

    def start(self, what: str, *words: str) -> subprocess.Popen[bytes]:
        """Starts a scheduler or a worker, whose tasks run the program with the gate."""
        line = [str(DASK), "-m", f"distributed.cli.dask_{what}", "--host", "127.0.0.1", "--no-dashboard", *words]
        surroundings = {**os.environ, "PYTHONPATH": str(TOP / "python"), "SPANBASE_SHELL": str(self.gate)}
        with open(f"{what}.log", "ab") as log:
            process = subprocess.Popen(line, env=surroundings, stdout=log, stderr=log)
        self.addCleanup(process.wait)
        self.addCleanup(process.kill)
        return process

    def on_cluster(self, *words: str) -> subprocess.Popen[bytes]:
        """Starts spanbase-shards on the cluster. It has no program itself."""
        surroundings = {**os.environ, "PYTHONPATH": str(TOP / "python"), "SPANBASE_SHELL": "/nosuch"}
        line = [str(DASK), "-m", "spanbase.cli.shards", *words, "--scheduler", self.scheduler, "--wait", "600", "-q"]
        process = subprocess.Popen(line, env=surroundings, stdout=subprocess.PIPE, stderr=subprocess.PIPE)
        self.addCleanup(process.communicate)
        self.addCleanup(process.kill)
        return process

    def ended(self, process: subprocess.Popen[bytes]) -> tuple[int, bytes, bytes]:
        """The status, the output, and standard error, where the scheduler's client may tell of calls that it repeats."""
        out, said = process.communicate(timeout=PATIENCE)
        return process.returncode, out, said

    def lines(self, formula: str) -> list[bytes]:
        """What `ask` prints, as found on this machine."""
        rows = self.ask(formula, limit=None, texts=False)
        return [b"%s\t%s" % (self.field(row.document), row.cursor.encode()) for row in rows]

    def field(self, name: str) -> bytes:
        return os.fsencode(name).replace(b"\n", rb"\n").replace(b"\t", rb"\t")

    def held(self, asking: subprocess.Popen[bytes]) -> subprocess.Popen[bytes]:
        """The worker whose task waits at the gate."""

        def waiting() -> list[Path]:
            if asking.poll() is not None:
                raise AssertionError(self.ended(asking))
            return list(self.folder.glob("held-*"))

        [found] = eventually(waiting)
        found.unlink()
        return next(it for it in self.workers if it.pid == int(found.name.removeprefix("held-")))

    def test_cluster(self) -> None:
        scheduler = self.start("scheduler", "--port", "0", "--scheduler-file", "scheduler.json")
        whole = Path("scheduler.json")
        eventually(lambda: scheduler.poll() is not None or (whole.exists() and whole.read_text()))
        self.scheduler = json.loads(whole.read_text())["address"]
        options = ["--no-nanny", "--nthreads", "1", "--local-directory", str(self.folder)]
        self.workers = [self.start("worker", self.scheduler, *options) for _ in range(4)]
        self.made(7)
        asked = ["ask", "parts", FORMULA, "--formula", "--limit", "all"]
        expected = self.lines(FORMULA)

        with self.subTest("another formula while the first one runs"):
            Path("hold").touch()
            first = self.on_cluster(*asked)
            self.held(first)
            status, out, said = self.ended(self.on_cluster("ask", "parts", OTHER_FORMULA, "--formula", "--limit", "all"))
            self.assertEqual((status, out.splitlines()), (0, self.lines(OTHER_FORMULA)), said)
            self.assertIsNone(first.poll())
            Path("go").touch()
            status, out, said = self.ended(first)
            self.assertEqual((status, out.splitlines()), (0, expected), said)
            Path("go").unlink()

        with self.subTest("workers that are killed in the middle of ask"):
            Path("hold").touch()
            asking = self.on_cluster(*asked)
            first_killed = self.held(asking)
            # one in the middle of a task, and one that has results of others, or will have
            first_killed.kill()
            next(it for it in self.workers if it is not first_killed).kill()
            status, out, said = self.ended(asking)
            self.assertEqual((status, out.splitlines()), (0, expected), said)

        with self.subTest("a worker that is killed in the middle of make"):
            Path("hold").touch()
            making = self.on_cluster("make", "others", *FILES, "--shards", "7")
            self.held(making).kill()
            self.assertEqual(self.ended(making)[::2], (0, b""))
            self.assertEqual(shards.Manifest.read("others"), shards.Manifest.read("parts"))
            self.assertEqual(sum(it.poll() is None for it in self.workers), 1)

        with self.subTest("an image that is cut"):
            os.truncate(self.image(1), 40)
            cut = {self.field(it.name) for it in shards.Manifest.read("parts").images[1].documents}
            status, out, said = self.ended(self.on_cluster(*asked))
            others = [line for line in expected if line.split(b"\t")[0] not in cut]
            self.assertEqual((status, out.splitlines()), (2, others))
            self.assertIn(b"shard 1 (" + self.image(1).name.encode() + b"): the image is cut", said)
