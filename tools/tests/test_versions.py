"""spanbase-versions: all versions that the program makes of its scripts, against the texts; its folder and its questions."""
import random
import shutil
import subprocess
import tempfile
import unittest
from pathlib import Path

import spanbase
from support import SHELL, TIMES, Ran, ran_here, replies

from spanbase.cli import _diff as diff
from spanbase.cli import versions
from spanbase.shell import unquoted

WORDS = [b"alpha", b"beta", b"gamma\t", b"delta\r", b"\n", b"\n\n", b"\xff\x00", b" "]


class Diff(unittest.TestCase):
    def test_edits_make_the_new_text(self):
        rng = random.Random(41)
        for _ in range(1000 * TIMES):
            old = b"".join(rng.choices(WORDS, k=rng.randint(0, 30)))
            new = old
            for _ in range(rng.randint(0, 4)):
                at, end = sorted(rng.randint(0, len(new)) for _ in range(2))
                new = new[:at] + b"".join(rng.choices(WORDS, k=rng.randint(0, 6))) + new[end:]
            edits = diff.edits_between(old, new, rng.random() < 0.5)
            made = old
            for edit in reversed(edits):
                made = made[: edit.start] + edit.new + made[edit.end :]
            self.assertEqual(made, new)
            self.assertTrue(all(one.end <= other.start for one, other in zip(edits, edits[1:])), edits)


class Versions(unittest.TestCase):
    def setUp(self) -> None:
        folder = tempfile.TemporaryDirectory()
        self.addCleanup(folder.cleanup)
        self.folder = Path(folder.name)

    def ran(self, *words: str | Path) -> Ran:
        return ran_here(versions.main, *words, folder=self.folder)

    def make(self, *words: str) -> str:
        status, out, told = self.ran("--check", *words)
        self.assertEqual((status, told), (0, ""))
        return out.decode()

    def index(self) -> list[list[str]]:
        return [line.split("\t") for line in (self.folder / "out/index.tsv").read_text().splitlines()]

    def assert_documents(self, texts: list[bytes]) -> None:
        """Runs the script, and compares every version with its text by `show`."""
        out = self.folder / "out"
        names = [line[0] for line in self.index()[1:]]
        script = [line for line in (out / "script").read_bytes().splitlines() if not line.startswith(b"#")]
        shows = [b"show %s 1 %d" % (name.encode(), len(text) + 1) for name, text in zip(names, texts)]
        files = {name: (out / name).read_bytes() for name in ("first", "added")}
        told = replies([*script, *shows], files)[len(script) :]
        self.assertEqual([unquoted(reply[0]) for reply in told], texts)

    def random_texts(self) -> list[bytes]:
        rng = random.Random(42)
        lines = [b"".join(rng.choices(WORDS[:4], k=3)) + b"\n" for _ in range(60)]
        texts = [b"".join(lines)]
        for _ in range(20):
            for _ in range(rng.choice([0, 1, 3, 40])):
                at = rng.randrange(len(lines))
                lines[at : at + rng.randint(0, 2)] = [b"line %d\n" % rng.randint(1, 9)] * rng.randint(0, 2)
            texts.append(b"".join(lines))
        return [*texts, b"", b"last\n"]

    def test_files(self):
        texts = self.random_texts()
        names = [f"file {number}" for number in range(len(texts))]
        for name, text in zip(names, texts):
            (self.folder / name).write_bytes(text)
        for option in ([], ["--bytes"]):
            self.assertIn(f"{len(texts)} versions with {sum(map(len, texts))} bytes in all", self.make(*option, "out", *names))
            self.assert_documents(texts)

    @unittest.skipUnless(shutil.which("git"), "git isn't there")
    def test_git(self):
        texts = self.random_texts()[:6]
        texts = [text for text, before in zip(texts, [None, *texts]) if text != before]
        as_someone = ["-c", "user.name=A", "-c", "user.email=a@example.org", "-c", "commit.gpgsign=false"]

        def git(*words: str) -> None:
            subprocess.run(["git", "-C", self.folder / "kept", *as_someone, *words], capture_output=True, check=True)

        (self.folder / "kept/below").mkdir(parents=True)
        git("init")
        for number, text in enumerate(texts):
            (self.folder / "kept/below/it").write_bytes(text)
            git("add", "below/it")
            git("commit", "-m", f"version {number}")
        self.make("--git", "kept", "out", "below/it")
        self.assert_documents(texts)
        log = subprocess.run(["git", "-C", self.folder / "kept", "log", "--format=%H"], capture_output=True, check=True)
        hashes = log.stdout.decode().split()[::-1]
        self.assertEqual(
            [line[:1] + line[2:3] + line[4:] for line in self.index()[1:]],
            [[f"c{it[:12]}", it, f"version {number}"] for number, it in enumerate(hashes)],
        )
        self.make("--git", "kept/below", "--last", "2", "out", "it")
        self.assert_documents(texts[-2:])

    def test_which_versions_contain(self):
        for number, text in enumerate([b"a\nb\n", b"a\nc b\n", b"a\n", b""]):
            (self.folder / f"f{number}").write_bytes(text)
        self.make("--save", "image", "out", "f0", "f1", "f2", "f3")
        lines = (self.folder / "out/index.tsv").read_bytes().splitlines(keepends=True)[1:]
        cases: list[tuple[list[str], tuple[int, bytes]]] = [
            (["b"], (0, lines[0] + lines[1])),
            (["^C", "-i"], (0, lines[1])),
            (["x"], (1, b"")),
            (["b$", "--without"], (0, lines[2] + lines[3])),
        ]
        for made in (False, True):
            if made:
                with spanbase.Database(SHELL) as database:
                    versions.run_script(database, self.folder / "out", (self.folder / "out/script").read_bytes().splitlines())
                    database.save(self.folder / "out/image")
            for words, wanted in cases:
                with self.subTest(words=words, made=made):
                    self.assertEqual(self.ran("--containing", *words, "out"), (*wanted, ""))

    def test_a_folder_of_others(self):
        """A folder that has files of others is refused, and nothing in it changes."""
        (self.folder / "a").write_bytes(b"a")
        self.make("out", "a")
        self.make("--save", "image", "out", "a")
        (self.folder / "out/image").write_bytes(b"an image")
        self.make("out", "a")
        (self.folder / "out/mine").write_bytes(b"mine")
        (self.folder / "notes").mkdir()
        (self.folder / "notes/script").write_bytes(b"mine")
        for name in ("out", "notes", "a"):
            with self.subTest(name=name):
                before = {it: it.read_bytes() for it in self.folder.rglob("*") if it.is_file()}
                status, out, told = self.ran(name, "a")
                self.assertEqual((status, out), (2, b""))
                self.assertIn("not a folder" if name == "a" else "the tool didn't make", told)
                self.assertEqual({it: it.read_bytes() for it in self.folder.rglob("*") if it.is_file()}, before)

    def test_bad_input(self):
        (self.folder / "a").write_bytes(b"a")
        cases = [
            (["out", "a", "nowhere"], "nowhere: no such file"),
            (["out", "."], ".: not a regular file"),
            (["out", "--git", "nowhere", "a"], "git says: fatal"),
            (["out", "--git", ".", "a", "b"], "with --git there is one file"),
            (["out", "a", "--check", "--program", "/nowhere"], "the program /nowhere can't be started"),
            (["out"], "name files to make a folder, or --containing to ask one"),
            (["--containing", "x", "nowhere"], "nowhere isn't a folder that spanbase-versions made"),
        ]
        for words, said in cases:
            with self.subTest(words=words):
                status, out, told = self.ran(*words)
                self.assertEqual((status, out), (2, b""), told)
                self.assertIn(f"spanbase-versions: {said}", told)

    def test_a_check_that_fails(self):
        script = versions.Script(False)
        script.add(versions.Version("v1", b"abc\n", "one"))
        script.add(versions.Version("v2", b"abd\n", "two"))
        script.finish(None)
        (self.folder / "first").write_bytes(script.first)
        (self.folder / "added").write_bytes(script.added)
        with spanbase.Database(SHELL) as database:
            script.check(database, self.folder)
            script.last = b"abe\n"
            with self.assertRaisesRegex(versions.Trouble, "v2 has other bytes"):
                script.check(database, self.folder)
            script.lengths["v1"] = 5
            with self.assertRaisesRegex(versions.Trouble, "v1 has 4 bytes in the program, and must have 5"):
                script.check(database, self.folder)


if __name__ == "__main__":
    unittest.main()
