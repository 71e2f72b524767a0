"""Documents, expressions, versions and files of a database, against bytes and dicts of Python."""
import contextlib
import json
import os
import pickle
import random
import stat
import subprocess
import threading
import unittest.mock
from collections.abc import Callable
from pathlib import Path
from typing import Any

import spanbase
from spanbase import Database, concat
from spanbase.expressions import Expression
from tests.support import PROGRAM, SHELL, TIMES, ShellCase

# what a file can be called
PATHS = [
    b"plain", b"with space", b"new\nline", b"\xff\xfe", b"\xc3\xa9t\xc3\xa9", b"'\"$(x);*?", b"-n", b"#", b"%s", b"tab\t",
    b"\\", b"a" * 250,
]  # fmt: skip
EVERY_BYTE = bytes(range(256))


def folder_of_long_path(folder: Path) -> Path:
    for _ in range(3):
        folder = folder / ("d" * 200)
        folder.mkdir()
    return folder


class Documents(ShellCase):
    def test_texts_of_any_bytes(self) -> None:
        texts = [
            b"", b"a", b"\n", b"\r\n", b" ", b'"', b"\\", b"\\x0a", b"a\nb" * 3, EVERY_BYTE, EVERY_BYTE * 40,
            EVERY_BYTE * 1100,
            b"x" * 65_530, b"x" * 65_536, b"\n" * 32_000, b"\n" * 33_000, b"\xff" * 20_000, b"\xff" * 263_000,
        ]  # fmt: skip
        for old in (False, True):
            database = self.database(old=old)
            for text in texts:
                with self.subTest(old=old, text=text[:20], length=len(text)):
                    database["d"] = text
                    self.assertEqual((len(database["d"]), bytes(database["d"])), (len(text), text))
            self.assertEqual(os.listdir(database._folder), [])
        for text in ("\u00e9\n", "plain", "\udcff", bytearray(b"ab\n"), memoryview(b"ab\n")):
            database["d"] = text
            wanted = text.encode("utf-8", "surrogateescape") if isinstance(text, str) else bytes(text)
            self.assertEqual(bytes(database["d"]), wanted)
        for wrong in (None, 5, ["a"]):
            with self.assertRaises(TypeError):
                database["d"] = wrong

    def test_the_mapping(self) -> None:
        database = self.database()
        self.assertTrue(database)
        database["b"], database["a"], database["b"] = b"1", b"2", b"333"
        self.assertEqual((list(database), len(database), database.names()), (["b", "a"], 2, ["b", "a"]))
        self.assertEqual({name: bytes(it) for name, it in database.items()}, {"b": b"333", "a": b"2"})
        self.assertEqual(("a" in database, "c" in database, 5 in database, database.get("c")), (True, False, False, None))
        self.assertEqual((database["a"] == database["a"], database["a"] == database["b"]), (True, False))
        document = database["b"]
        del database["b"]
        for use in (lambda: database["b"], lambda: document.length, lambda: bytes(document), lambda: document + b""):
            with self.assertRaises(KeyError) as missing:
                bytes(use())
            self.assertEqual((missing.exception.word, missing.exception.values), ("NoSuchDocument", ("b",)))
        with self.assertRaises(KeyError):
            del database["b"]
        self.assertEqual(str(missing.exception), "NoSuchDocument b: no document has the name b")

    def test_names(self) -> None:
        database = self.database()
        for name in ("a", "_", "A.b-c_9", "x" * 64, "concat", "end", "line"):
            database[name] = b"x"
            self.assertEqual((database.mark(name).name, bytes(database[name])), (name, b"x"))
        for name in ("", "9a", "a b", "a\n", "x" * 65, "\u00e9", "src/main.rs", "_spanbase.1"):
            for use in (database.mark, lambda it: database.formula(b"a", name=it), lambda it: database.edit(it, b"x")):
                with self.assertRaisesRegex(ValueError, "can't name a"):
                    use(name)
        with self.assertRaises(TypeError):
            database[b"a"] = b"x"  # type: ignore[index]

    def test_like_a_bytearray(self) -> None:
        database, model = self.database(), bytearray(EVERY_BYTE)
        database["d"] = model
        document = database["d"]
        places = [(0, 0), (3, 9), (-5, None), (None, -250), (None, None), (300, 400), (9, 3), (255, 256)]
        for start, stop in places:
            self.assertEqual(document.bytes(start, stop), bytes(model[start:stop]))
            self.assertEqual(bytes(document[start:stop]), bytes(model[start:stop]))
            self.assertEqual(len(document[start:stop]), len(model[start:stop]))
            document[start:stop] = model[start:stop] = b"new\n"
            self.assertEqual(bytes(document), bytes(model))
            del document[start:stop], model[start:stop]
            self.assertEqual(bytes(document), bytes(model))
            database["d"] = model = bytearray(EVERY_BYTE)
        self.assertEqual([document[at] for at in (0, 255, -1, -256)], [0, 255, 255, 0])
        database["d"] += b"tail"
        self.assertEqual(bytes(document), EVERY_BYTE + b"tail")
        for wrong, error in [
            (lambda: document[260], IndexError),
            (lambda: document[::2], ValueError),
            (lambda: document["a":], TypeError),
            (lambda: list(document), TypeError),
            (lambda: b"a" in document, TypeError),
            (lambda: document.__setitem__(5, b"x"), TypeError),
            (lambda: document + 5, TypeError),
        ]:
            with self.assertRaises(error):
                wrong()

    def test_random_expressions(self) -> None:
        rng = random.Random(3)
        database = self.database()
        texts = {"a": b"hello\n", "b": b"", "c": EVERY_BYTE}
        for name, text in texts.items():
            database[name] = text

        def grown(depth: int) -> tuple[Any, bytes]:
            kind = rng.randrange(8) if depth else rng.randrange(2)
            if kind == 0:
                name = rng.choice(list(texts))
                return database[name], texts[name]
            if kind == 1:
                text = rng.choice([b"", b"x", b"\n\n", b"yz"])
                return text, text
            left, one = grown(depth - 1)
            start, stop = (rng.choice([None, rng.randint(-9, 9)]) for _ in range(2))
            if kind in (2, 3):
                right, two = grown(depth - 1)
                return concat(left, right), one + two
            if kind == 4:
                times = rng.randint(0, 5)
                return concat(left) * times, one * times
            if kind == 5:
                return concat(left)[start:stop], one[start:stop]
            changed = bytearray(one)
            if kind == 6:
                del changed[start:stop]
                return concat(left).delete(start, stop), bytes(changed)
            right, two = grown(depth - 1)
            changed[start:stop] = two
            return concat(left).replace(start, stop, right), bytes(changed)

        for _ in range(200 * TIMES):
            expression, wanted = grown(rng.randint(1, 7))
            if len(wanted) > 5000:
                continue
            self.assertEqual(len(expression), len(wanted))
            database["r"] = expression
            self.assertEqual(bytes(database["r"]), wanted)
            if isinstance(expression, Expression) and expression.database():
                self.assertEqual(bytes(expression), wanted)
        self.assertEqual(database.names(), ["a", "b", "c", "r"])

    def test_large_expressions(self) -> None:
        """Those that are nested deep, are long, or share parts; and a text as long as there can be."""
        database = self.database()
        database["d"] = b"ab"
        nested = database["d"] + b""
        for number in range(500):
            nested = (nested + database["d"])[1:] if number % 2 else b"x" + nested
        text = b"ab"
        for number in range(500):
            text = (text + b"ab")[1:] if number % 2 else b"x" + text
        self.assertEqual((len(nested), bytes(nested)), (len(text), text))
        database["many"] = concat(*(database["d"][at % 3 :] for at in range(1500)))
        self.assertEqual(bytes(database["many"]), b"".join(b"ab"[at % 3 :] for at in range(1500)))
        doubled: Any = database["d"]
        for _ in range(46):
            doubled = doubled + doubled
        database["huge"] = doubled
        self.assertEqual((database["huge"].length, database["huge"][-1], database["huge"].bytes(-3)), (1 << 47, 98, b"bab"))
        database["longest"] = database["d"] * (1 << 47)
        self.assertEqual(len(database["longest"]), 1 << 48)
        with self.assertRaises(spanbase.PastLimit) as refused:
            database["longer"] = database["longest"] + b"c"
        self.assertEqual((refused.exception.word, refused.exception.values), ("TooLong", (str((1 << 48) + 1),)))
        self.assertEqual(database.names(), ["d", "many", "huge", "longest"])
        # names that were chosen for a moment are gone
        self.assertEqual(len(database.ask(b"names")), 5)

    def test_one_let_for_one_expression(self) -> None:
        database = self.database()
        database["log"], database["tail"] = EVERY_BYTE, b"tail"
        with unittest.mock.patch.object(database._shell, "ask_all", wraps=database._shell.ask_all) as sent:
            database["new"] = database["log"][10:20] + database["tail"]
            database["new"][3:5] = database["tail"][:1]
        self.assertEqual(
            [call.args[0] for call in sent.call_args_list],
            [[b"let new = concat(extract(log,11,21),tail)"], [b"let new = insert(delete(new,4,6),extract(tail,1,2),4)"]],
        )

    def test_two_databases(self) -> None:
        one, two = self.database(), self.database()
        one["d"], two["d"] = b"a", b"b"
        query = two.formula(b"$x{.}")
        for wrong in (
            lambda: one.edit("e", two["d"]),
            lambda: one["d"] + two["d"],
            lambda: query.count(one["d"]),
            lambda: one.replace("e", query, "d", b""),
            lambda: one.formula(b"a") | query,
            lambda: one.queries.__setitem__("q", query),
        ):
            with self.assertRaises(ValueError):
                made = wrong()
                one["e"] = made

    def test_raw_lines(self) -> None:
        """Lines of the script language between the calls."""
        database = self.database()
        database["d"] = b"ab"
        row = database.query("a").rows("d").first()
        self.assertEqual(database.ask(b"let e = concat(d,d)"), [b'ok e 4 "abab"'])
        self.assertEqual((list(database), len(database["e"])), (["d", "e"], 4))
        replies = database.ask_all([b"drop d", b"frob", b"text f x", b"show f 1 2"])
        self.assertEqual([replies[0], replies[1].word, replies[3]], [[b"ok"], "Syntax", [b'"x"']])
        self.assertEqual(list(database), ["e", "f"])
        with self.assertRaises(spanbase.DocumentChanged):
            row["match"].text
        with self.assertRaises(spanbase.BadCommand):
            database.ask(b"frob")
        database.mark("v")
        with self.assertRaises(ValueError):
            database.ask(b"back v")

    def test_threads(self) -> None:
        database = self.database()
        query = database.query(r"(?<!\d)\d+(?!\d)")
        failures: list[BaseException] = []

        def work(name: str) -> None:
            try:
                for number in range(60):
                    database[name] = b"%d," % number * 3
                    assert [row["match"].text for row in query.rows(name)] == [b"%d" % number] * 3
                    database[name][:1] = b""
                    assert len(database[name]) == 3 * len(b"%d," % number) - 1
            except BaseException as error:
                failures.append(error)

        threads = [threading.Thread(target=work, args=(f"d{number}",)) for number in range(6)]
        for thread in threads:
            thread.start()
        for thread in threads:
            thread.join()
        self.assertEqual(failures, [])


class Files(ShellCase):
    def test_any_path(self) -> None:
        """Loading, sharing, writing, saving and opening files of any name."""
        folder = folder_of_long_path(self.folder)
        for old in (False, True):
            for name in PATHS:
                with self.subTest(name, old=old):
                    path = os.fsencode(folder) + b"/" + name
                    database = self.database(old=old)
                    with open(path, "wb") as file:
                        file.write(EVERY_BYTE)
                    self.assertEqual(len(database.load("d", path)), 256)
                    self.assertEqual(bytes(database.share("e", path)), EVERY_BYTE)
                    database["d"] += b"\n" * 5
                    os.chmod(path, 0o640)
                    self.assertEqual(database["d"].write(Path(os.fsdecode(path))), 261)
                    with open(path, "rb") as file:
                        self.assertEqual(file.read(), EVERY_BYTE + b"\n" * 5)
                    self.assertEqual(stat.S_IMODE(os.stat(path).st_mode), 0o640)
                    database.write(database["d"][:4] + b"x", path)
                    with open(path, "rb") as file:
                        self.assertEqual(file.read(), EVERY_BYTE[:4] + b"x")
                    self.assertEqual(database.save(path).documents, 2)
                    if len(name) < 240:
                        database.formula(b"$x{.*}", name="q")
                        database.save(path)
                    opened = self.opened(Path(os.fsdecode(path)), old=old)
                    self.assertEqual({it: bytes(opened[it]) for it in opened}["e"], EVERY_BYTE)
                    self.assertEqual(list(opened.queries), ["q"] if len(name) < 240 else [])
                    for left in os.listdir(os.fsencode(folder)):
                        os.unlink(os.fsencode(folder) + b"/" + left)

    def test_files_that_are_refused(self) -> None:
        self.file("damaged", b"SLPI\x03")
        self.file("file", b"a")
        for old in (False, True):
            database = self.database(old=old)
            database["d"] = b"text"
            cases: list[tuple[Callable[[Path], object], str, type[Exception], str]] = [
                (lambda path: database.load("e", path), "missing", FileNotFoundError, "NoSuchFile"),
                (lambda path: database.share("e", path), "miss ing", FileNotFoundError, "NoSuchFile"),
                (lambda path: database.load("e", path), "file/below", FileNotFoundError, "NoSuchFile"),
                (lambda path: database.load("e", path), ".", PermissionError, "CannotRead"),
                (lambda path: database["d"].write(path), ".", PermissionError, "CannotWrite"),
                (lambda path: database["d"].write(path), "nowhere/file", PermissionError, "CannotWrite"),
                (database.save, "nowhere/file", PermissionError, "CannotWrite"),
                (lambda path: Database.open(path, SHELL), "missing", FileNotFoundError, "NoSuchFile"),
                (lambda path: Database.open(path, SHELL), "damaged", ValueError, "BadImage"),
            ]
            for use, name, kind, word in cases:
                with self.subTest(name, word=word, old=old):
                    path = self.folder / name
                    with self.assertRaises(spanbase.Refused) as refused:
                        use(path)
                    error: Any = refused.exception
                    self.assertIsInstance(error, kind)
                    self.assertEqual((error.word, error.file), (word, str(path)))
                    self.assertIn(str(path), str(error))
                    copy = pickle.loads(pickle.dumps(error))
                    self.assertEqual((str(copy), copy.file), (str(error), error.file))
                    if isinstance(error, OSError):
                        self.assertEqual((error.filename, copy.filename, error.errno > 0), (str(path), str(path), True))
            self.assertEqual({name: bytes(database[name]) for name in database}, {"d": b"text"})
        self.assertEqual(sorted(os.listdir(self.folder)), ["damaged", "file"])

    def test_links_and_devices(self) -> None:
        database = self.database()
        database["d"] = b"new" * 100_000
        target, link = self.file("target", b"old"), self.folder / "link"
        link.symlink_to(target)
        database["d"].write(link)
        self.assertEqual((link.is_symlink(), target.read_bytes()), (True, b"new" * 100_000))
        database["d"].write("/dev/null")
        reader, writer = os.pipe()
        with open(reader, "rb") as pipe:
            database["e"] = b"few"
            database["e"].write(f"/dev/fd/{writer}")
            os.close(writer)
            self.assertEqual(pipe.read(), b"few")

    def test_a_file_that_changes(self) -> None:
        """Texts are read from their file while it is unchanged, and from the database afterwards."""
        text = b"".join(b"line %d\n" % number for number in range(20_000))
        with unittest.mock.patch("spanbase.documents.COARSEST_TIME", 0):
            rewrite, cut = lambda it: it.write_bytes(text.replace(b"1", b"2")), lambda it: os.truncate(it, 9)
            for change in (None, rewrite, Path.unlink, cut):
                path = self.file("file", text)
                os.utime(path, ns=(1, 1))
                with unittest.mock.patch("time.time_ns", lambda: 1 << 62):
                    database = self.database()
                    database.load("d", path)
                self.assertIsNotNone(database["d"]._content.file)
                rows = list(database.query(r"(?m)^line (?P<x>\d*7)$").rows("d"))
                self.assertEqual((rows[0]["x"].text, rows[0]["x"].line), (b"7", 8))
                if change:
                    change(path)
                self.assertEqual(bytes(database["d"]), text)
                self.assertEqual([row["x"].text for row in rows], [b"%d" % it for it in range(7, 20_000, 10)])
                self.assertEqual([row["x"].line for row in rows], list(range(8, 20_000, 10)))
                self.assertEqual({row["x"].column for row in rows}, {6})


class Versions(ShellCase):
    def test_random_versions(self) -> None:
        """Versions, edits, images and ways back, against dicts. Saving and opening changes nothing that can be seen."""
        rng = random.Random(8)
        for round in range(4 * TIMES):
            database = self.database()
            model: dict[str, bytes] = {}
            versions: dict[str, dict[str, bytes]] = {}
            for step in range(120):
                kind = rng.randrange(9)
                name = rng.choice("abcd")
                if kind in (0, 1):
                    model[name] = rng.randbytes(rng.randint(0, 20))
                    database[name] = model[name]
                elif kind == 2 and model:
                    source = rng.choice(list(model))
                    model[name] = model[source]
                    database[name] = database[source]
                elif kind == 3 and name in model:
                    model[name] = model[name][:3] + b"+" + model[name][3:]
                    database[name][3:3] = b"+"
                elif kind == 4 and name in model:
                    del model[name], database[name]
                elif kind == 5:
                    versions[name] = dict(model)
                    self.assertEqual(database.mark(name).name, name)
                elif kind == 6 and name in versions:
                    model = dict(versions[name])
                    database.back(name)
                elif kind == 7 and name in versions:
                    del versions[name]
                    database.unmark(name)
                elif kind == 8 and rng.random() < 0.3:
                    database.compact()
                    database.save(self.folder / "image")
                    database.close()
                    database = self.opened(self.folder / "image")
                self.assertEqual((list(database), list(database.versions)), (list(model), list(versions)))
            self.assertEqual({it: bytes(database[it]) for it in database}, model)
            for version, documents in versions.items():
                found = database.versions[version]
                self.assertEqual({it: bytes(found[it]) for it in found}, documents)
                self.assertEqual(list(found), list(documents))
            # no document is kept for nothing
            kept = {text for it in database._versions.values() for text in it.values()}
            self.assertEqual(len(database.ask(b"names")) - 1, len(database) + len(kept))
            database.close()

    def test_documents_of_versions(self) -> None:
        """They are asked like others, without going back."""
        database = self.database()
        database["log"] = b"1 22 333"
        query = database.query(r"(?<!\d)\d+(?!\d)")
        database.mark("before")
        row = query.at("log", 1)
        database["log"][:4] = b""
        old = database.versions["before"]["log"]
        self.assertEqual([it["match"].text for it in query.rows(old)], [b"1", b"22", b"333"])
        self.assertEqual((query.count(old), query.count("log"), query.test(old)), (3, 1, True))
        self.assertEqual((repr(old), old == database["log"]), ("<Document 'log' of version 'before'>", False))
        self.assertEqual({name: len(page) for name, page in query.all().items()}, {"log": 1})
        database["log"] = old + b" 4444"
        self.assertEqual(bytes(database["log"]), b"1 22 333 4444")
        with self.assertRaises(TypeError):
            old[:1] = b"x"
        with self.assertRaises(spanbase.DocumentChanged):
            row["match"].text
        database.back("before")
        self.assertEqual((row["match"].text, row["match"].line), (b"22", 1))
        database.unmark("before")
        for wrong in (lambda: database.back("before"), lambda: database.versions["before"], lambda: database.unmark("x")):
            with self.assertRaises(KeyError) as missing:
                wrong()
            self.assertEqual(missing.exception.word, "NoSuchVersion")
        with self.assertRaises(KeyError):
            bytes(old)

    def saved(self, path: Path) -> Database:
        database = self.database()
        database["d"], database["e"] = b"abracadabra", b"x"
        database.mark("v1")
        database["d"] = b"new"
        words = database.query(r"a(?P<next>.)", name="next")
        whole = database.formula(b"$whole{.*}")
        database.queries["all"] = (words | whole).project("whole", "next")
        database.queries["both"] = words & whole
        database.save(path)
        return database

    def test_queries_come_back(self) -> None:
        path = self.folder / "image"
        self.saved(path)
        database = self.opened(path)
        self.assertEqual(list(database.queries), ["next", "all", "both"])
        old = database.versions["v1"]["d"]
        self.assertEqual([row["next"].text for row in database.queries["next"].rows(old)], [b"b", b"c", b"d", b"b"])
        self.assertEqual(database.queries["all"].variables, ("whole", "next"))
        self.assertEqual((database.queries["all"].count(old), database.queries["both"].count(old)), (5, 4))
        del database.queries["all"]
        with self.assertRaises(KeyError) as missing:
            database.queries["all"]
        self.assertEqual(missing.exception.word, "NoSuchQuery")
        # those that weren't used are kept as well
        again = self.opened(path)
        again.save(path)
        self.assertEqual(list(self.opened(path).queries), ["next", "all", "both"])

    def test_the_program_and_images(self) -> None:
        """The program opens what the package saved, and the package what the program saved."""
        path, plain = self.folder / "image", self.folder / "plain"
        self.saved(path)
        script = b"open image\nshow d 1 4\ndrop d\ntext f x\nsave plain\n"
        told = subprocess.run([PROGRAM], input=script, stdout=subprocess.PIPE, cwd=self.folder, check=True).stdout
        self.assertEqual(told.splitlines()[:2], [b"ok 4", b'"new"'])
        database = self.opened(plain)
        self.assertEqual((list(database)[0], list(database)[-1], list(database.versions)), ("e", "f", []))
        # texts of versions are shown where no side file says what they are, and nothing is lost
        self.assertIn(b"abracadabra", [bytes(database[name]) for name in database])
        database.mark("v")
        database["e"] = b"y"
        database.save(plain)
        self.assertEqual(bytes(self.opened(plain).versions["v"]["e"]), b"x")
        # an image without queries and versions has no file beside it
        database = self.database()
        database["d"] = b"x"
        database.save(self.folder / "alone")
        self.assertFalse((self.folder / "alone.queries").exists())

    def test_a_crash_while_saving(self) -> None:
        """Whatever the last step was, there is an image with its queries and versions."""
        path = self.folder / "image"
        self.saved(path)
        database = self.opened(path)
        database.mark("v2")
        database["d"] = b"newest"
        del database.queries["all"]
        for failing in range(4):
            original, calls = os.replace, 0

            def replace(*names: Any) -> None:
                nonlocal calls
                calls += 1
                if calls == failing + 1:
                    raise KeyboardInterrupt
                original(*names)

            with unittest.mock.patch("os.replace", replace), contextlib.suppress(KeyboardInterrupt):
                database.save(path)
            found = self.opened(path)
            text = bytes(found["d"])
            self.assertEqual(text, b"new" if failing < 2 else b"newest")
            self.assertEqual(list(found.versions), ["v1"] if failing < 2 else ["v1", "v2"])
            self.assertEqual("all" in found.queries, failing < 2)
            self.assertEqual(bytes(found.versions["v1"]["d"]), b"abracadabra")
            self.assertEqual(sorted(os.listdir(self.folder)), ["image", "image.queries"])

    def test_side_files_that_do_not_fit(self) -> None:
        path, side = self.folder / "image", self.folder / "image.queries"
        database = self.saved(path)
        content = side.read_text()
        described = json.loads(content)
        [image] = described["images"]
        other = json.loads(content)
        other["images"][0]["versions"]["v1"]["d"] = "nowhere"
        unknown = json.loads(content)
        unknown["images"][0]["queries"]["next"] = {"difference": []}
        cases = [
            (content[:50], "damaged"),
            ("", "damaged"),
            ("[]", "damaged"),
            ("\u00e9", "damaged"),
            (json.dumps({**described, "format": 9}), "format"),
            (json.dumps({**described, "images": []}), "doesn't describe"),
            (json.dumps({**described, "images": [{"digest": image["digest"], "size": 0}]}), "doesn't describe"),
            (json.dumps({**described, "images": [{key: image[key] for key in ("digest", "size")}]}), "damaged"),
            (json.dumps(other), "no document nowhere"),
        ]
        for text, said in cases:
            with self.subTest(said, text=text[:30]):
                side.write_text(text)
                with self.assertRaisesRegex(spanbase.SideFileError, said):
                    Database.open(path, SHELL)
        side.write_text(json.dumps(unknown))
        with self.assertRaisesRegex(spanbase.SideFileError, "can't be read"):
            self.opened(path).queries["next"]
        side.write_text("damaged")
        self.assertEqual(bytes(self.opened(path, side_file=False)["d"]), b"new")
        database.save(path)
        self.assertEqual(list(self.opened(path).versions), ["v1"])


class Interrupts(ShellCase):
    def test_interrupts_of_each_operation(self) -> None:
        """After an interrupt at any wait an operation was done or not, and all that can be asked fits together."""
        source = self.file("source", b"loaded " * 1000)

        def prepared() -> Database:
            database = self.database()
            database["a"], database["b"] = b"one", b"two" * 100
            database.mark("v")
            database["a"] = b"other"
            return database

        operations: dict[str, Callable[[Database], object]] = {
            "text": lambda it: it.edit("c", b"new"),
            "long text": lambda it: it.edit("c", b"new\n" * 50_000),
            "load": lambda it: it.load("c", source),
            "edit": lambda it: it.edit("c", it["a"] + b"\n" + it["b"][3:]),
            "delete": lambda it: it.__delitem__("a"),
            "mark": lambda it: it.mark("w"),
            "mark again": lambda it: it.mark("v"),
            "back": lambda it: it.back("v"),
            "unmark": lambda it: it.unmark("v"),
            "replace": lambda it: it.replace("c", it.formula(b".*$x{o}.*"), "b", b"-\n-"),
            "read": lambda it: bytes(it["b"][1:] + b"x"),
            "write": lambda it: it.write(it["b"] + b"x", self.folder / "written"),
            "save": lambda it: it.save(self.folder / "saved"),
        }
        for what, operation in operations.items():
            before = self.state(prepared())
            changed = prepared()
            operation(changed)
            after = self.state(changed)
            wait = -1
            interrupted = True
            while interrupted:
                wait += 1
                database = prepared()
                interrupted = self.interrupted(database, operation, wait)
                with self.subTest(what, wait=wait):
                    found = self.state(database)
                    self.assertIn(found[0], (before[0], after[0]))
                    self.assertIn(found[1], (before[1], after[1]))
                    # it can be done again
                    with contextlib.suppress(spanbase.UnknownName):
                        operation(database)
                    self.assertEqual(self.state(database)[0], after[0])
                    texts = {text for it in database._versions.values() for text in it.values()}
                    self.assertEqual(len(database.ask(b"names")) - 1, len(database) + len(texts))
                    self.assertEqual(os.listdir(database._folder), [])
                database.close()
            self.assertGreater(wait, 0)
        self.assertEqual(sorted(os.listdir(self.folder)), ["saved", "saved.queries", "source", "written"])

    @staticmethod
    def state(database: Database) -> tuple[dict[str, bytes], dict[str, dict[str, bytes]]]:
        versions = {
            name: {it: bytes(document) for it, document in version.items()} for name, version in database.versions.items()
        }
        return {name: bytes(document) for name, document in database.items()}, versions

    @staticmethod
    def interrupted(database: Database, operation: Callable[[Database], object], wait: int) -> bool:
        """Whether an interrupt came at that wait of an operation."""
        original, waits = database._shell._exchange, 0

        def exchange() -> None:
            nonlocal waits
            waits += 1
            if waits == wait + 1:
                raise KeyboardInterrupt
            original()

        with unittest.mock.patch.object(database._shell, "_exchange", exchange):
            try:
                operation(database)
            except KeyboardInterrupt:
                return True
        return False


if __name__ == "__main__":
    unittest.main()
