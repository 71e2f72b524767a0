"""The process behind a database: replies, refusals, pipes, interrupts, and how it ends."""
import gc
import os
import pickle
import signal
import subprocess
import sys
import time
import unittest
import unittest.mock
from pathlib import Path

import spanbase
from spanbase.errors import Refused, refusal
from spanbase.shell import Shell, quoted, shell_path, unquoted
from tests.support import PROGRAM, SHELL, ShellCase

# what a test waits for at most, in seconds
PATIENCE = 60.0


def is_running(pid: int) -> bool:
    try:
        os.kill(pid, 0)
    except ProcessLookupError:
        return False
    return "\nState:\tZ" not in Path(f"/proc/{pid}/status").read_text()


def has_ended(pid: int) -> bool:
    """Whether a process ends, for which it has some time."""
    until = time.monotonic() + PATIENCE
    while is_running(pid):
        if time.monotonic() > until:
            return False
        time.sleep(0.01)
    return True


class Talk(ShellCase):
    def shell(self, *arguments: str) -> Shell:
        shell = Shell(Path(SHELL), arguments, self.folder)
        self.addCleanup(shell.close)
        return shell

    def test_replies_are_those_of_a_script(self) -> None:
        lines = [
            b"text d banana", b"text end a", b"text done b", b"text line x", b"query q .*$x{an*}.*", b"list q d limit 2",
            b"", b"names", b"listall q limit 1", b"# list q d", b"show d 1 9", b"test q d", b"has q d x=[2,3)", b"frob",
            b"save kept", b"open kept", b"list q done", b"drop done", b"#" * 65537, b"names", b"list r d",
        ]  # fmt: skip
        script = subprocess.run([PROGRAM], input=b"\n".join(lines), stdout=subprocess.PIPE, cwd=self.folder, check=False)
        for shell, ask in [(self.shell(), "one"), (self.shell("--workers", "2"), "all")]:
            replies = shell.ask_all(lines) if ask == "all" else [shell.ask_all([line])[0] for line in lines]
            told: list[bytes] = []
            for reply in replies:
                if isinstance(reply, Refused):
                    told.append(b"line %d: %s" % (reply.line, " ".join([reply.word, *reply.values]).encode()))
                else:
                    told += reply
            self.assertEqual(told, script.stdout.splitlines())
        with self.assertRaises(ValueError):
            shell.ask(b"names\nnames")

    def test_full_pipes(self) -> None:
        """Lines and replies that are far longer than what pipes hold, at once."""
        shell = self.shell()
        shell.ask(b"text d " + b"\xff" * 60_000)
        lines = [b"show d %d %d" % (at, at + 4096) for at in range(1, 3001)] + [b"text e " + b"x" * 65_000] * 100
        replies = shell.ask_all(lines)
        self.assertEqual({bytes(it[0]) for it in replies[:3000]}, {b'"' + b"\\xff" * 4096 + b'"'})
        self.assertEqual({it[0][:10] for it in replies[3000:]}, {b"ok e 65000"})

    def test_quoting(self) -> None:
        every = bytes(range(256))
        shell = self.shell()
        (self.folder / "every").write_bytes(every)
        shell.ask(b"load d every")
        self.assertEqual(unquoted(shell.ask(b"show d 1 257")[0]), every)
        self.assertEqual(quoted(b'a"\\\n\r\t\x00\xff '), b'"a\\"\\\\\\n\\r\\t\\x00\\xff "')
        # what is read between quotes has more escapes than what is shown
        shown = quoted(every).replace(b"\\n", b"\\x0a").replace(b"\\r", b"\\x0d").replace(b"\\t", b"\\x09")
        self.assertEqual(unquoted(shown), every)

    def test_interrupts(self) -> None:
        """An interrupt may come at each wait. What was sent is done, and the next reply is that of the next line."""
        for wait in range(12):
            shell = self.shell()
            lines = [b"text d " + b"a" * 60_000, b"let d = concat(d,d)", b"show d 1 4096"] * 3
            original, waits = shell._exchange, 0

            def exchange() -> None:
                nonlocal waits
                waits += 1
                if waits == wait + 1:
                    raise KeyboardInterrupt
                original()

            with unittest.mock.patch.object(shell, "_exchange", exchange):
                try:
                    shell.ask_all(lines)
                except KeyboardInterrupt:
                    self.assertFalse(shell.is_settled)
            self.assertEqual(shell.ask(b"names"), [b"d 120000", b"end"])
            self.assertGreater(waits, min(wait, 3))
            shell.close()

    def test_an_interrupt_while_bytes_are_moved(self) -> None:
        """If it isn't known which bytes were moved, the shell is given up."""
        shell = self.shell()
        shell._moving = True
        for _ in range(2):
            with self.assertRaisesRegex(spanbase.ShellEnded, "interrupt"):
                shell.ask(b"names")
        self.assertTrue(has_ended(shell.pid))

    def test_a_shell_that_ends(self) -> None:
        cases = [
            (lambda it: os.kill(it.pid, signal.SIGKILL), -signal.SIGKILL, "signal SIGKILL"),
            (lambda it: it.close(), None, "closed"),
        ]
        for end, status, said in cases:
            shell = self.shell()
            shell.ask(b"text d a")
            end(shell)
            for _ in range(2):
                with self.assertRaisesRegex(spanbase.ShellEnded, said) as ended:
                    shell.ask(b"names")
                self.assertEqual(ended.exception.status, status)
        with self.assertRaisesRegex(spanbase.ShellEnded, "arguments") as ended:
            self.shell("--frob").ask(b"names")
        self.assertEqual(ended.exception.status, 2)
        self.assertEqual(str(pickle.loads(pickle.dumps(ended.exception))), str(ended.exception))

    def test_replies_before_the_end_are_read(self) -> None:
        """A shell that ends in the middle of many lines."""
        program = self.file("program", b"#!/bin/sh\nread line; echo ok; read line; echo ok; exit 6\n")
        program.chmod(0o755)
        shell = Shell(program, [], self.folder)
        self.addCleanup(shell.close)
        self.assertEqual(shell.ask(b"compact"), [b"ok"])
        with self.assertRaisesRegex(spanbase.ShellEnded, "out of memory"):
            shell.ask_all([b"compact"] * 100_000)

    def test_arguments(self) -> None:
        """A shell gets an option only where its own default isn't what is asked for."""
        program = self.file("program", b'#!/bin/sh\nwhile read line; do echo $# "$@"; done\n')
        program.chmod(0o755)
        cases: list[tuple[dict[str, int], bytes]] = [
            ({}, b"2 --states 1024"),
            ({"states": 128}, b"0"),
            ({"states": 129, "workers": 2}, b"4 --workers 2 --states 129"),
            ({"states": 128, "workers": 2}, b"2 --workers 2"),
        ]
        for options, arguments in cases:
            with self.subTest(options), spanbase.Database(program, **options) as database:
                self.assertEqual(database._shell.ask(b"compact"), [arguments])
        for states in (127, 1025):
            with self.assertRaises(ValueError):
                Shell(program, [], self.folder, states)

    def test_how_it_is_ended(self) -> None:
        """By close, by the end of a `with` block, by garbage collection, and by the end of the process."""
        with spanbase.Database(SHELL) as database:
            pid = database._shell.pid
            private = Path(os.fsdecode(database._folder))
            # an interrupt from the keyboard goes to the group of this process, and not to that of the shell
            self.assertEqual(os.getpgid(pid), pid)
            self.assertTrue(is_running(pid) and private.is_dir())
        self.assertTrue(has_ended(pid) and database.closed and not private.exists())
        database.close()
        database = spanbase.Database(SHELL)
        database["d"] = b"text"
        database.mark("v")
        database.queries["q"] = query = database.formula(b"$x{.*}")
        rows = list(query.rows("d"))
        pid, private = database._shell.pid, Path(os.fsdecode(database._folder))
        del database, query, rows
        gc.collect()
        self.assertTrue(has_ended(pid) and not private.exists())
        script = f"import spanbase; it = spanbase.Database({SHELL!r}); it['d'] = b'x'; print(it._shell.pid, flush=True)"
        for end in ("", "; import os; os.kill(os.getpid(), 9)"):
            ran = subprocess.run([sys.executable, "-c", script + end], stdout=subprocess.PIPE, check=False)
            self.assertTrue(has_ended(int(ran.stdout)))

    def test_a_reply_that_is_due_is_not_waited_for(self) -> None:
        program = self.file("program", b"#!/bin/sh\nread line; sleep 1000; echo ok\n")
        program.chmod(0o755)
        shell = Shell(program, [], self.folder)
        shell._exchange = unittest.mock.Mock(side_effect=KeyboardInterrupt)  # type: ignore[method-assign]
        with self.assertRaises(KeyboardInterrupt):
            shell.ask(b"compact")
        shell.close()
        self.assertTrue(has_ended(shell.pid))


class Program(unittest.TestCase):
    def test_which_program(self) -> None:
        with unittest.mock.patch.dict(os.environ, {"SPANBASE_SHELL": "/some/where"}):
            self.assertEqual(shell_path(None), Path("/some/where"))
            self.assertEqual(shell_path("/else/where"), Path("/else/where"))
            self.assertEqual(shell_path(b"sh"), Path(os.fsdecode(subprocess.check_output(["which", "sh"]).strip())))
        with self.assertRaises(FileNotFoundError) as missing:
            spanbase.Database("/nowhere/spanshell")
        self.assertIsInstance(missing.exception, spanbase.ProgramNotFound)

    def test_refusals(self) -> None:
        """Each has a class that says what went wrong to those who know Python's exceptions, and can be pickled."""
        cases = [
            ("Syntax", spanbase.BadCommand, ValueError),
            ("NoSuchDocument d", spanbase.UnknownName, KeyError),
            ("NoSuchQuery q", spanbase.UnknownName, KeyError),
            ("NoSuchVersion v", spanbase.UnknownName, KeyError),
            ("OutOfRange 3 2 4", spanbase.OutOfRange, IndexError),
            ("RangeTooWide 4097", spanbase.OutOfRange, IndexError),
            ("TooLong 562949953421312", spanbase.PastLimit, spanbase.Refused),
            ("TooManyMatches", spanbase.PastLimit, spanbase.Refused),
            ("TooManyAnswers", spanbase.PastLimit, spanbase.Refused),
            ("FormulaTooLong 2049", spanbase.BadQuery, ValueError),
            ("BadFormula", spanbase.BadQuery, ValueError),
            ("TooDeep", spanbase.BadQuery, ValueError),
            ("TooManyPositions", spanbase.BadQuery, ValueError),
            ("TooManyVariables", spanbase.BadQuery, ValueError),
            ("NotFunctional x", spanbase.BadQuery, ValueError),
            ("TooManyStates", spanbase.TooManyStates, spanbase.BadQuery),
            ("QueryTooLarge 129", spanbase.BadQuery, ValueError),
            ("NotOneVariable 2", spanbase.BadQuery, ValueError),
            ("BadTuple", spanbase.BadTuple, ValueError),
            ("OtherVariables", spanbase.BadTuple, ValueError),
            ("NoSuchFile f", spanbase.MissingFile, FileNotFoundError),
            ("CannotRead f", spanbase.FileNotReadable, PermissionError),
            ("CannotWrite f", spanbase.FileNotWritable, PermissionError),
            ("FileTooLong f", spanbase.FileTooLong, OSError),
            ("BadImage 2", spanbase.BadImage, ValueError),
            ("Unheard of", spanbase.Refused, spanbase.SpanbaseError),
        ]
        for text, kind, builtin in cases:
            with self.subTest(text):
                refused = refusal(7, text.encode(), b"line")
                self.assertIs(type(refused), kind)
                self.assertIsInstance(refused, builtin)
                word, *values = text.split()
                self.assertEqual((refused.word, refused.values, refused.line), (word, tuple(values), 7))
                self.assertTrue(str(refused).startswith(text) and (": " in str(refused) or word == "Unheard"), str(refused))
                copy = pickle.loads(pickle.dumps(refused))
                self.assertEqual((type(copy), str(copy), copy.args), (kind, str(refused), refused.args))


if __name__ == "__main__":
    unittest.main()
