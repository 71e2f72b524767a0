"""spanbase-follow: what it prints as files grow, are replaced and truncated."""
import json
import os
import select
import signal
import subprocess
import sys
import unittest
from pathlib import Path

from support import TOOLS, environment, folder_with, ran_here

from spanbase.cli import follow as follow_tool

# how long at most an expected line is waited for, in seconds
PATIENCE = 300


class Running:
    """The tool, which follows files in a folder."""

    def __init__(self, folder: Path, *words: str):
        self.process = subprocess.Popen(
            [sys.executable, str(TOOLS / "follow"), "-s", "0.05", *words],
            stdout=subprocess.PIPE,
            stderr=subprocess.PIPE,
            cwd=folder,
            env=environment(),
        )
        self.rest = {self.process.stdout: b"", self.process.stderr: b""}

    def line(self, stream=None) -> bytes:
        """The next line of standard output, or of another stream."""
        stream = stream or self.process.stdout
        while b"\n" not in self.rest[stream]:
            if not select.select([stream], [], [], PATIENCE)[0] or not (piece := os.read(stream.fileno(), 1 << 16)):
                raise AssertionError("the tool wrote nothing more")
            self.rest[stream] += piece
        line, _, self.rest[stream] = self.rest[stream].partition(b"\n")
        return line

    def told(self) -> bytes:
        return self.line(self.process.stderr)

    def end(self) -> int:
        self.process.send_signal(signal.SIGINT)
        try:
            return self.process.wait(PATIENCE)
        finally:
            self.process.stdout.close()
            self.process.stderr.close()


def append(path: Path, text: bytes) -> None:
    with open(path, "ab") as file:
        file.write(text)


class Follow(unittest.TestCase):
    def test_a_file_that_grows(self):
        """Lines are searched when they are complete; a file that is replaced or truncated is read from its beginning."""
        with folder_with({"log": b"old error\nerror 1\n"}) as folder:
            log, running = folder / "log", Running(folder, "-n", "1", "error", "log")
            self.assertEqual(running.line(), b"error 1")
            append(log, b"fine\nerror 2\nhalf an err")
            self.assertEqual(running.line(), b"error 2")
            append(log, b"or 3\nno\n\nerror 4\nerror 5 \xff")
            self.assertEqual([running.line(), running.line()], [b"half an error 3", b"error 4"])
            log.rename(folder / "log.1")
            (folder / "new").write_bytes(b"error 6\nfine\n")
            (folder / "new").rename(log)
            self.assertEqual([running.line(), running.line()], [b"error 5 \xff", b"error 6"])
            self.assertIn(b"log: ", running.told())
            with open(log, "wb") as file:
                file.write(b"error 7\n")
            self.assertEqual(running.line(), b"error 7")
            self.assertEqual(running.end(), 130)

    def test_files_that_come_later(self):
        with folder_with({"a": b""}) as folder:
            running = Running(folder, "-o", r"(?P<key>\w+)=(?P<value>\w+)", "a", "b")
            self.assertEqual(running.told(), b"spanbase-follow: b: No such file or directory; waiting for it")
            append(folder / "b", b"k=v\n")
            self.assertIn(running.line(), (b"b:k\tv",))
            self.assertEqual(running.told(), b"spanbase-follow: b: has appeared")
            append(folder / "a", b"x=y\n")
            self.assertEqual(running.line(), b"a:x\ty")
            self.assertEqual(running.end(), 130)

    def test_where_it_begins(self):
        text = b"".join(b"%d\n" % number for number in range(30))
        cases = [
            ([], text, "20 21 22 23 24 25 26 27 28 29"),
            (["-n", "2"], text, "28 29"),
            (["-n", "2"], text + b"tail", "29 tail"),
            (["-n", "0"], text + b"tail", "tail"),
            (["-n", "0"], text, ""),
            (["-n", "+29"], text, "28 29"),
            (["-n", "+1"], b"", ""),
            (["-n", "99"], b"\n1\n", " 1"),
            (["-n", "+99"], text, ""),
        ]
        for words, content, wanted in cases:
            with self.subTest(words=words), folder_with({"f": content}) as folder:
                status, out, told = ran_here(follow_tool.main, "--once", *words, "^.*$", "f", folder=folder)
                self.assertEqual((out.decode().split("\n")[:-1], told), (wanted.split(" ") if wanted else [], ""))
                self.assertEqual(status, 0 if wanted else 1)

    def test_forms_and_troubles(self):
        with folder_with({"f": b"aa b\xff\n"}) as folder:
            _, out, _ = ran_here(follow_tool.main, "--once", "--json", r"(?P<x>.)(?P<y>\xff)?$", "f", folder=folder)
            found = [json.loads(line)["texts"] for line in out.splitlines()]
            self.assertEqual(found, [{"x": "b", "y": "\udcff"}, {"x": "\udcff", "y": None}])
            self.assertEqual(ran_here(follow_tool.main, "--once", "-o", "A", "-i", "f", folder=folder)[1], b"a\na\n")
            for words, told in [
                (["a(", "f"], "the group isn't closed"),
                (["-n", "x", "a", "f"], "-n needs a number of lines"),
                (["-s", "x", "a", "f"], "'x' is no number of seconds"),
                (["a", "-"], "standard input can't be followed"),
                (["a"], "the following arguments are required: FILE"),
            ]:
                status, out, said = ran_here(follow_tool.main, *words, folder=folder)
                self.assertEqual((status, out), (2, b""))
                self.assertIn(told, said)


if __name__ == "__main__":
    unittest.main()
