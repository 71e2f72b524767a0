"""spanshell against spanbase, however its lines come."""
import os
import pty
import random
import re
import select
import subprocess
import tempfile
import threading
import time
import unittest
from pathlib import Path

from support import PROGRAM, SHELL, TIMES, TOOLS, needs_shell, tool_as_module

cases = tool_as_module("run", TOOLS.parent / "cases")

# what a test waits for at most, in seconds
PATIENCE = 60
# the status of a script that is longer than spanbase takes, which the shell takes
TOO_LONG = 7


def pieces_of(script: bytes, step: int) -> list[bytes]:
    return [script[at : at + step] for at in range(0, len(script), step)]


def random_pieces(script: bytes, rng: random.Random) -> list[bytes]:
    ends = sorted({0, len(script), *(rng.randint(0, len(script)) for _ in range(8))})
    return [script[start:end] for start, end in zip(ends, ends[1:])]


def run_in_pieces(program: Path, case, folder: Path, pieces: list[bytes], pause: float) -> tuple[int, bytes, str]:
    """Runs the program on a script that comes in pieces."""
    how = {"stdin": subprocess.PIPE, "stdout": subprocess.PIPE, "stderr": subprocess.PIPE, "cwd": folder, "bufsize": 0}
    with subprocess.Popen([program, *case.words], **how) as it:

        def send() -> None:
            try:
                for piece in pieces:
                    it.stdin.write(piece)
                    time.sleep(pause)
                it.stdin.close()
            except BrokenPipeError:
                pass

        sender = threading.Thread(target=send)
        sender.start()
        wrote, said = it.stdout.read(), it.stderr.read().decode(errors="replace")
        sender.join(PATIENCE)
    return it.returncode, wrote, said


def outcome(run, case) -> tuple[int, bytes, str, dict[str, bytes]]:
    """What a run in a folder with the case's files gives: status, output, the first line of what it said, and the files."""
    with tempfile.TemporaryDirectory() as room:
        folder = Path(room)
        cases.put_files(folder, case.files)
        for name, (size, byte) in case.made.items():
            cases.make_file(folder / name, size, byte)
        status, wrote, said = run(case, folder)
        return status, wrote, said.split("\n")[0], cases.files_below(folder) if not case.made else {}


@needs_shell
class Shell(unittest.TestCase):
    """The shell as a program."""

    def agrees(self, case, run, wanted) -> None:
        self.assertEqual(outcome(run, case), wanted, case.name)

    def test_cases(self):
        """Every case is what it is with spanbase: whole, short ones byte by byte, and some with pauses."""
        rng = random.Random(5)
        short = 0
        for case in cases.every_case():
            if case.status == TOO_LONG:
                continue
            wanted = outcome(lambda it, folder: cases.run(PROGRAM, it, folder), case)
            self.agrees(case, lambda it, folder: cases.run(SHELL, it, folder), wanted)
            if case.streams or len(case.script) > 4000:
                continue
            by_bytes = pieces_of(case.script, 1)
            self.agrees(case, lambda it, folder: run_in_pieces(SHELL, it, folder, by_bytes, 0), wanted)
            if short % 8 == 0:
                pieces = random_pieces(case.script, rng)
                self.agrees(case, lambda it, folder: run_in_pieces(SHELL, it, folder, pieces, 0.02), wanted)
            short += 1

    def test_a_script_longer_than_spanbase_takes(self):
        script = b"# " + b"x" * 60_000 + b"\n"
        ran = subprocess.run([SHELL], input=script * 400 + b"names", capture_output=True, check=False)
        self.assertEqual((ran.returncode, ran.stdout, ran.stderr), (0, b"end\n", b""))

    def test_long_lines(self):
        """A line of more than 65,536 bytes is Syntax."""
        longest = b"text d " + b"a" * (65536 - 7)
        head = b'ok d 65529 "' + b"a" * 32 + b'"\n'
        for line, reply, listing in [
            (longest, head, b"d 65529\nend\n"),
            (longest + b"a", b"line 1: Syntax\n", b"end\n"),
            (b"#" + b" " * 65535, b"", b"end\n"),
            (b"#" + b" " * 65536, b"line 1: Syntax\n", b"end\n"),
        ]:
            for script, wanted in [(line + b"\nnames\n", reply + listing), (line, reply)]:
                ran = subprocess.run([SHELL], input=script, capture_output=True, check=False)
                self.assertEqual((ran.stdout, ran.stderr), (wanted, b""))

    def test_a_very_long_line_is_not_held(self):
        sizes = []
        for length in (1 << 17, 1 << 25):
            with subprocess.Popen([SHELL], stdin=subprocess.PIPE, stdout=subprocess.PIPE, bufsize=0) as it:
                it.stdin.write(b"text d ")
                for _ in range(length >> 16):
                    it.stdin.write(b"a" * (1 << 16))
                it.stdin.write(b"\nnames\n")
                self.assertEqual([it.stdout.readline(), it.stdout.readline()], [b"line 1: Syntax\n", b"end\n"])
                sizes.append(int(re.search(r"VmHWM:\s+(\d+) kB", Path(f"/proc/{it.pid}/status").read_text())[1]))
                it.stdin.close()
        self.assertLess(sizes[1], sizes[0] + 4096)

    def test_each_reply_comes_before_the_next_line(self):
        lines = [b"text d abc", b"", b"show d 1 3", b"# note", b"frob", b"names", b"let e = concat(d,d)"]
        wanted = [b'ok d 3 "abc"\n', b"", b'"ab"\n', b"", b"line 5: Syntax\n", b"d 3\nend\n", b'ok e 6 "abcabc"\n']
        with subprocess.Popen([SHELL], stdin=subprocess.PIPE, stdout=subprocess.PIPE, bufsize=0) as it:
            for line, reply in zip(lines, wanted):
                for piece in (line[:2], line[2:] + b"\n"):
                    it.stdin.write(piece)
                got = b""
                while len(got) < len(reply):
                    self.assertTrue(select.select([it.stdout], [], [], PATIENCE)[0], line)
                    got += os.read(it.stdout.fileno(), len(reply))
                self.assertEqual(got, reply)
                self.assertFalse(select.select([it.stdout], [], [], 0.01)[0], line)
            it.stdin.write(b"show e 4 7")
            self.assertFalse(select.select([it.stdout], [], [], 0.1)[0])
            it.stdin.close()
            self.assertEqual(it.stdout.read(), b'"abc"\n')
        self.assertEqual(it.returncode, 1)

    def test_a_client_that_goes_away(self):
        with subprocess.Popen([SHELL], stdin=subprocess.PIPE, stdout=subprocess.PIPE, stderr=subprocess.PIPE) as it:
            it.stdout.close()
            it.stdin.write(b"names\n")
            it.stdin.flush()
            self.assertEqual(it.stderr.read(), b"spanbase: OutFault\n")
        self.assertEqual(it.returncode, 4)

    def test_prompts_at_a_terminal(self):
        ours, theirs = pty.openpty()
        with subprocess.Popen([SHELL], stdin=theirs, stdout=subprocess.PIPE, stderr=theirs) as it:
            os.close(theirs)
            said = b""

            def wait_for(text: bytes) -> None:
                nonlocal said
                while text not in said:
                    self.assertTrue(select.select([ours], [], [], PATIENCE)[0], said)
                    said += os.read(ours, 1000)

            wait_for(b"1> ")
            os.write(ours, b"text d abc\n")
            self.assertEqual(it.stdout.readline(), b'ok d 3 "abc"\n')
            wait_for(b"2> ")
            os.write(ours, b"\n")
            wait_for(b"3> ")
            os.write(ours, b"\x04")
            self.assertEqual(it.stdout.read(), b"")
        os.close(ours)
        self.assertEqual((it.returncode, re.findall(rb"\d+> ", said)), (0, [b"1> ", b"2> ", b"3> "]))

    def test_no_prompts_elsewhere(self):
        ran = subprocess.run([SHELL], input=b"names\n", capture_output=True, check=False)
        self.assertEqual((ran.returncode, ran.stdout, ran.stderr), (0, b"end\n", b""))

    def test_ten_thousand_lines(self):
        rng = random.Random(9)
        words = [bytes(rng.choices(b"ab", k=rng.randint(0, 30))) for _ in range(10_000)]
        lines = [
            line
            for number, word in enumerate(words)
            for line in [b"text d%d %s" % (number % 50, word), b"# %d" % number, b"test q d%d" % rng.randint(0, 49)]
        ]
        script = b"\n".join([b"query q .*$x{aab}.*", *lines][: 10_000 * TIMES])
        wrote = [subprocess.run([it], input=script, stdout=subprocess.PIPE, check=False).stdout for it in (PROGRAM, SHELL)]
        self.assertEqual(wrote[0], wrote[1])
