"""The process behind a database: lines are sent to it, and the reply to each is read to its end."""
import contextlib
import os
import re
import select
import shutil
import signal
import subprocess
import tempfile
import threading
import weakref
from collections import deque
from collections.abc import Sequence
from pathlib import Path
from typing import IO, Self

from spanbase.errors import ProgramNotFound, Refused, ShellEnded, refusal
from spanbase.limits import FEWEST_STATES, LONGEST_LINE, MOST_STATES

__all__ = ["LAST_LINES", "REFUSAL", "Reply", "Shell", "has_no_reply", "quoted", "shell_path", "unquoted"]

Reply = list[bytes]

# the most bytes that one system call reads or writes
PIECE = 1 << 16
# how long a shell may take to end after the end of its input, in seconds
PATIENCE = 2.0
# the lines with which the reply to a command ends, where it isn't one line
LAST_LINES = {
    b"names": frozenset([b"end"]),
    b"list": frozenset([b"end", b"more"]),
    b"listall": frozenset([b"done"]),
}
REFUSAL = re.compile(rb"line (\d+): (.*)", re.DOTALL)
ESCAPE = re.compile(rb'\\(x[0-9a-f]{2}|["\\])')
SPECIAL = re.compile(rb'[^ !#-\[\]-~]')


def unquoted(shown: bytes) -> bytes:
    """The bytes that a text between quotes stands for, as `show` prints it."""
    inner = shown[1:-1]
    if b"\\" not in inner:
        return inner
    return ESCAPE.sub(lambda it: bytes.fromhex(it[1][1:].decode()) if len(it[1]) > 1 else it[1], inner)


def quoted(text: bytes) -> bytes:
    """The text between quotes, as `bytes` takes it."""
    named = {b'"': b'\\"', b"\\": b"\\\\", b"\n": b"\\n", b"\r": b"\\r", b"\t": b"\\t"}
    return b'"' + SPECIAL.sub(lambda it: named.get(it[0]) or b"\\x%02x" % it[0][0], text) + b'"'


def shell_path(program: str | bytes | os.PathLike[str] | os.PathLike[bytes] | None) -> Path:
    """The shell to start: the given one, a path or a command of the `PATH`; or $SPANBASE_SHELL; or that of the repository in
    which this package or the current folder is; or `spanshell` on the `PATH`."""
    given = os.fsdecode(program) if program is not None else os.environ.get("SPANBASE_SHELL")
    if given:
        found = None if os.sep in given else shutil.which(given)
        return Path(found or given).absolute()
    current = Path.cwd()
    for folder in [Path(__file__).resolve().parents[2], current, *current.parents]:
        if (folder / "spanshell").is_file() and (folder / "crates.txt").is_file():
            return folder / "spanshell"
    if found := shutil.which("spanshell"):
        return Path(found).absolute()
    raise ProgramNotFound(
        "spanshell wasn't found: set SPANBASE_SHELL to its path, put it on the PATH, or run in its repository"
    )


def checked_states(states: int) -> int:
    """The number of states that a query may have, if a program takes it."""
    if not FEWEST_STATES <= states <= MOST_STATES:
        raise ValueError(f"a query may have {FEWEST_STATES} to {MOST_STATES:,} states, not {states}")
    return states


def is_launcher(program: Path) -> bool:
    """Whether the program is a script, as that of the repository. It may first build the shell, and shows its progress."""
    with contextlib.suppress(OSError), open(program, "rb") as file:
        return file.read(2) == b"#!"
    return False


def has_no_reply(line: bytes) -> bool:
    return not line or (line.startswith(b"#") and len(line) <= LONGEST_LINE)


def end_process(process: "subprocess.Popen[bytes]", patience: float) -> int:
    """Ends the process by the end of its input, and by signals if that takes too long."""
    for stream in (process.stdin, process.stdout):
        if stream:
            with contextlib.suppress(OSError):
                stream.close()
    for sign in (None, signal.SIGTERM, signal.SIGKILL):
        if sign is not None:
            with contextlib.suppress(ProcessLookupError, PermissionError):
                os.killpg(process.pid, sign)
        with contextlib.suppress(subprocess.TimeoutExpired):
            return process.wait(patience if sign is None else max(patience, 1.0))
    return process.wait()


class Shell:
    """A running shell, whose queries may have `states` states. `ask` sends a line and returns the reply.

    The number of states is an argument of the program where it isn't the program's default. So a program without that option
    runs with the default.

    The process has a process group of its own, so Ctrl-C doesn't end it. After a `KeyboardInterrupt` the shell completes the
    lines that were being sent. Their replies are skipped before the next line is sent.
    """

    def __init__(
        self,
        program: Path,
        arguments: Sequence[str] = (),
        folder: Path | None = None,
        states: int = FEWEST_STATES,
    ) -> None:
        self.program = program
        self.states = checked_states(states)
        options = [] if states == FEWEST_STATES else ["--states", str(states)]
        self._lock = threading.RLock()
        self._errors: IO[bytes] | None = None if is_launcher(program) else tempfile.TemporaryFile()
        try:
            self._process = subprocess.Popen(
                [program, *arguments, *options],
                stdin=subprocess.PIPE,
                stdout=subprocess.PIPE,
                stderr=self._errors,
                cwd=folder,
                bufsize=0,
                process_group=0,
            )
        except OSError as error:
            raise ProgramNotFound(f"the program {program} can't be started: {error.strerror}") from None
        assert self._process.stdin and self._process.stdout
        self._input, self._output = self._process.stdin.fileno(), self._process.stdout.fileno()
        os.set_blocking(self._input, False)
        self._incoming = select.poll()
        self._incoming.register(self._output, select.POLLIN)
        self._both = select.poll()
        self._both.register(self._output, select.POLLIN)
        self._both.register(self._input, select.POLLOUT)
        # the lines whose replies weren't read yet, and the bytes of them that weren't sent yet
        self._pending: deque[bytes] = deque()
        self._unsent = memoryview(b"")
        self._count = 0
        # what was read: complete lines, of which those before `_next` were returned, and the beginning of a line
        self._lines: list[bytes] = []
        self._next = 0
        self._rest = b""
        # whether the state is being updated: if an interrupt comes then, the state is lost
        self._moving = False
        self._end: ShellEnded | None = None
        self._finalizer = weakref.finalize(self, end_process, self._process, PATIENCE)

    def __enter__(self) -> Self:
        return self

    def __exit__(self, *_: object) -> None:
        self.close()

    def __repr__(self) -> str:
        return f"<Shell {os.fspath(self.program)!r}{' closed' if self.closed else ''}>"

    @property
    def closed(self) -> bool:
        return not self._finalizer.alive

    @property
    def pid(self) -> int:
        return self._process.pid

    def ask(self, line: bytes) -> Reply:
        """Sends a line and returns the lines of the reply. Raises the rejection, if it is one."""
        [reply] = self.ask_all([line])
        if isinstance(reply, Refused):
            raise reply
        return reply

    def ask_all(self, lines: Sequence[bytes]) -> list[Reply | Refused]:
        """Sends many lines and returns the reply to each, or its rejection. Replies are read while lines are sent, so that no
        pipe stays full."""
        for line in lines:
            if b"\n" in line:
                raise ValueError("a line has no newline in it")
        with self._lock:
            self.settle()
            self._unsent = memoryview(b"".join([line + b"\n" for line in lines]))
            self._pending.extend(lines)
            replies = [self._reply() for _ in lines]
            # the last lines may have no reply
            while self._unsent:
                self._exchange()
            return replies

    def settle(self) -> None:
        """Completes lines whose call was interrupted, and skips their replies."""
        with self._lock:
            self._check()
            while self._pending:
                self._reply()
            while self._unsent:
                self._exchange()

    def settle_if_alive(self) -> None:
        with contextlib.suppress(ShellEnded):
            if not self.is_settled:
                self.settle()

    @property
    def is_settled(self) -> bool:
        """Whether the replies to all lines that were sent have been read."""
        return not self._pending and not self._unsent and not self._moving

    def _check(self) -> None:
        if self._moving and not self._end:
            self._stop("an interrupt came while a reply was being read")
        if self._end:
            raise ShellEnded(self._end.status, self._end.said)
        if self.closed:
            raise ShellEnded(None, "the database is closed")

    def _reply(self) -> Reply | Refused:
        """The reply to the first pending line."""
        line = self._pending[0]
        reply: Reply | Refused = []
        last = self._next
        if not has_no_reply(line):
            ends = LAST_LINES.get(line.split(b" ", 1)[0])
            refused = REFUSAL.fullmatch(self._line(last))
            if ends and not refused:
                while self._line(last) not in ends:
                    last += 1
            last += 1
            if refused:
                reply = refusal(int(refused[1]), refused[2], line, self.states)
            else:
                reply = self._lines[self._next : last]
        self._moving = True
        self._pending.popleft()
        self._next = last
        if self._next == len(self._lines):
            self._lines.clear()
            self._next = 0
        self._moving = False
        return reply

    def _line(self, place: int) -> bytes:
        while place >= len(self._lines):
            self._exchange()
        return self._lines[place]

    def _exchange(self) -> None:
        """Waits until something can be read or written, and does that."""
        ready = [it for it, _ in (self._both if self._unsent else self._incoming).poll()]
        self._moving = True
        if self._output in ready:
            piece = os.read(self._output, PIECE)
            if not piece:
                raise self._stop()
            lines = (self._rest + piece).split(b"\n")
            self._rest = lines.pop()
            self._lines += lines
        elif self._input in ready:
            try:
                sent = os.write(self._input, self._unsent[:PIECE])
            except BlockingIOError:
                sent = 0
            except BrokenPipeError:
                # the shell has ended; replies that it wrote before are read first
                self._unsent = memoryview(b"")
                sent = 0
            self._unsent = self._unsent[sent:]
        self._moving = False

    def _stop(self, said: str = "") -> ShellEnded:
        """Ends the process and returns the exception for it."""
        patience = PATIENCE if not said else 0.0
        self._finalizer.detach()
        status = end_process(self._process, patience)
        self._end = ShellEnded(status if not said else None, said or self._said())
        return self._end

    def _said(self) -> str:
        if self._errors is None:
            return ""
        self._errors.seek(0)
        return self._errors.read(1 << 16).decode(errors="replace").strip()

    def close(self) -> None:
        """Ends the shell by the end of its input, or at once if a reply is still missing."""
        with self._lock:
            if not self._finalizer.alive:
                return
            self._finalizer.detach()
            end_process(self._process, PATIENCE if self.is_settled else 0.0)
            if self._errors is not None:
                self._errors.close()
