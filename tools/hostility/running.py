"""Running the program under limits, and what a part found."""
import contextlib
import math
import os
import resource
import signal
import subprocess
import tempfile
import threading
from collections.abc import Iterator, Sequence
from dataclasses import dataclass, field
from pathlib import Path

from .tracing import Watch, follow, trace_me

# what the first line on standard error says of an exit status
WORDS = {2: "Usage", 3: "ScriptFault", 4: "OutFault", 5: "ShelfFault", 6: "NoMemory", 7: "ScriptTooLong"}

# a run may take so many times as long on the clock as it may take of the processor
PATIENCE = 10


@dataclass(frozen=True)
class Limits:
    """What a run may take: seconds of the processor, bytes of memory, bytes of stack, bytes of a file, open files."""

    seconds: float = 60
    memory: int | None = 4 << 30
    stack: int | None = None
    file: int | None = None
    files: int | None = None


@dataclass(frozen=True)
class Ran:
    """How a run ended, and how many seconds of the processor it took. A negative status is a signal."""

    status: int
    wrote: bytes
    said: bytes
    seconds: float
    late: bool

    def told(self) -> str:
        """How it ended, in words."""
        if self.late:
            return f"had not ended after {self.seconds:.0f} s of the processor"
        if self.status < 0:
            return f"ended by {signal.Signals(-self.status).name}"
        return f"ended with status {self.status}"

    def complaint(self) -> str | None:
        """What is wrong with what it said on standard error, which is one word for each status from 2 on."""
        wanted = f"spanbase: {WORDS[self.status]}" if self.status in WORDS else ""
        said = self.said.decode(errors="replace").split("\n")[0]
        return None if said == wanted else f"said {said[:80]!r} on standard error, and not {wanted!r}"


def set_limits(limits: Limits) -> None:
    """Takes the limits in the process that becomes the program. It leaves no core, and a file that is full is an error."""
    kinds = {
        resource.RLIMIT_CORE: 0,
        resource.RLIMIT_CPU: math.ceil(limits.seconds),
        resource.RLIMIT_AS: limits.memory,
        resource.RLIMIT_STACK: limits.stack,
        resource.RLIMIT_FSIZE: limits.file,
        resource.RLIMIT_NOFILE: limits.files,
    }
    for kind, value in kinds.items():
        if value is not None:
            hard = resource.getrlimit(kind)[1]
            most = value if hard == resource.RLIM_INFINITY else min(value, hard)
            resource.setrlimit(kind, (most, hard))
    signal.signal(signal.SIGXFSZ, signal.SIG_IGN)


def run(
    program: Path,
    script: bytes | Path | int,
    folder: Path,
    limits: Limits = Limits(),
    words: Sequence[str] = (),
    stdout: int | None = None,
    environment: dict[str, str] | None = None,
    user: int | None = None,
    kept: Sequence[int] = (),
    watch: Watch | None = None,
) -> Ran:
    """Runs the program in a folder, on a script as bytes, a file or a descriptor. What it writes is kept, unless it is
    given a descriptor for it. The descriptors in `kept` stay open in it. It is followed by `watch`, if that is there."""

    def prepare() -> None:
        set_limits(limits)
        if watch:
            trace_me()

    def stop() -> None:
        blocked.set()
        os.kill(ran.pid, signal.SIGKILL)

    with contextlib.ExitStack() as stack:
        if isinstance(script, bytes):
            source = stack.enter_context(tempfile.TemporaryFile())
            source.write(script)
            source.seek(0)
        elif isinstance(script, Path):
            source = stack.enter_context(open(script, "rb"))
        else:
            source = script
        out = stack.enter_context(tempfile.TemporaryFile()) if stdout is None else None
        said = stack.enter_context(tempfile.TemporaryFile())
        before = resource.getrusage(resource.RUSAGE_CHILDREN)
        ran = subprocess.Popen(
            [program, *words],
            stdin=source,
            stdout=stdout if out is None else out,
            stderr=said,
            cwd=folder,
            env={**os.environ, **(environment or {})},
            user=user,
            pass_fds=kept,
            preexec_fn=prepare,
        )
        # a run that waits for something takes no time of the processor
        blocked = threading.Event()
        clock = threading.Timer(PATIENCE * limits.seconds + PATIENCE, stop)
        clock.start()
        try:
            if watch:
                ran.returncode = follow(ran.pid, watch)
            else:
                ran.wait()
        finally:
            clock.cancel()
            ran.kill()
        after = resource.getrusage(resource.RUSAGE_CHILDREN)
        seconds = after.ru_utime + after.ru_stime - before.ru_utime - before.ru_stime
        late = blocked.is_set() or ran.returncode == -signal.SIGXCPU
        said.seek(0)
        wrote = b""
        if out is not None:
            out.seek(0)
            wrote = out.read()
        return Ran(ran.returncode, wrote, said.read(), seconds, late)


@contextlib.contextmanager
def room(files: dict[str, bytes] | None = None) -> Iterator[Path]:
    """A folder of its own with these files, for a run."""
    with tempfile.TemporaryDirectory(prefix="spanbase-hostile-") as name:
        folder = Path(name)
        for file, content in (files or {}).items():
            (folder / file).write_bytes(content)
        yield folder


@dataclass
class Report:
    """What was tried, and what was found. Faults are printed as they come."""

    quick: bool
    passed: int = 0
    runs: int = 0
    faults: list[str] = field(default_factory=list)
    figures: list[tuple[str, str, str]] = field(default_factory=list)

    def check(self, name: str, fault: str | None) -> None:
        """Counts one thing that was tried. The fault says what is wrong, if anything is."""
        if fault is None:
            self.passed += 1
        else:
            self.faults.append(f"{name}: {fault}")
            print(self.faults[-1], flush=True)

    def figure(self, name: str, value: str, bound: str = "") -> None:
        """Keeps a figure for the table at the end, with the bound that it was held to."""
        self.figures.append((name, value, bound))


def differs(got: bytes, wanted: bytes) -> str | None:
    """Where two outputs part, if they do."""
    if got == wanted:
        return None
    lines, others = got.split(b"\n"), wanted.split(b"\n")
    at = next((i for i, pair in enumerate(zip(lines, others)) if pair[0] != pair[1]), min(len(lines), len(others)))
    shown = [repr(it[at][:90])[1:] if at < len(it) else "nothing" for it in (lines, others)]
    return f"line {at + 1} of the output is {shown[0]}, and not {shown[1]}"


def fault_of(ran: Ran, status: int, wrote: bytes | None = None) -> str | None:
    """What is wrong with a run that must end with this status, and write this."""
    if ran.late or ran.status != status:
        return f"it {ran.told()}, and not with status {status}"
    if wrote is not None and (fault := differs(ran.wrote, wrote)):
        return fault
    return ran.complaint()
