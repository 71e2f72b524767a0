"""Standard input, standard output and files that fail: at each byte, at each system call, and in each way that needs no
rights of an administrator."""
import contextlib
import fcntl
import os
import subprocess
import tempfile
import termios
import time
from collections.abc import Iterator
from itertools import pairwise
from pathlib import Path

from .files import files
from .running import Limits, Ran, Report, differs, fault_of, room, run
from .scripts import EACH, ENDED, ENDINGS, SCRIPTS, Worked, ends_of, text_of

PAGE = 4096
STILL = 0.05


def stopped(ran: Ran, status: int, whole: bytes, length: int | None = None) -> str | None:
    """What is wrong with a run that must stop with this status, behind a beginning of what the whole run writes."""
    if ran.late or ran.status != status:
        return f"it {ran.told()}, and not with status {status}"
    if not whole.startswith(ran.wrote):
        return f"what was written is no beginning: {differs(ran.wrote, whole[: len(ran.wrote)])}"
    if length is not None and len(ran.wrote) != length:
        return f"{len(ran.wrote)} bytes were written, and not {length}"
    return ran.complaint()


# ---------------------------------------------------------------------------------------------------------------- output

QUIET_LINES = [
    ("text d abab", 'ok d 4 "abab"'),
    ("query q .*$x{ab}.*", "ok q x"),
    ("list q d", "x=[1,3)\nx=[3,5)\nend"),
    ("names", "d 4\nend"),
    ("listall q", "doc d\nx=[1,3)\nx=[3,5)\nend\ndone"),
    ("compact", "ok"),
    ("show d 1 3", '"ab"'),
]
QUIET = Worked("a script without files", *map(text_of, zip(*QUIET_LINES)))


def output_of_each_length(program: Path, report: Report) -> None:
    """Standard output is a file that may have so many bytes: each length until all fits."""
    for length in range(0, len(QUIET.wanted) + 1, 7 if report.quick else 1):
        with room() as folder, tempfile.TemporaryFile() as out:
            ran = run(program, QUIET.script, folder, Limits(file=length), stdout=out.fileno())
            out.seek(0)
            ran = Ran(ran.status, out.read(), ran.said, ran.seconds, ran.late)
        report.runs += 1
        status = 0 if length == len(QUIET.wanted) else 4
        # what is said on standard error is a file too
        ran = ran if length >= 30 else Ran(ran.status, ran.wrote, b"spanbase: OutFault\n", ran.seconds, ran.late)
        report.check(f"an output of {length} bytes", stopped(ran, status, QUIET.wanted, length))


def pipe_with_room(length: int) -> tuple[int, int, int]:
    """Both ends of a pipe that has room for so many bytes, and how many are in it."""
    reads, writes = os.pipe()
    size = fcntl.fcntl(writes, fcntl.F_SETPIPE_SZ, PAGE)
    os.write(writes, b"-" * (size - length))
    return reads, writes, size - length


def run_into_pipe(program: Path, script: bytes, folder: Path, length: int) -> Ran:
    """Runs a script into a pipe with room for so many bytes, which doesn't wait: a write that doesn't fit is a fault."""
    reads, writes, before = pipe_with_room(length)
    os.set_blocking(writes, False)
    ran = run(program, script, folder, stdout=writes)
    os.close(writes)
    wrote = os.read(reads, 2 * PAGE)[before:]
    os.close(reads)
    return Ran(ran.status, wrote, ran.said, ran.seconds, ran.late)


def stopped_past(ran: Ran, whole: bytes, least: int) -> str | None:
    """What is wrong with a run that must stop with status 4 once it has written so many bytes of the whole output, or more."""
    fault = stopped(ran, 4, whole)
    return fault or (f"only {len(ran.wrote)} bytes were written, and not {least}" if len(ran.wrote) < least else None)


def full_pipes(program: Path, report: Report) -> None:
    """A pipe with room for each length. The replies of all commands that fit are written."""
    ends = ends_of(QUIET_LINES)
    for length in range(1, len(QUIET.wanted), 7 if report.quick else 1):
        with room() as folder:
            ran = run_into_pipe(program, QUIET.script, folder, length)
        report.runs += 1
        least = max((it for it in ends if it <= length), default=0)
        report.check(f"a full pipe with room for {length} bytes", stopped_past(ran, QUIET.wanted, least))


def saves_after_a_fault(program: Path, report: Report) -> None:
    """A `save` after output that failed, with each kind of reply before it. First all replies but the last one fit, and all
    but the last byte of that. Then nothing fits."""
    for name, rows in (("every command", EACH), ("replies that end like tuples", ENDINGS)):
        whole = text_of(reply for _, reply in rows)
        for place, (before, end) in enumerate(pairwise([0, *ends_of(rows)])):
            line = rows[place][0]
            script = text_of([line for line, _ in rows[: place + 1]] + ["save saved"])
            with room({"f": b"abracadabra"}) as folder:
                ran = run_into_pipe(program, script, folder, end - 1)
                fault = stopped_past(ran, whole, before)
                report.check(f"{name}, {line!r}, and a save", fault or saved_fault(folder))
            with room() as folder, open("/dev/full", "wb") as full:
                ran = run(program, text_of([line, "save saved"]), folder, stdout=full.fileno())
                report.check(f"a full device, {line!r}, and a save", fault_of(ran, 4) or saved_fault(folder))
            report.runs += 2


def saved_fault(folder: Path) -> str | None:
    return "a file was saved after the fault" if (folder / "saved").exists() else None


def waits(pid: int) -> bool:
    """Whether a process sleeps."""
    text = Path(f"/proc/{pid}/stat").read_text()
    return text[text.rindex(")") + 2] == "S"


def closed_pipes(program: Path, report: Report) -> None:
    """Standard output is a pipe whose reader goes away while the program waits for room."""
    for length in range(0, len(QUIET.wanted), 16 if report.quick else 3):
        reads, writes, before = pipe_with_room(length) if length else (*os.pipe(), 0)
        if not length:
            os.close(reads)
        with room({"script": QUIET.script}) as folder, open(folder / "script", "rb") as script:
            how = {"stdin": script, "stdout": writes, "stderr": subprocess.PIPE, "cwd": folder}
            with subprocess.Popen([program], **how) as ran:
                os.close(writes)
                wrote = b""
                if length:
                    while ran.poll() is None and not waits(ran.pid):
                        time.sleep(STILL)
                    held = int.from_bytes(fcntl.ioctl(reads, termios.FIONREAD, bytes(4)), "little")
                    os.close(reads)
                    wrote = QUIET.wanted[: held - before]
                said = ran.stderr.read()
        report.runs += 1
        ended = Ran(ran.returncode, wrote, said, 0, late=False)
        report.check(f"a closed pipe with room for {length} bytes", stopped(ended, 4, QUIET.wanted))


def other_outputs(program: Path, report: Report) -> None:
    for name, script, status in (
        ("a full device", QUIET.script, 4),
        ("a full device, and nothing to write", b"# a\n\n", 0),
        ("a full device, and a refused line", b"a\n", 4),
    ):
        with room() as folder, open("/dev/full", "wb") as full:
            report.check(name, fault_of(run(program, script, folder, stdout=full.fileno()), status))
        report.runs += 1
    with room() as folder, open(os.devnull, "rb") as unwritable:
        report.check("an output for reading", fault_of(run(program, QUIET.script, folder, stdout=unwritable.fileno()), 4))
    report.runs += 1


# ----------------------------------------------------------------------------------------------------------------- input


@contextlib.contextmanager
def inputs() -> Iterator[list[tuple[str, int]]]:
    """Descriptors that can't be read."""
    with contextlib.ExitStack() as stack:
        folder = stack.enter_context(tempfile.TemporaryDirectory())
        place = os.open(folder, os.O_RDONLY)
        writable = os.open(f"{folder}/file", os.O_WRONLY | os.O_CREAT)
        reads, writes = os.pipe()
        os.set_blocking(reads, False)
        memory = os.open("/proc/self/mem", os.O_RDONLY)
        for it in (place, writable, reads, writes, memory):
            stack.callback(os.close, it)
        yield [
            ("a folder", place),
            ("a file for writing", writable),
            ("an empty pipe that doesn't wait", reads),
            ("the end of a pipe for writing", writes),
            ("memory that isn't there", memory),
        ]


def bad_inputs(program: Path, report: Report) -> None:
    with inputs() as found:
        for name, source in found:
            for words, status, wanted in ((), 3, b""), (("--demo=1", "--workers=1"), 0, None), (("--demo=x",), 2, b""):
                with room() as folder:
                    ran = run(program, source, folder, words=words)
                report.runs += 1
                report.check(f"input is {name}, words {' '.join(words) or 'none'}", fault_of(ran, status, wanted))


def faults(program: Path, report: Report) -> None:
    for worked in (*SCRIPTS, ENDED):
        with room(worked.files) as folder:
            report.check(worked.name, fault_of(run(program, worked.script, folder), worked.status, worked.wanted))
    output_of_each_length(program, report)
    full_pipes(program, report)
    saves_after_a_fault(program, report)
    closed_pipes(program, report)
    other_outputs(program, report)
    bad_inputs(program, report)
    files(program, report)
