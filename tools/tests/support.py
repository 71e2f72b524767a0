"""What the tests of the tools share."""
import contextlib
import importlib.machinery
import importlib.util
import io
import os
import re
import subprocess
import sys
import tempfile
import unittest
from collections.abc import Callable, Iterable, Iterator, Sequence
from pathlib import Path
from types import ModuleType
from unittest import mock

TOOLS = Path(__file__).resolve().parent.parent
sys.path[:0] = [str(TOOLS), str(TOOLS.parent / "python")]

from spanbase.shell import LAST_LINES, REFUSAL, Reply, has_no_reply  # noqa: E402

PROGRAM = Path(os.environ["SPANBASE_PROGRAM"])
STAND_IN = TOOLS / "tests/shell"
# a shell of the language, or its substitute
SHELL = Path(os.environ.get("SPANBASE_SHELL") or STAND_IN)
# what needs a shell that runs each line once: the stand-in runs all of them again, when files may have changed
needs_shell = unittest.skipIf(SHELL == STAND_IN, "no shell is given, and the stand-in runs lines again")
# the factor by which the random tests try more inputs
TIMES = int(os.environ.get("SPANBASE_TIMES", "1"))

# a span by its first position and its end, counted from 1, or None for a variable that has no span
Span = tuple[int, int] | None
Answer = tuple[Span, ...]
Ran = tuple[int, bytes, str]


def environment() -> dict[str, str]:
    return {**os.environ, "SPANBASE_SHELL": str(SHELL)}


def tool(name: str, *words: str | bytes | Path, folder: Path | None = None) -> subprocess.CompletedProcess[bytes]:
    """Runs a tool."""
    return subprocess.run([TOOLS / name, *words], capture_output=True, cwd=folder, env=environment(), check=False)


def tool_as_module(name: str, folder: Path = TOOLS) -> ModuleType:
    """A script of a folder as a module, so that its functions can be called thousands of times."""
    loader = importlib.machinery.SourceFileLoader(name, str(folder / name))
    module = importlib.util.module_from_spec(importlib.util.spec_from_loader(name, loader))
    sys.modules[name] = module
    loader.exec_module(module)
    return module


def ran_here(
    main: Callable[[Sequence[str]], int], *words: str | bytes | Path, stdin: bytes = b"", folder: Path | None = None
) -> Ran:
    """The status of a tool that is run in this process, and what it wrote to standard output and error."""
    out, told, given = (io.TextIOWrapper(io.BytesIO(it)) for it in (b"", b"", stdin))
    arguments = [os.fsdecode(word) for word in words]
    before = os.getcwd()
    with (
        mock.patch.dict(os.environ, environment()),
        mock.patch("sys.stdin", given),
        contextlib.redirect_stdout(out),
        contextlib.redirect_stderr(told),
    ):
        os.chdir(folder or before)
        try:
            status = main(arguments)
        except SystemExit as ended:
            status = int(ended.code or 0)
        finally:
            os.chdir(before)
    for stream in (out, told):
        stream.flush()
    return status, out.buffer.getvalue(), told.buffer.getvalue().decode(errors="replace")


@contextlib.contextmanager
def folder_with(files: dict[str | bytes, bytes]) -> Iterator[Path]:
    """A folder with these files."""
    with tempfile.TemporaryDirectory() as name:
        for file, content in files.items():
            path = os.path.join(os.fsencode(name), os.fsencode(file))
            os.makedirs(os.path.dirname(path), exist_ok=True)
            with open(path, "wb") as stream:
                stream.write(content)
        yield Path(name)


def replies_of(commands: Iterable[bytes], lines: Iterator[bytes]) -> Iterator[Reply]:
    """The replies to the commands, each as its lines, from the lines that the program writes."""
    for command in commands:
        ends = LAST_LINES.get(command.split(b" ", 1)[0], frozenset())
        reply = [] if has_no_reply(command) else [next(lines)]
        while ends and reply[-1] not in ends and not REFUSAL.fullmatch(reply[0]):
            reply.append(next(lines))
        yield reply


def replies(
    commands: list[bytes], files: dict[str, bytes] | None = None, kept: dict[str, Path] | None = None
) -> list[Reply]:
    """The program's replies to a script, in a folder with these files. What it saves is copied to where `kept` says."""
    with tempfile.TemporaryDirectory() as folder:
        for name, content in (files or {}).items():
            Path(folder, name).write_bytes(content)
        script = b"".join(command + b"\n" for command in commands)
        ran = subprocess.run([PROGRAM], input=script, capture_output=True, cwd=folder, check=False)
        assert ran.returncode in (0, 1), ran.stderr
        told = list(replies_of(commands, iter(ran.stdout.split(b"\n")[:-1])))
        for name, place in (kept or {}).items():
            place.write_bytes(Path(folder, name).read_bytes())
        return told


def answers(listing: Reply) -> set[Answer]:
    """The answers of a listing."""
    found = set()
    for line in listing[:-1]:
        spans = re.findall(rb"=(-|\[(\d+),(\d+)\))", line)
        found.add(tuple(None if whole == b"-" else (int(first), int(end)) for whole, first, end in spans))
    return found
