"""What the tools share: their options, their messages and their exit statuses."""
import argparse
import os
import re
import sys
from collections.abc import Callable, Iterable, Sequence
from pathlib import Path
from typing import NoReturn, TypeVar

from spanbase.formula import FormulaError, Untranslatable
from spanbase.limits import FEWEST_STATES, MOST_STATES

Result = TypeVar("Result")

FOUND, NOT_FOUND, TROUBLE, INTERRUPTED = 0, 1, 2, 130


class Trouble(Exception):
    """What went wrong, in one line, or in several if a position in a text is shown."""


class Parser(argparse.ArgumentParser):
    """A parser of a tool's arguments, which reports errors in one line with status 2."""

    def __init__(self, name: str, description: str | None):
        super().__init__(
            prog=f"spanbase-{name}", description=description, formatter_class=argparse.RawDescriptionHelpFormatter
        )
        self.add_argument("--version", action="version", version=f"%(prog)s {package_version()}")

    def error(self, message: str) -> NoReturn:
        self.exit(TROUBLE, f"{self.prog}: {message}; --help lists the options\n")

    def add_program(self) -> None:
        self.add_argument(
            "--program", "--shell", dest="program", type=Path, metavar="PATH", help="the spanshell that is run"
        )
        self.add_argument("--workers", type=positive, default=1, metavar="N", help="its threads, 1 by default")
        self.add_argument(
            "--states",
            type=states,
            default=MOST_STATES,
            metavar="N",
            help=f"how many states a query may have, {FEWEST_STATES} to {MOST_STATES:,} (the default)",
        )


def package_version() -> str:
    import spanbase

    return str(getattr(spanbase, "__version__", "0"))


def positive(text: str) -> int:
    if not text.isdecimal() or int(text) == 0:
        raise argparse.ArgumentTypeError(f"{text!r} is no positive number")
    return int(text)


def states(text: str) -> int:
    if not text.isdecimal() or not FEWEST_STATES <= int(text) <= MOST_STATES:
        raise argparse.ArgumentTypeError(f"{text!r} isn't a number from {FEWEST_STATES} to {MOST_STATES}")
    return int(text)


def name_of_language(text: str) -> str:
    if not re.fullmatch(r"[A-Za-z_][A-Za-z0-9_.-]{0,63}", text):
        what = "1 to 64 ASCII letters, digits, `_`, `.` and `-`, of which the first is a letter or `_`"
        raise argparse.ArgumentTypeError(f"{text!r} is no name: {what}")
    return text


def file_of_language(text: str) -> str:
    if not re.fullmatch(r"[!-~]{1,255}", text):
        raise argparse.ArgumentTypeError(f"{text!r} is no file name of a script: 1 to 255 ASCII characters without spaces")
    return text


def counted(count: int, one: str, more: str = "") -> str:
    return f"{count} {one}" if count == 1 else f"{count} {more or one + 's'}"


def shown(text: str | bytes) -> str:
    """A text for a message, with what isn't printable escaped."""
    decoded = text if isinstance(text, str) else os.fsdecode(text)
    return "".join(it if it.isprintable() else repr(it)[1:-1] for it in decoded)


def with_place(text: str, position: int | None, message: str, hint: str | None = None) -> str:
    """A message about a position of a text, with the line of the text and a caret below it."""
    if position is None:
        return message + (f"; {hint}" if hint else "")
    begin = text.rfind("\n", 0, position) + 1
    line = text[begin:].split("\n", 1)[0]
    before = shown(line[: position - begin])
    lines = [f"{message}, at position {position}:", f"    {shown(line)}", f"    {' ' * len(before)}^"]
    return "\n".join(lines + ([f"    {hint}"] if hint else []))


def translated(translate: Callable[[], Result], pattern: str) -> Result:
    """The result of a translation or check. The message of an error shows the position and the alternative."""
    try:
        return translate()
    except Untranslatable as error:
        raise Trouble(with_place(pattern, error.position, error.message, error.hint)) from None
    except FormulaError as error:
        raise Trouble(with_place(pattern, error.position, f"{error.word}: {error.message}")) from None


class Tool:
    """A tool, which reports errors on standard error and counts them."""

    def __init__(self, name: str):
        self.name = name
        self.troubles = 0

    def say(self, text: str) -> None:
        sys.stdout.flush()
        print(f"spanbase-{self.name}: {text}", file=sys.stderr)

    def trouble(self, text: str) -> None:
        self.troubles += 1
        self.say(text)

    def run(self, main: Callable[[Sequence[str] | None], int], words: Sequence[str] | None) -> int:
        """The exit status of the tool. If the reader of its output goes away, it ends quietly."""
        self.troubles = 0
        try:
            status = main(words)
            sys.stdout.flush()
            return status
        except BrokenPipeError:
            os.dup2(os.open(os.devnull, os.O_WRONLY), sys.stdout.fileno())
            return FOUND
        except KeyboardInterrupt:
            return INTERRUPTED
        except Trouble as trouble:
            self.trouble(str(trouble))
        except RecursionError:
            self.trouble("the groups are nested too deep")
        except OSError as error:
            self.trouble(os_trouble(error))
        return TROUBLE


def os_trouble(error: OSError) -> str:
    name = shown(error.filename) + ": " if isinstance(error.filename, str | bytes) else ""
    return f"{name}{error.strerror or error}"


class OwnFolder:
    """A folder that a tool fills. One with other files is rejected, so that none of them is overwritten."""

    def __init__(self, path: Path, tool: str, files: Sequence[str]):
        self.path = path
        self.mark = f"# made by spanbase-{tool}\n".encode()
        self.files = files

    def check(self) -> None:
        """Raises Trouble if the folder has something that the tool didn't make."""
        if not self.path.exists():
            return
        if not self.path.is_dir():
            raise Trouble(f"{shown(str(self.path))}: not a folder")
        found = sorted(os.listdir(self.path))
        if found and not self.is_own():
            raise Trouble(f"{self.path} has files that the tool didn't make, such as {shown(found[0])}; name a new folder")
        if others := [name for name in found if name not in self.files and name not in self.saved()]:
            raise Trouble(f"{self.path} has a file that the tool didn't make, {shown(others[0])}; name a new folder")

    def is_own(self) -> bool:
        script = self.path / "script"
        if not script.is_file():
            return False
        with open(script, "rb") as file:
            return file.readline() == self.mark

    def saved(self) -> list[str]:
        """The images that the script of the folder saves, with the files beside them."""
        lines = (self.path / "script").read_bytes().splitlines()
        images = [os.fsdecode(line[5:]) for line in lines if line.startswith(b"save ")]
        return images + [f"{image}.queries" for image in images]

    def write(self, name: str, pieces: Iterable[bytes]) -> None:
        """Writes a file atomically."""
        self.path.mkdir(parents=True, exist_ok=True)
        new = self.path / f".{name}.new"
        try:
            with open(new, "wb") as file:
                file.writelines(pieces)
            os.replace(new, self.path / name)
        finally:
            new.unlink(missing_ok=True)
