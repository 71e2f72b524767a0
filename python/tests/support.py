"""What the tests of the package share."""
import os
import subprocess
import sys
import tempfile
import unittest
from pathlib import Path

import spanbase

TOP = Path(__file__).resolve().parent.parent.parent
PROGRAM = os.environ.get("SPANBASE_PROGRAM", "")
SHELL = os.environ.get("SPANBASE_SHELL", "")
# the factor by which the random tests try more inputs
TIMES = int(os.environ.get("SPANBASE_TIMES", "1"))
# the commands that a program may lack
NEW_COMMANDS = ["bytes", "share", "write", "count", "rank", "at", "longest"]


@unittest.skipUnless(SHELL, "no shell is given, and the package needs one")
class ShellCase(unittest.TestCase):
    """A test that needs a shell, with a folder of its own."""

    def setUp(self) -> None:
        folder = tempfile.TemporaryDirectory()
        self.addCleanup(folder.cleanup)
        self.folder = Path(folder.name)

    def database(self, *, old: bool = False, **options: int) -> spanbase.Database:
        """A database; with `old` it behaves as over a program that lacks the new commands."""
        database = spanbase.Database(SHELL, **options)
        self.addCleanup(database.close)
        return without_new_commands(database) if old else database

    def opened(self, path: Path, *, old: bool = False, side_file: bool = True) -> spanbase.Database:
        database = spanbase.Database.open(path, SHELL, side_file=side_file)
        self.addCleanup(database.close)
        return without_new_commands(database) if old else database

    def file(self, name: str, text: bytes) -> Path:
        path = self.folder / name
        path.write_bytes(text)
        return path


def without_new_commands(database: spanbase.Database) -> spanbase.Database:
    database._commands.update(dict.fromkeys(NEW_COMMANDS, False))
    return database


def python_with(module: str) -> str | None:
    """A Python that can import a module: this one, or that of the system."""
    for python in (sys.executable, "/usr/bin/python3"):
        look = f"import importlib.util, sys; sys.exit(importlib.util.find_spec({module!r}) is None)"
        if Path(python).exists() and subprocess.run([python, "-c", look], capture_output=True, check=False).returncode == 0:
            return python
    return None
