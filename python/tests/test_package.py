"""The package as a whole: its page, its examples, and its installation."""
import compileall
import doctest
import json
import os
import re
import subprocess
import sys
import tempfile
import textwrap
import tomllib
import unittest
from pathlib import Path

import spanbase
from tests.support import SHELL, TOP, ShellCase, python_with

PAGE = (TOP / "docs/PYTHON.md").read_text(encoding="utf-8")
FENCE = re.compile(r"^```(\w*)\n(.*?)^```$", re.MULTILINE | re.DOTALL)


def run(*words: str | Path, folder: Path, **variables: str) -> subprocess.CompletedProcess[str]:
    environment = {**os.environ, "SPANBASE_SHELL": SHELL, "PYTHONPATH": str(TOP / "python"), **variables}
    return subprocess.run(words, capture_output=True, text=True, cwd=folder, env=environment, check=False)


class Page(ShellCase):
    def test_first_example(self) -> None:
        """The first example of the page runs in the folder of the repository and prints what stands below it."""
        (_, example), (_, printed) = FENCE.findall(PAGE)[:2]
        ran = run("sh", "-c", example, folder=TOP)
        self.assertEqual((ran.stdout, ran.stderr, ran.returncode), (printed, "", 0))

    def test_example_of_the_module(self) -> None:
        """The example in the docstring of the package."""
        example = re.sub(r"^(?!    ).*$", "", spanbase.__doc__ or "", flags=re.MULTILINE)
        ran = run(sys.executable, "-c", textwrap.dedent(example), folder=TOP / "examples/logs.files")
        self.assertEqual((ran.stdout, ran.stderr), ("b'10.0.3.9' 2\nb'192.168.1.4' 4\nb'10.0.3.7' 6\n", ""))

    def test_session(self) -> None:
        """The other examples are one session."""
        (self.folder / "examples").symlink_to(TOP / "examples")
        session = "\n".join(content for kind, content in FENCE.findall(PAGE) if kind == "python")
        test = doctest.DocTestParser().get_doctest(session, {}, "docs/PYTHON.md", None, 0)
        told: list[str] = []
        current = os.getcwd()
        os.chdir(self.folder)
        try:
            failed, tried = doctest.DocTestRunner(verbose=False).run(test, out=told.append)
        finally:
            os.chdir(current)
        self.assertEqual((failed, tried > 40), (0, True), "".join(told))

    def test_names(self) -> None:
        """What the page names is there, and each exception is in its table."""
        for name in re.findall(r"`spanbase\.(\w+)", PAGE):
            self.assertTrue(hasattr(spanbase, name), name)
        exceptions = {it for it in spanbase.__all__ if isinstance(getattr(spanbase, it), type(Exception))}
        exceptions = {it for it in exceptions if issubclass(getattr(spanbase, it), Exception)}
        self.assertEqual({it for it in exceptions if f"{it}`" not in PAGE} - {"FileRefused"}, set())
        for name in re.findall(r"`db\.(\w+)", PAGE):
            self.assertTrue(hasattr(spanbase.Database, name), name)
        for name in re.findall(r"`q\.(\w+)", PAGE):
            self.assertTrue(hasattr(spanbase.Query, name) or name == "key", name)


class Examples(ShellCase):
    def test_client(self) -> None:
        (self.folder / "some file").write_bytes(b"k=\xff;\nl;")
        regex = r"(?m)^(?P<key>\w+)(=(?P<value>[^;]+))?;"
        ran = run(sys.executable, TOP / "examples/client.py", regex, "some file", folder=self.folder)
        self.assertEqual((ran.stderr, ran.returncode), ("", 0))
        told = [json.loads(line) for line in ran.stdout.splitlines()]
        self.assertEqual([(it["file"], it["key"], it["key_line"], it["value"]) for it in told], [
            ("some file", "k", 1, "\udcff"), ("some file", "l", 2, None),
        ])  # fmt: skip

    def test_shards(self) -> None:
        logs = sorted(TOP.glob("examples/*.files/access.log"))
        ran = run(sys.executable, TOP / "examples/shards", "parts", r"(?m)^(?P<host>[\d.]+) ", *logs, folder=self.folder)
        counts = [line.split() for line in ran.stdout.splitlines()]
        self.assertEqual(counts, [["7", "10.0.3.7"], ["4", "10.0.3.9"], ["3", "192.168.1.4"]], ran.stderr)

    def test_notebook(self) -> None:
        """Without pandas it shows the same rows."""
        ran = run(sys.executable, "-S", TOP / "examples/notebook.py", folder=self.folder)
        self.assertEqual((ran.stderr, ran.returncode), ("", 0))
        stored = (TOP / "examples/notebook.stdout").read_text()
        for line in ran.stdout.splitlines():
            for word in line.split(","):
                self.assertIn(word, stored)
        python = python_with("pandas")
        if not python:
            self.skipTest("pandas isn't installed")
        ran = run(python, TOP / "examples/notebook.py", folder=self.folder)
        self.assertEqual((ran.stdout, ran.stderr, ran.returncode), (stored, "", 0))


class Installation(unittest.TestCase):
    def test_sources(self) -> None:
        self.assertTrue(compileall.compile_dir(TOP / "python/spanbase", quiet=1, legacy=False, force=False))
        project = tomllib.loads((TOP / "python/pyproject.toml").read_text())["project"]
        self.assertEqual(project["version"], spanbase.__version__)
        for place in project["scripts"].values():
            module, _, _ = place.partition(":")
            self.assertTrue((TOP / "python" / (module.replace(".", "/") + ".py")).is_file(), place)

    def test_pip(self) -> None:
        """pip installs it without a network, and writes nothing into the sources."""
        if subprocess.run([sys.executable, "-m", "pip", "--version"], capture_output=True, check=False).returncode:
            self.skipTest("pip isn't installed")
        before = sorted(path for path in (TOP / "python").rglob("*") if "__pycache__" not in path.parts)
        with tempfile.TemporaryDirectory() as room:
            how = ["--quiet", "--no-index", "--no-deps", "--no-compile", "--disable-pip-version-check", "--target", room]
            pip = [sys.executable, "-m", "pip", "install", *how]
            ran = run(*pip, TOP / "python", folder=Path(room), PIP_ROOT_USER_ACTION="ignore")
            self.assertEqual((ran.stderr, ran.returncode), ("", 0))
            show = "import spanbase; print(spanbase.__file__, spanbase.__version__)"
            ran = run(sys.executable, "-c", show, folder=Path(room), PYTHONPATH=room)
            self.assertEqual(ran.stdout.split(), [f"{room}/spanbase/__init__.py", spanbase.__version__])
            self.assertTrue((Path(room) / "spanbase/py.typed").is_file())
            self.assertIn("spanbase-find", os.listdir(Path(room) / "bin"))
        after = sorted(path for path in (TOP / "python").rglob("*") if "__pycache__" not in path.parts)
        self.assertEqual(before, after)


if __name__ == "__main__":
    unittest.main()
