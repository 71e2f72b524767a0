"""The examples of the pages: each block of the kind `console` prints what the page says."""
import os
import re
import subprocess
import tempfile
import unittest
from pathlib import Path

from support import PROGRAM, TOOLS, environment

TOP = TOOLS.parent
BLOCK = re.compile(r"^```console\n(.*?)^```$", re.MULTILINE | re.DOTALL)
COMMANDS = ["fasta", "find", "follow", "formula", "replace", "shards", "versions"]


def printed(block: str, folder: Path) -> str:
    """What the commands of a block print, in a folder with the tools and the examples."""
    script = "exec 2>&1\n" + "\n".join(re.findall(r"^\$ (.*)$", block, re.MULTILINE))
    path = os.pathsep.join([str(folder / "bin"), os.environ["PATH"]])
    ran = subprocess.run(
        ["sh", "-c", script], capture_output=True, text=True, cwd=folder, env={**environment(), "PATH": path}, check=False
    )
    return ran.stdout


class Pages(unittest.TestCase):
    def test_examples(self) -> None:
        pages = {page: BLOCK.findall(page.read_text()) for page in sorted(TOP.glob("docs/*.md"))}
        self.assertGreater(sum(map(len, pages.values())), 8)
        for page, blocks in pages.items():
            with tempfile.TemporaryDirectory() as name:
                folder = Path(name)
                for link in ("tools", "examples", "python"):
                    (folder / link).symlink_to(TOP / link)
                (folder / "spanbase").symlink_to(PROGRAM)
                (folder / "bin").mkdir()
                for command in COMMANDS:
                    (folder / f"bin/spanbase-{command}").symlink_to(TOOLS / command)
                for block in blocks:
                    with self.subTest(page=page.name, block=block):
                        wanted = re.sub(r"^\$ .*\n", "", block, flags=re.MULTILINE)
                        self.assertEqual(printed(block, folder), wanted)


if __name__ == "__main__":
    unittest.main()
