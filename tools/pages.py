"""What the tools that make pages share: the crates in order, and writing a page or comparing it with what would be made."""
import difflib
import sys
from pathlib import Path

TOP = Path(__file__).resolve().parent.parent
CRATES = TOP / "crates"
# lines of a difference that are shown, at most
MOST_SHOWN = 12


class Trouble(Exception):
    """What went wrong, in one clear line."""


def crates() -> list[str]:
    """The crates, lowest first."""
    lines = (line.partition("#")[0] for line in (TOP / "crates.txt").read_text().splitlines())
    return [line.partition(":")[0] for line in lines if line.strip()]


def made(tool: str, page: Path, text: str, is_check: bool) -> int:
    """Writes the page, or says where it differs from the text. The status of the tool."""
    name = page.relative_to(TOP)
    if not is_check:
        page.write_text(text)
        return 0
    old = page.read_text() if page.is_file() else ""
    if old == text:
        print(f"{name} is up to date")
        return 0
    changes = list(difflib.unified_diff(old.splitlines(), text.splitlines(), str(name), f"made by {tool}", "", "", 0, ""))
    print(*changes[:MOST_SHOWN], *(["..."] if len(changes) > MOST_SHOWN else []), sep="\n")
    print(f"{name} is out of date: run {tool}", file=sys.stderr)
    return 1
