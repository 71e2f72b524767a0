"""Makes a script in which each version of a text is a document, and each one after the first an edit of its predecessor.

The versions are the files in their order, or with --git the revisions of one file in a repository, the oldest first. FOLDER
is created if it doesn't exist. It then has `first`, the first version; `added`, the bytes that the edits insert; `index.tsv`,
a line for each document; and `script`. To run it:  cd FOLDER && spanbase < script

With --containing the tool prints the lines of `index.tsv` for the versions in which a regex matches. The status is then 0 if
there is one, 1 if there is none, and 2 on errors.
"""
import argparse
import os
import re
import subprocess
import sys
from collections.abc import Iterable, Iterator, Sequence
from dataclasses import dataclass, field
from pathlib import Path

import spanbase
from spanbase.cli._common import (
    FOUND,
    NOT_FOUND,
    OwnFolder,
    Parser,
    Tool,
    Trouble,
    counted,
    file_of_language,
    positive,
    shown,
)
from spanbase.cli._diff import Edit, edits_between
from spanbase.cli._output import escaped
from spanbase.cli._search import LINE, Pattern, add_pattern_options, opened, replies
from spanbase.limits import LONGEST_FILE, LONGEST_SCRIPT

TOOL = Tool("versions")
# an edit nests at most two operations, and an expression at most 64
EDITS_A_LINE = 30
LONGEST_LABEL = 200
# as many digits of a revision are in the name of its document, and more where two are equal
SHORT_HASH = 12
INDEX = "index.tsv"
HEADER = b"document\tbytes\tversion\tdate\tsubject\n"


@dataclass(frozen=True)
class Version:
    """A text, the name of its document, and where it comes from: a file, or a revision with its date and its subject."""

    name: str
    text: bytes
    source: str
    date: str = ""
    subject: str = ""

    @property
    def label(self) -> str:
        return " ".join(filter(None, [self.source, self.date, self.subject]))


# --------------------------------------------------------------------------------------------------------------- scripts


@dataclass
class Script:
    """The lines of a script, and what its edits insert."""

    by_bytes: bool
    lines: list[bytes] = field(default_factory=list)
    index: list[bytes] = field(default_factory=list)
    added: bytearray = field(default_factory=bytearray)
    places: dict[bytes, int] = field(default_factory=dict)
    lengths: dict[str, int] = field(default_factory=dict)
    edits: int = 0
    first: bytes = b""
    last: bytes = b""
    last_name: str = ""
    added_name: str = "added"

    def add(self, version: Version) -> None:
        self.lengths[version.name] = len(version.text)
        label = re.sub(r"[\r\n]", " ", version.label)[:LONGEST_LABEL]
        self.line(f"# {version.name}: {len(version.text)} bytes, {label}")
        fields = [version.name, str(len(version.text)), version.source, version.date, version.subject]
        self.index.append(b"\t".join(escaped(it.encode(errors="surrogateescape")) for it in fields) + b"\n")
        if not self.last_name:
            self.first = version.text
            self.line(f"load {version.name} first")
            self.line(f"load {self.added_name} added")
        else:
            self.add_edits(edits_between(self.last, version.text, self.by_bytes), self.last_name, version.name)
        self.last, self.last_name = version.text, version.name

    def add_edits(self, edits: list[Edit], old: str, new: str) -> None:
        """Lines that make the edits from the right, so that the positions of the others stay valid."""
        self.edits += len(edits)
        backwards = edits[::-1]
        for at in range(0, max(len(edits), 1), EDITS_A_LINE):
            expression = old if at == 0 else new
            for edit in backwards[at : at + EDITS_A_LINE]:
                expression = self.edited(expression, edit)
            self.line(f"let {new} = {expression}")

    def edited(self, expression: str, edit: Edit) -> str:
        if edit.start < edit.end:
            expression = f"delete({expression},{edit.start + 1},{edit.end + 1})"
        if edit.new:
            at = self.place(edit.new) + 1
            text = f"extract({self.added_name},{at},{at + len(edit.new)})"
            expression = f"insert({expression},{text},{edit.start + 1})"
        return expression

    def place(self, text: bytes) -> int:
        """The position of the text in `added`, which has equal texts once."""
        if text not in self.places:
            self.places[text] = len(self.added)
            self.added += text
        return self.places[text]

    def line(self, text: str) -> None:
        self.lines.append(text.encode(errors="surrogateescape"))

    def finish(self, save: str | None) -> None:
        self.line(f"drop {self.added_name}")
        if save:
            self.line(f"save {save}")

    def write(self, folder: OwnFolder) -> None:
        size = sum(len(line) + 1 for line in [folder.mark, *self.lines])
        if size > LONGEST_SCRIPT:
            raise Trouble(f"{len(self.lengths)} versions make a script of {size} bytes, and it has at most {LONGEST_SCRIPT}")
        folder.write("script", [folder.mark, *(line + b"\n" for line in self.lines)])
        folder.write("first", [self.first])
        folder.write("added", [self.added])
        folder.write(INDEX, [HEADER, *self.index])

    def check(self, database: spanbase.Database, folder: Path) -> None:
        """Runs the script, without its `save`, and compares the documents with the versions."""
        run_script(database, folder, self.lines)
        for name, length in self.lengths.items():
            if (found := database[name].length) != length:
                raise Trouble(f"{name} has {found} bytes in the program, and must have {length}")
        if bytes(database[self.last_name]) != self.last:
            raise Trouble(f"{self.last_name} has other bytes in the program than the last version")


def run_script(database: spanbase.Database, folder: Path, lines: Iterable[bytes]) -> None:
    """Runs the script of a folder, with the files of the folder, without its `save`."""
    edits: list[bytes] = []
    for line in lines:
        command, _, rest = line.partition(b" ")
        if command == b"load":
            name, _, file = rest.partition(b" ")
            database.load(name.decode(), folder / os.fsdecode(file))
        elif not line.startswith((b"#", b"save ")):
            edits.append(line)
    replies(database, edits)


# -------------------------------------------------------------------------------------------------------------- versions


def versions_in_files(files: Iterable[Path], prefix: str) -> Iterator[Version]:
    for number, file in enumerate(files, 1):
        if not file.is_file():
            raise Trouble(f"{shown(str(file))}: " + ("not a regular file" if file.exists() else "no such file"))
        if file.stat().st_size > LONGEST_FILE:
            raise Trouble(f"{shown(str(file))}: a file has at most {LONGEST_FILE} bytes")
        yield Version(f"{prefix}{number}", file.read_bytes(), str(file))


def git(repository: Path, *words: str) -> bytes:
    try:
        ran = subprocess.run(["git", "-C", repository, *words], capture_output=True, check=False)
    except OSError as error:
        raise Trouble(f"git can't be run: {error.strerror}") from None
    if ran.returncode:
        said = ran.stderr.decode(errors="replace").strip().splitlines() or [f"status {ran.returncode}"]
        raise Trouble(f"git says: {said[0]}")
    return ran.stdout


def versions_in_git(repository: Path, file: Path, last: int | None, prefix: str) -> Iterator[Version]:
    """The revisions that changed the file, the oldest first, without those that removed it."""
    chosen = [f"--max-count={last}"] if last else []
    log = git(repository, "log", "--diff-filter=AMCRT", "--format=%H %cs %s", *chosen, "--", str(file))
    lines = [line.split(" ", 2) for line in reversed(log.decode(errors="surrogateescape").splitlines())]
    hashes = [line[0] for line in lines]
    digits = next(n for n in range(SHORT_HASH, 65) if len({it[:n] for it in hashes}) == len(set(hashes)))
    for revision, date, *subject in lines:
        text = git(repository, "cat-file", "blob", f"{revision}:./{file}")
        yield Version(prefix + revision[:digits], text, revision, date, *subject)


def prefix_word(text: str) -> str:
    if not re.fullmatch(r"[A-Za-z_][A-Za-z0-9_.-]{0,20}", text):
        raise argparse.ArgumentTypeError(f"{text!r} can't begin a name")
    return text


def make(asked: argparse.Namespace, folder: OwnFolder) -> str:
    """Makes the folder's files, and says what they have."""
    if asked.git and len(asked.files) != 1:
        raise Trouble("with --git there is one file, whose revisions are the versions")
    folder.check()
    script = Script(asked.bytes)
    if asked.git:
        found = versions_in_git(asked.git, asked.files[0], asked.last, asked.name or "c")
    else:
        found = versions_in_files(asked.files, asked.name or "v")
    for version in found:
        script.add(version)
    if not script.lengths:
        raise Trouble(f"the repository has no revision of {asked.files[0]}")
    script.finish(asked.save)
    script.write(folder)
    lengths = list(script.lengths.values())
    told = f"{counted(len(lengths), 'version')} with {sum(lengths)} bytes in all: the first has {lengths[0]}, "
    told += f"and {counted(script.edits, 'edit inserts', 'edits insert')} {len(script.added)}"
    if asked.check:
        with opened(asked) as database:
            script.check(database, folder.path)
        told += "; the program makes the same lengths and the same last version"
    return told


# ------------------------------------------------------------------------------------------------------------- questions


def made_versions(asked: argparse.Namespace, folder: OwnFolder) -> spanbase.Database:
    """A database with the versions: from the image that the script has saved if that is newer, or else by the script."""
    script = folder.path / "script"
    lines = script.read_bytes().splitlines()
    saves = [os.fsdecode(line[5:]) for line in lines if line.startswith(b"save ")]
    image = folder.path / saves[-1] if saves else None
    if image and image.is_file() and image.stat().st_mtime_ns > script.stat().st_mtime_ns:
        return opened(asked, image)
    database = opened(asked)
    try:
        run_script(database, folder.path, lines)
    except BaseException:
        database.close()
        raise
    return database


def containing(asked: argparse.Namespace, folder: OwnFolder) -> bool:
    """Prints the index's lines of the versions in which the regex matches."""
    if not folder.is_own() or not (folder.path / INDEX).is_file():
        raise Trouble(f"{asked.folder} isn't a folder that spanbase-versions made")
    index = (folder.path / INDEX).read_bytes().splitlines(keepends=True)
    pattern = Pattern(asked.containing, asked.ignore_case, False, asked.ascii_properties, False, asked.split)
    found = False
    with made_versions(asked, folder) as database:
        search = pattern.search(database, names=False, lines=LINE)
        for line in index[1:]:
            name = line.split(b"\t", 1)[0].decode()
            if name not in database:
                raise Trouble(f"the database of {asked.folder} lacks {name}; make the folder again")
            if search.query.test(name) != asked.without:
                sys.stdout.buffer.write(line)
                found = True
    return found


# ------------------------------------------------------------------------------------------------------------------ main


def parser() -> Parser:
    reader = Parser("versions", __doc__)
    add = reader.add_argument
    add("--git", type=Path, metavar="REPOSITORY", help="the versions are revisions in this repository")
    add("--last", type=positive, metavar="N", help="with --git: only the last N revisions")
    add("--bytes", action="store_true", help="compare changed lines byte by byte")
    add("--name", type=prefix_word, metavar="PREFIX", help="the beginning of names: v for files and c for revisions by default")
    add("--save", type=file_of_language, metavar="IMAGE", help="end the script with saving this image")
    add("--check", action="store_true", help="run the program on the script and compare")
    add("--containing", metavar="REGEX", help="print which versions of the folder have a line that matches")
    add("--without", action="store_true", help="with --containing: those without such a line")
    add("-i", "--ignore-case", action="store_true", help="with --containing: ASCII letters match in either case")
    add_pattern_options(reader)
    add("folder", type=Path, metavar="FOLDER")
    add("files", type=Path, metavar="FILE", nargs="*")
    return reader


def run(words: Sequence[str] | None) -> int:
    reader = parser()
    asked = reader.parse_intermixed_args(words)
    if bool(asked.files) == (asked.containing is not None):
        reader.error("name files to make a folder, or --containing to ask one")
    names = ["first", "added", "script", INDEX, *([asked.save, f"{asked.save}.queries"] if asked.save else [])]
    folder = OwnFolder(asked.folder, "versions", names)
    try:
        if asked.containing is not None:
            return FOUND if containing(asked, folder) else NOT_FOUND
        print(make(asked, folder))
    except spanbase.SpanbaseError as error:
        raise Trouble(str(error)) from None
    return FOUND


def main(words: Sequence[str] | None = None) -> int:
    return TOOL.run(run, words)


if __name__ == "__main__":
    sys.exit(main())
