"""Makes a script with a document for each sequence of FASTA and FASTQ files.

FOLDER is created if it doesn't exist. It then has `sequences`, all sequences in a row without their line ends, and
`script`, which loads that file and cuts the documents out of it. Run it there:  cd FOLDER && spanbase < script

A document's name is the first word of its header, with `_` for each byte that a name can't have. If the name exists already,
a number is appended. A comment in the script has the header. Files may be compressed by gzip; FILE - is standard input.
Qualities aren't kept. The status is 0, or 2 on errors.
"""
import argparse
import gzip
import io
import re
import sys
import zlib
from collections.abc import Iterable, Iterator, Sequence
from dataclasses import dataclass, field
from pathlib import Path
from typing import BinaryIO, cast

from spanbase.cli._common import OwnFolder, Parser, Tool, Trouble, file_of_language, shown
from spanbase.limits import LONGEST_FILE, LONGEST_NAME, LONGEST_SCRIPT

TOOL = Tool("fasta")
LONGEST_HEADER = 1000
GZIP = b"\x1f\x8b"
# the document with all sequences, which the script drops at its end
WHOLE = b"all.sequences"


@dataclass
class Record:
    """A sequence as the pieces of its lines."""

    header: bytes
    pieces: list[bytes] = field(default_factory=list)

    def length(self) -> int:
        return sum(map(len, self.pieces))


@dataclass
class Lines:
    """The non-blank lines of a file, without their ends, with their numbers."""

    file: str
    stream: Iterable[bytes]
    number: int = 0
    line: bytes = b""

    def advance(self) -> bool:
        """Goes to the next line, or to an empty one at the end, and returns whether there is one."""
        for line in self.stream:
            self.number += 1
            if stripped := line.rstrip(b"\r\n"):
                self.line = stripped
                return True
        self.line = b""
        return False

    def trouble(self, why: str) -> Trouble:
        return Trouble(f"{self.file}, line {self.number}: {why}")


def fasta_records(lines: Lines) -> Iterator[Record]:
    """The records of a FASTA file, whose first line is a header."""
    record = Record(lines.line)
    while lines.advance():
        if lines.line.startswith(b">"):
            yield record
            record = Record(lines.line)
        else:
            record.pieces.append(lines.line)
    yield record


def fastq_records(lines: Lines) -> Iterator[Record]:
    """The records of a FASTQ file, whose first line is a header. A quality may begin with any byte, so it ends by its
    length."""
    while lines.line:
        if not lines.line.startswith(b"@"):
            raise lines.trouble("a record of FASTQ begins with @")
        record = Record(lines.line)
        while lines.advance() and not lines.line.startswith(b"+"):
            record.pieces.append(lines.line)
        length, qualities = record.length(), 0
        while qualities < length and lines.advance():
            qualities += len(lines.line)
        if qualities != length:
            raise lines.trouble(f"the sequence has {length} letters and {qualities} qualities")
        yield record
        lines.advance()


def opened(file: str) -> io.BufferedReader:
    """The bytes of a file, or of standard input."""
    if file == "-":
        given = sys.stdin.buffer
        return given if isinstance(given, io.BufferedReader) else io.BufferedReader(cast(io.RawIOBase, given))
    if not Path(file).exists():
        raise Trouble(f"{shown(file)}: there is no such file")
    if Path(file).is_dir():
        raise Trouble(f"{shown(file)}: is a folder")
    return open(file, "rb")


def records(file: str) -> Iterator[Record]:
    """The records of a file, packed or not."""
    with opened(file) as buffered:
        packed = buffered.peek(2)[:2] == GZIP
        lines = Lines(shown(file), gzip.GzipFile(fileobj=buffered) if packed else buffered)
        try:
            if not lines.advance():
                return
            if lines.line[:1] not in (b">", b"@"):
                raise lines.trouble("a file of sequences begins with > or @")
            yield from fasta_records(lines) if lines.line.startswith(b">") else fastq_records(lines)
        except (EOFError, gzip.BadGzipFile, zlib.error):
            raise lines.trouble("the packed file is damaged behind it") from None


@dataclass
class Names:
    """Makes a name for each header."""

    used: set[bytes] = field(default_factory=lambda: {WHOLE})
    next_number: dict[bytes, int] = field(default_factory=dict)

    def name(self, header: bytes) -> bytes:
        words = header[1:].split(None, 1)
        base = re.sub(rb"[^A-Za-z0-9_.-]", b"_", words[0]) if words else b"sequence"
        base = (base if re.match(rb"[A-Za-z_]", base) else b"_" + base)[:LONGEST_NAME]
        name, number = base, self.next_number.get(base, 2)
        while name in self.used:
            suffix = b".%d" % number
            name, number = base[: LONGEST_NAME - len(suffix)] + suffix, number + 1
        self.next_number[base] = number
        self.used.add(name)
        return name


def write_all(files: list[str], sequences: BinaryIO, script: BinaryIO) -> tuple[int, int]:
    """Writes the sequences and the lines for their documents, and returns how many sequences and letters there are."""
    names, count, at = Names(), 0, 1
    script.write(b"load %s sequences\n" % WHOLE)
    for file in files:
        for record in records(file):
            count += 1
            sequences.writelines(record.pieces)
            end = at + record.length()
            shown = record.header[:LONGEST_HEADER]
            script.write(b"# %s\nlet %s = extract(%s,%d,%d)\n" % (shown, names.name(record.header), WHOLE, at, end))
            at = end
    script.write(b"drop %s\n" % WHOLE)
    return count, at - 1


def make(folder: OwnFolder, files: list[str], save: str | None) -> str:
    """Makes the folder's files, and says what they have."""
    folder.check()
    folder.path.mkdir(parents=True, exist_ok=True)
    made = {name: folder.path / f".{name}.new" for name in ("sequences", "script")}
    try:
        with open(made["sequences"], "wb") as sequences, open(made["script"], "wb") as script:
            script.write(folder.mark)
            count, letters = write_all(files, sequences, script)
            script.write(b"save %s\n" % save.encode() if save else b"")
        if letters > LONGEST_FILE:
            raise Trouble(f"the sequences have {letters} letters, and a file that is loaded at most {LONGEST_FILE}")
        if (size := made["script"].stat().st_size) > LONGEST_SCRIPT:
            raise Trouble(f"{count} sequences make a script of {size} bytes, and it has at most {LONGEST_SCRIPT}")
        for name, new in made.items():
            new.replace(folder.path / name)
    finally:
        for new in made.values():
            new.unlink(missing_ok=True)
    many = "1 sequence" if count == 1 else f"{count} sequences"
    return f"{many}, {letters} letters; run it by: cd {folder.path} && spanbase < script"


def arguments(words: Sequence[str] | None) -> argparse.Namespace:
    reader = Parser("fasta", __doc__)
    reader.add_argument("--save", type=file_of_language, metavar="IMAGE", help="the script ends by saving this image")
    reader.add_argument("folder", type=Path, metavar="FOLDER")
    reader.add_argument("files", metavar="FILE", nargs="+")
    return reader.parse_intermixed_args(words)


def run(words: Sequence[str] | None) -> int:
    asked = arguments(words)
    names = ["sequences", "script", *([asked.save, f"{asked.save}.queries"] if asked.save else [])]
    print(make(OwnFolder(asked.folder, "fasta", names), asked.files, asked.save))
    return 0


def main(words: Sequence[str] | None = None) -> int:
    return TOOL.run(run, words)


if __name__ == "__main__":
    sys.exit(main())
