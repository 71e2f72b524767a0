"""Spreads files over images, and evaluates a query on all of them by many processes or many machines.

    spanbase-shards make FOLDER FILE ..    loads files into images of a folder
    spanbase-shards ask FOLDER REGEX       lists the answers of each file, in the order of the files
    spanbase-shards status FOLDER          lists the images, and compares each with what `make` wrote

Each image is one task. The tasks run on this machine, --local of them at a time, or on the workers of a Dask cluster whose
scheduler --scheduler names. `spanbase-shards COMMAND --help` lists the options of a command.

The status is 0 on success, 1 if `ask` finds nothing, and 2 on errors. A shard that fails is reported and doesn't stop the
others.
"""
import argparse
import contextlib
import os
import re
import sys
from collections.abc import Iterator, Sequence
from functools import partial
from typing import Any, TextIO

from spanbase import shards
from spanbase.cli._common import FOUND, NOT_FOUND, TROUBLE, Parser, Tool, Trouble, counted, positive, shown, translated
from spanbase.cli._output import escaped
from spanbase.cli._search import opened
from spanbase.errors import SpanbaseError, TooManyStates
from spanbase.formula import Translation, check, translate
from spanbase.query import query_with_gap

TOOL = Tool("shards")

MAKE = """Loads files into images in a folder, which is created if it doesn't exist.

Each image has files that are next to each other in the list, and all images have about the same number of bytes. The same
command again makes only the images that are missing or damaged, or whose files have changed in size or time. A folder with
other files is rejected.
"""
ASK = """Evaluates a query on all files of a folder of shards, and lists at most --limit answers of each.

A line has the file and the answer's tuple, with positions in bytes, counted from 1. With --texts the text of each variable
follows. Fields are separated by tabs; in names and texts a tab, a newline, a carriage return and a backslash are \\t, \\n, \\r
and \\\\, and other control bytes \\xHH.
"""
STATUS = """Lists the images of a folder of shards, and compares each with what `make` wrote, where the tasks run.

A line has the image, its files, the bytes of their texts, the bytes of the image, and `ok` or what is wrong.
"""


def natural(text: str) -> int:
    if not text.isdecimal():
        raise argparse.ArgumentTypeError(f"{text!r} isn't a number from 0 on")
    return int(text)


def parser(command: str, description: str) -> Parser:
    reader = Parser(f"shards {command}", description)
    add = reader.add_argument
    where = reader.add_mutually_exclusive_group()
    where.add_argument("--local", type=positive, metavar="N", help="run N tasks at a time on this machine (default)")
    where.add_argument("--scheduler", metavar="ADDRESS", help="run on the Dask cluster of this scheduler, as tcp://host:8786")
    add("--wait", type=positive, default=30, metavar="SECONDS", help="how long to wait for a worker of the cluster (30)")
    add("--retries", type=natural, default=2, metavar="N", help="run a task that failed again, at most N times (2)")
    add("-q", "--quiet", action="store_true", help="no progress and no notes on standard error")
    add("folder", metavar="FOLDER")
    return reader


@contextlib.contextmanager
def engine(asked: argparse.Namespace) -> Iterator[Any]:
    """What runs the tasks."""
    if not asked.scheduler:
        yield asked.local
        return
    try:
        import logging

        from distributed import Client
    except ImportError:
        raise Trouble(
            "--scheduler needs Dask: install python3-distributed of the system and run this with the system's Python, "
            "or install distributed; --local needs nothing"
        ) from None
    # what happens to a task is reported with its shard; a timeout inside of Dask may be left to asyncio's log
    for name in ("distributed.client", "asyncio"):
        logging.getLogger(name).setLevel(logging.CRITICAL)
    try:
        client: Any = Client(asked.scheduler, timeout=asked.wait, set_as_default=False)
    except (OSError, ValueError, TimeoutError) as error:
        raise Trouble(f"there is no scheduler at {asked.scheduler}: {str(error).splitlines()[0]}") from None
    with client:
        try:
            client.wait_for_workers(1, timeout=asked.wait)
        except TimeoutError:
            raise Trouble(f"the scheduler at {asked.scheduler} has had no worker for {asked.wait} s") from None
        yield client


# -------------------------------------------------------------------------------------------------------------------- make


def make_parser() -> Parser:
    reader = parser("make", MAKE)
    add = reader.add_argument
    add("--shards", type=positive, metavar="N", help="make at most N images, by default as many as tasks run at a time")
    add("--replace", action="store_true", help="replace the shards of other files that the folder has")
    add("--files-from", metavar="LIST", help="read names of files from a file, a line each, or from standard input by -")
    add("-0", "--null", action="store_true", help="names of the list end with a null byte, as find -print0 writes them")
    add("--program", "--shell", dest="program", metavar="PATH", help="the spanshell that each task runs")
    add("files", metavar="FILE", nargs="*")
    return reader


def listed_files(asked: argparse.Namespace) -> list[str]:
    files = list(asked.files)
    if asked.files_from:
        if asked.files_from == "-":
            content = sys.stdin.buffer.read()
        else:
            with open(asked.files_from, "rb") as file:
                content = file.read()
        files += [os.fsdecode(name) for name in content.split(b"\0" if asked.null else b"\n") if name]
    return files


def make(words: Sequence[str]) -> int:
    reader = make_parser()
    asked = reader.parse_intermixed_args(words)
    files = listed_files(asked)
    if not files:
        reader.error("name files, or a list of them by --files-from")

    def report(image: shards.Image, made: bool) -> None:
        if not asked.quiet:
            size = sum(document.bytes for document in image.documents)
            did = "made" if made else "kept"
            TOOL.say(f"{did} {image.file}: {counted(len(image.documents), 'file')}, {size} bytes, {image.nodes} nodes")

    with engine(asked) as client:
        made = shards.make(
            files,
            asked.folder,
            shards=asked.shards,
            replace=asked.replace,
            client=client,
            program=asked.program,
            retries=asked.retries,
            patience=asked.wait,
            report=report,
        )
    print(f"{counted(len(made.documents), 'file')} in {counted(len(made.images), 'image')}")
    return FOUND


# --------------------------------------------------------------------------------------------------------------------- ask


def limit(text: str) -> int | None:
    return None if text == "all" else positive(text)


def ask_parser() -> Parser:
    reader = parser("ask", ASK)
    add = reader.add_argument
    add("--formula", action="store_true", help="the query is a formula, which matches whole texts, and no regex")
    add("-i", "--ignore-case", action="store_true", help="ASCII letters match in either case")
    add("--limit", type=limit, default=100, metavar="N", help="list at most N answers of each file, by default 100, or `all`")
    add("--document", action="append", metavar="FILE", help="ask only this file, by its path in the list of `make`; may be repeated")
    add("--after", metavar="TUPLE", help="list the answers after this one; of one --document")
    add("--texts", action="store_true", help="print the text of each variable too")
    form = reader.add_mutually_exclusive_group()
    form.add_argument("--csv", action="store_true", help="print CSV with a header; positions count from 0")
    form.add_argument("--tsv", action="store_true", help="print the same, separated by tabs")
    form.add_argument("--json", action="store_true", help="print a JSON object for each answer; positions count from 0")
    reader.add_program()
    add("query", metavar="REGEX")
    return reader


def translation_of(asked: argparse.Namespace, regex: str) -> Translation:
    return translate(regex, re.IGNORECASE if asked.ignore_case else 0)


def regex_with_gap(asked: argparse.Namespace) -> str | None:
    """The regex with a gap captured, such that the program accepts it."""
    with contextlib.suppress(SpanbaseError), opened(asked) as database:
        found = query_with_gap(database, asked.query, partial(translation_of, asked))
        return found.regex if found else None
    return None


def query_of(asked: argparse.Namespace) -> Translation | str:
    if not asked.formula:
        return translated(lambda: translation_of(asked, asked.query), asked.query)
    translated(lambda: check(asked.query), asked.query)
    return str(asked.query)


def field(text: str | bytes) -> str:
    """A text with its control bytes and backslashes escaped, so that it is one field of a line."""
    return os.fsdecode(escaped(os.fsencode(text)))


def print_lines(answers: shards.Answers, texts: bool, out: TextIO) -> None:
    for page in answers.pages():
        for row in page.rows:
            fields = ["" if it is None else field(it) for it in row.texts.values()] if texts else []
            out.write("\t".join([field(row.document), row.cursor, *fields]) + "\n")
        out.flush()


def print_answers(answers: shards.Answers, asked: argparse.Namespace, out: TextIO) -> None:
    if asked.csv or asked.tsv:
        answers.to_csv(out, delimiter="," if asked.csv else "\t", texts=asked.texts, spans=True, document=True)
    elif asked.json:
        answers.to_json_lines(out, texts=asked.texts, spans=True, document=True)
    else:
        print_lines(answers, asked.texts, out)
    out.flush()


def ask(words: Sequence[str]) -> int:
    reader = ask_parser()
    asked = reader.parse_args(words)
    if asked.after and len(asked.document or []) != 1:
        reader.error("--after needs one --document")
    query = query_of(asked)
    with engine(asked) as client, output() as out:
        answers = shards.ask(
            asked.folder,
            query,
            limit=asked.limit,
            documents=asked.document,
            after=asked.after,
            texts=asked.texts,
            client=client,
            program=asked.program,
            workers=asked.workers,
            states=asked.states,
            retries=asked.retries,
            patience=asked.wait,
            report=lambda failure: TOOL.trouble(shown(str(failure))),
        )
        try:
            with answers, contextlib.suppress(shards.ShardsFailed):
                print_answers(answers, asked, out)
        except TooManyStates as error:
            error.regex = None if asked.formula else regex_with_gap(asked)
            raise
    if answers.more and not asked.quiet:
        TOOL.say(f"{counted(len(answers.more), 'file has', 'files have')} more answers; --limit all lists them")
    return TROUBLE if answers.failures else FOUND if answers.count else NOT_FOUND


@contextlib.contextmanager
def output() -> Iterator[TextIO]:
    """Standard output for names and texts of any bytes."""
    with open(sys.stdout.fileno(), "w", encoding="utf-8", errors="surrogateescape", newline="", closefd=False) as out:
        yield out


# ------------------------------------------------------------------------------------------------------------------ status


def status(words: Sequence[str]) -> int:
    asked = parser("status", STATUS).parse_args(words)
    manifest = shards.Manifest.read(asked.folder)
    with engine(asked) as client:
        wrong = {failure.shard: failure for failure in shards.check(asked.folder, client=client, retries=asked.retries, patience=asked.wait)}
    for shard, image in enumerate(manifest.images):
        texts = sum(it.bytes for it in image.documents)
        state = wrong[shard].reason if shard in wrong else "ok"
        print(image.file, len(image.documents), texts, image.bytes, state, sep="\t")
    return TROUBLE if wrong else FOUND


# -------------------------------------------------------------------------------------------------------------------- main

COMMANDS = {"make": make, "ask": ask, "status": status}


def run(words: Sequence[str] | None) -> int:
    given = list(sys.argv[1:] if words is None else words)
    if given and given[0] in COMMANDS:
        try:
            return COMMANDS[given[0]](given[1:])
        except shards.ShardsFailed as failed:
            for failure in failed.failures:
                TOOL.trouble(shown(str(failure)))
            return TROUBLE
        except SpanbaseError as error:
            raise Trouble(shown(str(error))) from None
    reader = Parser("shards", __doc__)
    reader.add_argument("command", choices=list(COMMANDS))
    reader.parse_args(given[:1])
    reader.error("name a command")


def main(words: Sequence[str] | None = None) -> int:
    return TOOL.run(run, words)


if __name__ == "__main__":
    sys.exit(main())
