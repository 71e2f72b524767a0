"""Documents spread over images, and a query that is evaluated on all of them by many processes or many machines.

`make` loads files into images, the *shards*, and `ask` evaluates a query on them and returns the answers in the order of the
files. Each image is one task. The tasks run on a Dask cluster, on an executor of `concurrent.futures`, or, by
default, on the processors of this machine.

An image is named by a digest of its bytes and is never overwritten. The file `manifest.json` says which images belong
together. It is replaced as a whole when all images are there. The answers of an image carry a digest of the query, the limit
and the image, and are rejected where that isn't the digest of what was asked for.
"""
import builtins
import concurrent.futures
import contextlib
import dataclasses
import fcntl
import hashlib
import json
import os
import queue
import re
import secrets
import signal
import socket
import tempfile
import threading
import time
from collections import deque
from collections.abc import Callable, Generator, Iterable, Iterator, Mapping, Sequence
from dataclasses import asdict, dataclass, field
from functools import partial
from itertools import count
from pathlib import Path
from typing import Any, Protocol, Self

from spanbase.errors import (
    BadCommand,
    BadImage,
    BadQuery,
    BadTuple,
    FileRefused,
    Refused,
    ShellEnded,
    SpanbaseError,
    UnknownName,
    refusal,
)
from spanbase.export import Tabular
from spanbase.formula import Translation
from spanbase.formula import check as variables_of
from spanbase.limits import FEWEST_STATES, LONGEST_FILE, LONGEST_IMAGE, MOST_LISTED, MOST_STATES, WIDEST_SHOW
from spanbase.query import Query
from spanbase.shell import Shell, checked_states, shell_path, unquoted

__all__ = [
    "Answers",
    "ClusterLost",
    "Failure",
    "File",
    "Image",
    "Manifest",
    "ManifestError",
    "Page",
    "Row",
    "ShardsFailed",
    "Span",
    "ask",
    "check",
    "make",
]

FORMAT = "spanbase shards 1"
MANIFEST = "manifest.json"
# the plan of a `make` that hasn't ended, with the images that are there
UNFINISHED = "manifest.unfinished.json"
IMAGE_NAME = re.compile(r"\d{4,}-[0-9a-f]{16}\.image")
OWN_NAME = re.compile(r"\d{4,}-[0-9a-f]{16}\.(image|part)|manifest(\.unfinished)?\.json(\.[0-9a-f]{16}\.part)?")
HASHED_PIECE = 1 << 20
# the number of spans that are shown by one exchange with the program
SHOWN_TOGETHER = 4096
# a local task is submitted when fewer than this number for each process are under way
AHEAD = 4
# how often an engine is checked while its tasks are awaited, in seconds
CHECKED_EVERY = 1.0
# how often `make` writes at most which images there are, in seconds
WRITTEN_EVERY = 1.0

AnyPath = str | os.PathLike[str]

# ---------------------------------------------------------------------------------------------------------------- manifest


@dataclass(frozen=True)
class File:
    """A file that an image has as a document. `name` is the path as the caller passed it, and `path` the absolute one."""

    name: str
    path: str
    bytes: int
    changed: int

    @property
    def is_unchanged(self) -> bool:
        """Whether the file has the size and the time of its last change that it had when the images were planned."""
        with contextlib.suppress(OSError):
            found = os.stat(self.path)
            return (found.st_size, found.st_mtime_ns) == (self.bytes, self.changed)
        return False


@dataclass(frozen=True)
class Image:
    """A shard: the documents of one image, the name of its file, and the length and SHA-256 digest of the file's bytes."""

    documents: tuple[File, ...]
    file: str
    bytes: int
    nodes: int
    sha256: str


@dataclass(frozen=True)
class Manifest:
    """What a folder of shards has: its images in the order of the documents."""

    images: tuple[Image, ...]

    @property
    def documents(self) -> list[File]:
        """All documents, in their order."""
        return [document for image in self.images for document in image.documents]

    @classmethod
    def read(cls, folder: AnyPath) -> Self:
        """The manifest of a folder."""
        path = Path(folder, MANIFEST)
        if not path.exists():
            if Path(folder, UNFINISHED).exists():
                raise ManifestError(f"the shards of {os.fspath(folder)} aren't all made: make them again")
            raise ManifestError(f"there are no shards in {os.fspath(folder)}: it has no {MANIFEST}")
        shards = _read_shards(path)
        if any(shard.image is None for shard in shards):
            raise ManifestError(f"{path} lacks an image")
        return cls(tuple(shard.image for shard in shards if shard.image))


class ManifestError(SpanbaseError, ValueError):
    """A folder has no shards, has those of other files, or has a manifest that can't be read."""


@dataclass(frozen=True)
class _Shard:
    """The documents of a shard, and its image where that is made."""

    documents: tuple[File, ...]
    image: Image | None


def _read_shards(path: Path) -> list[_Shard]:
    try:
        content = json.loads(path.read_bytes())
        if content["format"] != FORMAT:
            raise ManifestError(f"{path} is a manifest of another format than this version reads")
        return [_shard_of(entry) for entry in content["images"]]
    except OSError as error:
        raise ManifestError(f"{path} can't be read: {error.strerror}") from None
    except (ValueError, TypeError, KeyError) as error:
        if isinstance(error, ManifestError):
            raise
        raise ManifestError(f"{path} is no manifest of shards") from None


def _shard_of(entry: Mapping[str, Any]) -> _Shard:
    documents = tuple(File(**it) for it in entry["documents"])
    others = {key: value for key, value in entry.items() if key != "documents"}
    if entry["file"] is None:
        return _Shard(documents, None)
    if not IMAGE_NAME.fullmatch(entry["file"]):
        raise ValueError
    return _Shard(documents, Image(documents=documents, **others))


def _write_shards(path: Path, shards: Sequence[_Shard]) -> None:
    entries = [
        asdict(it.image) if it.image else {"file": None, "documents": [asdict(document) for document in it.documents]}
        for it in shards
    ]
    lines = ",\n".join(map(json.dumps, entries))
    # the file is replaced as a whole
    part = path.with_name(f"{path.name}.{secrets.token_hex(8)}.part")
    try:
        with open(part, "x", encoding="ascii") as file:
            file.write(f'{{"format": "{FORMAT}", "images": [\n{lines}\n]}}\n')
        part.replace(path)
    finally:
        part.unlink(missing_ok=True)


def _sync(path: Path) -> None:
    """Brings a file or a folder to the disk, where the file system can."""
    with contextlib.suppress(OSError):
        opened = os.open(path, os.O_RDONLY)
        try:
            os.fsync(opened)
        finally:
            os.close(opened)


def _sha256(path: Path) -> str:
    digest = hashlib.sha256()
    with open(path, "rb") as file:
        while piece := file.read(HASHED_PIECE):
            digest.update(piece)
    return digest.hexdigest()


# ---------------------------------------------------------------------------------------------------------------- failures


@dataclass(frozen=True)
class Failure:
    """Why a shard couldn't be made, asked or checked. `shard` is its number, from 0, and `file` its image, if it has one."""

    shard: int
    reason: str
    file: str | None = None

    def __str__(self) -> str:
        image = f" ({self.file})" if self.file else ""
        return f"shard {self.shard}{image}: {self.reason}"


class ShardsFailed(SpanbaseError):
    """Some shards failed. The results of the others are valid."""

    def __init__(self, failures: Sequence[Failure]) -> None:
        super().__init__(tuple(failures))
        self.failures = tuple(failures)

    def __str__(self) -> str:
        return "; ".join(map(str, self.failures))


class ClusterLost(SpanbaseError):
    """A cluster has had no worker for longer than the caller waits."""


class _Lasting(Exception):
    """What a task can't do, and couldn't if it were tried again."""


class TaskInterrupted(Exception):
    """A task whose program was ended, or whose machine failed. It is tried again."""


# ------------------------------------------------------------------------------------------------------------------- tasks
# A task is a function of a module and a frozen dataclass, which any machine that has the package can run.


@dataclass(frozen=True)
class Program:
    """The program that a task runs, with its options. Without a path each machine takes its own."""

    path: str | None = None
    workers: int = 1
    states: int = FEWEST_STATES

    @classmethod
    def of(cls, path: AnyPath | None, workers: int = 1, states: int = FEWEST_STATES) -> Self:
        return cls(None if path is None else str(shell_path(path)), workers, checked_states(states))

    def arguments(self) -> list[str]:
        return [] if self.workers == 1 else ["--workers", str(self.workers)]


@dataclass(frozen=True)
class Question:
    """A query, as the commands that register it as `q`, and which of its answers are wanted.

    There are at most `limit` of each document, after the tuple `after` where there is one, and with the bytes of their spans
    where `texts` is set.
    """

    commands: tuple[bytes, ...]
    limit: int | None
    after: bytes | None
    texts: bool

    def digest(self, sha256: str, places: Sequence[int] | None) -> str:
        """The digest of this question on an image with a digest, or on some of its documents."""
        commands, after = [it.hex() for it in self.commands], self.after and self.after.hex()
        parts = [FORMAT, commands, self.limit, after, self.texts, places, sha256]
        return hashlib.sha256(json.dumps(parts).encode()).hexdigest()


@dataclass(frozen=True)
class MakeTask:
    shard: int
    folder: str
    documents: tuple[File, ...]
    # the image of an earlier call, which stays if it is whole
    present: Image | None
    program: Program


@dataclass(frozen=True)
class AskTask:
    shard: int
    folder: str
    file: str
    bytes: int
    sha256: str
    count: int
    # which documents are asked, or None for all
    places: tuple[int, ...] | None
    question: Question
    program: Program


@dataclass(frozen=True)
class CheckTask:
    shard: int
    folder: str
    file: str
    bytes: int
    sha256: str


@dataclass(frozen=True)
class RawPage:
    """The page of a document: its tuples as the program wrote them, and the texts of each where they were asked for."""

    place: int
    tuples: tuple[bytes, ...]
    texts: tuple[tuple[bytes | None, ...], ...] | None
    more: bool


@dataclass(frozen=True)
class Answered:
    """What a task found, with the digest of what it was asked on the image that it read."""

    shard: int
    digest: str
    pages: tuple[RawPage, ...]


@dataclass(frozen=True)
class Made:
    """The image of a shard, and whether it was made now."""

    shard: int
    image: Image
    new: bool


@dataclass(frozen=True)
class QueryRefused:
    """The program's rejection of the query or the cursor, which is the same for every shard."""

    refused: Refused


_local = threading.local()


@contextlib.contextmanager
def _shell(program: Program) -> Iterator[tuple[Shell, Path]]:
    """A program in a private folder, which is its current one. Its end by a signal or for lack of memory is an interrupt."""
    with tempfile.TemporaryDirectory(prefix="spanbase-shard-", ignore_cleanup_errors=True) as private:
        with Shell(shell_path(program.path), program.arguments(), Path(private), program.states) as shell:
            pool: _LocalPool | None = getattr(_local, "pool", None)
            if pool:
                pool.began(shell.pid)
            try:
                yield shell, Path(private)
            except ShellEnded as ended:
                raise TaskInterrupted(f"{ended} on {socket.gethostname()}") from None
            finally:
                if pool:
                    pool.ended(shell.pid)


def _document_name(place: int) -> bytes:
    """The name of a document in its image. Paths aren't names of the language, so the manifest keeps them."""
    return b"d%06d" % (place + 1)


def make_image(task: MakeTask) -> Made | Failure:
    """Loads the files of a shard and saves its image under a name that has its digest."""
    folder = Path(task.folder)
    part = folder / f"{task.shard:04}-{secrets.token_hex(8)}.part"
    try:
        if not folder.is_dir():
            raise _Lasting(f"there is no folder {folder} on {socket.gethostname()}")
        if task.present and _is_whole(task.folder, task.present):
            return Made(task.shard, task.present, False)
        with _shell(task.program) as (shell, private):
            for place, document in enumerate(task.documents):
                _load(shell, private, place, document)
            (private / "folder").symlink_to(folder.absolute())
            saved = shell.ask(b"save folder/" + part.name.encode())
        size = part.stat().st_size
        if size > LONGEST_IMAGE:
            raise _Lasting(f"its image would have {size} bytes, and at most {LONGEST_IMAGE} can be opened: make more shards")
        digest = _sha256(part)
        name = f"{task.shard:04}-{digest[:16]}.image"
        _sync(part)
        part.replace(folder / name)
        image = Image(task.documents, name, size, int(saved[0].split(b" ")[2]), digest)
        return Made(task.shard, image, True)
    except (_Lasting, SpanbaseError) as error:
        return Failure(task.shard, str(error))
    finally:
        with contextlib.suppress(OSError):
            part.unlink(missing_ok=True)


def _load(shell: Shell, private: Path, place: int, document: File) -> None:
    """Loads a file by a link, since a path needn't be a FILE of the language."""
    link = private / f"f{place}"
    link.symlink_to(document.path)
    name = _document_name(place)
    try:
        try:
            reply = shell.ask(b"share %s f%d" % (name, place))
        except Refused as refused:
            if refused.word != "Syntax":
                raise
            reply = shell.ask(b"load %s f%d" % (name, place))
    except FileRefused as refused:
        raise _Lasting(f"{document.name}: {refused.meaning()} on {socket.gethostname()}") from None
    except ShellEnded as ended:
        raise TaskInterrupted(f"{document.name}: {ended} on {socket.gethostname()}") from None
    if int(reply[0].split(b" ")[2]) != document.bytes or not document.is_unchanged:
        raise _Lasting(f"{document.name} was changed while the shards were made")


def _verify(folder: str, file: str, size: int, sha256: str) -> Path:
    """The image's path, if the file has the bytes that were saved."""
    path = Path(folder, file)
    try:
        found = path.stat().st_size
        if found < size:
            raise _Lasting(f"the image is cut: it has {found} of {size} bytes")
        if found > size or _sha256(path) != sha256:
            raise _Lasting("the image was changed: its digest isn't that of the manifest")
    except FileNotFoundError:
        raise _Lasting(f"the image isn't there on {socket.gethostname()}") from None
    except OSError as error:
        raise TaskInterrupted(f"the image can't be read on {socket.gethostname()}: {error.strerror}") from None
    return path


def _is_whole(folder: str, image: Image) -> bool:
    try:
        _verify(folder, image.file, image.bytes, image.sha256)
    except _Lasting:
        return False
    return True


def check_image(task: CheckTask) -> str | Failure:
    """Whether the image is what was saved."""
    try:
        _verify(task.folder, task.file, task.bytes, task.sha256)
        return task.sha256
    except _Lasting as error:
        return Failure(task.shard, str(error), task.file)


def ask_image(task: AskTask) -> Answered | QueryRefused | Failure:
    """Evaluates the query on the documents of an image."""
    question = task.question
    try:
        image = _verify(task.folder, task.file, task.bytes, task.sha256)
        with _shell(task.program) as (shell, private):
            (private / "image").symlink_to(image.absolute())
            shell.ask(b"open image")
            for command in question.commands:
                shell.ask(command)
            pages = tuple(_pages(shell, task))
        return Answered(task.shard, question.digest(task.sha256, task.places), pages)
    except (BadCommand, BadQuery, BadTuple) as refused:
        return QueryRefused(refused)
    except BadImage as refused:
        return Failure(task.shard, f"BadImage {' '.join(refused.values)}: {refused.meaning()}", task.file)
    except (_Lasting, SpanbaseError) as error:
        return Failure(task.shard, str(error), task.file)


def _pages(shell: Shell, task: AskTask) -> Iterator[RawPage]:
    question = task.question
    first = min(question.limit or MOST_LISTED, MOST_LISTED)
    places = range(task.count) if task.places is None else task.places
    if task.places is None and question.after is None:
        listings = _listall(shell, first, task.count)
    else:
        cursor = b"" if question.after is None else b" after " + question.after
        listings = (shell.ask(b"list q %s%s limit %d" % (_document_name(it), cursor, first)) for it in places)
    for place, listing in zip(places, listings, strict=True):
        name, more = _document_name(place), listing.pop() == b"more"
        while more and (question.limit is None or len(listing) < question.limit):
            left = MOST_LISTED if question.limit is None else min(question.limit - len(listing), MOST_LISTED)
            *further, last = shell.ask(b"list q %s after %s limit %d" % (name, listing[-1], left))
            listing += further
            more = last == b"more"
        texts = _texts(shell, name, listing) if question.texts else None
        yield RawPage(place, tuple(listing), texts, more)


def _listall(shell: Shell, limit: int, count: int) -> Iterator[list[bytes]]:
    """The listings of all documents, each without its line `doc NAME`."""
    lines = shell.ask(b"listall q limit %d" % limit)
    at = 0
    for place in range(count):
        if lines[at] != b"doc " + _document_name(place):
            raise _Lasting("the documents of the image aren't those of the manifest")
        end = at + 1
        while lines[end] not in (b"end", b"more"):
            end += 1
        yield lines[at + 1 : end + 1]
        at = end + 1
    if lines[at:] != [b"done"]:
        raise _Lasting("the documents of the image aren't those of the manifest")


ENTRY = re.compile(rb"([A-Za-z0-9_.-]+)=(?:-|\[(\d+),(\d+)\))")


def _bounds(answer: bytes) -> list[tuple[int, int] | None]:
    """The bounds of the spans of a tuple, counted from 0."""
    return [(int(it[2]) - 1, int(it[3]) - 1) if it[2] else None for it in ENTRY.finditer(answer)]


def _texts(shell: Shell, name: bytes, listing: list[bytes]) -> tuple[tuple[bytes | None, ...], ...]:
    """The bytes of each span of the tuples."""
    rows = [_bounds(answer) for answer in listing]
    shows = [
        b"show %s %d %d" % (name, at + 1, min(at + WIDEST_SHOW, end) + 1)
        for start, end in (span for row in rows for span in row if span)
        for at in range(start, end, WIDEST_SHOW)
    ]
    pieces: list[bytes] = []
    for first in range(0, len(shows), SHOWN_TOGETHER):
        for reply in shell.ask_all(shows[first : first + SHOWN_TOGETHER]):
            if isinstance(reply, Refused):
                raise reply
            pieces.append(unquoted(reply[0]))
    shown = iter(pieces)
    return tuple(
        tuple(span and b"".join(next(shown) for _ in range(*span, WIDEST_SHOW)) for span in row) for row in rows
    )


# ----------------------------------------------------------------------------------------------------------------- engines


class Future(Protocol):
    """What futures of `concurrent.futures` and of Dask have in common."""

    def result(self) -> Any: ...

    def cancel(self) -> Any: ...

    def add_done_callback(self, fn: Callable[[Any], object], /) -> Any: ...


class _Engine:
    """What runs tasks. `ahead` limits the tasks that are under way, where there is a limit."""

    ahead: int | None = None

    def submit(self, function: Callable[[Any], Any], task: Any, rank: int) -> Future:
        raise NotImplementedError

    def check(self) -> None:
        """Raises an exception where the tasks can't be expected to end. It is called now and then while they are awaited."""

    def close(self) -> None:
        """Ends what still runs, if the engine was made for this call."""


class _LocalPool(_Engine):
    """Runs at most `processes` tasks at a time, each in a process of the program that a thread of this process talks with."""

    def __init__(self, processes: int, retries: int) -> None:
        self._retries = retries
        self._executor = concurrent.futures.ThreadPoolExecutor(processes, "spanbase-shard", self._adopt)
        self._pids: set[int] = set()
        self._lock = threading.Lock()
        self._closed = False
        self.ahead = AHEAD * processes

    def _adopt(self) -> None:
        _local.pool = self

    def submit(self, function: Callable[[Any], Any], task: Any, rank: int) -> Future:
        return self._executor.submit(self._run, function, task)

    def _run(self, function: Callable[[Any], Any], task: Any) -> Any:
        return _with_retries(function, task, 0 if self._closed else self._retries)

    def began(self, pid: int) -> None:
        with self._lock:
            self._pids.add(pid)
        if self._closed:
            self._kill()

    def ended(self, pid: int) -> None:
        with self._lock:
            self._pids.discard(pid)

    def _kill(self) -> None:
        with self._lock:
            for pid in self._pids:
                with contextlib.suppress(ProcessLookupError, PermissionError):
                    os.killpg(pid, signal.SIGKILL)

    def close(self) -> None:
        self._closed = True
        self._retries = 0
        self._executor.shutdown(wait=False, cancel_futures=True)
        self._kill()
        self._executor.shutdown(wait=True)


def _with_retries(function: Callable[[Any], Any], task: Any, retries: int) -> Any:
    for _ in range(retries):
        with contextlib.suppress(TaskInterrupted):
            return function(task)
    return function(task)


class _Executor(_Engine):
    """Runs tasks on an executor of `concurrent.futures`, which stays its owner's."""

    def __init__(self, executor: concurrent.futures.Executor, retries: int) -> None:
        self._executor = executor
        self._retries = retries

    def submit(self, function: Callable[[Any], Any], task: Any, rank: int) -> Future:
        return self._executor.submit(_with_retries, function, task, self._retries)


class _Dask(_Engine):
    """Runs tasks by a client of a Dask cluster, which stays its owner's."""

    def __init__(self, client: Any, retries: int, patience: float | None) -> None:
        self._client = client
        self._retries = retries
        self._patience = patience
        self._had_workers = time.monotonic()

    def submit(self, function: Callable[[Any], Any], task: Any, rank: int) -> Future:
        # A key of its own for each task of each call: no result of another call is ever taken for it.
        key = f"spanbase-{function.__name__}-{task.shard}-{secrets.token_hex(8)}"
        future: Future = self._client.submit(function, task, key=key, pure=False, retries=self._retries, priority=-rank)
        return future

    def check(self) -> None:
        now = time.monotonic()
        with contextlib.suppress(OSError):
            if self._client.nthreads():
                self._had_workers = now
        if self._patience is not None and now - self._had_workers > self._patience:
            raise ClusterLost(f"the cluster has had no worker for {now - self._had_workers:.0f} s")


def _engine(client: Any, retries: int, patience: float | None) -> _Engine:
    """`client` is a client of Dask, an executor, a number of processes of this machine, or None for its processors."""
    if client is None:
        return _LocalPool(len(os.sched_getaffinity(0)), retries)
    if isinstance(client, int):
        return _LocalPool(client, retries)
    if isinstance(client, concurrent.futures.Executor):
        return _Executor(client, retries)
    return _Dask(client, retries, patience)


def _awaited(engine: _Engine, future: Future, task: Any) -> Any:
    """What the task returned, or a failure where it was tried in vain."""
    ended = threading.Event()
    future.add_done_callback(lambda _: ended.set())
    while not ended.wait(CHECKED_EVERY):
        engine.check()
    return _result(future, task)


def _result(future: Future, task: Any) -> Any:
    try:
        return future.result()
    except (Exception, concurrent.futures.CancelledError) as error:
        return Failure(task.shard, _described(error), getattr(task, "file", None))


def _described(error: BaseException) -> str:
    """An error of a task or of an engine in one line."""
    match type(error).__name__:
        case "TaskInterrupted":
            return str(error)
        case "KilledWorker":
            return "the workers that had its task ended, one after another"
        case "CancelledError":
            return "its task was cancelled, or the scheduler has ended"
    lines = str(error).strip().splitlines()
    return f"{type(error).__name__}: {lines[0]}" if lines else type(error).__name__


def _ended(queue_of: "queue.SimpleQueue[tuple[Any, Future]]", task: Any, future: Future) -> None:
    queue_of.put((task, future))


def _in_any_order(
    engine: _Engine, function: Callable[[Any], Any], tasks: Sequence[Any]
) -> Generator[tuple[Any, Any], None, None]:
    """Tasks with their results, in the order in which they end."""
    ended: queue.SimpleQueue[tuple[Any, Future]] = queue.SimpleQueue()
    futures: list[Future] = []
    try:
        for rank, task in enumerate(tasks):
            futures.append(engine.submit(function, task, rank))
            futures[-1].add_done_callback(partial(_ended, ended, task))
        left = len(tasks)
        while left:
            try:
                task, future = ended.get(timeout=CHECKED_EVERY)
            except queue.Empty:
                engine.check()
                continue
            left -= 1
            yield task, _result(future, task)
    finally:
        for future in futures:
            future.cancel()
        engine.close()


# -------------------------------------------------------------------------------------------------------------------- make


def make(
    files: Iterable[AnyPath | bytes],
    folder: AnyPath,
    *,
    shards: int | None = None,
    replace: bool = False,
    client: Any = None,
    program: AnyPath | None = None,
    retries: int = 2,
    patience: float | None = None,
    report: Callable[[Image, bool], object] | None = None,
) -> Manifest:
    """Loads files into at most `shards` images in a folder, which is created if it doesn't exist.

    Each image has files that are next to each other, and all have about the same number of bytes. A folder with other files
    is rejected, and so is one that has shards of other files, unless `replace` is set. Images that are there, whose
    files weren't changed since, stay.

    `client` is a client of a Dask cluster, an executor of `concurrent.futures`, or a number of processes of this machine.
    `program` is the shell that runs each task, by default that which each machine finds for itself. A task whose program or
    machine fails is run again up to `retries` times. A cluster without a worker is waited for, `patience` seconds at most.
    `report` is called with each image, and with whether it was made now.

    Where some shards can't be made, the others are, and then `ShardsFailed` is raised. The next `make` makes those that lack.
    """
    documents = _documents(files)
    rows = _cut(documents, _width(client) if shards is None else shards)
    target = Path(folder).absolute()
    target.mkdir(parents=True, exist_ok=True)
    with _sole_maker(target):
        present = _present(target, documents, replace)
        planned = [_Shard(row, _with_names(present.get(_states(row)), row)) for row in rows]
        tool = Program.of(program)
        tasks = [MakeTask(shard, str(target), it.documents, it.image, tool) for shard, it in enumerate(planned)]
        failures = _make_all(target / UNFINISHED, planned, tasks, _engine(client, retries, patience), report)
        if failures:
            raise ShardsFailed(failures)
        # the images are on the disk before the manifest, which names them
        _sync(target / UNFINISHED)
        _sync(target)
        (target / UNFINISHED).replace(target / MANIFEST)
        _sync(target)
        manifest = Manifest.read(target)
        _remove_others(target, manifest)
        return manifest


def _make_all(
    unfinished: Path,
    planned: list[_Shard],
    tasks: list[MakeTask],
    engine: _Engine,
    report: Callable[[Image, bool], object] | None,
) -> list[Failure]:
    """Does the tasks, writes now and then which images there are, and returns what has failed."""
    failures: list[Failure] = []
    _write_shards(unfinished, planned)
    written = time.monotonic()
    try:
        with contextlib.closing(_in_any_order(engine, make_image, tasks)) as results:
            for task, made in results:
                if isinstance(made, Failure):
                    failures.append(made)
                elif report:
                    report(made.image, made.new)
                planned[task.shard] = _Shard(task.documents, None if isinstance(made, Failure) else made.image)
                if time.monotonic() - written > WRITTEN_EVERY:
                    _write_shards(unfinished, planned)
                    written = time.monotonic()
    finally:
        _write_shards(unfinished, planned)
    return sorted(failures, key=lambda it: it.shard)


def _documents(files: Iterable[AnyPath | bytes]) -> list[File]:
    documents: list[File] = []
    faults: list[str] = []
    names: set[str] = set()
    for file in files:
        name = os.fsdecode(file)
        try:
            found = os.stat(name)
            if not os.path.isfile(name):
                faults.append(f"{name} is no plain file")
            elif found.st_size > LONGEST_FILE:
                faults.append(f"{name} has {found.st_size} bytes, and at most {LONGEST_FILE} can be loaded")
            elif name in names:
                faults.append(f"{name} occurs twice")
            names.add(name)
            documents.append(File(name, os.path.abspath(name), found.st_size, found.st_mtime_ns))
        except OSError as error:
            faults.append(f"{name}: {error.strerror}")
    if faults:
        raise ManifestError("; ".join(faults))
    if not documents:
        raise ManifestError("there are no files to make shards of")
    return documents


def _cut(documents: Sequence[File], shards: int) -> list[tuple[File, ...]]:
    """At most `shards` rows of documents, in their order, with about the same number of bytes."""
    if shards < 1:
        raise ValueError(f"there is at least one shard, not {shards}")
    total = sum(document.bytes for document in documents)
    cut: dict[int, list[File]] = {}
    before = 0
    for document in documents:
        # the shard in whose part of all bytes the middle of the document lies
        shard = (2 * before + document.bytes) * shards // (2 * total) if total else 0
        cut.setdefault(min(shard, shards - 1), []).append(document)
        before += document.bytes
    return [tuple(row) for row in cut.values()]


def _width(client: Any) -> int:
    """How many tasks run at a time."""
    if client is None:
        return len(os.sched_getaffinity(0))
    if isinstance(client, int):
        return client
    if isinstance(client, concurrent.futures.Executor):
        raise ValueError("with an executor, `shards` says how many images are made")
    return sum(client.nthreads().values()) or 1


@contextlib.contextmanager
def _sole_maker(folder: Path) -> Iterator[None]:
    """Keeps the folder from a second `make` at the same time, where its file system can."""
    opened = os.open(folder, os.O_RDONLY)
    try:
        try:
            fcntl.flock(opened, fcntl.LOCK_EX | fcntl.LOCK_NB)
        except BlockingIOError:
            raise ManifestError(f"the shards of {folder} are just being made by another process") from None
        except OSError:
            pass
        yield
    finally:
        os.close(opened)


def _states(documents: Iterable[File]) -> tuple[tuple[str, int, int], ...]:
    """What must be unchanged for an image of these files to be kept."""
    return tuple((it.path, it.bytes, it.changed) for it in documents)


def _with_names(image: Image | None, documents: tuple[File, ...]) -> Image | None:
    """The image with the present names of its files."""
    return image and dataclasses.replace(image, documents=documents)


def _present(folder: Path, documents: list[File], replace: bool) -> dict[tuple[tuple[str, int, int], ...], Image]:
    """The images that are there, by the states of their files."""
    foreign = sorted(it.name for it in folder.iterdir() if not OWN_NAME.fullmatch(it.name))
    if foreign:
        raise ManifestError(f"{folder} has other files than shards, such as {foreign[0]}")
    images: dict[tuple[tuple[str, int, int], ...], Image] = {}
    for path in (folder / MANIFEST, folder / UNFINISHED):
        if path.exists():
            shards = _read_shards(path)
            if not replace and [it.path for shard in shards for it in shard.documents] != [it.path for it in documents]:
                raise ManifestError(f"{folder} has shards of other files, which are replaced only on demand")
            images.update((_states(it.documents), it.image) for it in shards if it.image)
    return images


def _remove_others(folder: Path, manifest: Manifest) -> None:
    """Removes images that aren't those of the manifest, and what tasks left that were ended."""
    kept = {image.file for image in manifest.images}
    for path in folder.iterdir():
        if path.name not in kept and (IMAGE_NAME.fullmatch(path.name) or path.suffix == ".part"):
            path.unlink(missing_ok=True)


# --------------------------------------------------------------------------------------------------------------------- ask


@dataclass(frozen=True, slots=True)
class Span:
    """The bytes from `start` to before `end` of a document, counted from 0."""

    start: int
    end: int
    # the bytes, where they were asked for
    bytes: builtins.bytes | None = field(default=None, compare=False, repr=False)

    def __iter__(self) -> Iterator[int]:
        return iter(self.bounds)

    @property
    def bounds(self) -> tuple[int, int]:
        """`(start, end)`, as `re.Match.span` has it."""
        return self.start, self.end

    @property
    def text(self) -> builtins.bytes:
        """The bytes."""
        if self.bytes is None:
            raise ValueError("the texts were not asked for: ask(.., texts=True) reads them")
        return self.bytes


class Row(Mapping[str, Span | None]):
    """An answer: for each variable of the query its span, or None where it has none."""

    __slots__ = ("_spans", "_texts", "_variables", "cursor", "document")

    def __init__(
        self, document: str, variables: tuple[str, ...], answer: bytes, texts: "tuple[bytes | None, ...] | None"
    ) -> None:
        self.document = document
        # the tuple as the script language writes it
        self.cursor = answer.decode("ascii")
        self._variables = variables
        self._texts = texts
        self._spans: dict[str, Span | None] | None = None

    @property
    def _all(self) -> dict[str, Span | None]:
        if self._spans is None:
            bounds = _bounds(self.cursor.encode())
            texts = self._texts or [None] * len(bounds)
            spans = [it and Span(*it, text) for it, text in zip(bounds, texts, strict=True)]
            self._spans = dict(zip(self._variables, spans, strict=True))
        return self._spans

    def __repr__(self) -> str:
        return f"<Row {self.cursor} of {self.document!r}>"

    def __getitem__(self, variable: str) -> Span | None:
        return self._all[variable]

    def __iter__(self) -> Iterator[str]:
        return iter(self._variables)

    def __len__(self) -> int:
        return len(self._variables)

    def __bool__(self) -> bool:
        return True

    def __eq__(self, other: object) -> bool:
        if not isinstance(other, Row):
            return NotImplemented
        return (self.document, self.cursor) == (other.document, other.cursor)

    def __hash__(self) -> int:
        return hash((self.document, self.cursor))

    @property
    def spans(self) -> dict[str, tuple[int, int] | None]:
        """The bounds of each variable."""
        return {name: span.bounds if span else None for name, span in self._all.items()}

    @property
    def texts(self) -> dict[str, "bytes | None"]:
        """The bytes of each variable."""
        return {name: span.text if span else None for name, span in self._all.items()}


@dataclass(frozen=True)
class Page:
    """The answers of a document up to the limit, and whether there are others after them."""

    document: str
    rows: list[Row]
    more: bool


class Answers(Tabular):
    """The answers of all shards in the order of the documents: an iterator of rows, or by `pages` of documents.

    The first `next` starts the tasks. Rows come as soon as all shards before theirs are done. After the last row `ShardsFailed`
    is raised if shards have failed. A rejection of the query is raised at once. `close`, or the end of a `with`, ends the tasks
    that aren't needed any more.

    Of the pages returned so far, `count` is the number of rows, and `more` has the documents with more answers than the
    limit. `failures` has the shards that have failed by now.
    """

    def __init__(self, manifest: Manifest, variables: tuple[str, ...], run: "_Run") -> None:
        self.manifest = manifest
        self.variables = variables
        self.count = 0
        self.more: list[str] = []
        self.failures: list[Failure] = []
        self._pages = self._run(run)
        self._rows = (row for page in self._pages for row in page.rows)

    def __iter__(self) -> Iterator[Row]:  # type: ignore[override]
        return self

    def __next__(self) -> Row:
        return next(self._rows)

    def __enter__(self) -> Self:
        return self

    def __exit__(self, *_: object) -> None:
        self.close()

    def pages(self) -> Iterator[Page]:
        """The pages of the documents that weren't returned yet."""
        return self._pages

    def close(self) -> None:
        """Ends the tasks."""
        self._rows.close()
        self._pages.close()

    def _variables(self) -> Sequence[str]:
        return self.variables

    def _has_documents(self) -> bool:
        return True

    def _run(self, run: "_Run") -> Generator[Page, None, None]:
        engine = _engine(run.client, run.retries, run.patience)
        waiting = deque(enumerate(run.tasks))
        under_way: deque[tuple[AskTask, Future]] = deque()
        try:
            while waiting or under_way:
                while waiting and (engine.ahead is None or len(under_way) < engine.ahead):
                    rank, task = waiting.popleft()
                    under_way.append((task, engine.submit(ask_image, task, rank)))
                task, future = under_way[0]
                result = self._checked(task, _awaited(engine, future, task))
                # a cluster lets go of a result when nothing refers to its future any more
                under_way.popleft()
                del future
                if isinstance(result, Failure):
                    self.failures.append(result)
                    if run.report:
                        run.report(result)
                else:
                    yield from self._pages_of(result)
        finally:
            for _, future in under_way:
                future.cancel()
            engine.close()
        if self.failures:
            raise ShardsFailed(self.failures)

    def _checked(self, task: AskTask, result: Answered | QueryRefused | Failure) -> Answered | Failure:
        if isinstance(result, QueryRefused):
            raise result.refused
        if isinstance(result, Answered) and result.digest != task.question.digest(task.sha256, task.places):
            return Failure(task.shard, "its answers are those of another query, limit or image", task.file)
        return result

    def _pages_of(self, result: Answered) -> Iterator[Page]:
        documents = self.manifest.images[result.shard].documents
        for page in result.pages:
            name = documents[page.place].name
            texts = page.texts or [None] * len(page.tuples)
            rows = [Row(name, self.variables, *it) for it in zip(page.tuples, texts, strict=True)]
            self.count += len(rows)
            if page.more:
                self.more.append(name)
            yield Page(name, rows, page.more)


@dataclass(frozen=True)
class _Run:
    """What the tasks of a query are, and where they run."""

    tasks: list[AskTask]
    client: Any
    retries: int
    patience: float | None
    report: Callable[[Failure], object] | None


def ask(
    folder: AnyPath,
    query: Query | Translation | bytes | str,
    *,
    limit: int | None = 100,
    documents: Sequence[str] | None = None,
    after: Row | str | None = None,
    texts: bool = False,
    client: Any = None,
    program: AnyPath | None = None,
    workers: int = 1,
    states: int = MOST_STATES,
    retries: int = 2,
    patience: float | None = None,
    report: Callable[[Failure], object] | None = None,
) -> Answers:
    """Evaluates a query on the documents of a folder of shards, at most `limit` answers of each, or all where it is None.

    `query` is a query of a database, the translation of a regex, or a formula. With `documents` only these are asked, by their
    names in the list of `make`. With `after`, a row or its cursor, one document is asked for its answers after that one. With
    `texts` the bytes of the spans are read too.

    `client`, `program`, `retries` and `patience` are as for `make`; `workers` is the number of its threads, and `states` how
    many states the automaton of the query may have, from 128 to 1,024.
    `report` is called with each failure when it is met.
    """
    if limit is not None and limit < 1:
        raise ValueError(f"the limit is at least 1, not {limit}")
    if after is not None and (documents is None or len(documents) != 1):
        raise ValueError("answers after a cursor are those of one document")
    manifest = Manifest.read(folder)
    cursor = after.cursor if isinstance(after, Row) else after
    if cursor is not None and not re.fullmatch(r"[!-~]+", cursor):
        raise refusal(0, b"BadTuple")
    commands, variables = _commands(query)
    question = Question(commands, limit, None if cursor is None else cursor.encode(), texts)
    tool = Program.of(program, workers, states)
    tasks = [
        AskTask(shard, os.path.abspath(folder), image.file, image.bytes, image.sha256, len(image.documents), it, question, tool)
        for shard, (image, it) in enumerate(zip(manifest.images, _wanted(manifest, documents), strict=True))
        if it != ()
    ]
    return Answers(manifest, variables, _Run(tasks, client, retries, patience, report))


def _commands(query: Query | Translation | bytes | str) -> tuple[tuple[bytes, ...], tuple[str, ...]]:
    """The commands of which the last one registers the query as `q`, and its variables."""
    if isinstance(query, Query):
        return tuple(_registered(query._registration.tree, b"q", count())), query.variables
    formula = query.formula if isinstance(query, Translation) else query
    encoded = formula.encode(errors="surrogateescape") if isinstance(formula, str) else formula
    return (_formula_command(b"q", encoded),), variables_of(encoded)


def _registered(tree: Mapping[str, Any], name: bytes, numbers: Iterator[int]) -> Iterator[bytes]:
    """The commands that register the query of a tree under a name, and its parts under numbered ones."""
    match tree:
        case {"formula": str(formula)}:
            yield _formula_command(name, formula.encode("latin-1"))
        case {"project": [source, variables]}:
            part = b"q%d" % next(numbers)
            yield from _registered(source, part, numbers)
            yield b"project %s %s %s" % (name, part, ",".join(variables).encode() or b"()")
        case {"union": [left, right]} | {"join": [left, right]}:
            [operation] = tree
            parts = b"q%d" % next(numbers), b"q%d" % next(numbers)
            yield from _registered(left, parts[0], numbers)
            yield from _registered(right, parts[1], numbers)
            yield b"%s %s %s %s" % (operation.encode(), name, *parts)
        case _:
            raise ValueError("shards don't know this kind of query")


def _formula_command(name: bytes, formula: bytes) -> bytes:
    # a line of a script can't contain a newline
    return b"query %s %s" % (name, formula.replace(b"\n", rb"\n"))


def _wanted(manifest: Manifest, documents: Sequence[str] | None) -> list[tuple[int, ...] | None]:
    """For each shard the indices of the documents that are asked, or None for all."""
    if documents is None:
        return [None] * len(manifest.images)
    names = set(documents)
    found = [
        tuple(place for place, document in enumerate(image.documents) if document.name in names)
        for image in manifest.images
    ]
    if lacking := sorted(names - {it.name for it in manifest.documents}):
        raise UnknownName("NoSuchDocument", (lacking[0],))
    return list(found)


# ------------------------------------------------------------------------------------------------------------------- check


def check(
    folder: AnyPath, *, client: Any = None, retries: int = 2, patience: float | None = None
) -> list[Failure]:
    """Compares each image with the manifest, where the tasks run, and returns what is wrong."""
    manifest = Manifest.read(folder)
    tasks = [
        CheckTask(shard, os.path.abspath(folder), image.file, image.bytes, image.sha256)
        for shard, image in enumerate(manifest.images)
    ]
    results = [it for _, it in _in_any_order(_engine(client, retries, patience), check_image, tasks)]
    return sorted((it for it in results if isinstance(it, Failure)), key=lambda it: it.shard)
