"""Files that can't be read or written, a `save` that fails or is killed at each of its system calls, and files that are
replaced while they are read."""
import contextlib
import errno
import os
import random
import shutil
import threading
from collections.abc import Callable, Iterator
from dataclasses import dataclass
from functools import partial
from pathlib import Path

from .images import Reader, Refused, some_bytes
from .running import Limits, Ran, Report, fault_of, room, run
from .scripts import SAVED, SMALL
from .tracing import EXIT, MEMORY_AND_SIGNALS, READ, RENAME, WRITE, Act, Call, Fail, Kill, LetGo, is_possible

NOBODY = 65534
LONGEST_IMAGE = 1 << 30
# how often an interrupted call is repeated
REPEATS = 1000
TOLD = b'ok d 4 "abab"\n'
ERRORS = (errno.EIO, errno.ENOSPC, errno.EACCES, errno.EINTR)
OLD_SCRIPT = b"text d old\nsave f\n"
SAVE = b"text d abab\nsave f\n"


def image_of(program: Path, script: bytes, files: dict[str, bytes] | None = None) -> bytes:
    """What a script saves as the file f."""
    with room(files) as folder:
        run(program, script, folder)
        return (folder / "f").read_bytes()


def text_in(image: bytes, name: bytes = b"d") -> bytes | None:
    """The text of a document in an image, or nothing where the image is faulty."""
    try:
        text = Reader(image).documents()[name]
    except (Refused, KeyError):
        return None
    return some_bytes(text, text.length, last=False) if text else b""


def content(file: Path) -> bytes | None:
    """The bytes of a file, if it is there."""
    return file.read_bytes() if file.exists() else None


def names(folder: Path) -> set[str]:
    return {it.name for it in folder.iterdir()}


def is_any(call: Call) -> bool:
    return call.number != EXIT


def can_fail(call: Call) -> bool:
    """Whether it is a stop before a call that may fail, other than for memory or signals."""
    return not call.made and call.number not in {EXIT, *MEMORY_AND_SIGNALS}


@dataclass
class AtStop:
    """Does something at one stop of a program, of those after its first reply that count."""

    at: int
    act: Callable[[], Act]
    counts: Callable[[Call], bool] = is_any
    stops: int = 0
    replied: bool = False

    def __call__(self, call: Call) -> Act:
        if not self.replied:
            self.replied = call.made and call.number == WRITE and call.first == 1
            return None
        self.stops += self.counts(call)
        return self.act() if self.stops == self.at and self.counts(call) else None


# ----------------------------------------------------------------------------------------------------------------- saves


def saves_of_each_length(program: Path, report: Report) -> None:
    """A file may have so many bytes. A `save` that needs more leaves the old file."""
    image = image_of(program, SMALL.script)
    fault = None if len(image) == SAVED else f"it has {len(image)} bytes, and not {SAVED}"
    report.check("the saved image", fault or (None if text_in(image) == b"abab" else "it hasn't the text that was saved"))
    old = b"old" * 100
    for length in range(34, SAVED + 1, 5 if report.quick else 1):
        with room({"f": old}) as folder, open(folder / "out", "wb+") as out:
            # what was written fits first
            ran = run(program, SAVE, folder, Limits(file=length), stdout=out.fileno())
            out.seek(0)
            ran = Ran(ran.status, out.read(), ran.said, ran.seconds, ran.late)
            left, found = content(folder / "f"), names(folder)
        report.runs += 1
        fits = length == SAVED
        fault = fault_of(ran, 0 if fits else 5, TOLD + b"ok 1 4\n" if fits else TOLD)
        if fault is None and left != (image if fits else old):
            fault = f"the file has neither the old nor the new bytes but {len(left or b'')} others"
        if fault is None and found != {"f", "out"}:
            fault = f"the folder has the files {sorted(found)}"
        report.check(f"a saved file of at most {length} bytes", fault)


def links(folder: Path) -> None:
    (folder / "f").symlink_to("place/g")


@dataclass(frozen=True)
class Target:
    """What the name `f` is before a save, and the file that the save makes or replaces."""

    name: str
    file: str
    is_there: bool
    prepare: Callable[[Path], object] = lambda folder: None


TARGETS = [
    Target("an old file", "f", True),
    Target("no file", "f", False),
    Target("a link to a file", "place/g", True, links),
    Target("a link to no file", "place/g", False, links),
]


@contextlib.contextmanager
def target_room(target: Target, old: bytes) -> Iterator[Path]:
    """A folder in which `f` is what the target says."""
    with room() as folder:
        (folder / "place").mkdir()
        target.prepare(folder)
        if target.is_there:
            (folder / target.file).write_bytes(old)
            (folder / target.file).chmod(0o640)
        yield folder


def killed_saves(program: Path, report: Report) -> None:
    """Kills a `save` at each stop: the file then has the old or the new image, and the next `open` and `save` succeed."""
    old, new = image_of(program, OLD_SCRIPT), image_of(program, SAVE)
    for target in TARGETS[:: 3 if report.quick else 1]:
        before = old if target.is_there else None
        at, seen, fault = 0, [], None
        while fault is None:
            at += 1
            watch = AtStop(at, Kill)
            with target_room(target, old) as folder:
                ran = run(program, SAVE, folder, watch=watch)
                report.runs += 1
                if watch.stops < at:
                    break
                left = content(folder / target.file)
                seen.append(left)
                if left not in (before, new):
                    fault = f"the file has neither the old nor the new bytes after {ran.told()}"
                    break
                opened = {None: b"line 1: NoSuchFile f\n", old: b"ok 1\n", new: b"ok 1\n"}[left]
                ran = run(program, b"open f\ntext d abab\nsave f\n", folder)
                fault = fault_of(ran, 1 if left is None else 0, opened + TOLD + b"ok 1 4\n")
                if fault is None and content(folder / target.file) != new:
                    fault = "the next save didn't save"
        if fault is None and (seen[0] != before or seen[-1] != new):
            fault = "not both images were seen"
        report.check(f"a save over {target.name}, killed at stop {at}", fault)
        if not report.quick:
            report.figure(f"a save over {target.name}, killed", f"{at - 1} times, {seen.count(before)} of these the old bytes")


def failing_saves(program: Path, report: Report) -> None:
    """Has each system call of a `save` fail, but those for memory and signals. The file then has the old bytes where the save
    failed, and else the new ones, and no other file is left. An interrupted call is repeated."""
    old, new = image_of(program, OLD_SCRIPT), image_of(program, SAVE)
    for target in TARGETS[:: 3 if report.quick else 1]:
        before = old if target.is_there else None
        for error in ERRORS[:: 3 if report.quick else 1]:
            at, fault, ended = 0, None, {0: 0, 1: 0, 4: 0, 5: 0}
            while fault is None:
                at += 1
                watch = AtStop(at, partial(Fail, error), can_fail)
                with target_room(target, old) as folder:
                    ran = run(program, SAVE, folder, watch=watch)
                    left, found = content(folder / target.file), names(folder) | names(folder / "place")
                report.runs += 1
                if watch.stops < at:
                    break
                wanted = {0: [new], 4: [before, new]}.get(ran.status, [before])
                if ran.late or ran.status not in ended:
                    fault = f"it {ran.told()}"
                elif left not in wanted:
                    fault = f"status {ran.status}, and the file has {'the new' if left == new else 'other'} bytes"
                elif not found <= {"f", "g", "place"}:
                    fault = f"status {ran.status}, and the folder has the files {sorted(found)}"
                elif error == errno.EINTR and ran.status != 0:
                    fault = f"an interrupted call wasn't repeated: it {ran.told()}"
                else:
                    fault = ran.complaint()
                    ended[ran.status] += 1
            name = f"a save over {target.name}, {errno.errorcode[error]}"
            report.check(f"{name} at stop {at}", fault)
            if not report.quick:
                report.figure(name, ", ".join(f"{count} times status {status}" for status, count in ended.items() if count))


# ----------------------------------------------------------------------------------------------------- interrupted calls


@dataclass
class Interrupt:
    """Interrupts a call so many times, from the first read of the script on: one of this number on a file whose descriptor
    satisfies the condition."""

    number: int
    is_on: Callable[[int], bool]
    times: int
    made: int = 0
    begun: bool = False

    def __call__(self, call: Call) -> Act:
        self.begun = self.begun or call.number == READ and call.first == 0
        if not self.begun or call.made or call.number != self.number or not self.is_on(call.first):
            return None
        self.made += 1
        return Fail(errno.EINTR) if self.made <= self.times else None


def interrupted_calls(program: Path, report: Report) -> None:
    """Interrupts each kind of call that reads or writes: 1,000 times, after which the run goes on, and without end, which is
    a fault after 1,000 repeats."""
    rows = [
        ("the read of a script", READ, lambda it: it == 0, 3, b""),
        ("the write of a reply", WRITE, lambda it: it == 1, 4, b""),
        ("the read of a file", READ, lambda it: it > 2, 5, TOLD),
        ("the write of a file", WRITE, lambda it: it > 2, 5, TOLD),
        ("the rename of a file", RENAME, lambda it: True, 5, TOLD),
    ]
    old = b"old"
    for name, number, is_on, status, told in rows:
        script = b"text d abab\nload e g\n" if status == 5 and number == READ else SAVE
        reply = b'ok e 3 "old"\n' if script != SAVE else b"ok 1 4\n"
        for times, wanted, wrote in ((REPEATS, 0, TOLD + reply), (1 << 40, status, told)):
            watch = Interrupt(number, is_on, times)
            with room({"f": old, "g": old}) as folder:
                ran = run(program, script, folder, watch=watch)
                fault = fault_of(ran, wanted, wrote)
                if fault is None and wanted and watch.made != REPEATS + 1:
                    fault = f"it was made {watch.made} times, and not {REPEATS + 1}"
                if fault is None and wanted and (names(folder) != {"f", "g"} or content(folder / "f") != old):
                    fault = "the files aren't as before"
            report.runs += 1
            report.check(f"{name}, interrupted {times} times", fault)


# ------------------------------------------------------------------------------------------------------- files that change


def replaced_files(program: Path, report: Report) -> None:
    """Renames a file over the one that is being read, at each stop of a `load` and of an `open`: what was read is one of the
    two."""
    drawn = random.Random(5)
    # several pieces of 65,536 bytes each, of letters that tell the two apart
    same = [b"a" * 150_000, b"z" * 140_000]
    mixed = [bytes(drawn.choices(b"abcdefghijklm", k=15_000)), bytes(drawn.choices(b"nopqrstuvwxyz", k=14_000))]
    images = [image_of(program, b"load d g\nsave f\n", {"g": text}) for text in mixed]
    for command, files, texts in (("load d f", same, same), ("open f", images, mixed)):
        script = f"text e x\nquery q [a-m]*|[n-z]*\n{command}\nnames\ntest q d\n".encode()
        first = b'ok e 1 "x"\nok q\n'
        if command == "open f":
            wanted = [first + b"ok 1\nd %d\nend\nyes\n" % len(text) for text in texts]
        else:
            wanted = [first + b'ok d %d "%s"\ne 1\nd %d\nend\nyes\n' % (len(it), it[:32], len(it)) for it in texts]
        for order in (files, files[::-1]):
            at, fault, seen = 0, None, set()
            while fault is None:
                at += 5 if report.quick else 1
                with room({"f": order[0], "g": order[1]}) as folder:

                    def replace() -> Act:
                        os.replace(folder / "g", folder / "f")
                        return LetGo()

                    watch = AtStop(at, replace)
                    ran = run(program, script, folder, watch=watch)
                report.runs += 1
                if watch.stops < at:
                    break
                seen.add(ran.wrote)
                if ran.wrote not in wanted:
                    fault = f"it is neither of the two: {fault_of(ran, 0, wanted[0])}"
            if fault is None and len(seen) != 2:
                fault = "not both were seen"
            report.check(f"{command} of a file that is replaced at stop {at}", fault)


# ---------------------------------------------------------------------------------------------------- what can't be reached


def refused_files(program: Path, report: Report) -> None:
    """Folders, pipes, devices and paths that lead nowhere, with each command over files."""
    rows: list[tuple[str, str, int, str]] = []
    for name in ("place", ".", "link-to-place", "pipe"):
        rows += [(command, name, 1, f"line 2: CannotRead {name}\n") for command in ("load e", "open")]
    for name in ("place", ".", "link-to-place", "none/f", "plain/f", "place/"):
        rows.append(("save", name, 1, f"line 2: CannotWrite {name}\n"))
    for name in ("none", "none/f", "plain/f", "link-to-none"):
        rows += [(command, name, 1, f"line 2: NoSuchFile {name}\n") for command in ("load e", "open")]
    rows += [
        ("load e", "/proc/self/mem", 5, ""),
        ("open", "/proc/self/mem", 5, ""),
        ("save", "/dev/full", 5, ""),
        ("save", "/dev/null", 0, "ok 1 4\n"),
        ("load e", "/dev/zero", 1, "line 2: FileTooLong /dev/zero\n"),
        ("load e", "/dev/null", 0, 'ok e 0 ""\n'),
        ("open", "/dev/null", 1, "line 2: BadImage 3\n"),
        # a file without the magic isn't read to its end
        ("open", "zeros", 1, "line 2: BadImage 1\n"),
        ("open", "more-zeros", 1, "line 2: FileTooLong more-zeros\n"),
    ]
    for command, name, status, reply in rows:
        # the line after it shows that nothing changed
        after = "d 4\nend\n" if status == 1 else ""
        script = f"text d abab\n{command} {name}\n{'names' if status == 1 else ''}\n".encode()
        with room({"plain": b"x"}) as folder:
            (folder / "place").mkdir()
            (folder / "link-to-place").symlink_to("place")
            (folder / "link-to-none").symlink_to("none")
            os.mkfifo(folder / "pipe")
            for zeros, length in (("zeros", LONGEST_IMAGE), ("more-zeros", LONGEST_IMAGE + 1)):
                (folder / zeros).touch()
                os.truncate(folder / zeros, length)
            before = names(folder)
            ran = run(program, script, folder, Limits(memory=256 << 20))
            fault = fault_of(ran, status, TOLD + f"{reply}{after}".encode())
            if fault is None and (names(folder) != before or names(folder / "place") or content(folder / "plain") != b"x"):
                fault = "the files aren't as before"
        report.runs += 1
        report.check(f"{command} {name}", fault)


def missing_rights(program: Path, report: Report) -> None:
    """A folder in which nothing may be made, and files that may not be read or written. As another user, where this runs as
    an administrator, whom no rights hold."""
    user = NOBODY if os.getuid() == 0 else None
    rows = [
        ("save g", "CannotWrite", "", 0o555),
        ("save f", "CannotWrite", "f", 0o444),
        ("save p/f", "CannotWrite", "p", 0),
        ("load d f", "CannotRead", "f", 0),
        ("load d p/f", "CannotRead", "p", 0),
        ("open f", "CannotRead", "f", 0o200),
    ]
    for command, word, forbidden, mode in rows:
        with room({"f": b"before"}) as folder:
            (folder / "p").mkdir()
            # the other user may not reach the folder of the program
            copy = shutil.copy(program, folder / "program")
            before = names(folder)
            folder.chmod(0o755)
            for it in (folder, folder / "f", folder / "p"):
                if user is not None:
                    os.chown(it, user, -1)
            (folder / forbidden).chmod(mode)
            script = f"text e abab\n{command}\nnames\n".encode()
            file = command.split()[-1]
            wanted = f'ok e 4 "abab"\nline 2: {word} {file}\ne 4\nend\n'.encode()
            fault = fault_of(run(Path(copy), script, folder, user=user), 1, wanted)
            (folder / "p").chmod(0o755)
            folder.chmod(0o755)
            if fault is None and (names(folder) != before or names(folder / "p") or content(folder / "f") != b"before"):
                fault = "the files aren't as before"
        report.runs += 1
        report.check(f"{command} where {forbidden or 'the folder'} has the mode {mode:o}", fault)


def written_files(program: Path, report: Report) -> None:
    """What a `save` keeps of an old file, and what it writes to as it is."""
    image = image_of(program, SAVE)
    other = NOBODY if os.getuid() == 0 else os.getuid()
    for target in TARGETS:
        with target_room(target, b"old") as folder:
            file = folder / target.file
            if target.is_there:
                os.chown(file, other, -1)
            ran = run(program, SAVE, folder)
            fault = fault_of(ran, 0, TOLD + b"ok 1 4\n")
            if fault is None and content(file) != image:
                fault = "the file hasn't the image"
            if fault is None and target.file != "f" and not (folder / "f").is_symlink():
                fault = "the link is gone"
            found = file.stat()
            if fault is None and target.is_there and (found.st_mode & 0o777, found.st_uid) != (0o640, other):
                fault = f"the file has the mode {found.st_mode:o} and the owner {found.st_uid}"
            if fault is None and not names(folder) | names(folder / "place") <= {"f", "g", "place"}:
                fault = "another file is left"
        report.runs += 1
        report.check(f"a save over {target.name}", fault)
    for name in ("a pipe", "a link to a pipe"):
        with room() as folder:
            os.mkfifo(folder / "pipe")
            (folder / "f").symlink_to("pipe") if name == "a link to a pipe" else os.rename(folder / "pipe", folder / "f")
            read: list[bytes] = []
            reader = threading.Thread(target=lambda: read.append((folder / "f").read_bytes()), daemon=True)
            reader.start()
            fault = fault_of(run(program, SAVE, folder), 0, TOLD + b"ok 1 4\n")
            if fault is None and not (folder / "f").is_fifo():
                fault = "the pipe was replaced"
            if fault:
                # the reader ends when someone opens the pipe to write
                os.close(os.open(folder / "f", os.O_RDWR | os.O_NONBLOCK))
            reader.join(10)
            if fault is None and read != [image]:
                fault = "the image didn't go through the pipe"
        report.runs += 1
        report.check(f"a save to {name}", fault)
    # a name with no room for a longer one beside it
    with room() as folder:
        name = "n" * 255
        ran = run(program, f"text d abab\nsave {name}\nopen {name}\n".encode(), folder)
        fault = fault_of(ran, 0, TOLD + b"ok 1 4\nok 1\n")
        report.check("a save to a name of 255 bytes", fault or (None if names(folder) == {name} else "another file is left"))
    report.runs += 1


def files(program: Path, report: Report) -> None:
    saves_of_each_length(program, report)
    refused_files(program, report)
    missing_rights(program, report)
    written_files(program, report)
    if not is_possible():
        print("faults: no process can be traced here, so no system call was made to fail")
        return
    killed_saves(program, report)
    failing_saves(program, report)
    interrupted_calls(program, report)
    replaced_files(program, report)
