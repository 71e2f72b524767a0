"""Refused memory: each allocation in turn, and each size that the memory may have. The status is then 6, or that of the
whole run where nothing depended on it, and what was written is a beginning of what the whole run writes.

The allocations are refused one by one where the machine has a C compiler: a library of some lines stands before malloc and
realloc, and counts. It also shows that the answers of a listing take no memory. The sizes are tried in steps of a page, once
as the program runs, and once with each allocation a mapping of its own, so that most of them meet the limit at some size.
"""
import os
import shutil
import subprocess
import sys
import tempfile
from collections.abc import Sequence
from pathlib import Path

from .running import Limits, Ran, Report, differs, fault_of, room, run
from .scripts import SCRIPTS, Worked, text_of

PAGE = 4096
MOST_LISTED = 10_000
MOST_MEMORY = 1 << 30
# the C library makes each allocation a mapping of its own
MAPPED = {"GLIBC_TUNABLES": "glibc.malloc.mmap_threshold=1:glibc.malloc.mmap_max=1000000"}

REFUSES = r"""
#define _GNU_SOURCE
#include <dlfcn.h>
#include <errno.h>
#include <stdlib.h>
#include <unistd.h>

static unsigned long calls, first, last;
static int told, counted;
static void *(*next_malloc)(size_t);
static void *(*next_realloc)(void *, size_t);

static unsigned long number(const char *name) {
    const char *text = getenv(name);
    return text ? strtoul(text, 0, 10) : 0;
}

static int is_refused(void) {
    if (!next_malloc) {
        next_malloc = dlsym(RTLD_NEXT, "malloc");
        next_realloc = dlsym(RTLD_NEXT, "realloc");
        first = number("REFUSED_FROM");
        last = number("REFUSED_TO");
        told = number("REFUSED_TOLD");
        counted = number("COUNTED_TO");
    }
    unsigned long call = __atomic_add_fetch(&calls, 1, __ATOMIC_SEQ_CST);
    if (counted && pwrite(counted, &call, sizeof call, 0) != sizeof call) abort();
    if (!first || call < first || call > last) return 0;
    if (write(told, "r", 1) != 1) abort();
    errno = ENOMEM;
    return 1;
}

void *malloc(size_t size) { return is_refused() ? 0 : next_malloc(size); }

void *realloc(void *old, size_t size) { return is_refused() ? 0 : next_realloc(old, size); }
"""


def fault_of_refusal(ran: Ran, worked: Worked) -> str | None:
    """What is wrong with a run in which memory was refused."""
    if ran.late or ran.status not in (worked.status, 6):
        return f"it {ran.told()}, and not with status {worked.status} or 6"
    if ran.status == worked.status:
        return differs(ran.wrote, worked.wanted) or ran.complaint()
    if not worked.wanted.startswith(ran.wrote):
        return f"what was written is no beginning: {differs(ran.wrote, worked.wanted[: len(ran.wrote)])}"
    return ran.complaint()


def library(folder: Path) -> Path | None:
    """The library that refuses, or nothing where there is no compiler."""
    compiler = next((found for it in ("cc", "gcc", "clang") if (found := shutil.which(it))), None)
    if compiler is None:
        return None
    source, made = folder / "refuses.c", folder / "refuses.so"
    source.write_text(REFUSES)
    built = subprocess.run([compiler, "-O1", "-shared", "-fPIC", "-o", made, source, "-ldl"], capture_output=True, check=False)
    return made if built.returncode == 0 else None


def each_allocation(program: Path, report: Report, worked: Worked, refuses: Path, forever: bool) -> None:
    """Refuses one allocation, or all from it on, each in turn until a run comes to none that is refused."""
    kind = "each allocation and all after it" if forever else "each allocation"
    fault, at, ended = None, 0, {worked.status: 0, 6: 0}
    while fault is None:
        at += 1
        with tempfile.TemporaryFile() as told, room(worked.files) as folder:
            os.set_inheritable(told.fileno(), True)
            environment = {
                "LD_PRELOAD": str(refuses),
                "REFUSED_FROM": str(at),
                "REFUSED_TO": str((1 << 63) if forever else at),
                "REFUSED_TOLD": str(told.fileno()),
            }
            ran = run(program, worked.script, folder, environment=environment, kept=(told.fileno(),))
            report.runs += 1
            if os.fstat(told.fileno()).st_size == 0:
                fault = differs(ran.wrote, worked.wanted)
                break
        fault = fault_of_refusal(ran, worked)
        ended[ran.status] = ended.get(ran.status, 0) + 1
        if report.quick and at > 20:
            at += 12
    report.check(f"{worked.name}, {kind}: {at}", fault)
    if not report.quick:
        report.figure(f"{worked.name}: {kind} refused", f"{at - 1} times, {ended[6]} of these status 6")


def each_size(program: Path, report: Report, worked: Worked, environment: dict[str, str]) -> None:
    """Runs the script with each size of the memory, from the least with which the program starts to the first that is
    enough."""

    def ended(size: int) -> Ran:
        with room(worked.files) as folder:
            report.runs += 1
            return run(program, worked.script, folder, Limits(memory=size), environment=environment)

    # below the least size the system can't start the program
    least, most = PAGE, MOST_MEMORY
    while least < most:
        middle = (least + most) // 2 // PAGE * PAGE
        least, most = (least, middle) if ended(middle).status in (worked.status, 6) else (middle + PAGE, most)
    fault, size, wanting = None, least, 0
    while fault is None:
        ran = ended(size)
        fault = fault_of_refusal(ran, worked)
        wanting += ran.status == 6
        if fault or ran.status == worked.status:
            break
        size += (64 if report.quick else 1) * PAGE
    kind = "each allocation a mapping" if environment else "as it is"
    report.check(f"{worked.name}, each size of the memory, {kind}: {size} bytes", fault)
    if not report.quick:
        told = f"{wanting} sizes of status 6, from {least >> 10} to {size >> 10} KiB"
        report.figure(f"{worked.name}: each size of the memory, {kind}", told)


def listing(query: str, answers: int) -> Worked:
    """A script with a listing of so many answers, which are `a` on a text of letters, and its output."""
    text = "ab" * (MOST_LISTED + 1)
    spans = [(2 * at + 1, 2 * at + 2) for at in range(answers)]
    lines = [
        (f"text d {text}", f'ok d {len(text)} "{text[:32]}"'),
        ("query q .*$x{a}.*", "ok q x"),
        ("query r ($y{c})?.*$x{a}.*", "ok r y x"),
        ("join j q r", "ok j x y"),
        # a script of the same length for each number
        (f"list {query} d limit {answers}\n{'#' * (9 - len(str(answers)))}", ""),
    ]
    missing = {"q": ("", ""), "r": ("y=-,", ""), "j": ("", ",y=-")}[query]
    told = [reply for _, reply in lines[:-1]]
    told += [f"{missing[0]}x=[{first},{end}){missing[1]}" for first, end in spans]
    return Worked(f"list {query} d limit {answers}", text_of(line for line, _ in lines), text_of([*told, "more"]))


def listings(program: Path, report: Report, refuses: Path) -> None:
    """A listing of 10,000 answers makes as many allocations as one of 10."""
    for query in "qrj":
        counts = []
        for answers in (10, MOST_LISTED):
            worked = listing(query, answers)
            with tempfile.TemporaryFile() as counted, room() as folder:
                environment = {"LD_PRELOAD": str(refuses), "COUNTED_TO": str(counted.fileno())}
                ran = run(program, worked.script, folder, environment=environment, kept=(counted.fileno(),))
                counted.seek(0)
                counts.append(int.from_bytes(counted.read(), sys.byteorder))
            report.runs += 1
            report.check(worked.name, fault_of(ran, 0, worked.wanted))
        fault = None if counts[0] == counts[1] > 0 else f"{counts[1]} allocations, and not the {counts[0]} of 10 answers"
        report.check(f"the memory of {MOST_LISTED} answers of {query}", fault)


def refuse(program: Path, report: Report, scripts: Sequence[Worked]) -> None:
    """Refuses memory in each way on these scripts."""
    with tempfile.TemporaryDirectory(prefix="spanbase-hostile-") as place:
        refuses = library(Path(place))
        if refuses:
            listings(program, report, refuses)
        for worked in scripts:
            with room(worked.files) as folder:
                report.check(worked.name, fault_of(run(program, worked.script, folder), worked.status, worked.wanted))
            if refuses:
                for forever in (False, True):
                    each_allocation(program, report, worked, refuses, forever)
            for environment in ({}, MAPPED):
                each_size(program, report, worked, environment)
        if not refuses:
            print("memory: no C compiler is there, so allocations weren't refused one by one")


def memory(program: Path, report: Report) -> None:
    refuse(program, report, SCRIPTS)
