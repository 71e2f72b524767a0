"""Stops a program at each of its system calls, where it can be killed, or the call made to fail. Each call stops twice:
before the system makes it, and after.

This is done by ptrace, where the system is Linux on x86-64 and lets a process trace its children.
"""
import ctypes
import errno
import os
import platform
import signal
import subprocess
import sys
from collections.abc import Callable
from dataclasses import dataclass
from functools import cache

TRACEME, POKEUSER, DETACH, SYSCALL, SETOPTIONS, GET_SYSCALL_INFO = 0, 6, 17, 24, 0x4200, 0x420E
MARK_CALLS, END_WITH_TRACER = 1, 1 << 20
CALL_STOP = signal.SIGTRAP | 0x80
BEFORE, AFTER = 1, 2
# where a stopped process has the number and the result of its call
NUMBER, RESULT = 15 * 8, 10 * 8
NO_CALL = (1 << 64) - 1
READ, WRITE, RENAME, EXIT = 0, 1, 82, 231
# mmap, mprotect, munmap, brk, mremap, madvise, rt_sigaction, rt_sigprocmask, sigaltstack and futex
MEMORY_AND_SIGNALS = {9, 10, 11, 12, 25, 28, 13, 14, 131, 202}


@dataclass(frozen=True)
class Call:
    """A system call at which a program stops: its number, its first argument, and whether the system has made it."""

    number: int
    first: int
    made: bool


@dataclass(frozen=True)
class Fail:
    """What a watcher returns to have a call fail with an error. The system doesn't make it then."""

    error: int


class Kill:
    """What a watcher returns to have the program killed."""


class LetGo:
    """What a watcher returns to have the program run on without stops."""


# what is done at a stop, and what is called at each to say so
Act = Fail | Kill | LetGo | None
Watch = Callable[[Call], Act]


class CallInfo(ctypes.Structure):
    """What ptrace says of a stop."""

    _fields_ = [
        ("kind", ctypes.c_uint8),
        ("padding", ctypes.c_uint8 * 3),
        ("architecture", ctypes.c_uint32),
        ("instruction", ctypes.c_uint64),
        ("stack", ctypes.c_uint64),
        ("values", ctypes.c_uint64 * 8),
    ]


LIBC = ctypes.CDLL(None, use_errno=True)
LIBC.ptrace.argtypes = [ctypes.c_long, ctypes.c_long, ctypes.c_void_p, ctypes.c_void_p]
LIBC.ptrace.restype = ctypes.c_long


def ptrace(request: int, pid: int, place: int = 0, value: int = 0) -> None:
    if LIBC.ptrace(request, pid, place, value) == -1:
        number = ctypes.get_errno()
        raise OSError(number, os.strerror(number))


def trace_me() -> None:
    """Has a new process stop when it becomes a program, to be followed by its parent."""
    ptrace(TRACEME, 0)


def call_at(pid: int, last: Call) -> Call:
    """The call at which a process has stopped. That after a call is the one before it."""
    info = CallInfo()
    ptrace(GET_SYSCALL_INFO, pid, ctypes.sizeof(info), ctypes.addressof(info))
    if info.kind == AFTER:
        return Call(last.number, last.first, made=True)
    return Call(info.values[0], info.values[1], made=False)


def next_stop(pid: int, given: int) -> int:
    """Lets a process go on to its next stop or its end, with a signal if one was on its way, and returns what it came to."""
    try:
        ptrace(SYSCALL, pid, 0, given)
    except ProcessLookupError:
        pass  # it was killed
    return os.waitpid(pid, 0)[1]


def follow(pid: int, watch: Watch) -> int:
    """Follows a process that stops to be followed, and returns how it ended: its status, or a signal as a negative number."""
    os.waitpid(pid, 0)
    ptrace(SETOPTIONS, pid, 0, MARK_CALLS | END_WITH_TRACER)
    call, failing, given = Call(-1, 0, made=True), None, 0
    while os.WIFSTOPPED(status := next_stop(pid, given)):
        stop = os.WSTOPSIG(status)
        given = 0 if stop == CALL_STOP else stop
        if given:
            continue
        call = call_at(pid, call)
        if call.made and failing:
            ptrace(POKEUSER, pid, RESULT, -failing.error & NO_CALL)
            failing = None
            continue
        match watch(call):
            case Kill():
                os.kill(pid, signal.SIGKILL)
            case LetGo():
                ptrace(DETACH, pid)
                status = os.waitpid(pid, 0)[1]
                break
            case Fail() as failing:
                ptrace(POKEUSER, pid, NUMBER, NO_CALL)
    return os.waitstatus_to_exitcode(status)


@cache
def is_possible() -> bool:
    """Whether programs can be followed here."""
    if sys.platform != "linux" or platform.machine() != "x86_64":
        return False
    numbers = set()
    try:
        with subprocess.Popen(["true"], preexec_fn=trace_me) as traced:
            traced.returncode = follow(traced.pid, lambda call: numbers.add(call.number))
    except (OSError, subprocess.SubprocessError):
        return False
    return EXIT in numbers
