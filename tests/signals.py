"""A program that is stopped and goes on, or whose reads and writes are interrupted, as by a signal that has a handler. What interrupts them
are the calls of a debugger, on x86-64 Linux."""
import ctypes
import errno
import functools
import os
import signal
import time
from pathlib import Path

SECONDS_BETWEEN_LOOKS = 0.001

# What ptrace is asked for, its options, and places of registers among those that it shows.
TRACE_ME, PEEK, POKE, GO_TO_CALL, SET_OPTIONS = 0, 3, 6, 24, 0x4200
MARKS_CALLS, ENDS_WITH_TRACER = 0x1, 0x100000
RESULT, FIRST_OPERAND, CALL = 80, 112, 120
# System calls.
READ, WRITE, NO_CALL = 0, 1, -1
STREAMS = (0, 1, 2)
TIMES = 3


def state_of(pid: int) -> str:
    """The letter of a process's state: R running, S sleeping, T stopped, Z ended."""
    return Path(f"/proc/{pid}/stat").read_text().rsplit(")", 1)[1].split()[0]


def await_state(pid: int, states: str) -> str:
    """Waits until a process is in one of these states, and says in which. Its end is the last one."""
    while (state := state_of(pid)) not in f"{states}Z":
        time.sleep(SECONDS_BETWEEN_LOOKS)
    return state


def stop_and_go(pid: int) -> None:
    os.kill(pid, signal.SIGSTOP)
    await_state(pid, "T")
    os.kill(pid, signal.SIGCONT)


@functools.cache
def library() -> ctypes.CDLL:
    """The C library, which a child has to find loaded."""
    found = ctypes.CDLL(None, use_errno=True)
    found.ptrace.restype = ctypes.c_long
    found.ptrace.argtypes = [ctypes.c_long] * 4
    return found


def ptrace(request: int, pid: int, place: int = 0, value: int = 0) -> int:
    ctypes.set_errno(0)
    result = library().ptrace(request, pid, place, value)
    if ctypes.get_errno():
        raise OSError(ctypes.get_errno(), f"ptrace {request}")
    return result


def be_traced() -> None:
    """What a child does before it becomes the program."""
    ptrace(TRACE_ME, 0)


def is_of_stream(pid: int) -> bool:
    """Whether the call that is to be made reads or writes a standard stream."""
    return ptrace(PEEK, pid, CALL) in (READ, WRITE) and ptrace(PEEK, pid, FIRST_OPERAND) in STREAMS


def interrupt_streams(pid: int) -> tuple:
    """Lets a traced program run: each read and each write of a standard stream is interrupted TIMES times before it is made. The program's
    status, and how many calls were interrupted."""
    os.waitpid(pid, 0)
    ptrace(SET_OPTIONS, pid, 0, MARKS_CALLS | ENDS_WITH_TRACER)
    left, count, is_entry, is_skipped = TIMES, 0, True, False
    while True:
        ptrace(GO_TO_CALL, pid)
        _, status = os.waitpid(pid, 0)
        if not os.WIFSTOPPED(status):
            return os.waitstatus_to_exitcode(status), count
        if os.WSTOPSIG(status) != signal.SIGTRAP | 0x80:
            continue
        if is_entry and is_of_stream(pid):
            is_skipped = left > 0
            left = left - 1 if is_skipped else TIMES
            if is_skipped:
                ptrace(POKE, pid, CALL, NO_CALL)
        elif not is_entry and is_skipped:
            ptrace(POKE, pid, RESULT, -errno.EINTR)
            count, is_skipped = count + 1, False
        is_entry = not is_entry
