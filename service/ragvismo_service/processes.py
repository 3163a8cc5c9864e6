"""How a process stands to others: it gives way to them, and ends with the one that started it."""

from __future__ import annotations

import contextlib
import ctypes
import os
import pathlib
import signal
import time

SYSTEM = ctypes.CDLL(None)
# Of Linux: the signal that a process gets when the one that started it ends.
PR_SET_PDEATHSIG = 1
# By how much one gives way that is to go on all the same, and most of all.
NICE, LAST = 10, 19
# Where Linux groups processes by their sessions, it is told here by how much a group gives way.
OF_GROUP = pathlib.Path("/proc/self/autogroup")
# How long Linux takes no word on a group after another one, in seconds, and how often it is said.
PAUSE, TRIES = 0.1, 100


def give_way(is_idle: bool) -> None:
    """Has this process, and each that it starts, give way to the others of its machine; where it is
    idle, it runs when no other one wants to. Where it leads a session of its own, as under
    service/up, the group of that gives way too; who may not say so keeps what it has."""
    os.nice(NICE)
    with contextlib.suppress(OSError):
        if is_idle:
            os.sched_setscheduler(0, os.SCHED_IDLE, os.sched_param(0))
        if os.getsid(0) == os.getpid():
            say_of_group(LAST if is_idle else NICE)


def say_of_group(nice: int) -> None:
    """Has the group of this process give way, as soon as Linux takes that of who is not root."""
    for _ in range(TRIES):
        try:
            OF_GROUP.write_text(str(nice))
            break
        except BlockingIOError:
            time.sleep(PAUSE)


def end_with(parent: int, status: int) -> None:
    """Has this process end when the one that started it does, or now where that has ended."""
    SYSTEM.prctl(PR_SET_PDEATHSIG, signal.SIGTERM)
    if os.getppid() != parent:
        os._exit(status)
