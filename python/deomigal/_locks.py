"""Locks that a fork leaves free."""
from __future__ import annotations

import os
import threading
import weakref
from typing import Any


class Lock(type(threading.RLock())):  # type: ignore[misc]
    """Lets one thread in at a time. A thread that forks the process first waits until no other is in. So a child finds
    what the lock guards whole, and the lock free."""

    def __new__(cls, *_: object) -> Any:
        # PyPy's takes no arguments.
        return super().__new__(cls)

    def __init__(self) -> None:
        super().__init__()
        with LOCKS_LOCK:
            LOCKS.add(self)

    def before_fork(self) -> None:
        """What the process does while it is in, before it forks."""


LOCKS: weakref.WeakSet[Lock] = weakref.WeakSet()
LOCKS_LOCK, FORKS = threading.RLock(), threading.RLock()
# Those that the thread which forks is in.
held: list[Any] = []


def enter_all() -> None:
    """Enters each lock. As long as it waits for one, others may make new ones."""
    FORKS.acquire()
    entered: set[Lock] = set()
    LOCKS_LOCK.acquire()
    while new := set(LOCKS) - entered:
        LOCKS_LOCK.release()
        for lock in new:
            lock.acquire()
            lock.before_fork()
        entered |= new
        LOCKS_LOCK.acquire()
    held.extend([FORKS, LOCKS_LOCK, *entered])


def leave_all() -> None:
    """Leaves each, in the parent and in the child. A fork that Python doesn't know of entered none."""
    locks = held[::-1]
    held.clear()
    for lock in locks:
        lock.release()


os.register_at_fork(before=enter_all, after_in_parent=leave_all, after_in_child=leave_all)
