"""The lock that each summary and each table has: one thread at a time changes it, and no read meets half a change."""
from __future__ import annotations

import contextlib
import threading
from typing import Iterable, Iterator


class Change:
    """A change that a thread makes."""

    __slots__ = ("thread",)

    def __init__(self) -> None:
        self.thread = threading.get_ident()


WITHIN = Change()  # owns a lock while the thread that makes the change holds the mutex


class Lock:
    """The lock of one object. A thread holds its `mutex` while it reads the state or sets it. A change owns the lock from its
    begin to its end, with the mutex free while it reads a file or the library works: reads go on, and find what was before."""

    __slots__ = ("mutex", "freed", "owner")

    def __init__(self) -> None:
        self.mutex = threading.RLock()
        self.freed = threading.Condition(self.mutex)
        self.owner: Change | None = None

    def wait(self) -> None:
        """Waits until no change owns the lock, whose mutex is held. A change within one of the same thread is refused, since
        the one would wait for the other for ever."""
        while self.owner is not None:
            if self.owner is WITHIN or self.owner.thread == threading.get_ident():
                raise RuntimeError("this thread is changing the object already; change it again once that call is done")
            self.freed.wait()

    def own(self, change: Change) -> None:
        """Waits until a change can own the lock, which it does from then on."""
        with self.mutex:
            self.wait()
            self.owner = change

    def free(self, change: Change) -> None:
        """Frees the lock where this change owns it."""
        with self.mutex:
            if self.owner is change:
                self.owner = None
                self.freed.notify_all()


def _in_order(locks: Iterable[Lock]) -> list[Lock]:
    """The different ones of these locks, in the order in which all threads take them: so no two wait for each other."""
    return sorted({id(lock): lock for lock in locks}.values(), key=id)


@contextlib.contextmanager
def changing(*locks: Lock) -> Iterator[None]:
    """Owns locks while a change is made."""
    change, ordered = Change(), _in_order(locks)
    try:
        for lock in ordered:
            lock.own(change)
        yield
    finally:
        for lock in ordered:
            lock.free(change)


@contextlib.contextmanager
def reading(locks: Iterable[Lock]) -> Iterator[None]:
    """Holds the mutexes of locks, so that their objects are read as they are at one time."""
    with contextlib.ExitStack() as held:
        for lock in _in_order(locks):
            held.enter_context(lock.mutex)
        yield
