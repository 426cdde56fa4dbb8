"""A saved file's value in the library's memory, which grows by one item a call."""
from __future__ import annotations

from ctypes import byref, c_uint64

from ._library import DONE, MAX_KEY, SMALL, Handle, Pair, calls, checked, lent, random_words

_NUMBERS = [c_uint64(number) for number in range(MAX_KEY + 1)]  # made once: to make two takes as long as to add an item


class Growing(Handle):
    """The value of a saved file, whose memory is given back when this object goes. Who makes a call holds the mutex of the file
    that has it, so that no two calls are lent it at once."""

    def __init__(self, saved: bytes) -> None:
        super().__init__(calls.heavy_load, *lent(saved), random_words())
        self._words = self._value, byref(self._fault)
        self._saved: bytes | None = saved  # None where items came since
        self._asked = 0  # how often it was asked since the last item
        self._size = len(saved)

    def add(self, key: bytes, weight: int) -> None:
        """Adds an item. After a refusal the value is as it was."""
        value, fault = self._words
        self._saved, self._asked = None, 0
        number = _NUMBERS[weight] if weight <= MAX_KEY else c_uint64(weight)
        status = calls.heavy_update(value, key, _NUMBERS[len(key)], number, fault)
        self._saved = None  # also where a signal came between, whose handler asked for the saved file
        if status != DONE:
            checked(status, self._fault)

    def ask(self, key: bytes) -> tuple[int, int]:
        """The least and the most that a key's weight can be. Nothing is copied for that."""
        both, (value, fault) = Pair(), self._words
        self._asked += 1
        status = calls.heavy_ask(value, key, len(key), byref(both), fault)
        if status != DONE:
            checked(status, self._fault)
        return both.low, both.high

    def is_asked(self, saved: object) -> bool:
        """Whether to ask the value takes less time than to look into its rows: not where these are there, of this saved file, nor
        after so many questions that they took as long as to make all rows."""
        return self._asked < 16 + self._size // 512 and (self._saved is None or self._saved is not saved)

    def to_bytes(self) -> bytes:
        """The saved file of the value, which stays."""
        if self._saved is None:
            self._saved = self.saved(guess=max(SMALL, 2 * self._size))
            self._size = len(self._saved)
        return self._saved
