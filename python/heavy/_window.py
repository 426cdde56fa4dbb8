"""The summary of the last part of a stream, of which the oldest buckets go."""
from __future__ import annotations

from typing import Any, Dict, Iterable, List

from ._columns import Key, Keys
from ._files import Summary, merge
from ._library import integer
from ._lock import Lock


class Window:
    """The summaries of the last buckets of a stream, as of the last sixty minutes. Items go into the newest bucket. `roll` begins
    another, and lets the oldest go where there are as many as `buckets`. `merged` is the summary of all that are left: a key
    weighs at most its total divided by k + 1 more than its counter, as in one summary over the same items.

    Any thread may make any call. The items of a call are of the bucket that was the newest when it began.

    >>> window = Window(k=10, buckets=2, text=True)
    >>> window.update("a", 5)
    >>> window.roll()
    >>> window.update_many(["b", "b"])
    >>> window.merged().rows()
    [Bounds(key='a', low=5, high=5), Bounds(key='b', low=2, high=2)]
    >>> window.roll()
    >>> window.merged().rows(), window
    ([Bounds(key='b', low=2, high=2)], <heavy.Window k=10 buckets=2 total=2>)
    """

    def __init__(self, k: int = 100, buckets: int = 60, *, text: bool = False) -> None:
        """The window of no items. A wrong k is a `HeavyError`, and buckets below 1 are a `ValueError`."""
        self.buckets = integer("buckets", buckets)
        if self.buckets < 1:
            raise ValueError(f"buckets must be at least 1, not {self.buckets}")
        self._summaries: List[Summary] = [Summary(k=k, text=text)]  # the oldest first; who sets it holds the mutex
        self._lock = Lock()

    def __getstate__(self) -> Dict[str, Any]:
        return {"buckets": self.buckets, "_summaries": self._summaries}

    def __setstate__(self, state: Dict[str, Any]) -> None:
        self.__dict__.update(state, _summaries=[summary.copy() for summary in state["_summaries"]], _lock=Lock())

    @property
    def k(self) -> int:
        """The most keys that have a counter, in each bucket and in `merged`.

        >>> Window(k=7).k
        7
        """
        return self._summaries[0].k

    def __len__(self) -> int:
        """How many buckets there are: one more after each `roll`, up to `buckets`.

        >>> len(Window())
        1
        """
        return len(self._summaries)

    def __bool__(self) -> bool:
        """A window is true, as any object."""
        return True

    def update(self, key: Key, weight: int = 1) -> None:
        """Adds one item to the newest bucket, as `Summary.update` does."""
        self._summaries[-1].update(key, weight)

    def update_many(self, keys: Keys, weights: Iterable[int] | None = None, *, skip_zero: bool = False) -> None:
        """Adds items to the newest bucket, as `Summary.update_many` does."""
        self._summaries[-1].update_many(keys, weights, skip_zero=skip_zero)

    def roll(self) -> None:
        """Begins a bucket. The oldest goes, with its items, where there are as many as `buckets`."""
        with self._lock.mutex:
            newest = self._summaries[-1]
            begun = Summary(k=newest.k, text=newest.text)
            self._summaries = [*self._summaries, begun][-self.buckets :]

    def merged(self) -> Summary:
        """The summary of the items of all buckets, as they are at one time. It grows by itself."""
        return merge(self._summaries)

    def __repr__(self) -> str:
        """What is in the window."""
        whole = self.merged()
        return f"<heavy.Window k={whole.k} buckets={self.buckets} total={whole.total}>"
