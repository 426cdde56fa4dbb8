"""Summaries and exact reports of Dask's collections, whatever scheduler runs them.

    heavy.dask.report(frame, "client", "bytes", k=100)        # a dataframe, by its columns
    heavy.dask.report(bag, key=0, weight=1, k=100)            # a bag of pairs
    heavy.dask.report([delayed(load)(day) for day in days])   # parts: frames, keys, counters, or files of records

Parts are summarised where they are, and their summaries merged as a tree. For a report each part is condensed by the merged
summary in a second pass, so it has to be the same again, and only what was condensed comes back. What a lost worker did is
done again by another one.
"""
from __future__ import annotations

import importlib
import os
from collections.abc import Mapping
from typing import Any, Callable, List, Optional, Tuple

from ._columns import ANY, columns_named, items_of
from ._files import Summary, merge
from ._library import HeavyError
from ._options import PLAIN, Layout, Threshold, share_of
from ._records import Row

__all__ = ["report", "report_csv", "summary"]

_FILES = 8  # the most summaries that a node of the tree merges
_Summarised = Tuple[bytes, bool]  # a saved summary, and whether all keys were str


def summary(
    collection: Any, key: Any = None, weight: Any = None, k: int = 100, *, layout: Layout = PLAIN,
    text: Optional[bool] = None,
) -> Summary:
    """The summary of a collection with k counters. Of a dataframe, key and weight are columns. Of a bag or of other parts
    they are what its items are indexed by, as 0 and 1 of pairs, or functions of an item; without a key an item is a key,
    and without a weight each weighs 1. A part that is a `bytes` or a path is CSV records of a layout. Keys come back as str
    where all went in so, or as `text` says.

    >>> import dask.bag
    >>> summary(dask.bag.from_sequence("abcab", npartitions=3), k=5).rows()
    [Bounds(key='a', low=2, high=2), Bounds(key='b', low=2, high=2), Bounds(key='c', low=1, high=1)]
    """
    Summary(k=k)  # refuses a wrong k before anything is computed
    parts = _parts(collection, key, weight)
    saved, were_texts = _computed([_merged_up(_each(_summarise, parts, key, weight, k, layout))])[0]
    return Summary(saved, text=were_texts if text is None else text)


def report(
    collection: Any, key: Any = None, weight: Any = None, k: int = 100, threshold: Threshold = None, *,
    layout: Layout = PLAIN, text: Optional[bool] = None,
) -> List[Row]:
    """The keys of a collection, which is as `summary` takes it, that weigh more than the total divided by k + 1, or more
    than a share of it that is at least that; each with its exact weight, by falling weight and then by rising key.

    >>> import dask.bag
    >>> pairs = dask.bag.from_sequence([("a", 5), ("b", 2), ("a", 1)], npartitions=2)
    >>> report(pairs, 0, 1, k=1)
    [Row(key='a', weight=6)]
    """
    whole, condensed = _two_passes(collection, key, weight, k, threshold, layout, text)
    return whole.confirm(condensed, threshold, layout=Layout(decimals=layout.decimals))


def report_csv(
    collection: Any, key: Any = None, weight: Any = None, k: int = 100, threshold: Threshold = None, *, layout: Layout = PLAIN
) -> bytes:
    """The rows of `report`, as `heavy report` prints them.

    >>> import dask.bag
    >>> report_csv(dask.bag.from_sequence("abaa", npartitions=2), k=1)
    b'a,3\\n'
    """
    whole, condensed = _two_passes(collection, key, weight, k, threshold, layout, None)
    return whole.confirm_csv(condensed, threshold, layout=Layout(decimals=layout.decimals))


def _two_passes(
    collection: Any, key: Any, weight: Any, k: int, threshold: Threshold, layout: Layout, text: Optional[bool]
) -> Tuple[Summary, bytes]:
    """The summary of a collection, and fewer records that confirm the same."""
    share_of(threshold)
    whole = summary(collection, key, weight, k, layout=layout, text=text)
    whole._share(threshold, k)
    parts = _parts(collection, key, weight)
    # the bytes go out with each task: fetched from a worker that is lost, they would be waited for
    return whole, b"".join(_computed(_each(_condense, parts, key, weight, whole.to_bytes(), layout)))


def _parts(collection: Any, key: Any, weight: Any) -> List[Any]:
    """The parts of a collection, each of which Dask computes by itself."""
    if hasattr(type(collection), "to_delayed"):
        names = columns_named(collection)
        if names is not None:
            if key is None:
                raise TypeError(f"key must be a column of the frame: one of {', '.join(map(repr, names))}")
            for name in [key] if weight is None else [key, weight]:
                if name not in names:
                    raise KeyError(f"the frame has no column {name!r}, but {', '.join(map(repr, names))}")
            collection = collection[list(dict.fromkeys([key] if weight is None else [key, weight]))]
        return [*collection.to_delayed()]
    parts = [collection] if hasattr(collection, "__dask_graph__") else [*collection]
    for index, part in enumerate(parts):
        if not hasattr(part, "__dask_graph__"):
            raise TypeError(f"collection[{index}] must be a part that Dask computes, not {type(part).__name__!r}")
    return parts


def _each(work: Callable[..., Any], parts: List[Any], *words: Any) -> List[Any]:
    """What this work makes of each part, where the part may be computed."""
    dask = importlib.import_module("dask")
    made = []
    for number, part in enumerate(parts):
        layer = getattr(part.__dask_graph__(), "layers", {}).get(part.__dask_layers__()[0])
        with dask.annotate(**(getattr(layer, "annotations", None) or {})):
            made.append(dask.delayed(_named)(work, number, part, *words))
    return made


def _merged_up(summaries: List[Any]) -> Any:
    """What all summaries merge to, up a tree."""
    merged = importlib.import_module("dask").delayed(_merge)
    while len(summaries) > 1:
        summaries = [merged(summaries[at : at + _FILES]) for at in range(0, len(summaries), _FILES)]
    if not summaries:
        raise ValueError("there is no part")
    return summaries[0]


def _computed(made: List[Any]) -> Tuple[Any, ...]:
    """What Dask's scheduler computes."""
    found: Tuple[Any, ...] = importlib.import_module("dask").compute(*made)
    return found


def _merge(summaries: List[_Summarised]) -> _Summarised:
    return merge([Summary(saved) for saved, _ in summaries]).to_bytes(), all(text for _, text in summaries)


def _named(work: Callable[..., Any], number: int, part: Any, *words: Any) -> Any:
    """What this work makes of a part; its refusal names the part."""
    try:
        return work(part, *words)
    except HeavyError as refused:
        refused.part = part if isinstance(part, (str, os.PathLike)) else number
        raise


def _summarise(part: Any, key: Any, weight: Any, k: int, layout: Layout) -> _Summarised:
    """The summary of a part, and whether its keys are texts."""
    if _is_records(part):
        return Summary.of_csv(part, k, layout=layout).to_bytes(), False
    made = Summary(k=k)
    # parts are merged in no order of items, so equal keys of one may be one item
    items = items_of(*_items(part, key, weight), ANY)
    made._add(items)
    return made.to_bytes(), items.columns.text or not items.many


def _condense(part: Any, key: Any, weight: Any, saved: bytes, layout: Layout) -> bytes:
    """Fewer records that confirm what those of a part do."""
    if _is_records(part):
        return Summary(saved).condense(part, layout=layout)
    return Summary(saved).condense_items(*_items(part, key, weight))


def _is_records(part: Any) -> bool:
    return isinstance(part, (bytes, bytearray, memoryview, str, os.PathLike))


def _items(part: Any, key: Any, weight: Any) -> Tuple[Any, Any]:
    """The keys and the weights of a part."""
    names = columns_named(part)
    if names is not None:
        if key is None:
            raise TypeError(f"key must be a column of the frame: one of {', '.join(map(repr, names))}")
        return part[key], None if weight is None else part[weight]
    if key is None and weight is None or isinstance(part, Mapping):
        return part, None
    items = [*part]
    return [_of(item, key) for item in items], None if weight is None else [_of(item, weight) for item in items]


def _of(item: Any, place: Any) -> Any:
    """What an item has at this place, which may be a function."""
    if place is None:
        return item
    return place(item) if callable(place) else item[place]
