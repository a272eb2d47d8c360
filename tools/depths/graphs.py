"""Which functions call themselves, by themselves or through others."""

from __future__ import annotations

from collections.abc import Iterator

Calls = dict[str, set[str]]


def cycles(calls: Calls) -> list[tuple[str, ...]]:
    """The sets of functions each of which calls all others of its set, and itself (Tarjan, without a call of its
    own)."""
    place: dict[str, int] = {}
    lowest: dict[str, int] = {}
    open_names: list[str] = []
    found = []
    for first in sorted(calls):
        if first in place:
            continue
        walk: list[tuple[str, Iterator[str]]] = []
        _enter(first, calls, place, lowest, open_names, walk)
        while walk:
            name, others = walk[-1]
            for other in others:
                if other not in place:
                    _enter(other, calls, place, lowest, open_names, walk)
                    break
                if lowest[other] >= 0:
                    lowest[name] = min(lowest[name], place[other])
            else:
                walk.pop()
                if walk:
                    lowest[walk[-1][0]] = min(lowest[walk[-1][0]], lowest[name])
                if lowest[name] == place[name]:
                    whole = open_names[open_names.index(name) :]
                    del open_names[-len(whole) :]
                    lowest.update(dict.fromkeys(whole, -1))
                    if len(whole) > 1 or name in calls.get(name, ()):
                        found.append(tuple(sorted(whole)))
    return sorted(found)


def _enter(
    name: str,
    calls: Calls,
    place: dict[str, int],
    lowest: dict[str, int],
    open_names: list[str],
    walk: list[tuple[str, Iterator[str]]],
) -> None:
    place[name] = lowest[name] = len(place)
    open_names.append(name)
    walk.append((name, iter(sorted(calls.get(name, ())))))
