"""The dependences of a suite, from what `electric deps SUITE json` writes."""

import json
import re
from typing import NamedTuple, Optional

from parts.texts import Fault


class Location(NamedTuple):
    """Where two tests meet, and the reads by which the later one came there from a static."""

    at: str
    walk: tuple

    def __str__(self):
        return self.at + (" by " + " > ".join(self.walk) if self.walk else "")


class Conflict(NamedTuple):
    """What ties a later test to an earlier one: `count` locations in all, of which at most 8 are listed."""

    kind: str
    first: str
    later: str
    count: int
    locations: tuple
    effect: Optional[str] = None

    def lines(self):
        """What the conflict is about."""
        more = self.count - len(self.locations)
        return [str(it) for it in self.locations] + ([f"and {more} more"] if more > 0 else [])


class Dependences(NamedTuple):
    """The conflicts of a suite of so many tests."""

    conflicts: list
    tests: int

    def names(self):
        """The tests that conflicts name, in suite order as far as conflicts tell: those of a later test stand together, by the
        order of the later tests and, for each, of the earlier ones."""
        after = {}
        last_first, last_later = None, None
        for it in self.conflicts:
            after.setdefault(it.first, set())
            after.setdefault(it.later, set()).add(it.first)
            if it.later != last_later:
                after[it.later] |= {last_later} - {None}
            elif it.first != last_first:
                after[it.first].add(last_first)
            last_first, last_later = it.first, it.later
        return in_order(after)

    def chains(self):
        """Lists of tests that conflicts join, in the order of their first mention."""
        head = {}

        def find(name):
            while head[name] != name:
                head[name] = head[head[name]]
                name = head[name]
            return name

        for it in self.conflicts:
            for name in (it.first, it.later):
                head.setdefault(name, name)
            first, second = find(it.first), find(it.later)
            if first != second:
                head[second] = first
        chains = {}
        for name in head:
            chains.setdefault(find(name), []).append(name)
        return list(chains.values())

    def without(self, warm):
        """The dependences but for those of the named tests."""
        return self._replace(conflicts=[it for it in self.conflicts if it.first not in warm and it.later not in warm])

    def with_effects(self, effects):
        """The same, with what a manifest says of each raw conflict, which it has to list."""
        if set(effects) != {(it.first, it.later) for it in self.conflicts if it.kind == "raw"}:
            raise ValueError("the manifest isn't one of these dependences")
        told = [
            it._replace(effect=effects[it.first, it.later]) if it.kind == "raw" else it for it in self.conflicts
        ]
        return self._replace(conflicts=told)


def in_order(after):
    """The keys, each behind those that its set names, and else as they stand."""
    rows, waiting = {}, list(after)
    open_below = {name: len(after[name]) for name in waiting}
    above = {}
    for name in waiting:
        for other in after[name]:
            above.setdefault(other, []).append(name)
    ready = [name for name in reversed(waiting) if not open_below[name]]
    while ready:
        name = ready.pop()
        rows[name] = len(rows)
        for other in reversed(above.get(name, [])):
            open_below[other] -= 1
            if not open_below[other]:
                ready.append(other)
    if len(rows) < len(waiting):
        raise ValueError("conflicts go round in a circle")
    return list(rows)


def read(text):
    """The dependences of the text; Fault where it is a fault line, and ValueError where it is neither."""
    if text.startswith("electric: "):
        raise Fault(text.splitlines()[0])
    try:
        return from_json(text)
    except (ValueError, KeyError, TypeError) as why:
        raise ValueError(f"not what `electric deps SUITE json` writes: {why}") from why


def from_json(text):
    known = {}

    def part(found):
        if set(found) == {"at", "walk"}:
            place = Location(str(found["at"]), tuple(map(str, found["walk"])))
            return known.setdefault(place, place)
        if set(found) == {"count", "from", "kind", "locations", "to"} and found["kind"] in ("raw", "waw", "war"):
            return Conflict(found["kind"], found["from"], found["to"], found["count"], tuple(found["locations"]))
        return found

    found = json.loads(text, object_hook=part)
    if not isinstance(found, dict) or set(found) != {"edges", "tests"} or not isinstance(found["tests"], int):
        raise ValueError("no object with `edges` and `tests`")
    for it in found["edges"]:
        if not isinstance(it, Conflict) or not all(isinstance(place, Location) for place in it.locations):
            raise ValueError(f"no conflict: {it}")
    return Dependences(found["edges"], found["tests"])


def class_of(test):
    return re.sub(r"\.[^.]*$", "", test)


def method_of(test):
    return test.split(".")[-1]
