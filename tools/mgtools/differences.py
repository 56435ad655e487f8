"""How two outputs differ. Each is read once, and little of it is kept."""
from __future__ import annotations

import json
from collections.abc import Iterable, Iterator
from dataclasses import dataclass, field
from typing import Any

from .packets import MIN, Line, read_line, show_time, shown


@dataclass
class Packet:
    """A value, and the file and the line that have it."""
    value: Any
    place: str

    def __str__(self) -> str:
        return f"{shown(self.value)} in {self.place}"


@dataclass
class Difference:
    """How two outputs differ: the first difference, and how many packets of each stream differ, or stand in one of them alone."""
    first: str = ""
    changed: dict[str, int] = field(default_factory=dict)
    only_one: dict[str, int] = field(default_factory=dict)
    only_other: dict[str, int] = field(default_factory=dict)
    packets: int = 0

    @property
    def total(self) -> int:
        return sum(sum(counts.values()) for counts in (self.changed, self.only_one, self.only_other))

    def count(self, counts: dict[str, int], stream: str, text: str) -> None:
        counts[stream] = counts.get(stream, 0) + 1
        self.first = self.first or text


class Output:
    """An output, read line by line. Its times rise."""

    def __init__(self, lines: Iterable[bytes], name: str):
        self.lines = iter(lines)
        self.name = name
        self.number = 0
        self.last = MIN - 2
        self.text = b""
        self.next()

    def next(self) -> None:
        """Goes on to the next line that isn't blank; there is no text behind the last one."""
        self.text = b""
        for text in self.lines:
            self.number += 1
            if text.strip():
                self.text = text.rstrip()
                return

    def line(self) -> Line | None:
        """The line where it stands."""
        if not self.text:
            return None
        line = read_line(self.number, self.text)
        if line.form != "packets":
            raise ValueError(f"{self.name}:{self.number}: this is no line of an output")
        return line

    def packets_at(self, time: int) -> dict[str, Packet]:
        """The packets of a time, from where it stands."""
        found: dict[str, Packet] = {}
        line = self.line()
        while line and line.time <= time:
            if line.time < time:
                raise ValueError(f"{self.name}:{self.number}: the times of an output rise, and {show_time(line.time)} stands behind {show_time(time)}")
            found.update({name: Packet(value, f"{self.name}:{self.number}") for name, value in line.packets.items()})
            self.next()
            line = self.line()
        return found


def difference(one: Iterable[bytes], other: Iterable[bytes], names: tuple[str, str]) -> Difference:
    """How two outputs differ, time by time. Lines that are equal byte for byte aren't looked into."""
    found = Difference()
    left, right = Output(one, names[0]), Output(other, names[1])
    while left.text or right.text:
        if left.text == right.text:
            found.packets += 1
            left.next()
            right.next()
            continue
        times = [line.time for line in (left.line(), right.line()) if line]
        compare(found, min(times), left.packets_at(min(times)), right.packets_at(min(times)), names)
    return found


def compare(found: Difference, time: int, here: dict[str, Packet], there: dict[str, Packet], names: tuple[str, str]) -> None:
    """What differs at one time."""
    found.packets += len(here.keys() | there.keys())
    at = show_time(time)
    for name in [*here, *(name for name in there if name not in here)]:
        if name not in there:
            found.count(found.only_one, name, f"`{name}` at {at}: {here[name]}, and no packet in {names[1]}")
        elif name not in here:
            found.count(found.only_other, name, f"`{name}` at {at}: no packet in {names[0]}, and {there[name]}")
        elif not is_same(here[name].value, there[name].value):
            found.count(found.changed, name, f"`{name}` at {at}: {here[name]}, and {there[name]}")


def is_same(one: Any, other: Any) -> bool:
    """Whether two values are the same: true isn't 1, and a record's keys have no order."""
    return one is other or json.dumps(one, sort_keys=True) == json.dumps(other, sort_keys=True)


def difference_said(found: Difference, names: tuple[str, str]) -> Iterator[str]:
    """The first difference, and then how many; nothing where there is none."""
    if not found.total:
        return
    yield f"the first: {found.first}"
    yield f"{found.total} of {found.packets} packets differ"
    for counts, what in ((found.changed, "have another value"), (found.only_one, f"stand in {names[0]} alone"),
                         (found.only_other, f"stand in {names[1]} alone")):
        for name, number in counts.items():
            yield f"  {name}: {number} {what}"
