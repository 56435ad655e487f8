"""A recording or an output as a table: one column has the time, and each stream has one."""
from __future__ import annotations

import re
from collections.abc import Iterable, Iterator
from dataclasses import dataclass, field
from itertools import groupby
from typing import Any

from .columns import Columns, Scale
from .packets import MAX, MIN, UNSET, Line, compact, payload_fault, read_line, show_time
from .scales import unscaled, write_iso

# What stands in quotes in a cell, besides what parts cells: quotes, ends of lines, and space at an end.
NEEDS_QUOTES = re.compile(r'["\r\n]|^\s|\s$')


@dataclass
class Survey:
    """What a first look at the lines tells. `streams` has the last time of each, in the order in which they come, and `rises` is whether times
    rise over all streams together. `without_place` counts the lines that a table has no room for, by their form."""
    streams: dict[str, int] = field(default_factory=dict)
    rises: bool = True
    without_place: dict[str, int] = field(default_factory=dict)


def good_lines(lines: Iterable[bytes]) -> Iterator[Line]:
    for number, text in enumerate(lines, 1):
        line = read_line(number, text)
        if line.form == "bad":
            raise ValueError(f"line {number}: {line.why}")
        if line.form != "blank":
            yield line


def survey(lines: Iterable[bytes]) -> Survey:
    found, at = Survey(), UNSET
    for line in good_lines(lines):
        if line.form != "packets":
            word = {"side": "side packets", "bound": "bounds", "close": "closed streams"}[line.form]
            found.without_place[word] = found.without_place.get(word, 0) + 1
            continue
        for name, value in line.packets.items():
            last = found.streams.get(name, UNSET)
            fault = None if type(value) in (str, bool) else payload_fault(value)
            if fault:
                raise ValueError(f"line {line.number}: the value of `{name}` is no payload: {fault}")
            if line.time <= last:
                raise ValueError(f"line {line.number}: `{name}` has a packet at {show_time(line.time)}, behind that at {show_time(last)}")
            found.streams[name] = line.time
        found.rises, at = found.rises and line.time >= at, line.time
    return found


def rows(lines: Iterable[bytes], found: Survey, columns: Columns) -> Iterator[str]:
    """The rows of a table, its head first: one for each time at which a packet stands."""
    heads = [columns.head_of(stream) for stream in found.streams]
    scales = {stream: columns.scale_of(stream) for stream in found.streams}
    time = columns.time
    while time in heads:
        time = "_" + time
    yield row([time, *heads], columns)
    for at, packets in by_time(lines, found.rises):
        cells = [cell(packets[stream], scales[stream], columns) if stream in packets else None for stream in scales]
        yield row([time_cell(at, columns), *cells], columns)


def by_time(lines: Iterable[bytes], rises: bool) -> Iterator[tuple[int, dict[str, Any]]]:
    """The packets of each time. Where times don't rise over all streams together, the lines are sorted in memory."""
    each: Iterable[tuple[int, dict[str, Any]]] = ((line.time, line.packets) for line in good_lines(lines) if line.form == "packets")
    if not rises:
        each = sorted(each, key=lambda pair: pair[0])
    for time, group in groupby(each, key=lambda pair: pair[0]):
        packets: dict[str, Any] = {}
        for _, more in group:
            packets.update(more)
        yield time, packets


def time_cell(time: int, columns: Columns) -> str:
    if not MIN <= time <= MAX:
        return show_time(time)
    scale = columns.time_scale
    if columns.iso:
        return write_iso(time, scale.decimals, columns.iso, scale.least)
    return pointed(unscaled(time, scale.decimals, scale.least), columns)


def cell(value: Any, scale: Scale, columns: Columns) -> str:
    """A payload as a table has it."""
    if value is True or value is False:
        return "true" if value else "false"
    if isinstance(value, int):
        return pointed(unscaled(value, scale.decimals, scale.least), columns)
    return value if isinstance(value, str) else compact(value)


def pointed(number: str, columns: Columns) -> str:
    return number.replace(".", ",") if columns.comma else number


def row(cells: list[str | None], columns: Columns) -> str:
    """A row of cells, in quotes where they need some; nothing stands for no packet, and two quotes for an empty text."""
    def quoted(text: str) -> str:
        return '"' + text.replace('"', '""') + '"' if not text or columns.separator in text or NEEDS_QUOTES.search(text) else text

    return columns.separator.join("" if one is None else quoted(one) for one in cells) + "\n"
