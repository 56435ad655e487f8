"""Packet lines of tables: one column has the time, and each other one is a stream."""
from __future__ import annotations

import csv
import heapq
import json
import re
import shlex
from collections.abc import Iterable, Iterator
from dataclasses import dataclass, field
from typing import Any

from .columns import Columns, Scale
from .near import said as near_said
from .packets import MAX, MIN, MOST_BYTES, SPECIAL, compact, payload_fault, whole
from .scales import ISO_DECIMALS, decimals_of, iso_decimals, iso_form, read_iso, scaled

WHOLE = re.compile(r"-?(?:0|[1-9]\d*)")
NAME = re.compile(r"[a-z_][a-z0-9_]*")
FLAGS = ("true", "false", "True", "False", "TRUE", "FALSE")
# How programs write numbers that are none, and numbers whose point is a comma.
NO_NUMBER = re.compile(r"[+-]?(?:nan|inf|infinity)", re.I)
WITH_COMMA = re.compile(r"[+-]?\d+(?:,\d+)+")
# A cell may be as long as a line of packets.
csv.field_size_limit(MOST_BYTES)


class BadCell(Exception):
    """A cell, a head or a row that no packet line can be made of, with its place."""


@dataclass
class Choices:
    """How cells are read. `decimals` are the digits behind the point that a column's numbers keep, by column."""
    time: str = ""
    time_decimals: int | None = None
    decimals: dict[str, int] = field(default_factory=dict)
    texts: set[str] = field(default_factory=set)
    mixed: set[str] = field(default_factory=set)
    left_out: set[str] = field(default_factory=set)
    missing: set[str] = field(default_factory=set)
    separator: str = ","
    comma: bool = False
    rounds: bool = False

    def check_names(self, heads: Iterable[str]) -> None:
        """Refuses a choice for a column that no table has."""
        heads = list(heads)
        for option, names in (("--decimals", self.decimals), ("--text", self.texts), ("--mixed", self.mixed), ("--leave-out", self.left_out)):
            for name in sorted(names):
                if name not in heads and not (option == "--decimals" and name == "*"):
                    raise BadCell(f"there is no column `{name}` ({option}){near_said(name, heads)}")


def option(name: str, word: str) -> str:
    """An option with its word, as a shell takes it."""
    return f"{name}={shlex.quote(word)}" if word.startswith("-") else f"{name} {shlex.quote(word)}"


class Column:
    """A column that is a stream: how its cells are read, and in which lines its first number and its first text stood."""

    def __init__(self, head: str, choices: Choices):
        self.head, self.choices = head, choices
        self.stream = stream_name(head)
        self.decimals = choices.decimals.get(head, choices.decimals.get("*"))
        self.scale = Scale(self.decimals or 0)
        self.is_text = head in choices.texts
        self.may_mix = head in choices.mixed
        self.number_at = self.text_at = 0
        self.text = ""

    def value(self, text: str, line: int) -> Any:
        """The payload of a cell; none for a word that stands for a missing one."""
        if self.is_text:
            return text
        bare = text.strip()
        if bare in self.choices.missing:
            return None
        if bare in FLAGS:
            return bare.lower() == "true"
        number = None if bare[:1].isalpha() else self.number(bare)
        if number is not None:
            self.number_at = self.number_at or line
            if self.text_at and not self.may_mix:
                raise BadCell(f"{bare} is a number, and `{self.text}` in line {self.text_at} was taken as a text: {self.ways(self.text)}")
            return number
        if bare[:1] in ("[", "{"):
            found = read_inner(bare)
            if found is not None:
                return found
        self.look_at_text(bare, line)
        return text

    def number(self, bare: str) -> int | None:
        """The number of a cell, or none where it is no number."""
        plain = bare
        if self.choices.comma:
            plain = bare.replace(",", ".", 1) if "." not in bare else ""
        if self.decimals is None:
            if WHOLE.fullmatch(plain):
                return fitting(int(plain), bare)
            digits = decimals_of(plain)
            if digits is not None and re.search(r"[.eE]", plain):
                raise BadCell(f"{bare} is no whole number: say how many decimals to keep ({option('--decimals', f'{self.head}={digits}')}), "
                              f"or keep it as a text ({option('--text', self.head)})")
            return None
        number = scaled(plain, self.decimals, self.choices.rounds)
        if number is not None:
            if self.scale.least != 0:
                self.scale.saw(decimals_of(plain))
            return fitting(number, bare)
        digits = decimals_of(plain)
        if digits is not None:
            raise BadCell(f"{bare} has {digits} decimals, and {self.decimals} are kept: keep more "
                          f"({option('--decimals', f'{self.head}={digits}')}), or round (--round)")
        return None

    def look_at_text(self, bare: str, line: int) -> None:
        """Refuses a text where numbers stand, and one that is a number to whoever wrote it."""
        if self.may_mix:
            return
        if self.number_at:
            raise BadCell(f"`{bare}` is no number, and the column has had numbers since line {self.number_at}: {self.ways(bare)}")
        if self.head in self.choices.decimals:
            raise BadCell(f"`{bare}` is no number, and the column is one of numbers, since it has --decimals: {self.ways(bare)}")
        if not self.text_at and (NO_NUMBER.fullmatch(bare) or WITH_COMMA.fullmatch(bare)):
            raise BadCell(f"`{bare}` is no number that a packet can have: {self.ways(bare)}")
        if not self.text_at:
            self.text_at, self.text = line, bare

    def ways(self, bare: str) -> str:
        """What may be done about a text among numbers."""
        first = "say that numbers have a decimal comma (--decimal-comma)"
        if not WITH_COMMA.fullmatch(bare):
            first = f"take it as no packet ({option('--missing', bare)})"
        return f"{first}, or keep the column as texts ({option('--text', self.head)}), or as both ({option('--mixed', self.head)})"


def read_inner(bare: str) -> Any:
    """A list or a record, or none where it can't be read so."""
    def refuse(number: str) -> None:
        raise BadCell(f"{number} in a list or a record is no whole number")

    try:
        value = json.loads(bare, parse_float=refuse, parse_constant=refuse, parse_int=whole)
        compact(value).encode()
    except ValueError:
        return None
    except RecursionError:
        raise BadCell("lists and records stand in one another more than 16 deep") from None
    fault = payload_fault(value)
    if fault:
        raise BadCell(fault)
    return value


def fitting(number: int, text: str) -> int:
    if not -2**63 <= number < 2**63:
        raise BadCell(f"{text} has more than 64 signed bits: keep it as a text (--text)")
    return number


def stream_name(head: str) -> str:
    """The name of the stream of a column: its head, with what no name may have as underscores."""
    name = re.sub(r"[^a-z0-9_]", "_", head.strip().lower())
    return name if NAME.fullmatch(name) else "_" + name


class Times:
    """How the times of a table are read: all as decimal numbers, or all as ISO times, as the first one is."""

    def __init__(self, choices: Choices):
        self.choices = choices
        self.scale, self.iso, self.has_begun = Scale(choices.time_decimals or 0), None, False

    def read(self, said: str) -> int:
        """The timestamp of a cell; also a word that a packet line has in its place."""
        if said in ("PreStream", "PostStream"):
            return SPECIAL[said]
        if not self.has_begun:
            self.has_begun, self.iso = True, iso_form(said)
            if self.iso and self.choices.time_decimals is None:
                self.scale.decimals = ISO_DECIMALS
        plain = said.replace(",", ".", 1) if self.choices.comma else said
        digits = iso_decimals(said) if self.iso else decimals_of(plain)
        time = read_iso(said, self.scale.decimals, self.choices.rounds) if self.iso else scaled(plain, self.scale.decimals, self.choices.rounds)
        if time is None or not MIN <= time <= MAX:
            raise BadCell(self.why_none(digits))
        if self.iso and self.iso.zone != "Z" and self.iso.zone != iso_form(said).zone:
            self.iso.zone = "Z"
        self.scale.saw(digits)
        return time

    def why_none(self, digits: int | None) -> str:
        if digits is None:
            other = "an ISO time as the one before" if self.iso else "a number, or in every row an ISO time as 2024-05-01T12:00:00.25Z,"
            return f"{other} is wanted"
        if digits > self.scale.decimals:
            return f"say that times have {digits} decimals (--time-decimals {digits}), or round (--round)"
        return "it is out of the range of times"


class Table:
    """A table. Its head is read at once, and its rows one by one."""

    def __init__(self, file: str, lines: Iterable[str], choices: Choices):
        self.file, self.choices = file, choices
        self.reader = csv.reader(lines, delimiter=choices.separator)
        self.head = [one.strip() for one in next(self.whole_rows(), [])]
        self.times = Times(choices)
        self.time, self.time_at, self.columns = "time", 0, {}
        if not self.head:
            return
        other = next((one for one in ",;\t|" if len(self.head) == 1 and one in self.head[0]), "")
        if other:
            way = option("--separator", "\\t" if other == "\t" else other)
            raise BadCell(f"{file}:1: the head is one column, `{self.head[0]}`: say what stands between cells ({way})")
        self.time = choices.time or ("time" if "time" in self.head else self.head[0])
        if self.time not in self.head:
            raise BadCell(f"{file}:1: there is no column `{self.time}`: the columns are {', '.join(self.head)}")
        self.time_at = self.head.index(self.time)
        self.columns = {place: Column(one, choices) for place, one in enumerate(self.head)
                        if place != self.time_at and one and one not in choices.left_out}
        if len({column.stream for column in self.columns.values()}) < len(self.columns):
            raise BadCell(f"{file}:1: two columns give one name of a stream: {', '.join(self.head)}")

    def whole_rows(self) -> Iterator[list[str]]:
        """The rows as they stand. What no table can have is refused with its place."""
        try:
            yield from self.reader
        except UnicodeDecodeError as fault:
            raise BadCell(f"{self.file}: behind line {self.reader.line_num}: the table isn't UTF-8 ({fault.reason}): save it so") from None
        except csv.Error as fault:
            raise BadCell(f"{self.file}:{self.reader.line_num}: {fault}") from None

    def rows(self) -> Iterator[tuple[int, int, dict[str, Any]]]:
        """For each row the time, the line, and the values by stream. Rows without any are passed over."""
        last = MIN - 1
        for row in self.whole_rows():
            if not "".join(row).strip():
                continue
            line = self.reader.line_num
            if len(row) > len(self.head):
                raise BadCell(f"{self.file}:{line}: the row has {len(row)} cells, more than the {len(self.head)} of the head")
            said = row[self.time_at].strip() if len(row) > self.time_at else ""
            try:
                time = self.times.read(said)
            except BadCell as fault:
                raise BadCell(f"{self.file}:{line}: `{said}` in the column `{self.time}` is no time: {fault}") from None
            if time < last:
                raise BadCell(f"{self.file}:{line}: the time {time} is below the one before it, {last}: sort the table by its time")
            last = time
            values = {}
            for place, column in self.columns.items():
                if place < len(row) and row[place].strip():
                    try:
                        value = column.value(row[place], line)
                    except BadCell as fault:
                        raise BadCell(f"{self.file}:{line}: column `{column.head}`: {fault}") from None
                    if value is not None:
                        values[column.stream] = value
            if values:
                yield time, line, values

    def told(self) -> Columns:
        """How the table's times and numbers were written, as far as it was read."""
        streams = {column.stream: (column.head, column.scale) for column in self.columns.values()}
        return Columns(self.time, self.times.scale, self.times.iso, streams, self.choices.separator, self.choices.comma)


def merged(tables: list[Table]) -> Iterator[tuple[int, dict[str, Any]]]:
    """The packets of several tables by time: at each time those of all tables, by stream."""
    def marked(number: int, table: Table) -> Iterator[tuple[int, int, int, str, dict[str, Any]]]:
        for time, line, values in table.rows():
            yield time, number, line, table.file, values

    at, packets, places = None, {}, {}
    rows = [marked(number, table) for number, table in enumerate(tables)]
    for time, _, line, file, values in heapq.merge(*rows, key=lambda row: row[:2]) if len(rows) > 1 else rows[0]:
        if time != at:
            if packets:
                yield at, packets
            at, packets, places = time, {}, {}
        for name, value in values.items():
            if name in packets:
                raise BadCell(f"{file}:{line}: `{name}` has a packet at {time} already, from {places[name][0]}:{places[name][1]}")
            packets[name], places[name] = value, (file, line)
    if packets:
        yield at, packets
