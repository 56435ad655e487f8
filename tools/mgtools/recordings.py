"""What recordings hold, and parts of them. Each reads its lines once, and keeps little of them."""
from __future__ import annotations

import re
from collections.abc import Iterable, Iterator
from dataclasses import dataclass, field
from typing import Any

from .near import said as near_said
from .packets import (BYTE_ORDER_MARK, MAX, MIN, MOST_BYTES, MOST_LINES, POST_STREAM, PRE_STREAM, Line, after, compact, kind_of, packets_line,
                      payload_fault, read_line, show_time, shown, time_value)

# The usual form of a line, whose parts are taken without a look at the rest: its stream, its time and its value.
NUMBER = rb"(?:0|-?[1-9]\d{0,17})"
USUAL = re.compile(rb'\{"stream":"([a-z_][a-z0-9_]*)","ts":(' + NUMBER + rb'),"value":(' + NUMBER + rb'|true|false|"[ !#-\[\]-~]*")\}\s*')
KINDS = {b"t": "Flag", b"f": "Flag", b'"': "Text"}


@dataclass
class Told:
    """What a stream came to: its packets, times, longest silences and kinds, and the lines that are out of order."""
    packets: int = 0
    first: int | None = None
    last: int | None = None
    bound: int = PRE_STREAM
    kinds: dict[str, int] = field(default_factory=dict)
    steps: int = 0
    shortest: int | None = None
    gaps: list[tuple[int, int]] = field(default_factory=list)
    least_gap: int = 0
    bounds: int = 0
    closed: int = 0
    disorder: int = 0
    first_disorder: str = ""

    def packet(self, time: int, kind: str, number: int) -> None:
        why = (f"behind its close at line {self.closed}" if self.closed else f"below {show_time(self.bound)}" if time < self.bound else
               "and not alone" if time == POST_STREAM and self.packets else "")
        if why:
            self.disorder += 1
            self.first_disorder = self.first_disorder or f"line {number}, at {show_time(time)}, {why}"
        elif self.last is not None and time != self.last:
            self.step(time - self.last)
        self.packets += 1
        self.kinds[kind] = self.kinds.get(kind, 0) + 1
        if time >= self.bound:
            self.first = time if self.first is None else self.first
            self.last, self.bound = time, after(time)

    def step(self, length: int) -> None:
        """Another distance between two packets."""
        self.steps += 1
        self.shortest = length if self.shortest is None else min(self.shortest, length)
        if length > self.least_gap:
            self.gap(length)

    def gap(self, length: int) -> None:
        """A silence behind the last packet; the three longest are kept, the earlier of equal ones."""
        self.gaps = sorted([*self.gaps, (length, self.last)], key=lambda gap: (-gap[0], gap[1]))[:3]
        self.least_gap = self.gaps[2][0] if len(self.gaps) > 2 else 0


@dataclass
class Whole:
    """What a recording came to."""
    lines: int = 0
    blank: int = 0
    streams: dict[str, Told] = field(default_factory=dict)
    sides: dict[str, Any] = field(default_factory=dict)
    faults: list[str] = field(default_factory=list)
    more_faults: int = 0

    @property
    def is_faulty(self) -> bool:
        return bool(self.faults) or any(stream.disorder for stream in self.streams.values())

    def fault(self, text: str) -> None:
        if len(self.faults) < 10:
            self.faults.append(text)
        else:
            self.more_faults += 1


def told(lines: Iterable[bytes]) -> Whole:
    """Reads a whole recording. A packet in the usual form that goes on in order is counted here, without a call for it."""
    whole = Whole()
    usual = USUAL.fullmatch
    streams: dict[bytes, Told] = {}
    number = 0
    for number, text in enumerate(lines, 1):
        found = usual(text)
        if not found or len(text) > MOST_BYTES:
            take(whole, read_line(number, text), text)
            continue
        name, digits, value = found.groups()
        stream = streams.get(name)
        if stream is None:
            stream = streams[name] = whole.streams.setdefault(name.decode(), Told())
        time, last, kind = int(digits), stream.last, KINDS.get(value[:1], "Int")
        if last is None or time < stream.bound or stream.closed or kind not in stream.kinds:
            stream.packet(time, kind, number)
            continue
        length = time - last
        stream.steps += 1
        if length < stream.shortest if stream.shortest is not None else True:
            stream.shortest = length
        if length > stream.least_gap:
            stream.gap(length)
        stream.packets += 1
        stream.kinds[kind] += 1
        stream.last, stream.bound = time, time + 1
    if number > MOST_LINES:
        whole.fault(f"line {MOST_LINES + 1}: TooManyLines")
    whole.lines = number
    return whole


def bad_line(line: Line, text: bytes) -> str:
    """The note of `mg` on a bad line, and what is in the way there without being seen."""
    mark = " (a byte order mark stands before it)" if text.startswith(BYTE_ORDER_MARK) else ""
    return f"line {line.number}: {line.why}{mark}"


def take(whole: Whole, line: Line, text: bytes) -> None:
    """Any other line than a usual one."""
    if line.form == "blank":
        whole.blank += 1
    elif line.form == "bad":
        whole.fault(bad_line(line, text))
    elif line.form == "side":
        if any(told.packets or told.bounds or told.closed for told in whole.streams.values()):
            whole.fault(f"line {line.number}: the side packet `{line.stream}` stands behind a line that names a stream")
        if line.stream in whole.sides:
            whole.fault(f"line {line.number}: a second value of the side packet `{line.stream}`")
        whole.sides.setdefault(line.stream, line.value)
    elif line.form == "packets":
        for name, value in line.packets.items():
            fault = payload_fault(value)
            if fault:
                whole.fault(f"line {line.number}: the value of `{name}` is no payload: {fault}")
            whole.streams.setdefault(name, Told()).packet(line.time, kind_of(value), line.number)
    else:
        stream = whole.streams.setdefault(line.stream, Told())
        if stream.closed:
            whole.fault(f"line {line.number}: `{line.stream}` was closed by line {stream.closed}")
        if line.form == "close":
            stream.closed = stream.closed or line.number
        else:
            stream.bounds += 1
            stream.bound = max(stream.bound, line.time)


def said(whole: Whole) -> Iterator[str]:
    """What a recording came to, in lines."""
    yield f"{whole.lines} lines" + (f", {whole.blank} of them blank" if whole.blank else "")
    for name, value in whole.sides.items():
        yield f"side packet {name}: {shown(value)}"
    for name, stream in whole.streams.items():
        yield f"stream {name}: {', '.join(parts(stream))}"
        if stream.disorder:
            yield f"  out of order: {stream.disorder} packets, the first {stream.first_disorder}"
        if stream.gaps and stream.gaps[0][0] > stream.shortest:
            yield "  longest silences: " + ", ".join(f"{length} from {show_time(begin)}" for length, begin in stream.gaps)
    yield from whole.faults
    if whole.more_faults:
        yield f"and {whole.more_faults} more"


def parts(stream: Told) -> Iterator[str]:
    yield f"{stream.packets} packet{'' if stream.packets == 1 else 's'}"
    if stream.first is not None:
        yield f"from {show_time(stream.first)} to {show_time(stream.last)}"
    if stream.steps:
        span = stream.last - stream.first
        yield f"one in {span / stream.steps:.1f} on the average, the shortest step {stream.shortest}"
    if stream.kinds:
        yield "kinds " + ", ".join(f"{kind} ({number})" for kind, number in stream.kinds.items()) if len(stream.kinds) > 1 else "kind " + next(iter(stream.kinds))
    if stream.bounds:
        yield f"{stream.bounds} bound line{'' if stream.bounds == 1 else 's'}"
    if stream.closed:
        yield f"closed by line {stream.closed}"


@dataclass
class Pick:
    """Which part of a recording is wanted. Times from `since` on and below `until`. Of each name that came it knows which one it has."""
    keep: set[str] | None = None
    drop: set[str] = field(default_factory=set)
    rename: dict[str, str] = field(default_factory=dict)
    since: int = MIN - 1
    until: int = MAX + 2
    seen: dict[str, str | None] = field(default_factory=dict)

    def name_of(self, name: str, number: int) -> str | None:
        """The name of a stream or a side packet in the part; none where it isn't wanted."""
        if name not in self.seen:
            is_wanted = name not in self.drop and (self.keep is None or name in self.keep)
            new = self.rename.get(name, name) if is_wanted else None
            other = next((old for old, taken in self.seen.items() if taken == new), None) if is_wanted else None
            if other is not None:
                raise ValueError(f"line {number}: `{other}` and `{name}` would both be `{new}`")
            self.seen[name] = new
        return self.seen[name]

    def check_names(self) -> None:
        """Refuses a choice for a name that no line had."""
        for option, names in (("--keep", self.keep or ()), ("--drop", self.drop), ("--rename", self.rename)):
            for name in sorted(names):
                if name not in self.seen:
                    raise ValueError(f"no line has a stream or a side packet `{name}` ({option}){near_said(name, self.seen)}")


def picked(lines: Iterable[bytes], pick: Pick) -> Iterator[bytes]:
    """The wanted lines. A line in the usual form keeps its bytes, but for the name of its stream."""
    heads: dict[bytes, bytes | None] = {}
    usual = USUAL.fullmatch
    for number, text in enumerate(lines, 1):
        found = usual(text)
        if found:
            name = found[1]
            if name not in heads:
                new = pick.name_of(name.decode(), number)
                heads[name] = b'{"stream":"' + new.encode() if new is not None else None
            if heads[name] is not None and pick.since <= int(found[2]) < pick.until:
                yield heads[name] + text[found.end(1):].rstrip() + b"\n"
            continue
        line = read_line(number, text)
        if line.form == "bad":
            raise ValueError(bad_line(line, text))
        made = part_of(line, pick)
        if made is not None:
            yield made.encode() + b"\n"
    pick.check_names()


def part_of(line: Line, pick: Pick) -> str | None:
    """What is wanted of one line."""
    if line.form == "packets":
        packets = {pick.name_of(one, line.number): value for one, value in line.packets.items()}
        packets.pop(None, None)
        return packets_line(line.time, packets) if packets and pick.since <= line.time < pick.until else None
    name = pick.name_of(line.stream, line.number) if line.stream else None
    if name is None:
        return None
    if line.form == "bound":
        # What is promised below the span's begin says nothing of the span.
        return compact({"stream": name, "bound": time_value(line.time)}) if line.time > pick.since else None
    if line.form == "close":
        return compact({"stream": name, "close": True})
    return compact({"side": name, "value": line.value})
