"""Traces, read and followed: docs/guide/traces.md says what each line tells. A step tells numbers alone. Which set a number is, and which packets
go along an edge, follows from the packets of all streams: a node is shown the sets of its whole streams, whatever the order of the steps.
"""
from __future__ import annotations

import re
from collections.abc import Iterator
from dataclasses import dataclass
from typing import BinaryIO

from .graph import Graph, Node, Port, first_text, in_order
from .kinds import offset_of, whole_number
from .loops import batch_end, is_begin
from .packets import MAX, MIN, kind_of, read_line, show_time
from .textform import Scalar
from .times import Times

LONGEST = 2**20
STEP = re.compile(rb"(?:(deliver|claim|advance) (0|[1-9]\d{0,18})|(perform|commit) (0|[1-9]\d{0,18}) (0|[1-9]\d{0,19})|(relax|end))")
LOOPBACK = "PreviousLoopbackCalculator"


class BadLine(Exception):
    """A line of a trace that can't be read, with its number."""

    def __init__(self, line: int, why: str):
        super().__init__(f"line {line}: {why}")


@dataclass
class Step:
    """A step: its line, counted from 1, and its number, counted from 0; its word and its text; its node, none for a graph output and for `relax`; the
    number of its work; whether this is a `set`, a `call` of a source or `Close`, or just a `work` where that isn't known; the time of a set; the
    packets that it lays or delivers; whether a loopback answers by it; and why the node failed at it."""
    line: int
    number: int
    word: str
    text: str
    node: Node | None = None
    work: int | None = None
    kind: str = ""
    time: int | None = None
    packets: list[Moved] | None = None
    is_answer: bool = False
    fault: str = ""


def phase_of(step: Step) -> str:
    """The phase of a work as the notes on nodes that fail have it."""
    if step.kind == "set" and step.time is not None:
        return f"process {show_time(step.time)}"
    return f"call {step.work}" if step.kind == "call" else "close" if step.kind == "Close" else "unknown"


@dataclass
class Moved:
    """What is laid of a stream, or goes along its edge: how many packets, the times of the first and of the last, and whether the stream's end is
    told. The number is none where it isn't known."""
    stream: str
    count: int | None
    first: int | None = None
    last: int | None = None
    ends: bool = False


class Lines:
    """The lines of a trace without their line feeds, and the number of the last one, counted from 1."""

    def __init__(self, file: BinaryIO):
        self.file = file
        self.number = 0

    def __iter__(self) -> Iterator[bytes]:
        """Raises BadLine at a line that is too long, of which nothing more is read."""
        while line := self.file.readline(LONGEST + 1):
            self.number += 1
            if len(line) > LONGEST and not line.endswith(b"\n"):
                raise BadLine(self.number, f"it has more than {LONGEST} bytes")
            yield line[:-1] if line.endswith(b"\n") else line


def read_job(lines: Lines, times: dict[str, Times], ends: dict[str, Times], into: BinaryIO) -> tuple[bool, set[str]]:
    """Reads the lines in front of the steps: packet lines, which are copied, the times of the packets of each input, and the values of those that
    tell the ends of lists. Whether the input ended well, and the streams that are closed."""
    closed: set[str] = set()
    for text in lines:
        if text in (b"ended", b"frozen"):
            return text == b"ended", set(times) if text == b"ended" else closed
        line = read_line(lines.number, text)
        if line.form == "bad":
            raise BadLine(lines.number, f"{line.why}: it is no packet line, and neither `ended` nor `frozen`")
        for name in line.packets or ([line.stream] if line.form in ("bound", "close") else []):
            if name not in times:
                raise BadLine(lines.number, f"the graph has no input `{name}`")
        for name, value in line.packets.items():
            if len(times[name]) and times[name][len(times[name]) - 1] >= line.time:
                raise BadLine(lines.number, f"`{name}` has a packet at {show_time(times[name][len(times[name]) - 1])} already")
            times[name].append(line.time)
            if name in ends:
                if kind_of(value) != "Int":
                    raise BadLine(lines.number, f"`{name}` takes a whole number")
                ends[name].append(value)
        if line.form == "close":
            closed.add(line.stream)
        into.write(text + b"\n")
    raise BadLine(lines.number + 1, "the lines end before `ended` or `frozen`")


class Sets:
    """The times of the sets that a node is shown, in order. Of a source, and where the times of an input aren't known, there are none."""

    def __init__(self, node: Node, times: dict[str, Times]):
        ports = node.inputs
        if node.calculator == LOOPBACK:
            ports = [port for port in ports if port.tag == "MAIN"]
        elif node.calculator == "MuxCalculator" and handler_of(node) in ("", "MuxInputStreamHandler"):
            ports = [port for port in ports if port.tag == "SELECT"]
        self.is_known = bool(ports) and all(port.name in times for port in ports)
        self.heads = [[times[name], 0] for name in dict.fromkeys(port.name for port in ports)] if self.is_known else []

    def next(self) -> int | None:
        """The time of the next set, or none behind the last one."""
        at = min((times[place] for times, place in self.heads if place < len(times)), default=None)
        for head in self.heads:
            if head[1] < len(head[0]) and head[0][head[1]] == at:
                head[1] += 1
        return at


def handler_of(node: Node) -> str:
    return next((first_text(handler, "input_stream_handler") for handler in node.field.all_of("input_stream_handler")), "")


def most_in_flight(node: Node) -> int:
    """How many works of a node may be under way at once."""
    said = next((whole_number(field.value) for field in node.field.all_of("max_in_flight") if isinstance(field.value, Scalar)), 1)
    return min(max(said or 1, 1), 64)


class Laid:
    """How far a stream is laid, and how far it will be."""

    def __init__(self, times: Times | None):
        self.times = times
        self.count = 0
        self.is_closed = False

    def lay_to(self, limit: int) -> None:
        """Lays the packets up to this time."""
        while self.count < len(self.times) and self.times[self.count] <= limit:
            self.count += 1


class Works:
    """The works of a node: those that are claimed and not laid, each with its kind, the time of its set, and how far it is. At an end of a loop
    over lists also how many lists have ended so far, and up to which time on the other side that is."""

    def __init__(self, node: Node, times: dict[str, Times]):
        self.node = node
        self.sets = Sets(node, times)
        self.outputs = [port.name for port in in_order(node.outputs)]
        self.is_loop, self.is_source, self.most = node.calculator == LOOPBACK, not node.inputs, most_in_flight(node)
        self.offset, self.ends, self.begins = offset_of(node) or 0, batch_end(node), is_begin(node)
        self.claimed = self.laid = self.lists = 0
        self.reach = MIN
        self.way: dict[int, list] = {}
        self.has_closed = False


@dataclass
class Known:
    """What is known of the streams of a graph: the times of their packets, those inside it only where a run told them; the values of those that tell
    the ends of lists; the inputs that are closed; how many sets or calls each node had; and of one that failed where it did, and why."""
    times: dict[str, Times]
    ends: dict[str, Times]
    closed: set[str]
    sets: dict[int, int]
    faults: dict[int, tuple[str, str]]


class Follower:
    """Follows the steps of a trace."""

    def __init__(self, graph: Graph, known: Known):
        self.known, self.times = known, known.times
        self.laid = {name: Laid(self.times.get(name)) for name in graph.streams()}
        for port in graph.inputs:
            self.laid[port.name].count = len(self.times[port.name])
            self.laid[port.name].is_closed = port.name in known.closed
        self.edges: list[tuple[Node | None, Port]] = [(node, port) for node in graph.nodes for port in in_order(node.inputs)]
        self.edges += [(None, port) for port in graph.outputs]
        # Of each edge how many packets its reader has, and whether it knows the end.
        self.got = [[0, False] for _ in self.edges]
        self.works = [Works(node, self.times) for node in graph.nodes]

    def steps(self, lines: Lines) -> Iterator[Step]:
        """The steps, up to `end`."""
        for count, text in enumerate(lines):
            found = STEP.fullmatch(text)
            if not found:
                shown = text[:60].decode(errors="replace")
                raise BadLine(lines.number, f"`{shown}` is no step: they are deliver, claim, perform, commit, advance, relax and end, each with its numbers")
            if found[6] == b"end":
                for _ in lines:
                    raise BadLine(lines.number, "a line stands behind `end`")
                return
            yield self.step(lines.number, count, text.decode(), found)
        raise BadLine(lines.number + 1, "the steps break off before `end`")

    def step(self, line: int, count: int, text: str, found: re.Match) -> Step:
        word = (found[1] or found[3] or found[6]).decode()
        step = Step(line, count, word, text)
        if word == "deliver":
            return self.deliver(step, self.within(line, int(found[2]), len(self.edges), "edges"))
        if word == "relax":
            return step
        works = self.works[self.within(line, int(found[2] or found[4]), len(self.works), "nodes")]
        step.node = works.node
        if word == "claim":
            self.claim(step, works)
        elif word != "advance":
            self.go_on(step, works, int(found[5]))
        return step

    @staticmethod
    def within(line: int, number: int, count: int, what: str) -> int:
        if number >= count:
            raise BadLine(line, f"the graph has no such number: its {what} are counted from 0, and are {count}")
        return number

    def deliver(self, step: Step, edge: int) -> Step:
        step.node, port = self.edges[edge]
        laid, got = self.laid[port.name], self.got[edge]
        begin, end = got[0], laid.count
        ends = laid.is_closed and not got[1]
        got[:] = [end, laid.is_closed]
        moved = Moved(port.name, end - begin if laid.times is not None else None, ends=ends)
        if end > begin:
            moved.first, moved.last = laid.times[begin], laid.times[end - 1]
        step.packets = [moved]
        return step

    def claim(self, step: Step, works: Works) -> None:
        node = works.node
        if works.has_closed:
            raise BadLine(step.line, f"node {node.number} has nothing more to do: it had all its sets and Close")
        if len(works.way) >= works.most and not works.is_loop:
            raise BadLine(step.line, f"node {node.number} has as many works under way as it may, {len(works.way)}")
        step.work, step.kind = works.claimed, "work"
        works.claimed += 1
        if works.sets.is_known:
            step.time = works.sets.next()
            step.kind = "Close" if step.time is None else "set"
        elif works.is_source and node.number in self.known.sets:
            step.kind = "Close" if step.work >= self.known.sets[node.number] else "call"
        works.has_closed = step.kind == "Close"
        if works.is_loop:
            # What a loopback claims is answered at once, but for Close.
            works.way.clear()
            works.laid = step.work
        step.is_answer = works.is_loop and step.kind == "set"
        if step.is_answer:
            step.packets = self.lay(works, step.work, step.kind, step.time) if all(name in self.times for name in works.outputs) else None
        else:
            works.way[step.work] = [step.kind, step.time, "claimed"]

    def go_on(self, step: Step, works: Works, number: int) -> None:
        """A work that was claimed is performed, or one that was performed committed."""
        before, now = ("claimed", "performed") if step.word == "perform" else ("performed", "committed")
        work = works.way.get(number)
        if work is None or work[2] != before:
            raise BadLine(step.line, f"node {works.node.number} has no work {number} that is {before} and not yet {now}")
        work[2] = now
        step.work = number
        step.kind, step.time, _ = work
        if now == "committed":
            phase, cause = self.known.faults.get(works.node.number, ("", ""))
            step.fault = cause if phase == phase_of(step) else ""
            step.packets = []
            while works.laid in works.way and works.way[works.laid][2] == "committed":
                kind, time, _ = works.way.pop(works.laid)
                step.packets = joined(step.packets, self.lay(works, works.laid, kind, time))
                works.laid += 1

    def lay(self, works: Works, number: int, kind: str, time: int | None) -> list[Moved]:
        """Lays what a work emitted."""
        moved = []
        limit = self.limit(works, time) if time is not None else None
        for name in works.outputs:
            laid = self.laid[name]
            if laid.times is None:
                continue
            begin = laid.count
            if kind == "Close":
                laid.count, laid.is_closed = len(laid.times), True
            elif kind == "call":
                laid.count = min(number + 1, len(laid.times))
            elif limit is not None:
                laid.lay_to(limit)
            if laid.count > begin or laid.is_closed:
                ends = (laid.times[begin], laid.times[laid.count - 1]) if laid.count > begin else (None, None)
                moved.append(Moved(name, laid.count - begin, *ends, laid.is_closed))
        return moved

    def limit(self, works: Works, time: int) -> int:
        """The time up to which a node's outputs are laid behind the set at a time. At the ends of a loop it is told by BATCH_END, whose packets
        stand at inner times and have those outside as their values."""
        if works.ends not in self.known.ends:
            return time + works.offset if MIN <= time <= MAX else time
        inner, outer = self.times[works.ends], self.known.ends[works.ends]
        here, there = (outer, inner) if works.begins else (inner, outer)
        while works.lists < len(here) and here[works.lists] <= time:
            works.reach = there[works.lists]
            works.lists += 1
        return works.reach


def joined(one: list[Moved], other: list[Moved]) -> list[Moved]:
    """What is laid by two works, one after the other."""
    by_name = {moved.stream: moved for moved in one}
    for moved in other:
        before = by_name.setdefault(moved.stream, moved)
        if before is not moved:
            before.ends = moved.ends
            if moved.count:
                before.first = before.first if before.count else moved.first
                before.count, before.last = before.count + moved.count, moved.last
    return list(by_name.values())
