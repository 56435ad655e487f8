"""Explains the notes of a run: the line that wasn't good, the node that failed, the streams that never closed, the report."""
from __future__ import annotations

import json
from collections.abc import Iterable
from dataclasses import dataclass
from itertools import islice
from typing import Any

from . import contents
from .arrivals import Arrivals
from .graph import Graph, Node
from .kinds import kinds, offset_of, port_kind
from .near import said as near_said
from .notes import Note
from .packets import (DONE, KIND_WORDS, POST_STREAM, PRE_STREAM, Line, after, kind_of, payload_fault, read_bound, read_json, read_line,
                      read_time, show_time, shown)


@dataclass
class Stream:
    """What the lines so far made of an input stream: its bound, the line of its last packet, and that of its close."""
    bound: int = PRE_STREAM
    last: int = 0
    packets: int = 0
    closed: int = 0


class Recording:
    """The lines of a recording up to one of them: that line, and what the lines before it made of the streams, where that is wanted."""

    def __init__(self, lines: Iterable[bytes], number: int, wants_streams: bool):
        self.streams: dict[str, Stream] = {}
        self.sides: dict[str, int] = {}
        self.first_named = 0
        self.is_first = True
        self.line: bytes | None = None
        for at, text in enumerate(lines, 1):
            if at == number:
                self.line = text.rstrip(b"\n")
                break
            self.is_first = self.is_first and not text.strip()
            if wants_streams:
                self.take(read_line(at, text))

    def take(self, line: Line) -> None:
        if line.form == "side":
            self.sides.setdefault(line.stream, line.number)
        elif line.form in ("packets", "bound", "close"):
            self.first_named = self.first_named or line.number
        if line.form == "packets":
            for name in line.packets:
                stream = self.streams.setdefault(name, Stream())
                stream.bound, stream.last = after(line.time), line.number
                stream.packets += 1
        elif line.form == "bound":
            stream = self.streams.setdefault(line.stream, Stream())
            stream.bound = max(stream.bound, line.time)
        elif line.form == "close":
            self.streams.setdefault(line.stream, Stream()).closed = line.number

    def stream(self, name: str) -> Stream:
        return self.streams.get(name, Stream())


# The refusals of a line that come of the lines before it.
OF_STREAMS = ("Closed", "NotAscending", "NotAlone", "SideLate", "SideTwice")
# The lines of a recorded run that aren't good, behind its packet lines.
RECORDED = {"BadEvent": "it is no step that this graph can make, in the spelling of `mg trace`: keep the trace as it was written, with its graph",
            "IdleEvent": "the step changes nothing here: one before it is missing, or it stands twice, or the run had another limit of queues",
            "NotAtRest": "`end` stands where some step could still be made: steps before it are missing",
            "NoEnd": "the lines end before `end`: the trace broke off, so record the run again",
            "AfterEnd": "a line stands behind `end`: keep one trace in a file"}


def line(note: Note, graph: Graph | None, lines: Iterable[bytes] | None, name: str) -> list[str]:
    """A line that wasn't good."""
    number, refusal = note["line"], note["refusal"]
    if refusal == "TooManyLines":
        return [f"{name}:{number}: 4000000 lines are the most, blank ones too: cut the recording (tools/recording pick --until)"]
    if refusal in RECORDED:
        text = next(islice(lines or [], number - 1, None), None)
        return [f"{name}:{number}: {RECORDED[refusal]}", *([] if text is None else [line_shown(text)])]
    if lines is None:
        return [f"{name}:{number}: {CAUSES[refusal]}; name the recording to this tool (--recording FILE), and it shows the line"]
    lines = iter(lines)
    recording = Recording(lines, number, refusal in OF_STREAMS)
    if recording.line is None:
        return [f"{name}:{number}: {CAUSES[refusal]}; the recording that this tool was given has no such line"]
    if refusal == "TooLong":
        return [f"{name}:{number}: the line has {len(recording.line)} bytes, and 1048576 are the most: look for a missing line feed"]
    if refusal == "NotJson" and recording.is_first:
        what = contents.of_recording(b"".join([recording.line, b"\n", *islice(lines, 2)])[:contents.HEAD], "FILE" if name == "standard input" else name)
        if what:
            return [f"{name}:{number}: {what}"]
    found = judged(note, read_line(number, recording.line), recording, graph)
    return [f"{name}:{number}: {what}" for what in found] + [line_shown(recording.line)]


def line_shown(line: bytes) -> str:
    """The begin of a line. A character has four bytes at most."""
    return f"the line is {line[:400].decode(errors='surrogateescape')[:100].rstrip()}"


CAUSES = {"TooLong": "the line is too long", "NotJson": "it is no JSON value", "BadShape": "it is none of the five forms of a line",
          "UnknownStream": "it names no input of the graph", "BadTimestamp": "its time is none that a packet may have",
          "Closed": "its stream was closed before", "BadValue": "its value is no payload", "KindMismatch": "its value is of another kind",
          "NotAscending": "its packet is below the bound of its stream", "NotAlone": "a packet at PostStream has to be the only one of its stream",
          "SideLate": "a side packet stands behind a line that names a stream", "SideTwice": "the side packet has a value already",
          "TooManyLines": "there are too many lines"}


def judged(note: Note, line: Line, recording: Recording, graph: Graph | None) -> list[str]:
    """What is wrong with a line, by the refusal that it had."""
    refusal = note["refusal"]
    if refusal == "NotJson":
        return [json_fault(recording.line)]
    if refusal == "BadShape":
        return [shape_fault(recording.line)]
    if refusal == "UnknownStream":
        return unknown_stream(line, graph)
    if refusal in ("SideLate", "SideTwice"):
        if refusal == "SideLate":
            return [f"the side packet `{line.stream}` stands behind line {recording.first_named}, which names a stream: side packets come first"]
        return [f"the side packet `{line.stream}` has a value already, from line {recording.sides.get(line.stream, '?')}: keep one of them"]
    if refusal == "BadTimestamp":
        return [time_fault(recording.line)]
    for name in sorted(line.packets or [line.stream], key=lambda one: one.encode()):
        found = stream_fault(note, name, line, recording.stream(name), graph)
        if found:
            return [found]
    return [CAUSES[refusal]]


def stream_fault(note: Note, name: str, line: Line, stream: Stream, graph: Graph | None) -> str | None:
    """What the refusal says of one stream of the line; nothing where it isn't of this one."""
    refusal, value = note["refusal"], line.packets.get(name)
    at = show_time(line.time) if line.time is not None else "?"
    if refusal == "Closed" and stream.closed:
        return f"`{name}` was closed by line {stream.closed}, so it has no line after that: put the line with `close` last of the stream"
    if refusal == "BadValue":
        fault = payload_fault(value)
        return f"the value of `{name}` at {at}, {shown(value)}, is no payload: {fault}" if fault else None
    if refusal == "KindMismatch":
        wanted, who = wanted_kind(name, graph)
        if wanted in ("Any", kind_of(value)):
            return None
        return f"`{name}` takes {KIND_WORDS[wanted]}{who}, and {shown(value)} is {KIND_WORDS[kind_of(value)]}"
    if refusal == "NotAscending" and line.time is not None and line.time < stream.bound:
        since = f"line {stream.last} has its packet before" if stream.last else "a bound line moved it there"
        return (f"`{name}` has its bound at {show_time(stream.bound)} by now, and this packet, {shown(value)} at {at}, is below it ({since}): "
                "the times of a stream rise")
    if refusal == "NotAlone" and line.time == POST_STREAM and stream.packets:
        return f"`{name}` has packets before, the last from line {stream.last}, so none may stand at PostStream: give it a stream of its own"
    return None


def wanted_kind(name: str, graph: Graph | None) -> tuple[str, str]:
    """The kind that an input stream takes, and who asks for it."""
    for node, port in graph.readers().get(name, []) if graph else []:
        kind = port_kind(node, "input_stream", port.key)
        if kind != "Any":
            return kind, f", since {node.describe()} reads it at {port.label or 'an untagged input'} ({node.file.place(port.at)})"
    return "Any", ""


def json_fault(line: bytes) -> str:
    try:
        json.loads(line.decode())
    except json.JSONDecodeError as fault:
        return f"it is no JSON value, from column {fault.colno} on: {fault.msg}"
    except UnicodeDecodeError as fault:
        return f"it is no text in UTF-8, from byte {fault.start + 1} of the line on"
    except (ValueError, RecursionError):
        pass
    return "it is no JSON value"


FORMS_SAID = ('{"stream":..,"ts":..,"value":..}, {"at":..,"packets":{..}}, {"stream":..,"bound":..}, {"stream":..,"close":true} '
              'or {"side":..,"value":..}')


def shape_fault(line: bytes) -> str:
    try:
        said = json.loads(line)
    except ValueError:
        said = None
    if not isinstance(said, dict):
        hint = "; `jq -c '.[]'` writes the items of a list as lines" if isinstance(said, list) else ""
        return f"it is no JSON object: a line is {FORMS_SAID}{hint}"
    keys = set(said)
    hint = ""
    if said.get("packets") == {}:
        hint = "; `packets` has none"
    elif isinstance(said.get("close"), bool) or "close" in keys:
        hint = "; `close` is always true, and stands beside `stream` alone"
    elif keys & {"stream", "ts", "value"} and keys < {"stream", "ts", "value"}:
        hint = f"; a packet's line lacks {', '.join(sorted({'stream', 'ts', 'value'} - keys))}"
    else:
        for key in keys - {"stream", "ts", "value", "at", "packets", "bound", "close", "side"}:
            hint += f"; there is no key `{key}`" + near_said(key, ("stream", "ts", "value", "packets", "bound", "close", "side"))
    return f"it is none of the forms of a line, {FORMS_SAID}{hint}"


def time_fault(line: bytes) -> str:
    said = read_json(line)
    key = next(key for key in ("ts", "at", "bound") if key in said)
    value = said[key]
    hint = ""
    if value == 0:
        hint = ": write 0"
    elif isinstance(value, str) and read_time(int(value) if value.lstrip("-").isdigit() else None) is not None:
        hint = ": take its quotes away"
    elif isinstance(value, float):
        hint = ": scale times to whole numbers (tools/recording lines --time-decimals)"
    elif isinstance(value, str):
        hint = near_said(value, ("PreStream", "PostStream"))
    return f"`{key}` is {shown(value)}, and has to be a whole number of the range, \"PreStream\" or \"PostStream\"{hint}"


def unknown_stream(line: Line, graph: Graph | None) -> list[str]:
    if graph is None:
        return ["it names no input of the graph"]
    kind = "input_side_packet" if line.form == "side" else "input_stream"
    known = [port.name for port in graph.ports[kind]]
    said = []
    for name in line.packets or [line.stream]:
        if name in known:
            continue
        hint = near_said(name, known) or (f": its {kind.replace('_', ' ')}s are {', '.join(known)}" if known else f": it has no {kind}")
        if name in graph.streams():
            hint = ": it is a stream inside the graph, which a node writes"
        elif ":" in name:
            hint = ": a line names a stream without its tag" + near_said(name.split(":")[-1], known)
        said.append(f"`{name}` is no {kind} of the graph{hint}; what a graph doesn't read is left out with tools/recording pick")
    return said or ["it names no input of the graph"]


def read_fault(note: Note, name: str) -> list[str]:
    return [f"{name}: the input couldn't be read behind line {note['line']}: a folder, a broken pipe or a bad disk; what was settled by then was printed"]


def write_fault() -> list[str]:
    return ["the output couldn't be written: its disk is full, or its reader has gone; what was written is the front of what a good run writes",
            "make room, or keep the reader, and run again; streams that never closed have no notes here"]


def out_of_memory() -> list[str]:
    return ["there wasn't memory enough; what was written is the front of what a good run writes, and nothing else is noted",
            "run in smaller parts, or let streams that fall silent be promised (docs/guide/recordings.md#promises): `tools/recording info` shows which do"]


def node_fault(note: Note, graph: Graph | None, lines: Iterable[bytes] = ()) -> list[str]:
    """A node that failed: where it stands, what it was shown, and from whom."""
    if graph is None or note["node"] >= len(graph.nodes):
        return [f"node {note['node']}, {note['label']}, failed: {FAULTS.get(note['cause'], note['cause'])}"]
    node = graph.nodes[note["node"]]
    when = {"process": f"at the input set of {note['time']}", "call": f"at its call {note['call']}"}.get(str(note["phase"]).split()[0], f"in {note['phase']}")
    said = [f"{node.place}: {node.describe()} failed {when}: {FAULTS.get(note['cause'], note['cause'])}"]
    if note["cause"] in ("WrongKind", "BadSelect", "Overflow", "NotAscending", "NotAlone"):
        said += sources(node, graph, note["cause"], set_in(lines, note["time"]) if note["time"] else {})
    if note["cause"] == "NoSide":
        sides = [port.name for port in node.ports["input_side_packet"]]
        given = graph.ports["input_side_packet"]
        said += [f"its side packet is `{name}`: put the line {{\"side\":\"{name}\",\"value\":..}} first into the recording"
                 for name in sides if name in [port.name for port in given]]
    return said


FAULTS = {"WrongKind": "a packet isn't of the kind that its input takes", "Overflow": "a number would have more than 64 signed bits, or a time would leave its range",
          "BadSelect": "SELECT has the number of no input", "NoSide": "it has no side packet",
          "NotAscending": "it emits a packet below its output's bound", "NotAlone": "it emits a packet at PostStream, and not alone",
          "NotAllowed": "it emits at a time that no packet may have", "BelowOffset": "it emits a packet below its offset",
          "EmitsInClose": "it has an offset and emits in Close", "TooDeep": "an item that it gathers nests lists and records 16 deep or more"}


def sources(node: Node, graph: Graph, cause: str, shown_set: dict[str, tuple[int, Any]]) -> list[str]:
    """The inputs of a node with what they take and who writes them, and what the recording has there at that time."""
    writers = graph.writers()
    said = []
    for port in node.inputs:
        kind = port_kind(node, "input_stream", port.key)
        if cause == "WrongKind" and kind == "Any" or cause == "BadSelect" and port.tag != "SELECT":
            continue
        writer = next(iter(writers.get(port.name, [])), (None, None))[0]
        takes = f" takes {KIND_WORDS[kind]}" if kind != "Any" else ""
        if cause == "BadSelect":
            takes += f" from 0 to {len([one for one in node.inputs if one.tag == 'INPUT']) - 1}"
        from_where = f"which {writer.describe()} writes ({writer.place})" if writer else "which comes from the recording"
        if writer is None and port.name in shown_set:
            number, value = shown_set[port.name]
            from_where += f": line {number} has {shown(value)} there"
        said.append(f"its input {port.label or 'without tag'}{takes + ' and' if takes else ''} reads `{port.name}`, {from_where}")
    return said


def set_in(lines: Iterable[bytes], time: str) -> dict[str, tuple[int, Any]]:
    """What a recording has at a time: of each stream the number of the line and the value."""
    found: dict[str, tuple[int, Any]] = {}
    for number, text in enumerate(lines, 1):
        said = read_line(number, text)
        if said.form == "packets" and show_time(said.time) == time:
            found.update({name: (number, value) for name, value in said.packets.items()})
    return found


def waits_on(stream: str, graph: Graph, bounds: dict[str, str]) -> tuple[Node, str] | None:
    """The node that writes a stream, and the input of least bound, which it waits for."""
    writer = next(iter(graph.writers().get(stream, [])), (None, None))[0]
    if writer is None or not writer.inputs:
        return None
    open_ones = [port.name for port in writer.inputs if bounds.get(port.name, "Done") != "Done"]
    if not open_ones:
        return None
    return writer, min(open_ones, key=lambda name: read_bound(bounds[name]))


def stalled(note: Note, graph: Graph | None, bounds: dict[str, str]) -> list[str]:
    """A stream that never closed: who writes it, and what that one waits for."""
    name, bound = note["name"], note["bound"]
    if graph is None:
        return [f"`{name}` never closed: nothing is known of it from {bound} on"]
    found = waits_on(name, graph, bounds)
    if found is None:
        writer = next(iter(graph.writers().get(name, [])), (None, None))[0]
        who = f"{writer.place}: {writer.describe()} writes `{name}`" if writer else f"`{name}` comes into the graph"
        return [f"{who}, which never closed: nothing is known of it from {bound} on; it failed before, or waits in a loop"]
    writer, waits = found
    said = [f"{writer.place}: {writer.describe()} writes `{name}`, of which nothing is known from {bound} on: it waits for `{waits}`, which stands at {bounds[waits]}"]
    if offset_of(writer) is None and writer.calculator in kinds() and writer.calculator != "PreviousLoopbackCalculator":
        hint = "with `raise_bound: true` it would" if writer.calculator == "IntFilterCalculator" else "it moves its bound by its packets alone"
        said.append(f"{writer.describe()} doesn't say that it drops a packet; {hint}")
    if writer.calculator == "PreviousLoopbackCalculator" and waits in [port.name for port in writer.inputs if port.tag == "LOOP"]:
        said.append("the loop stands still: what comes back at LOOP has to say something of each time, a packet or a bound (docs/guide/synchronisation.md#loops)")
    return said


def sets_said(note: Note, graph: Graph | None, arrivals: Arrivals | None) -> list[str]:
    if graph is None or note["node"] >= len(graph.nodes):
        return [f"node {note['node']}, {note['label']}: {note['sets']} sets"]
    node = graph.nodes[note["node"]]
    what = ("packets of MAIN were answered" if node.calculator == "PreviousLoopbackCalculator" else "packets arrived at it" if node.is_free
            else "input sets were shown to it" if node.inputs else "calls were made of it")
    taken = arrivals.taken.get(node.number) if arrivals else None
    lost = f"; {taken.count_said()}" if taken and taken.dropped else ""
    return [f"{node.place}: {node.describe()}: {note['sets']} {what}{lost}"]


def ends_said(note: Note, graph: Graph | None, bounds: dict[str, str]) -> list[str]:
    name, packets, bound = note["name"], note["packets"], note["bound"]
    writer = next(iter(graph.writers().get(name, [])), (None, None))[0] if graph else None
    who = f", written by {writer.describe()}" if writer else ", from the recording" if graph else ""
    many = f"{packets} packet{'' if packets == 1 else 's'}"
    if read_bound(bound) == DONE:
        return [f"`{name}`{who}: {many}, and it closed"]
    waits = waits_on(name, graph, bounds) if graph else None
    why = f"; its node waits for `{waits[1]}`, which stands at {bounds[waits[1]]}" if waits else ""
    return [f"`{name}`{who}: {many}, and nothing is known of it from {bound} on{why}"]
