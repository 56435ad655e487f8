"""The core of a live graph: the graph without its free nodes, whose outputs are inputs there; the packets of it in a run; and whether that run was one."""
from __future__ import annotations

import filecmp
import pathlib
import subprocess
from collections.abc import Iterable, Iterator

from .arrivals import Taken
from .graph import File, Graph, Node, expand, in_order
from .notes import Report
from .packets import ONE_OVER_POST_STREAM, POST_STREAM, PRE_STREAM, compact, read_bound, read_line, read_lines, show_time, time_value
from .porting import without
from .runs import RUN, NotRun, lines_inside

# The time of a packet and its value, as lines write it.
Packet = tuple[int, str]


def free_nodes(graph: Graph) -> list[Node]:
    return [node for node in graph.nodes if node.is_free]


def laid_by(nodes: list[Node]) -> list[str]:
    """The streams that the nodes write."""
    return [port.name for node in nodes for port in node.outputs]


def core_of(mg: str, names: list[str]) -> bytes:
    """The core, as `mg expand` prints the graph. There the inputs of a graph stand before its other ports."""
    ended = subprocess.run([mg, "expand", *names], stdin=subprocess.DEVNULL, capture_output=True)
    if ended.returncode:
        raise NotRun(f"mg expand: status {ended.returncode}: {ended.stderr.decode(errors='replace').strip()}")
    file = File.of("mg expand", ended.stdout)
    free = free_nodes(expand([file]))
    at = max((field.end + 1 for field in file.fields if field.name in ("type", "input_stream")), default=0)
    text = without(file.data, [node.field for node in free])
    return text[:at] + "".join(f'input_stream: "{name}"\n' for name in laid_by(free)).encode() + text[at:]


class CoredRun:
    """A run of a live graph over a recording: its graph, its status, its report, and its output in a file."""

    def __init__(self, mg: str, names: list[str], recording: str, output: pathlib.Path):
        self.mg, self.names, self.recording, self.output = mg, names, recording, output
        self.graph = expand([File.load(name) for name in names])
        self.free = free_nodes(self.graph)
        with open(recording, "rb") as lines, open(output, "wb") as file:
            ended = subprocess.run([mg, "run", "--report", *names], stdin=lines, stdout=file, stderr=subprocess.PIPE)
        self.status, notes = ended.returncode, ended.stderr.decode(errors="replace").splitlines()
        if self.status not in RUN:
            raise NotRun(f"mg run: status {self.status}: {' '.join(notes)}")
        self.report = Report.read(notes)
        self.refused = next((note["line"] for note in self.report.others if note.form == "line"), 0)

    def taken(self) -> Iterator[bytes]:
        """The lines of the recording that the run took."""
        with open(self.recording, "rb") as lines:
            for number, line in enumerate(lines, 1):
                if number == self.refused:
                    break
                yield line if line.endswith(b"\n") else line + b"\n"

    def lines(self) -> Iterator[bytes]:
        """The lines of the core: those that the run took, those of the packets that its free nodes laid, and, if the run ended before its streams did,
        how far these came."""
        closed = set()
        for line in self.taken():
            if b'"close"' in line:
                closed.add(read_line(0, line).stream)
            yield line
        laid = laid_by(self.free)
        yield from self.inside(laid)
        if self.refused or any(self.report.bounds[name] != "Done" for name in laid):
            ended = [] if self.refused else [port.name for port in self.graph.inputs if port.name not in closed]
            yield from frozen(ended, {name: self.report.bounds[name] for name in laid})

    def inside(self, streams: list[str]) -> Iterator[bytes]:
        return lines_inside(self.mg, self.graph, self.recording, self.report, streams)

    def is_solved(self, folder: pathlib.Path) -> bool:
        """Whether `mg solve` of the core prints what the run printed. The folder gets the core and its lines."""
        core, given, solved = folder / "core.pbtxt", folder / "core.jsonl", folder / "solved.jsonl"
        core.write_bytes(core_of(self.mg, self.names))
        with open(given, "wb") as file:
            file.writelines(self.lines())
        with open(given, "rb") as lines, open(solved, "wb") as file:
            subprocess.run([self.mg, "solve", str(core)], stdin=lines, stdout=file, stderr=subprocess.DEVNULL)
        return filecmp.cmp(self.output, solved, shallow=False)

    def logs(self) -> Iterator[tuple[Node, Taken, str]]:
        """Each free node, with what arrived at it, and with what isn't right about that; an empty text where all is right."""
        own = {port.name for port in self.graph.inputs}
        near = dict.fromkeys(port.name for node in self.free for port in [*node.inputs, *node.outputs])
        packets: dict[str, list[Packet]] = {name: [] for name in near}
        lines = [self.inside([name for name in near if name not in own])] + ([self.taken()] if own & packets.keys() else [])
        for line in (line for part in lines for line in read_lines(part)):
            for name, value in line.packets.items():
                if name in packets:
                    packets[name].append((line.time, compact(value)))
        for node in self.free:
            log = [(note["input"], read_bound(note["time"])) for note in self.report.others if note.form == "free" and note["node"] == node.number]
            taken = Taken(node)
            yield node, taken, fault_of(taken, log, packets)


def frozen(ended: list[str], bounds: dict[str, str]) -> Iterator[bytes]:
    """The lines after which some streams have ended, others have come as far as their bounds say, and all stay there."""
    for name in [*ended, *(name for name, bound in bounds.items() if bound == "Done")]:
        yield compact({"stream": name, "close": True}).encode() + b"\n"
    for name, bound in bounds.items():
        time = read_bound(bound)
        if PRE_STREAM < time <= ONE_OVER_POST_STREAM:
            yield compact({"stream": name, "bound": time_value(min(time, POST_STREAM))}).encode() + b"\n"
    yield b"frozen\n"


def fault_of(taken: Taken, log: Iterable[tuple[int, int]], packets: dict[str, list[Packet]]) -> str:
    """Takes the arrivals of a log, and answers what isn't right. Of each input all packets arrive, in order, and the output has those that the node's
    rule lays."""
    ports = in_order(taken.node.inputs)
    waiting = [iter(packets[port.name]) for port in ports]
    laid: list[Packet] = []
    for place, time in log:
        packet = next(waiting[place], None)
        if packet is None or packet[0] != time:
            return f"the packet of `{ports[place].name}` at {show_time(time)} isn't the next one"
        dropped = taken.dropped
        taken.take(place, show_time(time))
        if taken.dropped == dropped and not (taken.is_limiter and place):
            laid.append(packet)
    for port, left in zip(ports, waiting):
        packet = next(left, None)
        if packet:
            return f"the packet of `{port.name}` at {show_time(packet[0])} didn't arrive"
    output = taken.node.outputs[0].name
    return "" if laid == packets[output] else f"`{output}` has other packets than its rule lays"
