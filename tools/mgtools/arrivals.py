"""What free nodes made of the packets that arrived at them, by the notes of a run: which packets went on, and which were dropped."""
from __future__ import annotations

from collections.abc import Iterable
from dataclasses import dataclass, field

from .graph import Graph, Node, in_order
from .kinds import option_number
from .notes import Note
from .packets import POST_STREAM, PRE_STREAM, after, read_bound

# So many times of dropped packets are named.
MOST_NAMED = 5


@dataclass
class Taken:
    """A free node, and what it came to: how many packets arrived at each port, and how many were dropped, the first of them with their times."""
    node: Node
    arrived: dict[int, int] = field(default_factory=dict)
    dropped: int = 0
    times: list[str] = field(default_factory=list)
    under_way: int = 0
    bound: int = PRE_STREAM

    @property
    def is_limiter(self) -> bool:
        return self.node.calculator == "FlowLimiterCalculator"

    @property
    def most(self) -> int:
        """How many packets a limiter lets be under way."""
        number = option_number(self.node, "max_in_flight")
        return 1 if number is None else number

    @property
    def told(self) -> str:
        return f"{self.under_way} of at most {self.most} are under way"

    @property
    def came(self) -> int:
        """How many packets arrived of those that may go on."""
        return self.arrived.get(0, 0) if self.is_limiter else sum(self.arrived.values())

    def take(self, port: int, time: str) -> str:
        """What becomes of a packet that arrives, in a clause."""
        self.arrived[port] = self.arrived.get(port, 0) + 1
        if self.is_limiter and port > 0:
            self.under_way = max(0, self.under_way - 1)
            return f"so one is finished: {self.told}"
        if self.is_limiter and self.under_way < self.most:
            self.under_way += 1
            return f"and went on: {self.told}"
        if not self.is_limiter and self.may_follow(read_bound(time)):
            self.bound = after(read_bound(time))
            return "and went on"
        self.dropped += 1
        if self.dropped <= MOST_NAMED:
            self.times.append(time)
        return f"and was dropped: {self.told if self.is_limiter else 'one of its time or a later one had gone on'}"

    def may_follow(self, time: int) -> bool:
        """Whether a merge can lay a packet there: behind all that it laid, and at PostStream only as the first."""
        return self.bound <= time and not (time == POST_STREAM and self.bound > PRE_STREAM)

    def count_said(self) -> str:
        """How many packets were dropped."""
        of = f" of `{in_order(self.node.inputs)[0].name}`" if self.is_limiter else ""
        return f"{self.dropped} of {self.came} packets{of} {'was' if self.dropped == 1 else 'were'} dropped"

    def loss_said(self) -> str:
        """How many packets were dropped, and by which node."""
        return f"{self.count_said()} by {self.node.describe()}"

    def why_said(self) -> str:
        """Which packets were dropped, and why."""
        more = f" and {self.dropped - len(self.times)} more" if self.dropped > len(self.times) else ""
        those = f"{self.node.place}: " + ("the one at " if self.dropped == 1 else "those at ") + ", ".join(self.times) + more
        if not self.is_limiter:
            return f"{those}: one of its time or a later one had gone on before"
        finished = next((port.name for port in self.node.inputs if port.tag == "FINISHED"), "")
        return (f"{those}: at most {self.most} may be under way; {self.came - self.dropped} went on, "
                f"and `{finished}` told of {self.arrived.get(1, 0)} that they are finished")


class Arrivals:
    """The free nodes of a graph, with what arrived at them so far."""

    def __init__(self, graph: Graph, notes: Iterable[Note] = ()):
        self.graph = graph
        self.taken: dict[int, Taken] = {}
        for note in notes:
            self.take(note)

    def take(self, note: Note) -> str | None:
        """What became of a packet that a note tells of, in a clause; nothing of other notes, and of nodes that the graph hasn't."""
        if note.form != "free" or note["node"] >= len(self.graph.nodes):
            return None
        node = self.graph.nodes[note["node"]]
        if not node.is_free or note["input"] >= len(node.inputs):
            return None
        return self.taken.setdefault(node.number, Taken(node)).take(note["input"], note["time"])

    def said(self, note: Note) -> str:
        """A packet that arrived, and what became of it. Ports go by tag and then by index."""
        became = self.take(note)
        if became is None:
            return f"a packet at {note['time']} arrived at input {note['input']} of node {note['node']}"
        node = self.graph.nodes[note["node"]]
        name = in_order(node.inputs)[note["input"]].name
        return f"{node.place}: {node.describe()}: the packet of `{name}` at {note['time']} arrived next, {became}"

    def losses(self) -> list[Taken]:
        """The nodes that dropped packets."""
        return [taken for _, taken in sorted(self.taken.items()) if taken.dropped]
