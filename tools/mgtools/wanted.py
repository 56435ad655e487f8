"""Which kinds of packets are wanted of a stream, also by way of files that stand in for calculators."""
from __future__ import annotations

from collections.abc import Iterator
from dataclasses import dataclass

from .graph import Graph, Node, key_label
from .kinds import port_kind
from .stand_ins import Key, StandIn

# Where a calculator hands packets on to an output of another tag: the input's tag, or any, and the output's.
HANDS_ON = {"MergeCalculator": (None, ""), "MuxCalculator": ("INPUT", "OUTPUT"), "PreviousLoopbackCalculator": ("LOOP", "PREV_LOOP")}


@dataclass(frozen=True)
class Reached:
    """A port that wants packets of a kind, as `LOOP of X`. `passed` says that packets come there, or are read there, by way of a file that
    stands in, and `merged` that one on the way merges its inputs."""
    kind: str
    end: str
    passed: bool
    merged: bool


class Wanted:
    """Which kinds of packets are wanted of a stream, by those who read it and by those to whom its packets are handed on."""

    def __init__(self, graph: Graph, by_type: dict[str, StandIn]):
        self.readers = graph.readers()
        self.by_type = by_type

    def at(self, name: str) -> Iterator[Reached]:
        """Each port that a stream's packets come to and that wants a kind."""
        waiting = [(name, False, False)]
        seen = set(waiting)
        while waiting:
            name, passed, merged = waiting.pop(0)
            for node, port in self.readers.get(name, ()):
                if node is None:
                    continue
                one = self.by_type.get(node.calculator)
                kind = one.takes(port.key) if one else port_kind(node, "input_stream", port.key)
                if kind != "Any":
                    yield Reached(kind, f"{key_label(port.key) or 'an input'} of {node.calculator}", passed or one is not None, merged)
                    continue
                hands_on = one.hands_on(port.key) if one else handed_on(node, port.key)
                further = {(out.name, passed or one is not None, merged or one is not None and one.merges) for out in node.outputs if out.key in hands_on}
                waiting += sorted(further - seen)
                seen |= further

    def is_flag(self, name: str) -> bool:
        """Whether a truth value is wanted of a stream itself, and not of what a file makes of it that stands in."""
        return any(one.kind == "Flag" and not one.merged for one in self.at(name))

    def said(self, name: str, called: str) -> list[str]:
        """What the packets of a stream have to be, where files that stand in hand them on, or want them."""
        found: dict[str, str] = {}
        for one in self.at(name):
            if one.passed and one.kind in ("Items", "Int"):
                found.setdefault(one.kind, one.end)
        return [f"packets of {called} reach {end}, and have to be {'lists' if kind == 'Items' else 'whole numbers'}" for kind, end in sorted(found.items())]


def handed_on(node: Node, key: Key) -> list[Key]:
    """The outputs to which a calculator of mg's own hands on the packets of an input."""
    if node.calculator in HANDS_ON:
        tag, to = HANDS_ON[node.calculator]
        return [(to, 0)] if tag in (None, key[0]) else []
    return [key]
