"""Text for Graphviz of a graph: nodes as tables whose cells are their ports, subgraphs as clusters, and with a report the counts."""
from __future__ import annotations

import html
import re
from collections.abc import Iterator

from .arrivals import Arrivals
from .graph import Graph, Level, Node, Port
from .notes import Report
from .picture import INPUT, OUTPUT, SIDE, cells, counted

COLOURS = {INPUT: "#dbeafe", OUTPUT: "#dcfce7", SIDE: "#fef3c7"}
RED = "#dc2626"


def shown(text: str) -> str:
    """A text in a label. Control characters, which no label can show, become question marks."""
    return html.escape(re.sub(r"[\x00-\x1f\x7f]", "?", text))


def quoted(*lines: str) -> str:
    """Lines of text as one label in quotes."""
    texts = [re.sub(r"[\x00-\x1f\x7f]", "?", line).replace("\\", "\\\\").replace('"', '\\"') for line in lines if line]
    return '"' + "\\n".join(texts) + '"'


def cell_name(kind: str, key: tuple[str, int], side: str) -> str:
    """The name of a cell in its table: its side, its tag and its index."""
    mark = {"stream": "", "side_packet": "s"}[kind] + side
    return f"{mark}_{key[0]}_{key[1]}"


class Dot:
    """Writes a graph. `framed` says whether subgraphs are drawn as frames."""

    def __init__(self, graph: Graph, report: Report | None = None):
        self.graph = graph
        self.report = report or Report()
        self.arrivals = Arrivals(graph, self.report.others)
        self.unknown: list[str] = []

    def text(self) -> Iterator[str]:
        drawn = [*self.arrows("stream"), *self.arrows("side_packet")]
        yield "digraph {"
        yield "  node [fontname=Helvetica, fontsize=11, shape=plain];"
        yield "  edge [fontname=Helvetica, fontsize=10];"
        for kind, colour in (("stream", None), ("side_packet", COLOURS[SIDE])):
            for side in (INPUT, OUTPUT):
                for place, port in enumerate(self.graph.ports[f"{side}_{kind}"]):
                    yield f'  {side}_{kind}_{place} [shape=oval, style=filled, fillcolor="{colour or COLOURS[side]}", label={quoted(port.spelled)}];'
        yield from self.level(self.graph.level, "  ")
        for place in range(len(self.unknown)):
            yield f'  unknown_{place} [shape=plaintext, fontcolor="{RED}", label="?"];'
        yield from ("  " + arrow for arrow in drawn)
        yield "}"

    def level(self, level: Level, indent: str) -> Iterator[str]:
        """The nodes of a file in one of its uses; those of a subgraph in a frame."""
        for item in level.items:
            if isinstance(item, Node):
                yield f"{indent}node_{item.number} [label=<{self.table(item)}>];"
                continue
            yield f"{indent}subgraph cluster_{item.prefix.rstrip('_')} {{"
            yield f"{indent}  label={quoted(item.title)}; fontname=Helvetica; fontsize=11; style=dashed; color=gray50;"
            yield from self.level(item, indent + "  ")
            yield f"{indent}}}"

    def table(self, node: Node) -> str:
        """A node: a row of inputs, what it is, and a row of outputs."""
        fault = self.report.faults.get(node.number)
        lines = ([f"<b>{shown(node.name)}</b>"] if node.name else []) + [shown(node.calculator)]
        if node.number in self.report.sets:
            lines.append(counted(self.report.sets[node.number], "set" if node.inputs else "call"))
        taken = self.arrivals.taken.get(node.number)
        if taken and taken.dropped:
            lines.append(f'<font color="{RED}">{taken.dropped} of {taken.came} dropped</font>')
        if fault:
            lines.append(f'<font color="{RED}">{shown(fault["phase"])}: {shown(fault["cause"])}</font>')
        body = f'<tr><td border="1"{f""" color="{RED}" bgcolor="#fee2e2" """.rstrip() if fault else ""}>{"<br/>".join(lines)}</td></tr>'
        rows = [self.row(node, INPUT), body, self.row(node, OUTPUT)]
        return f'<table border="0" cellborder="0" cellspacing="0" cellpadding="2">{"".join(rows)}</table>'

    @staticmethod
    def row(node: Node, side: str) -> str:
        found = cells(node.ports, side)
        if not found:
            return ""
        said = "".join(f'<td border="1" port="{cell_name(*key, side[0])}" bgcolor="{COLOURS[style]}">{shown(label) or " "}</td>' for key, label, style in found)
        return f'<tr><td><table border="0" cellborder="1" cellspacing="0" cellpadding="2"><tr>{said}</tr></table></td></tr>'

    def arrows(self, kind: str) -> Iterator[str]:
        """The arrows of streams, or of side packets: from the port that writes a name to each that reads it."""
        writers = {name: ends[-1] for name, ends in self.graph.writers(kind).items()}
        for name, ends in self.readers(kind):
            for node, port in ends:
                if name not in writers:
                    self.unknown.append(name)
                    writers[name] = f"unknown_{len(self.unknown) - 1}"
                source = writers[name] if isinstance(writers[name], str) else self.end(*writers[name], kind, OUTPUT)
                look = [f"label={quoted(*self.label(name, kind))}"]
                if kind == "side_packet":
                    look.append("style=dotted")
                elif node and port.key in node.back_edges:
                    look += ["style=dashed", "constraint=false"]
                if kind == "stream" and name in self.report.stalled:
                    look += [f'color="{RED}"', f'fontcolor="{RED}"']
                yield f"{source} -> {self.end(node, port, kind, INPUT)} [{', '.join(look)}];"

    def readers(self, kind: str) -> list[tuple[str, list[tuple[Node | None, Port]]]]:
        return list(self.graph.readers(kind).items())

    def label(self, name: str, kind: str) -> list[str]:
        lines = [name]
        if kind == "stream" and name in self.report.packets:
            lines.append(f"{self.report.packets[name]}" + (f" | {self.report.bounds[name]}" if self.report.bounds[name] != "Done" else ""))
        return lines

    def end(self, node: Node | None, port: Port, kind: str, side: str) -> str:
        """An end of an arrow: the cell of a node, or what comes into the graph or goes out of it."""
        if node:
            return f"node_{node.number}:{cell_name(kind, port.key, side[0])}:{'n' if side == INPUT else 's'}"
        own = INPUT if side == OUTPUT else OUTPUT
        place = next(place for place, one in enumerate(self.graph.ports[f"{own}_{kind}"]) if one is port)
        return f"{own}_{kind}_{place}"
