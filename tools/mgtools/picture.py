"""The picture of a graph as SVG, without any other program: nodes with their ports as cells, subgraphs as frames, and with a report
the counts of a run.
"""
from __future__ import annotations

import html
from dataclasses import dataclass
from functools import cached_property
from math import inf

from .arrivals import Arrivals
from .graph import Graph, Level, Node, Port, in_order
from .layout import Arrow, Box, lay_out
from .notes import Report
from .routes import path

# Of a larger graph few forms are tried.
MOST_TRIED = 120
MARGIN = 12.0

INPUT, OUTPUT, SIDE, FRAME, BAD = "input", "output", "side", "frame", "bad"
STYLE = """
.graph text{font:11px Helvetica,Arial,sans-serif;fill:#1f2937}
.graph .strong{font-weight:bold}.graph .small{font-size:9.5px;fill:#6b7280}.graph .count{font-size:9.5px;fill:#0f766e}
.graph rect.body{fill:#fff;stroke:#6b7280}.graph rect.cell{stroke:#6b7280;stroke-width:.7}
.graph .input{fill:#dbeafe}.graph .output{fill:#dcfce7}.graph .side{fill:#fef3c7}
.graph rect.frame{fill:#f3f4f6;fill-opacity:.55;stroke:#9ca3af;stroke-dasharray:5 3}
.graph path{fill:none;stroke:#4b5563;stroke-width:1.1}.graph path.side{stroke:#b45309;stroke-dasharray:1.5 3;fill:none}
.graph path.back{stroke-dasharray:6 3}.graph path.bad{stroke:#dc2626;stroke-width:1.8}.graph marker path{fill:#4b5563;stroke:none}
.graph rect.body.bad{fill:#fee2e2;stroke:#dc2626;stroke-width:1.6}.graph text.bad{fill:#b91c1c}.graph .label rect{fill:#fff;fill-opacity:.85;stroke:none}
"""


def text_width(text: str, size: float = 11.0) -> float:
    """About how wide a text is."""
    return sum(0.30 if letter in "iljft.:,' |" else 0.86 if letter in "mwMW" else 0.68 if letter.isupper() else 0.56 for letter in text) * size * 1.13


def counted(number: int, what: str) -> str:
    return f"{number} {what}{'' if number == 1 else 's'}"


@dataclass
class Item:
    """A box of the picture with what is drawn in it: cells of inputs and outputs by key, lines of text, or a level inside."""
    box: Box
    lines: list[tuple[str, str]]
    inputs: list[tuple[tuple, str, str]]
    outputs: list[tuple[tuple, str, str]]
    inner: Drawn | None = None
    style: str = ""
    number: int | None = None

    def cell_at(self, key: tuple, cells: list[tuple[tuple, str, str]]) -> float:
        """The middle of a cell."""
        widths = cell_widths(self.box.width, cells)
        at = next((place for place, cell in enumerate(cells) if cell[0] == key), 0)
        return sum(widths[:at]) + widths[at] / 2 if widths else self.box.width / 2


def cell_widths(width: float, cells: list[tuple[tuple, str, str]]) -> list[float]:
    """The widths of the cells of a row: what their texts need, stretched to the whole."""
    least = [max(16.0, text_width(cell[1], 9.5) + 8) for cell in cells]
    return [one * width / sum(least) for one in least]


@dataclass
class Drawn:
    """A level laid out: its items, its arrows with the streams that they are of, and its size."""
    items: list[Item]
    arrows: list[tuple[Arrow, str, str, str]]
    width: float
    height: float


class Picture:
    """Draws a graph; with a report its counts, and what went wrong in red."""

    def __init__(self, graph: Graph, report: Report | None = None):
        self.graph = graph
        self.report = report or Report()
        self.tallest = self.widest = inf
        self.drawn = self.level(self.graph.level)

    @property
    def width(self) -> float:
        return self.drawn.width + 2 * MARGIN

    @property
    def height(self) -> float:
        return self.drawn.height + 2 * MARGIN

    def scale(self, width: float, height: float) -> float:
        """How large the picture is shown in a frame of this size: at most as large as it is."""
        return min(width / self.width, height / self.height, 1.0)

    def fit(self, width: float, height: float) -> float:
        """Lays the graph out anew, in columns or with wide layers in several rows, where that makes it larger in a frame; its scale."""
        best, scale = self.drawn, self.scale(width, height)
        tall, wide = best.height, best.width
        parts = 1.5, 2, 2.5, 3, 4, 5, 6, 7
        if len(self.graph.nodes) > MOST_TRIED:
            # So many columns, or rows, have the form of the frame, but for what lies between them.
            parts = max((tall * width / (wide * height)) ** 0.5, (wide * height / (tall * width)) ** 0.5),
        tries = [(tall / part, inf) for part in parts] + [(inf, wide / part) for part in parts]
        for self.tallest, self.widest in tries:
            if scale == 1.0:
                break
            self.drawn = self.level(self.graph.level)
            if self.scale(width, height) > scale * 1.05:
                best, scale = self.drawn, self.scale(width, height)
        self.drawn = best
        return scale

    def svg(self) -> str:
        parts: list[str] = []
        self.draw(self.drawn, MARGIN, MARGIN, parts)
        return (f'<svg class="graph" xmlns="http://www.w3.org/2000/svg" viewBox="0 0 {self.width:.0f} {self.height:.0f}">'
                f"<style>{STYLE}</style>"
                '<defs><marker id="arrow-tip" viewBox="0 0 8 8" refX="7" refY="4" markerUnits="userSpaceOnUse" markerWidth="8" markerHeight="8" orient="90">'
                '<path d="M0,0 L8,4 L0,8 z"/></marker></defs>' + "".join(parts) + "</svg>\n")

    # What is in the picture.

    @cached_property
    def arrivals(self) -> Arrivals:
        return Arrivals(self.graph, self.report.others)

    def node(self, node: Node) -> Item:
        fault = self.report.faults.get(node.number)
        lines = [(node.name.rsplit("__", 1)[-1] if node.through else node.name, "strong")] if node.name else []
        lines.append((node.calculator or "(no calculator)", "" if node.name else "strong"))
        told = f"node {node.number}"
        if node.number in self.report.sets:
            told += ": " + counted(self.report.sets[node.number], "set" if node.inputs else "call")
        lines.append((told, "small"))
        taken = self.arrivals.taken.get(node.number)
        if taken and taken.dropped:
            lines.append((f"{taken.dropped} of {taken.came} dropped", "bad"))
        if fault:
            lines.append((f"{fault['phase']}: {fault['cause']}", "bad"))
        inputs, outputs = cells(node.ports, "input"), cells(node.ports, "output")
        return Item(Box(*size(lines, inputs, outputs)), lines, inputs, outputs, style=BAD if fault else "", number=node.number)

    def frame(self, level: Level) -> Item:
        inner = self.level(level)
        inputs, outputs = cells(level.ports, "input"), cells(level.ports, "output")
        lines = [(level.title, "strong")]
        width, height = size(lines, inputs, outputs)
        box = Box(max(inner.width + 28, width + 20), inner.height + height + 12)
        return Item(box, lines, inputs, outputs, inner, FRAME)

    def level(self, level: Level) -> Drawn:
        """Lays out a file in one of its uses. In a frame its own ports are the frame's cells."""
        items = [self.node(item) if isinstance(item, Node) else self.frame(item) for item in level.items]
        sources: dict[tuple[str, str], tuple[int, float]] = {}
        for number, (item, of) in enumerate(zip(items, level.items)):
            for kind in ("stream", "side_packet"):
                for port in of.ports[f"output_{kind}"]:
                    sources[kind, port.name] = number, item.cell_at((kind, port.key), item.outputs)
        for kind in ("stream", "side_packet"):
            for port in level.own[f"input_{kind}"]:
                items.append(self.end(port, kind, INPUT if kind == "stream" else SIDE, level))
                sources[kind, port.name] = len(items) - 1, items[-1].box.width / 2
        arrows: list[tuple[Arrow, str, str, str]] = []
        for number, of in enumerate(level.items):
            for kind in ("stream", "side_packet"):
                for port in of.ports[f"input_{kind}"]:
                    is_back = isinstance(of, Node) and kind == "stream" and port.key in of.back_edges
                    self.join(arrows, items, sources, kind, port, number, items[number].cell_at((kind, port.key), items[number].inputs), is_back)
        for kind in ("stream", "side_packet"):
            for port in level.own[f"output_{kind}"]:
                items.append(self.end(port, kind, OUTPUT if kind == "stream" else SIDE, level))
                items[-1].box.is_last = True
                self.join(arrows, items, sources, kind, port, len(items) - 1, items[-1].box.width / 2, False)
        width, height = lay_out([item.box for item in items], [arrow[0] for arrow in arrows], self.tallest, self.widest)
        return Drawn(items, arrows, width, height)

    def join(self, arrows, items, sources, kind: str, port: Port, target: int, enters: float, is_back: bool) -> None:
        """Adds the arrow to a reader; what nobody writes comes from a question mark."""
        if (kind, port.name) not in sources:
            items.append(Item(Box(20, 20), [("?", "bad")], [], [], style="unknown"))
            sources[kind, port.name] = len(items) - 1, 10.0
        source, leaves = sources[kind, port.name]
        style = SIDE if kind == "side_packet" else BAD if port.name in self.report.stalled else ""
        label = self.said(port.name, kind)
        arrows.append((Arrow(source, target, leaves, enters, is_back, text_width(label, 9.5)), port.name, style, label))

    def end(self, port: Port, kind: str, style: str, level: Level) -> Item:
        """A port of the graph, or of the file inside a frame."""
        name = port.spelled if level.field else port.name
        lines = [(name, "")]
        return Item(Box(text_width(name) + 22, 24, is_first=style == INPUT), lines, [], [], style=style)

    def said(self, name: str, kind: str) -> str:
        """The label of an arrow: the stream's name, and how many packets it had."""
        short = name.rsplit("__", 1)[-1]
        if kind == "stream" and name in self.report.packets:
            short += f"  {self.report.packets[name]}"
            if self.report.bounds.get(name, "Done") != "Done":
                short += f" | {self.report.bounds[name]}"
        return short

    # How it is drawn.

    def draw(self, drawn: Drawn, x: float, y: float, parts: list[str]) -> None:
        for item in drawn.items:
            self.draw_item(item, x + item.box.x, y + item.box.y, parts)
        said: set[tuple[str, int]] = set()
        labels: list[str] = []
        for arrow, name, style, label in drawn.arrows:
            points = [(px + x, py + y) for px, py in arrow.points]
            classes = " ".join(filter(None, (style, "back" if arrow.is_back else "")))
            parts.append(f'<path class="{classes}" marker-end="url(#arrow-tip)" d="{path(points)}"><title>{html.escape(name)}</title></path>')
            # A stream is named once where it leaves; further readers are told by the arrow.
            if (name, arrow.source) in said and not arrow.is_back:
                continue
            said.add((name, arrow.source))
            at, to = points[arrow.named_at:][:2]
            middle = (at[0] + to[0]) / 2, (at[1] + to[1]) / 2
            wide = text_width(label, 9.5)
            labels.append(f'<g class="label"><rect x="{middle[0] - wide / 2 - 2:.1f}" y="{middle[1] - 8:.1f}" width="{wide + 4:.1f}" height="12"/>'
                          f'<text class="{"bad" if style == BAD else "count"}" text-anchor="middle" x="{middle[0]:.1f}" y="{middle[1] + 1.5:.1f}" '
                          f'style="font-size:9.5px">{html.escape(label)}</text></g>')
        parts += labels

    def draw_item(self, item: Item, x: float, y: float, parts: list[str]) -> None:
        box = item.box
        if item.style in (INPUT, OUTPUT, SIDE):
            parts.append(f'<rect class="{item.style}" stroke="#6b7280" rx="12" x="{x:.1f}" y="{y:.1f}" width="{box.width:.1f}" height="{box.height:.1f}"/>')
        elif item.style != "unknown":
            number = f' data-node="{item.number}"' if item.number is not None else ""
            shape = "frame" if item.style == FRAME else f"body {item.style}"
            parts.append(f'<rect class="{shape}"{number} rx="3" x="{x:.1f}" y="{y:.1f}" width="{box.width:.1f}" height="{box.height:.1f}"/>')
        top = row_height(item.inputs) + (2 if item.inputs else 3)
        for cells_of, at in ((item.inputs, y), (item.outputs, y + box.height - row_height(item.outputs))):
            begin = x
            for width, (_, label, style) in zip(cell_widths(box.width, cells_of), cells_of):
                parts.append(f'<rect class="cell {style}" x="{begin:.1f}" y="{at:.1f}" width="{width:.1f}" height="{row_height(cells_of):.0f}"/>')
                parts.append(f'<text class="small" text-anchor="middle" x="{begin + width / 2:.1f}" y="{at + 11:.1f}">{html.escape(label)}</text>')
                begin += width
        if item.style == FRAME:
            parts.append(f'<text class="strong" x="{x + 8:.1f}" y="{y + top + 11:.1f}">{html.escape(item.lines[0][0])}</text>')
            self.draw(item.inner, x + (box.width - item.inner.width) / 2, y + top + 22, parts)
            return
        for place, (line, style) in enumerate(item.lines):
            parts.append(f'<text class="{style}" text-anchor="middle" x="{x + box.width / 2:.1f}" y="{y + top + 12 + 14 * place:.1f}">{html.escape(line)}</text>')


def cells(ports: dict[str, list[Port]], side: str) -> list[tuple[tuple, str, str]]:
    """The cells of a box: its streams and then its side packets, each with its key, its label and its colour."""
    found = []
    for kind in ("stream", "side_packet"):
        those = in_order(ports[f"{side}_{kind}"])
        untagged = sum(not port.tag for port in those)
        for port in those:
            label = port.label if port.tag else str(port.index) if untagged > 1 else ""
            found.append(((kind, port.key), label, SIDE if kind == "side_packet" else side))
    return found


def size(lines: list[tuple[str, str]], inputs: list, outputs: list) -> tuple[float, float]:
    """The size of a box that holds some lines between its cells."""
    wide = max([text_width(line) for line, _ in lines] + [0]) + 20
    for row in (inputs, outputs):
        wide = max(wide, sum(max(16.0, text_width(cell[1], 9.5) + 8) for cell in row))
    return wide, 14 * len(lines) + 8 + row_height(inputs) + row_height(outputs)


def row_height(cells_of: list[tuple[tuple, str, str]]) -> float:
    """How high a row of cells is: cells without a label are narrow."""
    return 15.0 if any(label for _, label, _ in cells_of) else 5.0 if cells_of else 0.0
