"""Streams over time: their packets, their bounds, and what waits for what at the end."""
from __future__ import annotations

import html
from collections.abc import Iterable
from dataclasses import dataclass, field
from typing import Any

from .explain_run import waits_on
from .graph import Graph
from .notes import Report
from .packets import DONE, MAX, MIN, POST_STREAM, PRE_STREAM, after, read_lines, show_time, shown
from .picture import counted, text_width

LEFT, ROW, TOP = 150.0, 34.0, 30.0
STYLE = """
.timeline text{font:11px Helvetica,Arial,sans-serif;fill:#1f2937}.timeline .small{font-size:9.5px;fill:#6b7280}
.timeline .name{font-weight:bold}.timeline .value{font-size:9.5px}.timeline .axis{stroke:#9ca3af}.timeline .grid{stroke:#e5e7eb}
.timeline .line{stroke:#9ca3af}.timeline .in{fill:#2563eb}.timeline .inner{fill:#6b7280}.timeline .out{fill:#15803d}
.timeline .open{fill:#fecaca;fill-opacity:.6}.timeline .bound{stroke:#dc2626;stroke-width:2}.timeline .closed{stroke:#374151;stroke-width:2}
.timeline .left{fill:#e5e7eb}.timeline .told{stroke:#2563eb;stroke-width:1.5;stroke-dasharray:3 2}.timeline .waits{fill:#b91c1c}
"""


@dataclass
class Row:
    """A stream: its first packets in order, the bounds that lines told, its bound at the end, and which kind of row it is. How many packets
    it has, and the time of the last one, count those that aren't kept too."""
    name: str
    kind: str
    packets: list[tuple[int, Any]] = field(default_factory=list)
    told: list[int] = field(default_factory=list)
    bound: int = PRE_STREAM
    count: int = 0
    last: int = PRE_STREAM

    @property
    def left_out(self) -> int:
        """How many packets aren't kept. Of a stream whose packets weren't to be had none is."""
        return self.count - len(self.packets) if self.packets else 0

    def counted(self) -> str:
        return f"{len(self.packets)} of {counted(self.count, 'packet')}" if self.left_out else counted(self.count, "packet")


def read_rows(lines: Iterable[bytes], kind: str, most: int, rows: dict[str, Row]) -> None:
    """Reads packet lines into rows; each keeps at most so many packets, and counts all."""
    for line in read_lines(lines):
        if line.form == "packets":
            for name, value in line.packets.items():
                row = rows.setdefault(name, Row(name, kind))
                row.count += 1
                row.bound, row.last = max(row.bound, after(line.time)), max(row.last, line.time)
                if len(row.packets) < most:
                    row.packets.append((line.time, value))
        elif line.form in ("bound", "close"):
            row = rows.setdefault(line.stream, Row(line.stream, kind))
            row.bound = max(row.bound, line.time)
            if line.form == "bound":
                row.told.append(line.time)


def waiting(graph: Graph, report: Report) -> list[str]:
    """What each stream that isn't at its end waits for, in sentences."""
    said = []
    for name, bound in report.bounds.items():
        if bound == "Done":
            continue
        found = waits_on(name, graph, report.bounds)
        if found:
            node, waits = found
            said.append(f"{known(name, bound)}: node {node.number} {node.label} waits for {known(waits, report.bounds[waits])}")
        elif name in [port.name for port in graph.inputs]:
            said.append(f"{known(name, bound)}: it comes from the recording")
    return said


def known(name: str, bound: str) -> str:
    """How far a stream is known."""
    return f"{name}, of which nothing is known" if bound == "PreStream" else f"{name}, known below {bound}"


def is_plain(time: int) -> bool:
    return MIN <= time <= MAX


class Axis:
    """Draws rows of streams between two times."""

    def __init__(self, rows: list[Row], width: int = 1100, since: int | None = None, until: int | None = None, title: str = ""):
        self.rows, self.title = rows, title
        times = [time for row in rows for time, _ in row.packets if is_plain(time)]
        times += [time for row in rows for time in [*row.told, row.bound, row.last] if is_plain(time)]
        self.since = since if since is not None else min(times, default=0)
        self.until = until if until is not None else max(times, default=1)
        if self.until <= self.since:
            self.until = self.since + 1
        if since is None and until is None:
            room = max(1, (self.until - self.since) // 40)
            self.since, self.until = self.since - room, self.until + room
        self.width = width

    def x(self, time: int) -> float:
        """The place of a time; PreStream and PostStream stand at the ends."""
        if time <= PRE_STREAM:
            return LEFT
        if time >= POST_STREAM:
            return float(self.width - 12)
        share = (time - self.since) / (self.until - self.since)
        return LEFT + 8 + min(1.0, max(0.0, share)) * (self.width - LEFT - 28)

    @property
    def top(self) -> float:
        return TOP + (20 if self.title else 0)

    @property
    def height(self) -> float:
        return self.top + ROW * len(self.rows)

    def ticks(self) -> tuple[int, list[tuple[int, str]]]:
        """Round times, some ten of them or as many as have room, with their labels. Where times are large beside the span, they are told from
        a round one on, which is the other answer."""
        span = self.until - self.since
        unit = 10 ** len(str(span))
        is_far = abs(self.since) > 10 * unit and len(str(self.until)) > 9
        power = 10 ** max(0, len(str(span)) - 2)
        for step in (power * times * tens for tens in (1, 10, 100) for times in (1, 2, 5)):
            if span > 12 * step:
                continue
            start = -(-self.since // step) * step
            origin = start // unit * unit if is_far else 0
            found = [(time, label(time - origin, step, is_far)) for time in range(start, self.until + 1, step)]
            if max((text_width(text, 9.5) for _, text in found), default=0) + 10 < step / span * (self.width - LEFT - 28):
                break
        return origin, found

    def svg(self) -> list[str]:
        """Its parts, from its upper edge on."""
        origin, found = self.ticks()
        front = f"from {origin} on:" if origin else ""
        parts = [f'<text class="name" x="10" y="14">{html.escape(self.title)}</text>'] if self.title else []
        parts += [f'<text class="small" x="10" y="{self.top - 11}">{front}</text>'] if front else []
        for time, text in found:
            x = self.x(time)
            parts.append(f'<line class="grid" x1="{x:.1f}" x2="{x:.1f}" y1="{self.top - 6}" y2="{self.height:.0f}"/>')
            if x - text_width(text, 9.5) / 2 > text_width(front, 9.5) + 16:
                parts[-1] += f'<text class="small" text-anchor="middle" x="{x:.1f}" y="{self.top - 11}">{text}</text>'
        for place, row in enumerate(self.rows):
            parts += self.row(row, self.top + ROW * place + ROW / 2)
        return parts

    def row(self, row: Row, y: float) -> list[str]:
        end = self.x(row.bound)
        right = self.width - 12
        parts = [f'<text class="name" x="10" y="{y + 1:.1f}">{html.escape(cut(row.name, 20))}<title>{html.escape(row.name)}</title></text>',
                 f'<text class="small" x="10" y="{y + 12:.1f}">{row.counted()}</text>',
                 f'<line class="line" x1="{LEFT}" x2="{end:.1f}" y1="{y:.1f}" y2="{y:.1f}"/>']
        if row.bound < DONE:
            parts.append(f'<rect class="open" x="{end:.1f}" y="{y - 9:.1f}" width="{max(0.0, right - end):.1f}" height="18">'
                         f"<title>{html.escape(row.name)}: nothing is known from {show_time(row.bound)} on</title></rect>")
        if row.left_out:
            begin, last = self.x(row.packets[-1][0]) + 5, self.x(row.last)
            parts.append(f'<rect class="left" x="{begin:.1f}" y="{y - 7:.1f}" width="{max(0.0, last - begin):.1f}" height="14">'
                         f"<title>{html.escape(row.name)}: {counted(row.left_out, 'packet')} left out</title></rect>")
        mark = "closed" if row.bound >= DONE else "bound"
        parts += [f'<line class="told" x1="{self.x(time):.1f}" x2="{self.x(time):.1f}" y1="{y - 9:.1f}" y2="{y + 9:.1f}"><title>a line with the bound {show_time(time)}</title></line>'
                  for time in row.told]
        parts.append(f'<line class="{mark}" x1="{end:.1f}" x2="{end:.1f}" y1="{y - 10:.1f}" y2="{y + 10:.1f}"><title>{html.escape(row.name)}: bound {show_time(row.bound)}</title></line>')
        return parts + self.packets(row, y)

    def packets(self, row: Row, y: float) -> list[str]:
        """One dot in each pixel that has a packet, and the values for which there is room."""
        parts, last_dot, free = [], -1.0, 0.0
        for time, value in row.packets:
            if is_plain(time) and not self.since <= time <= self.until:
                continue
            x = self.x(time)
            if x - last_dot >= 1.0:
                parts.append(f'<circle class="{row.kind}" cx="{x:.1f}" cy="{y:.1f}" r="3.4"><title>{html.escape(row.name)} at {show_time(time)}: {html.escape(shown(value))}</title></circle>')
                last_dot = x
            text = cut(shown(value), 14)
            half = text_width(text, 9.5) / 2
            if x - half > free:
                parts.append(f'<text class="value" text-anchor="middle" x="{x:.1f}" y="{y - 6:.1f}">{html.escape(text)}</text>')
                free = x + half + 3
        return parts


def label(time: int, step: int, is_far: bool) -> str:
    """How a multiple of a step is written: large ones as 200e9, all with one exponent."""
    zeros = len(str(step)) - len(str(step).rstrip("0"))
    exponent = zeros - zeros % 3 if zeros >= 6 else 0
    text = f"{time // 10 ** exponent}e{exponent}" if exponent and time else str(time)
    return "+" + text if is_far else text


def drawn(axes: list[Axis], below: list[str], left_out: list[str]) -> str:
    """The picture: the axes one below the other, and lines that say what waits for what and what is left out."""
    heights = [axis.height for axis in axes]
    lines = [(line, "waits") for line in below] + [(line, "small") for line in left_out]
    width, height = axes[0].width, sum(heights) + 14 + 16 * len(lines)
    parts = [f'<svg class="timeline" xmlns="http://www.w3.org/2000/svg" width="{width}" height="{height:.0f}" viewBox="0 0 {width} {height:.0f}">',
             f"<style>{STYLE}</style>"]
    for place, axis in enumerate(axes):
        parts += axis.svg() if place == 0 else [f'<g transform="translate(0 {sum(heights[:place]):.0f})">', *axis.svg(), "</g>"]
    for place, (line, kind) in enumerate(lines):
        parts.append(f'<text class="{kind}" x="10" y="{sum(heights) + 18 + 16 * place:.0f}">{html.escape(line)}</text>')
    return "\n".join([*parts, "</svg>\n"])


def cut(text: str, most: int) -> str:
    return text if len(text) <= most else text[:most - 1] + "…"
