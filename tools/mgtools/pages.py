"""One HTML file about a run: the graph's picture with its counts, the streams over time, and the notes explained."""
from __future__ import annotations

import html
import json
import pathlib
import re
from typing import Any

from .arrivals import Arrivals
from .explain import Explainer
from .graph import Graph, Node, in_order
from .kinds import offset_of
from .loops import batch_end, by_axis, is_begin
from .notes import Report
from .packets import read_bound, show_time
from .picture import Picture, counted
from .timelines import Row, waiting

MEANINGS = {0: "all went well", 1: "a file couldn't be loaded", 2: "the words are no command", 3: "the graph was refused", 4: "a line wasn't good",
            5: "a calculator failed", 6: "a stream never closed", 7: "the input couldn't be read", 8: "the output couldn't be written",
            9: "there wasn't memory enough"}
# So many arrivals at free nodes are shown, and so many nodes are named that dropped packets.
MOST_ARRIVALS, MOST_LOSSES = 1000, 3

# How large frames of the graph's picture are in a window of 1280 by 900: beside the streams and above them. Shown at less than this
# share of its size a picture can't be read well.
BESIDE, ABOVE, READABLE = (560.0, 740.0), (1216.0, 690.0), 0.85


def time_data(time: int) -> Any:
    """A time for the page: a number where the browser holds it exactly, and a text otherwise."""
    return time if abs(time) < 2**53 else show_time(time)


def exact(value: Any) -> Any:
    """A value as the text that is shown of it, cut where it is long."""
    text = json.dumps(value, ensure_ascii=False)
    return text if len(text) <= 400 else text[:398] + ".."


def row_data(row: Row, report: Report) -> dict[str, Any]:
    bound = read_bound(report.bounds[row.name]) if row.name in report.bounds else row.bound
    return {"name": row.name, "kind": row.kind, "count": report.packets.get(row.name, row.count), "bound": show_time(bound), "last": time_data(row.last),
            "told": [time_data(time) for time in row.told], "packets": [[time_data(time), exact(value)] for time, value in row.packets]}


def node_data(node: Node) -> dict[str, Any]:
    """What the page needs to tell which input set made a packet: the set of an output at t stands at t less the offset."""
    return {"number": node.number, "label": node.label, "calculator": node.calculator, "place": node.place, "offset": offset_of(node) or 0,
            "inputs": [[port.label, port.name] for port in in_order(node.inputs)], "outputs": [port.name for port in node.outputs],
            "begins": is_begin(node), "ends": batch_end(node)}


def layout_of(picture: Picture) -> str:
    """Where the graph's picture stands: beside the streams, or above them where it is larger there. It is laid out for that place."""
    beside = picture.fit(*BESIDE)
    drawn = picture.drawn
    if beside >= READABLE or picture.fit(*ABOVE) < beside * 1.1:
        picture.drawn = drawn
        return "beside"
    return "above"


def notes_html(explainer: Explainer, notes: list[str]) -> str:
    """The notes with what they mean, and what was dropped; those of the report are in the picture, and arrivals are folded."""
    said: list[str] = []
    arrivals: list[str] = []
    for line, note, sentences in explainer.all(notes):
        if note and note.form in ("sets", "ends"):
            continue
        where = arrivals if note and note.form == "free" else said
        where.append(note_html(line, sentences))
    said += [note_html(line, sentences) for line, sentences in explainer.losses()]
    if arrivals:
        more = f"<p class=quiet>and {len(arrivals) - MOST_ARRIVALS} more</p>" if len(arrivals) > MOST_ARRIVALS else ""
        said.append(f"<details><summary>what arrived at free nodes ({len(arrivals)})</summary>{''.join(arrivals[:MOST_ARRIVALS])}{more}</details>")
    return "".join(said) or "<p class=quiet>no notes: nothing went wrong</p>"


def note_html(line: str, sentences: list[str]) -> str:
    items = "".join(f"<li>{html.escape(sentence)}</li>" for sentence in sentences)
    return f"<div class=note><code>{html.escape(line)}</code><ul>{items}</ul></div>"


def page(title: str, graph: Graph, rows: list[Row], report: Report, explainer: Explainer, notes: list[str], status: int | None, cut_at: int) -> str:
    """The whole page."""
    axes = [{"title": title, "rows": [row_data(row, report) for row in own]} for title, own in by_axis(graph, rows)]
    data = {"axes": axes, "nodes": [node_data(node) for node in graph.nodes]}
    folder = pathlib.Path(__file__).parent
    template = (folder / "page.html").read_text()
    picture = Picture(graph, report)
    is_cut = any(row.count > len(row.packets) > 0 for row in rows)
    parts = {
        "TITLE": html.escape(title),
        "STATUS": outcome(status, rows, Arrivals(graph, report.others)),
        "COUNTS": ", ".join((counted(len(graph.nodes), "node"), counted(len(graph.streams()), "stream"),
                             counted(sum(row.count for row in rows if row.kind == "in"), "packet") + " in")),
        "LAYOUT": layout_of(picture),
        "WIDTH": f"{picture.width:.0f}", "HEIGHT": f"{picture.height:.0f}",
        "GRAPH": picture.svg(),
        "NOTES": notes_html(explainer, notes),
        "WAITS": "".join(f"<p class=waits>{html.escape(line)}</p>" for line in waiting(graph, report)),
        "CUT": f"<p class=quiet>the first {cut_at} packets of each stream are shown</p>" if is_cut else "",
        "SCRIPT": "".join((folder / name).read_text() for name in ("zoom.js", "timeline.js", "page.js")),
        "DATA": json.dumps(data, ensure_ascii=False, separators=(",", ":")).replace("</", "<\\/"),
    }
    return re.sub("@([A-Z]+)@", lambda found: parts[found[1]], template)


def outcome(status: int | None, rows: list[Row], arrivals: Arrivals) -> str:
    """How the run ended, and what was lost on the way: all went well only where nothing was dropped, and something came out."""
    lost = [taken.loss_said() for taken in arrivals.losses()]
    if lost[MOST_LOSSES:]:
        lost[MOST_LOSSES:] = [f"and {len(lost) - MOST_LOSSES} more nodes dropped packets"]
    outputs = [row.count for row in rows if row.kind == "out"]
    if outputs and not any(outputs) and any(row.count for row in rows if row.kind == "in"):
        lost.append("no packet came out")
    pills = [("lost", text) for text in lost]
    if status is not None:
        meaning = "the run ended" if status == 0 and lost else MEANINGS.get(status, "unknown")
        pills.insert(0, ("bad" if status else "lost" if lost else "good", f"status {status}: {meaning}"))
    return "".join(f'<span class="status {style}">{html.escape(text)}</span>' for style, text in pills)
