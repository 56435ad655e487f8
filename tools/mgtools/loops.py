"""Loops over lists: which streams stand at the inner times of which loop. Inner times are counted from 0 in each loop, so they are comparable
neither with the times outside nor with those of another loop."""
from __future__ import annotations

from collections.abc import Iterable

from .graph import Graph, Node
from .timelines import Row

BEGINS = ("BeginLoopCalculator", "BeginLoopCloneCalculator")
END = "EndLoopCalculator"


def is_begin(node: Node) -> bool:
    return node.calculator in BEGINS


def stream_at(ports: list, tag: str) -> str:
    """The stream at the first port of a tag, or the empty text."""
    return next((port.name for port in ports if port.tag == tag), "")


def batch_end(node: Node) -> str:
    """The stream that tells where the lists of a loop end, at either end of the loop."""
    return stream_at(node.outputs, "BATCH_END") if is_begin(node) else stream_at(node.inputs, "BATCH_END") if node.calculator == END else ""


def loops_of(graph: Graph) -> dict[str, Node | None]:
    """For each stream the node that begins the loop at whose inner times it stands, and none for the graph's own times."""
    readers = graph.readers()
    found: dict[str, Node | None] = {}
    todo = [port.name for port in graph.inputs]
    found.update(dict.fromkeys(todo))
    for node in graph.nodes:
        if not node.inputs:
            todo += give(node, None, found)
    while todo:
        name = todo.pop()
        for node, port in readers.get(name, []):
            if node is None or port.key in node.back_edges:
                continue
            if is_begin(node):
                todo += give(node, node, found)
            elif node.calculator != END:
                todo += give(node, found[name], found)
            elif port.tag == "BATCH_END":
                begin = found[name]
                todo += give(node, found.get(stream_at(begin.inputs, "ITERABLE")) if begin else None, found)
    return {name: found.get(name) for name in graph.streams()}


def give(node: Node, loop: Node | None, found: dict[str, Node | None]) -> list[str]:
    """Notes of a node's outputs in which loop they stand. Those of which it wasn't known."""
    fresh = [port.name for port in node.outputs if port.name not in found]
    found.update(dict.fromkeys(fresh, loop))
    return fresh


def by_axis(graph: Graph, rows: Iterable[Row]) -> list[tuple[str, list[Row]]]:
    """The rows by their axes, each with its title: those at the graph's own times, and those at the inner times of each loop."""
    loops = loops_of(graph)
    axes: dict[int, tuple[str, list[Row]]] = {-1: ("Streams over time", [])}
    for node in graph.nodes:
        if is_begin(node):
            axes[node.number] = f"Inner times of the loop that node {node.number} {node.label} begins", []
    for row in rows:
        loop = loops.get(row.name)
        axes[loop.number if loop else -1][1].append(row)
    return [axes[-1], *(axis for number, axis in axes.items() if number >= 0 and axis[1])]
