"""The steps of a trace in words, counted, and as events of Chrome's trace format."""
from __future__ import annotations

import json
from collections import Counter
from collections.abc import Iterator

from .graph import Graph, Node
from .packets import show_time
from .picture import counted
from .traces import Moved, Step

WORDS = ("deliver", "claim", "perform", "commit", "advance")
DOES = {"claim": "claims", "perform": "performs", "commit": "commits"}


def who(node: Node) -> str:
    """A node by its number, its name and its calculator."""
    return f"node {node.number} {node.name} ({node.calculator})" if node.name else f"node {node.number} ({node.calculator})"


def work_of(step: Step) -> str:
    """The work of a step: a set with its time, a call of a source, or Close."""
    if step.kind == "Close":
        return "Close"
    return f"{step.kind} {step.work}" + (f" at {show_time(step.time)}" if step.time is not None else "")


def span(moved: Moved) -> str:
    """Packets by their number and their times, and the end of their stream."""
    end = f"the end of {moved.stream}"
    if moved.count is None:
        return f"what is new of {moved.stream}" + (f", and {end}" if moved.ends else "")
    if not moved.count:
        return end if moved.ends else f"a bound of {moved.stream}"
    said = f"{counted(moved.count, 'packet')} of {moved.stream}"
    said += f", at {show_time(moved.first)}" if moved.count == 1 else f", from {show_time(moved.first)} to {show_time(moved.last)}"
    return said + (", and its end" if moved.ends else "")


def laid(step: Step) -> str:
    """What a step laid, or why its node failed."""
    told = [f"it failed, {step.fault}"] if step.fault else []
    told += map(span, step.packets or [])
    return ": " + "; ".join(told) if told else ""


class Words:
    """Tells steps in words."""

    def __init__(self, graph: Graph):
        self.who = [who(node) for node in graph.nodes]

    def of(self, step: Step) -> str:
        if step.word == "relax":
            return "full queues get room for one packet more than they hold"
        name = self.who[step.node.number] if step.node else f"the output {step.packets[0].stream}"
        if step.word == "deliver":
            return f"{name} gets {span(step.packets[0])}"
        if step.word == "advance":
            return f"{name} raises the bounds of its outputs"
        if step.is_answer:
            return f"{name} answers {work_of(step)}" + (": with nothing" if step.packets == [] else laid(step))
        return f"{name} {DOES[step.word]} {work_of(step)}{laid(step)}"


class Counts:
    """How many steps of each kind each node had, how many packets it got, and the times of its first and its last set."""

    def __init__(self, graph: Graph):
        self.graph = graph
        self.steps = [Counter() for _ in range(len(graph.nodes) + 1)]
        self.sets = [[0, None, None] for _ in graph.nodes]
        self.relaxed = self.all = 0

    def add(self, step: Step) -> None:
        self.all += 1
        if step.word == "relax":
            self.relaxed += 1
            return
        of = self.steps[step.node.number if step.node else -1]
        of[step.word] += 1
        if step.word == "deliver":
            of["packets"] += step.packets[0].count or 0
        if step.word == "claim" and step.kind != "Close":
            sets = self.sets[step.node.number]
            sets[:] = [sets[0] + 1, step.time if sets[1] is None else sets[1], step.time]

    def table(self) -> Iterator[str]:
        """A line for each node, one for the graph's outputs, and one for all."""
        times = [["-" if time is None else show_time(time) for time in ends] for _, *ends in self.sets]
        rows = [["node", "deliver", "packets", *WORDS[1:], "sets", "from", "to"]]
        for node, steps, (sets, _, _), (first, last) in zip(self.graph.nodes, self.steps, self.sets, times):
            rows.append([who(node), *(str(steps[word]) for word in ("deliver", "packets", *WORDS[1:])), str(sets), first, last])
        if self.graph.outputs:
            rows.append(["outputs", *(str(self.steps[-1][word]) for word in ("deliver", "packets", *WORDS[1:])), "-", "-", "-"])
        widths = [max(map(len, column)) for column in zip(*rows)]
        for row in rows:
            yield "  ".join([row[0].ljust(widths[0]), *(cell.rjust(width) for cell, width in zip(row[1:], widths[1:]))])
        yield counted(self.all, "step") + (f", {self.relaxed} of them relax" if self.relaxed else "")


class Chrome:
    """Writes steps as events of Chrome's trace format: a thread for each node, one for the outputs and one for `relax`."""

    def __init__(self, graph: Graph, title: str):
        self.outputs, self.relax = len(graph.nodes) + 1, len(graph.nodes) + 2
        self.threads = [f"{node.number} {node.label}" for node in graph.nodes] + ["outputs", "queues"]
        self.title = title

    def begin(self) -> Iterator[str]:
        """The events that name the process and its threads."""
        yield json.dumps({"name": "process_name", "ph": "M", "ts": 0, "pid": 1, "tid": 0, "args": {"name": self.title}})
        for tid, name in enumerate(self.threads, 1):
            yield json.dumps({"name": "thread_name", "ph": "M", "ts": 0, "pid": 1, "tid": tid, "args": {"name": name}})
            yield json.dumps({"name": "thread_sort_index", "ph": "M", "ts": 0, "pid": 1, "tid": tid, "args": {"sort_index": tid}})

    def event(self, step: Step) -> str:
        """A step as a complete event, which lasts from its number to the next one."""
        tid = self.relax if step.word == "relax" else step.node.number + 1 if step.node else self.outputs
        args: dict[str, object] = {"line": step.line, "step": step.text}
        if step.work is not None:
            args["work"] = "Close" if step.kind == "Close" else step.work
        if step.fault:
            args["fault"] = step.fault
        if step.time is not None:
            args["at"] = show_time(step.time)
        for moved in step.packets or []:
            args[moved.stream] = span(moved)
        name = step.word
        if step.word == "deliver":
            name += " " + step.packets[0].stream
        elif step.work is not None:
            name += f" {show_time(step.time)}" if step.time is not None else f" {work_of(step)}"
        return json.dumps({"name": name, "cat": step.word, "ph": "X", "ts": step.number, "dur": 1, "pid": 1, "tid": tid, "args": args}, ensure_ascii=False)
