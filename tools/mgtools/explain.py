"""Explains the notes of `mg`, each in a sentence or two that a person can act on."""
from __future__ import annotations

from collections.abc import Callable, Iterator

from . import explain_files, explain_graph, explain_run
from .arrivals import Arrivals
from .explain_files import FileTexts
from .graph import File, Graph, NotExpandable, expand
from .notes import Note, read_note
from .textform import TextFault

OF_FILES: dict[str, Callable[[Note, list[File]], list[str]]] = {
    "TypeTwice": explain_graph.type_twice, "Recursive": explain_graph.recursive, "TooManyNodes": explain_graph.too_many_nodes,
    "ReservedName": explain_graph.reserved_name, "PortShared": explain_graph.port_shared, "BadField": explain_graph.bad_field,
    "NoSuchPort": explain_graph.no_such_port}
OF_GRAPH: dict[str, Callable[[Note, Graph], list[str]]] = {
    "UnknownCalculator": explain_graph.unknown_calculator, "NoMoreBoxes": explain_graph.no_more_boxes, "BadPorts": explain_graph.bad_ports,
    "BadOptions": explain_graph.bad_options, "Unsupported": explain_graph.unsupported, "TwoProducers": explain_graph.two_producers,
    "NoProducer": explain_graph.no_producer, "SideMissing": lambda note, graph: explain_graph.no_producer(note, graph, "side_packet"),
    "KindClash": explain_graph.kind_clash, "BackEdgeMisplaced": explain_graph.back_edge_misplaced, "Cycle": explain_graph.cycle,
    "TooMany": explain_graph.too_many, "FreeNode": explain_graph.free_node, "OwnLaw": explain_graph.own_law}


class Explainer:
    """Explains notes about some files and a recording. Notes that depend on others, as stalled streams do, are explained once
    all of them are known."""

    def __init__(self, names: list[str], recording: str | None = None, words: list[str] | None = None):
        self.texts = FileTexts(names)
        self.recording = recording
        self.words = words or []
        self.bounds: dict[str, str] = {}
        self.files: list[File] | None = None
        self.graph: Graph | None = None
        try:
            self.files = [File.of(name, self.texts.data[name]) for name in names]
            self.graph = expand(self.files) if names else None
        except (TextFault, KeyError, NotExpandable):
            pass
        self.arrivals = Arrivals(self.graph) if self.graph else None

    def explain(self, note: Note) -> list[str]:
        """The sentences for one note."""
        form = note.form
        if form == "store":
            return explain_files.store(note, self.texts)
        if form == "usage":
            return explain_files.usage(self.words)
        if form == "text":
            return explain_files.text(note, self.texts)
        if form == "config":
            return explain_files.config(note, self.texts)
        if form in OF_FILES:
            return OF_FILES[form](note, self.files) if self.files else [self.lacking()]
        if form in OF_GRAPH:
            known = self.graph and ("node" not in note.parts or note["node"] < len(self.graph.nodes))
            return OF_GRAPH[form](note, self.graph) if known else [self.lacking()]
        return self.explain_run(note)

    def explain_run(self, note: Note) -> list[str]:
        if note.form == "line":
            name = self.recording or "the recording"
            if self.recording is None:
                return explain_run.line(note, self.graph, None, name)
            with open(self.recording, "rb") as lines:
                return explain_run.line(note, self.graph, lines, "standard input" if name.startswith("/dev/") else name)
        if note.form == "read":
            return explain_run.read_fault(note, self.recording or "standard input")
        if note.form == "write":
            return explain_run.write_fault()
        if note.form == "memory":
            return explain_run.out_of_memory()
        if note.form == "fault":
            if self.recording is None:
                return explain_run.node_fault(note, self.graph)
            with open(self.recording, "rb") as lines:
                return explain_run.node_fault(note, self.graph, lines)
        if note.form == "stalled":
            return explain_run.stalled(note, self.graph, self.bounds)
        if note.form == "free":
            return [self.arrivals.said(note) if self.arrivals else self.lacking()]
        if note.form == "sets":
            return explain_run.sets_said(note, self.graph, self.arrivals)
        return explain_run.ends_said(note, self.graph, self.bounds)

    def losses(self) -> Iterator[tuple[str, list[str]]]:
        """What free nodes dropped by the notes so far: of each node how many packets, and which and why."""
        for taken in self.arrivals.losses() if self.arrivals else []:
            yield taken.loss_said(), [taken.why_said()]

    @staticmethod
    def lacking() -> str:
        return "name the files of the graph to this tool, as the command had them, and it tells the place"

    def all(self, lines: list[str]) -> Iterator[tuple[str, Note | None, list[str]]]:
        """Each line with its note and what it means. The bounds that later notes tell are known to earlier ones."""
        notes = [read_note(line) for line in lines]
        for note in notes:
            if note and note.form in ("stalled", "ends"):
                self.bounds[note["name"]] = note["bound"]
        for line, note in zip(lines, notes):
            yield line, note, self.explain(note) if note else ["this is no note of mg that the tool knows"]


def command_of(words: list[str]) -> tuple[str, list[str], list[str]]:
    """The command, the files and all words behind the program's name, of the words of a call of `mg`."""
    plain: list[str] = []
    at = 1
    while at < len(words):
        word = words[at]
        if word in ("--workers", "--max-queue-size", "--number"):
            at += 1
        elif not word.startswith("-"):
            plain.append(word)
        at += 1
    return plain[0] if plain else "", plain[1:], words[1:]
