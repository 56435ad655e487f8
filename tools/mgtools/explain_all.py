"""Looks behind the first refusal of a graph: what was refused is set aside in a copy, and the rest is checked again.

Faults of files are set aside by blanks in place of the bytes, so that every place stays. The expanded graph is kept node by
node, so that each node keeps the number that it has in the whole graph. What only follows from something that was set aside,
as a stream whose writer is gone, is no fault of its own, and isn't told.
"""
from __future__ import annotations

import pathlib
import subprocess
import tempfile
from collections.abc import Iterator

from .explain import OF_FILES, OF_GRAPH, Explainer
from .explain_graph import ring
from .flat import Flat
from .graph import Field, File, Graph, NotExpandable, expand, find, first_text, parent, ports_of, read_key
from .kinds import port_kind
from .notes import Note, read_note
from .schema import fields_at, fits
from .textform import parse

MOST = 200


class Copies:
    """Copies of the files in a folder of their own, where bytes are blanked out."""

    def __init__(self, mg: str, names: list[str], folder: pathlib.Path):
        self.mg = mg
        self.names = names
        self.folder = folder
        self.data = {name: bytearray(pathlib.Path(name).read_bytes()) for name in names}
        # Names that had to be changed, with those that the files have.
        self.renamed: dict[str, str] = {}

    def files(self) -> list[File]:
        return [File.of(name, bytes(self.data[name])) for name in self.names]

    def path(self, name: str) -> pathlib.Path:
        path = self.folder / f"{self.names.index(name)}.pbtxt"
        path.write_bytes(bytes(self.data[name]))
        return path

    def refusal(self, command: str, names: list[str]) -> Note | None:
        """The refusal that some of the copies come to, with the files' own names."""
        paths = {str(self.path(name)): name for name in names}
        ended = subprocess.run([self.mg, command, *paths], stdin=subprocess.DEVNULL, capture_output=True, text=True)
        for line in ended.stderr.splitlines():
            for path, name in paths.items():
                line = line.replace(f"refused: {path} ", f"refused: {name} ")
            note = read_note(line)
            if note and note.is_refusal:
                return note
        return None

    def blank(self, name: str, begin: int, end: int) -> None:
        """Puts blanks in place of bytes, but for line feeds; a comma or semicolon behind them goes too."""
        data = self.data[name]
        while bytes(data[end:end + 1]) in (b",", b";"):
            end += 1
        for at in range(begin, end):
            if data[at] != 10:
                data[at] = 32


def further(mg: str, names: list[str]) -> Iterator[tuple[str, list[str]]]:
    """The notes behind the first one, each with what it means."""
    with tempfile.TemporaryDirectory() as folder:
        try:
            copies = Copies(mg, names, pathlib.Path(folder))
        except OSError:
            return
        found = list(refusals(copies))
        for line, sentences in found[1:]:
            yield line, sentences
        if len(found) > 1:
            yield f"{len(found)} faults in all", []


def refusals(copies: Copies) -> Iterator[tuple[str, list[str]]]:
    """All refusals of the files, of the expansion and of the check."""
    whole = True
    for name in dict.fromkeys(copies.names):
        for note in of_file(copies, name):
            whole = whole and note.form != "text"
            yield note.text, Explainer([name]).explain(note)
    if not whole:
        return
    yield from of_expansion(copies)
    try:
        graph = expand(copies.files())
    except NotExpandable:
        return
    yield from of_check(copies, graph)


def of_file(copies: Copies, name: str) -> Iterator[Note]:
    """The refusals of one file, each of which is blanked out."""
    for _ in range(MOST):
        note = copies.refusal("expand", [name])
        if note is None or note.form not in ("text", "config"):
            return
        yield note
        if note.form == "text":
            return
        root = Field("", 0, parse(bytes(copies.data[name])), len(copies.data[name]))
        field = refused_field(root, note)
        if field is None or not copies.data[name][field.at:field.end].strip():
            return
        copies.blank(name, field.at, field.end)


def refused_field(root: Field, note: Note) -> Field | None:
    """The field that a note refuses, or the node that lacks its calculator."""
    path = note["path"]
    message, last = parent(root, path)
    if message is None:
        return None
    same = message.all_of(last)
    if note["refusal"] == "Repeated":
        return same[1] if len(same) > 1 else None
    if note["cause"] in ("Twice", "Gap"):
        keys = set()
        ports = ports_of(message, last)
        for field, port in zip([one for one in same if one.text is not None], ports):
            if port.key in keys or note["cause"] == "Gap" and port.index and (port.tag, port.index - 1) not in [one.key for one in ports]:
                return field
            keys.add(port.key)
    if note["refusal"] == "WrongShape" and "[" not in path.split(".")[-1]:
        shape = fields_at(path).get(last, "text")
        wrong = next((one for one in same if not fits(shape, one)), None)
        return wrong or (message if message is not root else None)
    return find(root, path)


def of_expansion(copies: Copies) -> Iterator[tuple[str, list[str]]]:
    """The refusals of the expansion. What was refused is blanked out in its file."""
    for _ in range(MOST):
        note = copies.refusal("expand", copies.names)
        if note is None or note.form not in OF_FILES:
            return
        files = copies.files()
        yield note.text, OF_FILES[note.form](note, files)
        if not set_aside(copies, files, note):
            return


def set_aside(copies: Copies, files: list[File], note: Note) -> bool:
    """Takes what the expansion refused out of the copies; false where that makes no sense."""
    owner = note.parts.get("owner")
    file = files[0] if owner in (None, "main") else next((one for one in files[1:] if one.type == owner), files[0])
    if note.form == "TypeTwice":
        second = [one for one in files[1:] if one.type == note["name"]][1]
        copies.names = [name for at, name in enumerate(copies.names) if at != files.index(second)]
    elif note.form == "Recursive":
        inside = next((one for one in files[1:] if one.type == note["name"]), None)
        types = [one.type for one in files[1:] if one.type]
        node = next((one for one in inside.root.all_of("node") if first_text(one, "calculator") in types), None) if inside else None
        if node is None:
            return False
        copies.blank(inside.name, node.at, node.end)
    elif note.form == "ReservedName":
        other = "x" + note["name"][1:]
        copies.renamed[other] = note["name"]
        for one in files:
            copies.data[one.name][:] = bytes(copies.data[one.name]).replace(note["name"].encode(), other.encode())
    elif note.form == "PortShared":
        fields = [one for one in file.root.fields if one.text and one.text.split(":")[-1] == note["name"]]
        copies.blank(file.name, fields[-1].at, fields[-1].end)
    elif note.form in ("BadField", "NoSuchPort"):
        node = file.root.all_of("node")[note["node"]]
        names = ("options", "node_options") if note.parts.get("field") == "options" else (note.parts.get("field"),)
        for one in node.fields:
            if one.name in names or note.form == "NoSuchPort" and one.text and is_port(one.text, note["port"]):
                copies.blank(file.name, one.at, one.end)
    else:
        return False
    return True


def is_port(text: str, port: str) -> bool:
    key = lambda one: (read_key(":".join(one.split(":")[:-1])), one.split(":")[-1])
    return key(text) == key(port)


def of_check(copies: Copies, graph: Graph) -> Iterator[tuple[str, list[str]]]:
    """The refusals of the check, with the numbers that the nodes have in the whole graph."""
    flat = Flat(graph)
    path = copies.folder / "flat.pbtxt"
    for _ in range(MOST):
        path.write_text(flat.text())
        ended = subprocess.run([copies.mg, "check", str(path)], stdin=subprocess.DEVNULL, capture_output=True, text=True)
        note = next(filter(None, map(read_note, ended.stderr.splitlines())), None)
        if note is None or note.form not in OF_GRAPH:
            return
        note = renumbered(note, flat)
        try:
            sentences = OF_GRAPH[note.form](note, graph)
        except (IndexError, AttributeError):
            return
        if not (note.form in ("NoProducer", "SideMissing") and note["name"] in flat.stands_in):
            yield own(copies, note.text), [own(copies, sentence) for sentence in sentences]
        if not mended(flat, note):
            return


def own(copies: Copies, text: str) -> str:
    """A text with the names that the files have."""
    for other, name in copies.renamed.items():
        text = text.replace(other, name)
    return text


def renumbered(note: Note, flat: Flat) -> Note:
    """A note with the numbers that its nodes have in the whole graph."""
    numbers = [node.number for node in flat.nodes]
    if note.form == "Cycle":
        nodes = " ".join(str(numbers[int(one)]) for one in note["nodes"].split())
        return Note(f"refused: check Cycle {nodes}", "Cycle", {"nodes": nodes})
    if "node" not in note.parts:
        return note
    node = numbers[note["node"]]
    text = note.text.replace(f"{note.form} {note['node']}", f"{note.form} {node}")
    return Note(text, note.form, {**note.parts, "node": node})


def mended(flat: Flat, note: Note) -> bool:
    """Sets aside what the check refused; false where that makes no sense."""
    if note.form in ("UnknownCalculator", "BadPorts", "BadOptions"):
        flat.drop(flat.graph.nodes[note["node"]])
    elif note.form == "NoMoreBoxes":
        for node in [one for one in flat.nodes if one.calculator == note["name"]][note["has"]:]:
            flat.drop(node)
    elif note.form in ("Unsupported", "BackEdgeMisplaced"):
        node = flat.graph.nodes[note["node"]]
        gone = "input_stream_handler" if note.form == "Unsupported" else "input_stream_info"
        node.field.value = [one for one in node.field.fields if one.name != gone]
    elif note.form == "TwoProducers":
        return mend_two(flat, note["name"])
    elif note.form in ("NoProducer", "SideMissing"):
        flat.give("stream" if note.form == "NoProducer" else "side_packet", note["name"])
    elif note.form == "KindClash":
        return mend_clash(flat, note["name"])
    elif note.form == "Cycle":
        return mend_cycle(flat, note)
    else:
        return False
    return True


def mend_two(flat: Flat, name: str) -> bool:
    for kind in ("stream", "side_packet"):
        seen = [port for port in flat.ports[f"input_{kind}"] if port.name == name]
        flat.ports[f"input_{kind}"] = [port for port in flat.ports[f"input_{kind}"] if port.name != name or port is seen[0]]
        writers = [(node, port) for node in flat.nodes for port in node.ports[f"output_{kind}"] if port.name == name]
        for node, port in writers[0 if seen else 1:]:
            flat.rename(node, f"output_{kind}", port)
    return True


def mend_clash(flat: Flat, name: str) -> bool:
    """Gives each reader that wants a kind a stream of its own."""
    for node in flat.nodes:
        for port in node.inputs:
            if port.name == name and port_kind(node, "input_stream", port.key) != "Any":
                flat.give("stream", flat.rename(node, "input_stream", port))
    return True


def mend_cycle(flat: Flat, note: Note) -> bool:
    """Breaks the ring that was told."""
    way = ring(flat.graph, {int(one) for one in note["nodes"].split()})
    if not way:
        return False
    node, port = way[0]
    flat.give("stream", flat.rename(node, "input_stream", port))
    return True
