"""Graph files as the tools see them: their fields with places, the ports of nodes, and the expanded graph, of which each node
knows in which file and where it stands.

Only what a graph says is read here; `mg` judges it. So a file with faults is read as far as it goes.
"""
from __future__ import annotations

import pathlib
import re
from collections.abc import Iterator
from dataclasses import dataclass, field as attribute, replace

from .textform import Field, Scalar, line_and_column, parse

MOST_NODES = 4096
LISTS = ("input_stream", "output_stream", "input_side_packet", "output_side_packet")


@dataclass
class File:
    """A graph file: its name as the words have it, its bytes and its fields."""
    name: str
    data: bytes
    fields: list[Field] = attribute(default_factory=list)

    @classmethod
    def load(cls, name: str, folder: pathlib.Path | None = None) -> File:
        """Reads a file. Raises OSError, or TextFault where it is no text."""
        return cls.of(name, ((folder or pathlib.Path()) / name).read_bytes())

    @classmethod
    def of(cls, name: str, data: bytes) -> File:
        return cls(name, data, parse(data))

    @property
    def root(self) -> Field:
        return Field("", 0, self.fields, len(self.data))

    @property
    def type(self) -> str:
        return first_text(self.root, "type")

    def place(self, at: int) -> str:
        """A place as editors take it: file:line:column."""
        line, column = line_and_column(self.data, at)
        return f"{self.name}:{line}:{column}"


@dataclass(frozen=True)
class Port:
    """A port: its tag and index, the name of its stream or side packet, and how it was spelled."""
    tag: str
    index: int
    name: str
    spelled: str
    at: int = 0

    @property
    def key(self) -> tuple[str, int]:
        return self.tag, self.index

    @property
    def label(self) -> str:
        """Its tag and index as far as they tell it from others; nothing for the first untagged one."""
        return key_label(self.key)


def key_label(key: tuple[str, int]) -> str:
    tag, index = key
    return f"{tag}:{index}" if tag and index else tag or (f":{index}" if index else "")


def first_text(message: Field, name: str) -> str:
    """The text of the first field of a name, or the empty text."""
    return next((inner.text for inner in message.all_of(name) if inner.text is not None), "")


def ports_of(message: Field, name: str) -> list[Port]:
    """The ports of a list, in its order. An untagged one has the number of the untagged ones before it as its index."""
    found: list[Port] = []
    for inner in message.all_of(name):
        if inner.text is None:
            continue
        *head, stream = inner.text.split(":")
        tag = head[0] if head else ""
        number = sum(not port.tag for port in found) if not tag else 0
        index = int(head[1]) if len(head) > 1 and head[1].isdigit() else number
        found.append(Port(tag, index, stream, inner.text, inner.value.at))
    return found


def read_key(text: str) -> tuple[str, int]:
    """The input that a `tag_index` names."""
    tag, _, index = text.partition(":")
    return tag, int(index) if index.isdigit() else 0


def is_true(field: Field | None) -> bool:
    return field is not None and isinstance(field.value, Scalar) and field.value.text in ("true", "True", "t", "1")


@dataclass
class Node:
    """A node of the expanded graph: its fields in a file, its ports under their new names, and the subgraph nodes that it
    came through, the outermost first, each with its file."""
    number: int
    file: File
    field: Field
    ports: dict[str, list[Port]]
    name: str
    through: list[tuple[File, Field, int]] = attribute(default_factory=list)

    @property
    def calculator(self) -> str:
        return first_text(self.field, "calculator")

    @property
    def label(self) -> str:
        return self.name or self.calculator

    @property
    def place(self) -> str:
        return self.file.place(self.field.at)

    @property
    def inputs(self) -> list[Port]:
        return self.ports["input_stream"]

    @property
    def outputs(self) -> list[Port]:
        return self.ports["output_stream"]

    @property
    def back_edges(self) -> set[tuple[str, int]]:
        """The inputs that are marked as back edges."""
        infos = self.field.all_of("input_stream_info")
        return {read_key(first_text(info, "tag_index")) for info in infos if is_true(next(iter(info.all_of("back_edge")), None))}

    @property
    def is_free(self) -> bool:
        """Whether it takes packets as they arrive."""
        handler = next(iter(self.field.all_of("input_stream_handler")), None)
        at_once = handler is not None and first_text(handler, "input_stream_handler") == "ImmediateInputStreamHandler"
        return self.calculator == "FlowLimiterCalculator" or self.calculator == "MergeCalculator" and at_once

    @property
    def options(self) -> list[Field]:
        """The messages in `options` and `node_options`, in the order of the text."""
        return [inner for outer in self.field.fields if outer.name in ("options", "node_options") for inner in outer.fields]

    def describe(self) -> str:
        """The node as a person finds it: its number, name, calculator, and the subgraph nodes round it."""
        said = f"node {self.number}"
        if self.name:
            said += f" `{self.name}`"
        said += f" ({self.calculator})" if self.calculator else " (no calculator)"
        if self.through:
            file, outer, _ = self.through[-1]
            said += f", made by the subgraph node at {file.place(outer.at)}"
        return said


@dataclass
class Graph:
    """The expanded graph: its main file, all files, its own ports and its nodes."""
    files: list[File]
    ports: dict[str, list[Port]]
    nodes: list[Node]
    level: Level

    @property
    def inputs(self) -> list[Port]:
        return self.ports["input_stream"]

    @property
    def outputs(self) -> list[Port]:
        return self.ports["output_stream"]

    def streams(self) -> list[str]:
        """All streams that somebody writes, in the order of their numbers."""
        return list(dict.fromkeys([port.name for port in self.inputs] + [p.name for node in self.nodes for p in in_order(node.outputs)]))

    def writers(self, kind: str = "stream") -> dict[str, list[tuple[Node | None, Port]]]:
        """Who writes each stream (or side packet): a node, or none for the graph's own input."""
        found: dict[str, list[tuple[Node | None, Port]]] = {}
        for port in self.ports[f"input_{kind}" if kind == "stream" else "input_side_packet"]:
            found.setdefault(port.name, []).append((None, port))
        for node in self.nodes:
            for port in node.ports[f"output_{kind}"]:
                found.setdefault(port.name, []).append((node, port))
        return found

    def readers(self, kind: str = "stream") -> dict[str, list[tuple[Node | None, Port]]]:
        """Who reads each stream (or side packet): nodes, and none for the graph's own output, last."""
        found: dict[str, list[tuple[Node | None, Port]]] = {}
        for node in self.nodes:
            for port in node.ports[f"input_{kind}"]:
                found.setdefault(port.name, []).append((node, port))
        for port in self.ports[f"output_{kind}"]:
            found.setdefault(port.name, []).append((None, port))
        return found


def in_order(ports: list[Port]) -> list[Port]:
    """Ports by tag, in byte order and the untagged ones first, and then by index."""
    return sorted(ports, key=lambda port: port.key)


class NotExpandable(Exception):
    """The files can't be expanded: one uses itself, or too many nodes would come of them."""


def expand(files: list[File]) -> Graph:
    """The expanded graph of a main file and its further files."""
    library: dict[str, File] = {}
    for file in files[1:]:
        if file.type:
            library.setdefault(file.type, file)
    main = files[0].root
    level = level_of(files[0], library, Names(), [])
    nodes = list(level.nodes())
    if len(nodes) > MOST_NODES:
        raise NotExpandable("too many nodes")
    for number, node in enumerate(nodes):
        node.number = number
    return Graph(files, {name: ports_of(main, name) for name in LISTS}, nodes, level)


@dataclass
class Names:
    """The new names inside a subgraph node: those at its ports, and a prefix for all others."""
    streams: dict[str, str] = attribute(default_factory=dict)
    sides: dict[str, str] = attribute(default_factory=dict)
    prefix: str = ""

    def port(self, port: Port, is_side: bool) -> Port:
        known = self.sides if is_side else self.streams
        return replace(port, name=known.get(port.name, self.prefix + port.name))

    def node(self, name: str) -> str:
        return self.prefix + name if name else ""


@dataclass
class Level:
    """A file in one of its uses: the subgraph node that uses it, none for the main graph; that node's ports; the ports of the file
    itself, under the names that they have in the expanded graph; and its nodes and further levels, in the order of the file."""
    file: File
    field: Field | None
    ports: dict[str, list[Port]]
    own: dict[str, list[Port]]
    prefix: str
    items: list[Node | Level] = attribute(default_factory=list)

    def nodes(self) -> Iterator[Node]:
        for item in self.items:
            if isinstance(item, Node):
                yield item
            else:
                yield from item.nodes()

    @property
    def title(self) -> str:
        """The name of the subgraph node, and its type."""
        name = first_text(self.field, "name") if self.field else ""
        return f"{name}: {self.file.type}" if name else self.file.type


def level_of(file: File, library: dict[str, File], names: Names, through: list[tuple[File, Field, int]], ports: dict[str, list[Port]] | None = None) -> Level:
    """A file under the names that it gets, with all that it uses."""
    if any(library.get(first_text(outer, "calculator")) is file for _, outer, _ in through[:-1]) or len(through) > 64:
        raise NotExpandable(f"{file.name} uses itself")
    own = {name: [names.port(port, "side" in name) for port in ports_of(file.root, name)] for name in LISTS}
    level = Level(file, through[-1][1] if through else None, ports or own, own, names.prefix)
    count = 0
    for number, field in enumerate(file.root.all_of("node")):
        ports = {name: [names.port(port, "side" in name) for port in ports_of(field, name)] for name in LISTS}
        inner = library.get(first_text(field, "calculator"))
        if inner is None:
            level.items.append(Node(-1, file, field, ports, names.node(first_text(field, "name")), through))
            continue
        inside = inner_names(inner, ports, f"{names.prefix}s{number}__")
        level.items.append(level_of(inner, library, inside, [*through, (file, field, number)], ports))
        count += sum(1 for _ in level.items[-1].nodes())
        if count > MOST_NODES:
            raise NotExpandable("too many nodes")
    return level


def inner_names(file: File, ports: dict[str, list[Port]], prefix: str) -> Names:
    """The names inside a subgraph node: an inner name at a port that the node connects gets the node's name there."""
    names = Names(prefix=prefix)
    for name in LISTS:
        outer = {port.key: port.name for port in ports[name]}
        known = names.sides if "side" in name else names.streams
        for port in ports_of(file.root, name):
            if port.key in outer:
                known[port.name] = outer[port.key]
    return names


def find(message: Field, path: str) -> Field | None:
    """The field at a path as the notes have it: `node[2].input_stream[0]`. A part without a number is the first of its name."""
    for part in path.split("."):
        name, number = re.fullmatch(r"(.*?)(?:\[(\d+)\])?", part).groups()
        same = message.all_of(name)
        if int(number or 0) >= len(same):
            return None
        message = same[int(number or 0)]
    return message


def parent(message: Field, path: str) -> tuple[Field | None, str]:
    """The message that a path's last field stands in, and that field's name. An extension's name may hold points."""
    parts = re.findall(r"\[[A-Za-z_][^\]]*\]|[^.\[\]]+(?:\[\d+\])?", path)
    outer = ".".join(parts[:-1])
    return (find(message, outer) if outer else message), re.sub(r"\[\d+\]$", "", parts[-1] if parts else path)
