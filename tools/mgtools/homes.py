"""Where a name of the expanded graph is at home, and what would give it a writer there."""
from __future__ import annotations

from dataclasses import dataclass

from .graph import Field, File, Graph, Node, Port, first_text, ports_of
from .near import near, said as near_said


@dataclass
class Home:
    """The file whose text has a name, the name as it stands there, and, but for the main graph, the subgraph node that uses the file, with its
    own file."""
    file: File
    name: str
    outer: tuple[File, Field] | None = None

    @classmethod
    def of(cls, graph: Graph, node: Node | None, name: str, kind: str) -> Home:
        """The home of a name that a node reads, or the graph itself: the innermost file on the way to the node whose prefix the name has, or one
        inside it that hands the name out."""
        through = node.through if node else []
        home = cls(graph.files[0], name)
        prefix = ""
        for depth, (file, field, number) in enumerate(through):
            prefix += f"s{number}__"
            if not name.startswith(prefix):
                break
            inner = through[depth + 1][0] if depth + 1 < len(through) else node.file
            home = cls(inner, name[len(prefix):], (file, field))
        return home.inside({file.type: file for file in graph.files[1:] if file.type}, f"output_{kind}")

    def inside(self, library: dict[str, File], field: str) -> Home:
        """The home of a name that a subgraph node hands out, without a writer: the file that the node stands for."""
        for node in self.file.root.all_of("node"):
            key = next((port.key for port in ports_of(node, field) if port.name == self.name), None)
            inner = library.get(first_text(node, "calculator")) if key else None
            own = next((port.name for port in ports_of(inner.root, field) if port.key == key), None) if inner else None
            if own:
                return Home(inner, own, (self.file, node)).inside(library, field)
        return self

    def port(self, kind: str) -> Port | None:
        """The port of the file by which the name comes in, where there is one."""
        return next((port for port in ports_of(self.file.root, f"input_{kind}") if port.name == self.name), None)


def written(file: File, kind: str) -> list[str]:
    """The names that have a writer in a file: those at its inputs, and at the outputs of its nodes."""
    ports = ports_of(file.root, f"input_{kind}")
    for node in file.root.all_of("node"):
        ports += ports_of(node, f"output_{kind}")
    return [port.name for port in ports]


def hints(home: Home, kind: str, name: str) -> list[str]:
    """What would give a name a writer: a clause where it is one of the main graph, and else a sentence behind an empty clause."""
    field = f"input_{kind}"
    other = "side_packet" if kind == "stream" else "stream"
    hint = near_said(home.name, written(home.file, kind))
    if home.name in written(home.file, other):
        hint = f"; there is a {other.replace('_', ' ')} of this name, which is another thing"
    if home.outer is None:
        return [hint or f"; if it comes into the graph, it needs a field `{field}: \"{home.name}\"`"]
    file, node = home.outer
    port = home.port(kind)
    what = f"`{name}` is `{home.name}` of {home.file.name}"
    if port:
        return ["", f"{what}, which comes in at its port `{port.spelled}`, and the subgraph node at {file.place(node.at)} leaves this port open: "
                    + to_connect(file, port, kind),
                "MediaPipe lets it stay open, and takes it from the nodes inside: `tools/port --stand-ins` writes the file so "
                "(docs/guide/porting.md#ports-that-nobody-connects)"]
    return ["", what + (hint or f"; if it comes in from outside, that file needs a port for it, as `{field}: \"TAG:{home.name}\"`, "
                                f"and the subgraph node at {file.place(node.at)} has to connect it")]


def to_connect(file: File, port: Port, kind: str) -> str:
    """The field that connects an open port: with the nearest name of the outer file, or with the port's own, which that file needs then."""
    found = near(port.name, written(file, kind), 1)
    if found:
        return f"give it `input_{kind}: \"{port.spelled[:len(port.spelled) - len(port.name)]}{found[0]}\"`"
    name = f"{port.tag}:{port.name}" if port.tag else port.name
    return f"give it `input_{kind}: \"{port.spelled}\"`, and {file.name}, which has no such {kind.replace('_', ' ')}, `input_{kind}: \"{name}\"`"
