"""An expanded graph as a file of its own, which can be changed: nodes set aside, streams renamed, inputs and outputs added."""
from __future__ import annotations

from .graph import Graph, Node, Port

# So many outputs a graph has at most that inputs of nodes which were set aside may still become some.
MOST_KEPT = 200


class Flat:
    """An expanded graph that can be changed: the nodes that are left, and the inputs that stand in for what was set aside."""

    def __init__(self, graph: Graph):
        self.graph = graph
        self.nodes = list(graph.nodes)
        self.ports = {name: list(ports) for name, ports in graph.ports.items()}
        self.fresh = 0
        # What stands in for something that was set aside.
        self.stands_in: set[str] = set()

    def text(self) -> str:
        """The graph as a file without subgraphs. Options are copied from the file in which the node stands."""
        lines = [f'{name}: "{spelled(port)}"' for name, ports in self.ports.items() for port in ports]
        for node in self.nodes:
            lines.append("node {")
            lines += [f'{name}: "{spelled(port)}"' for name, ports in node.ports.items() for port in ports]
            lines += [node.file.data[one.at:one.end].decode() for one in node.field.fields if one.name not in node.ports and one.name != "name"]
            lines.append("}")
        return "\n".join(lines) + "\n"

    def with_outputs(self, streams: list[str]) -> str:
        """The graph with these outputs in place of its own."""
        own, self.ports["output_stream"] = self.ports["output_stream"], [Port("", 0, name, name) for name in streams]
        text = self.text()
        self.ports["output_stream"] = own
        return text

    def drop(self, node: Node) -> None:
        """Sets a node aside: its outputs are inputs of the graph from now on, and its inputs outputs, so that they are still read."""
        self.nodes.remove(node)
        for kind in ("stream", "side_packet"):
            for port in node.ports[f"output_{kind}"]:
                self.stands_in.add(port.name)
                self.give(kind, port.name)
            outputs = self.ports[f"output_{kind}"]
            for port in node.ports[f"input_{kind}"]:
                if port.name not in [one.name for one in outputs] and len(outputs) < MOST_KEPT:
                    self.fresh += 1
                    outputs.append(Port(f"KEPT{self.fresh}", 0, port.name, f"KEPT{self.fresh}:{port.name}"))

    def give(self, kind: str, name: str) -> None:
        """Makes a stream or side packet an input of the graph, unless somebody writes it."""
        if name not in self.writers(kind):
            self.fresh += 1
            self.ports[f"input_{kind}"].append(Port(f"GIVEN{self.fresh}", 0, name, f"GIVEN{self.fresh}:{name}"))

    def writers(self, kind: str) -> list[str]:
        return [port.name for ports in [self.ports[f"input_{kind}"], *(node.ports[f"output_{kind}"] for node in self.nodes)] for port in ports]

    def rename(self, node: Node, name: str, port: Port) -> str:
        """Gives a port of a node a stream of its own."""
        self.fresh += 1
        own = f"aside_{self.fresh}"
        node.ports[name] = [Port(one.tag, one.index, own if one.key == port.key else one.name, one.spelled, one.at) for one in node.ports[name]]
        return own


def spelled(port: Port) -> str:
    return f"{port.tag}:{port.index}:{port.name}" if port.tag else port.name
