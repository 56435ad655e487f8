"""Explains the notes of the expansion and of the check: which node or stream it is, where it stands, and what would fit."""
from __future__ import annotations

from .counterparts import counterpart
from .graph import LISTS, Field, File, Graph, Node, Port, first_text, key_label, ports_of, read_key
from .homes import Home, hints
from .kinds import kinds, needs_back_edge, option_faults, port_faults, port_kind
from .near import CALCULATOR, POLICY, listed, near_stems, said as near_said
from .notes import Note

# What helps with a calculator that isn't there, whatever else is said.
STAND_IN = ("no file that was named has this `type`: if it is a subgraph, name its file too; if it is MediaPipe's, a file of this type can stand in "
            "for it, which `tools/port --stand-ins` writes (docs/guide/porting.md)")


def owner_file(owner: str, files: list[File]) -> File | None:
    """The file that a note calls its owner: `main`, or a type."""
    return files[0] if owner == "main" else next((file for file in files[1:] if file.type == owner), None)


def owner_node(note: Note, files: list[File]) -> tuple[File | None, Field | None]:
    file = owner_file(note["owner"], files)
    nodes = file.root.all_of("node") if file else []
    return file, nodes[note["node"]] if note["node"] < len(nodes) else None


def type_twice(note: Note, files: list[File]) -> list[str]:
    same = [file for file in files[1:] if file.type == note["name"]]
    if len(same) < 2:
        return [f"two further files have the type `{note['name']}`: name each file once"]
    at = same[1].root.all_of("type")[0].at
    return [f"{same[1].place(at)}: {same[0].name} has the type `{note['name']}` too: name one of the two files alone"]


def recursive(note: Note, files: list[File]) -> list[str]:
    """The way on which a type uses itself."""
    library = {file.type: file for file in files[1:] if file.type}
    way: list[str] = []

    def leads_back(kind: str, seen: tuple[str, ...]) -> bool:
        for field in library[kind].root.all_of("node") if kind in library else []:
            inner = first_text(field, "calculator")
            if inner == note["name"] or (inner in library and inner not in seen and leads_back(inner, (*seen, inner))):
                way.insert(0, f"{library[kind].place(field.at)}: `{kind}` uses `{inner}` here")
                return True
        return False

    leads_back(note["name"], (note["name"],))
    return way + ["take one of these uses away: a subgraph can't hold itself"]


def too_many_nodes(note: Note, files: list[File]) -> list[str]:
    library = {file.type: file for file in files[1:] if file.type}
    counts: dict[str, int] = {}

    def count(file: File, depth: int = 0) -> int:
        if depth > 64:
            return 0
        return sum(count(library[name], depth + 1) if (name := first_text(field, "calculator")) in library else 1
                   for field in file.root.all_of("node"))

    for field in files[0].root.all_of("node"):
        name = first_text(field, "calculator")
        counts[name] = counts.get(name, 0) + (count(library[name]) if name in library else 1)
    most = sorted(counts.items(), key=lambda pair: -pair[1])[:3]
    return [f"{files[0].name}: {sum(counts.values())} nodes would come of it, and 4096 are the most; most come of "
            + ", ".join(f"`{name}` ({number})" for name, number in most)]


def reserved_name(note: Note, files: list[File]) -> list[str]:
    for file in files:
        for message in [file.root, *file.root.all_of("node")]:
            places = [port.at for kind in LISTS for port in ports_of(message, kind) if port.name == note["name"]]
            places += [field.at for field in message.all_of("name") if field.text == note["name"]]
            if places:
                return [f"{file.place(places[0])}: `{note['name']}` begins as the names that an expansion makes (s, digits, __): call it "
                        f"otherwise, as `{note['name'].replace('__', '_', 1)}`"]
    return [f"the name `{note['name']}` begins as those that an expansion makes: call it otherwise"]


def port_shared(note: Note, files: list[File]) -> list[str]:
    file = owner_file(note["owner"], files)
    if file is None:
        return [f"the file of type `{note['owner']}` has the name `{note['name']}` at two ports"]
    for lists in (LISTS[:2], LISTS[2:]):
        ports = [port for kind in lists for port in ports_of(file.root, kind) if port.name == note["name"]]
        if len(ports) > 1:
            return [f"{file.place(ports[1].at)}: `{note['name']}` stands at a second port of `{note['owner']}`; the first is at "
                    f"{file.place(ports[0].at)}: put a PassThroughCalculator between them"]
    return [f"{file.name}: `{note['name']}` stands at two ports"]


def bad_field(note: Note, files: list[File]) -> list[str]:
    file, node = owner_node(note, files)
    if node is None:
        return [f"node {note['node']} of {note['owner']} is a subgraph node and has the field `{note['field']}`"]
    names = ("options", "node_options") if note["field"] == "options" else (note["field"],)
    field = next((inner for inner in node.fields if inner.name in names), node)
    return [f"{file.place(field.at)}: `{first_text(node, 'calculator')}` is a subgraph, and a subgraph node can't have `{field.name}`: "
            "set it at a node inside the file"]


def no_such_port(note: Note, files: list[File]) -> list[str]:
    file, node = owner_node(note, files)
    inner = next((one for one in files[1:] if node and one.type == first_text(node, "calculator")), None)
    if inner is None:
        return [f"node {note['node']} of {note['owner']} connects the port `{note['port']}`, which its file doesn't have"]
    for kind in LISTS:
        theirs = ports_of(inner.root, kind)
        for port in ports_of(node, kind):
            if port.spelled == note["port"] or port.key == key_of(note["port"]) and port.name == note["port"].split(":")[-1]:
                if port.key not in [one.key for one in theirs]:
                    has = ", ".join(f"`{one.spelled}`" for one in theirs) or "none"
                    called = kind.replace("_", " ")
                    return [f"{file.place(port.at)}: `{inner.type}` ({inner.name}) has no {called} of the tag and index of `{port.spelled}`; "
                            f"its {called}s are {has}" + near_said(port.tag, [one.tag for one in theirs if one.tag])]
    return [f"{file.place(node.at)}: the port `{note['port']}` isn't one of `{inner.type}` ({inner.name})"]


def key_of(port: str) -> tuple[str, int]:
    *head, _ = port.split(":")
    return read_key(":".join(head))


def node_of(note: Note, graph: Graph) -> Node | None:
    return graph.nodes[note["node"]] if note["node"] < len(graph.nodes) else None


def unknown_calculator(note: Note, graph: Graph) -> list[str]:
    node = node_of(note, graph)
    name = node.calculator
    here = counterpart(name)
    close = [] if here else near_stems(name, [*kinds(), *(file.type for file in graph.files[1:] if file.type)], CALCULATOR)
    said = f"{node.place}: {node.describe()}: mg has no calculator `{name}`{listed(close)}"
    return [said, here, STAND_IN] if here else [said, STAND_IN]


def no_more_boxes(note: Note, graph: Graph) -> list[str]:
    same = [node for node in graph.nodes if node.calculator == note["name"]]
    over = same[note["has"]] if len(same) > note["has"] else same[-1]
    return [f"{over.place}: {over.describe()} is the first that gets none: {note['needs']} nodes name `{note['name']}`, and there are {note['has']} of it"]


def bad_ports(note: Note, graph: Graph) -> list[str]:
    node = node_of(note, graph)
    faults = port_faults(node)
    return [f"{node.file.place(at)}: {node.describe()}: {what}" for at, what in faults] or [
        f"{node.place}: {node.describe()}: its ports don't fit its calculator: docs/guide/calculators.md has them"]


def bad_options(note: Note, graph: Graph) -> list[str]:
    node = node_of(note, graph)
    faults = option_faults(node)
    return [f"{node.file.place(at)}: {node.describe()}: {what}" for at, what in faults] or [
        f"{node.place}: {node.describe()}: its options don't fit its calculator: docs/guide/calculators.md has them"]


# The policies that there are: the calculators that take each, none where all but a limiter do.
POLICIES = {"DefaultInputStreamHandler": (), "MuxInputStreamHandler": ("MuxCalculator",),
            "ImmediateInputStreamHandler": ("MergeCalculator", "FlowLimiterCalculator")}


def unsupported(note: Note, graph: Graph) -> list[str]:
    """A policy that a node can't have, and those that it can."""
    node = node_of(note, graph)
    field = next(iter(node.field.all_of("input_stream_handler")), node.field)
    name = first_text(field, "input_stream_handler")
    is_limiter = node.calculator == "FlowLimiterCalculator"
    fits = [policy for policy, takers in POLICIES.items() if (node.calculator in takers if takers else not is_limiter)]
    if name not in POLICIES:
        why = listed(near_stems(name, fits, POLICY)) or ": mg has none of this name (docs/guide/differences.md#input-policies)"
    elif POLICIES[name]:
        why = f": it fits {' and '.join(POLICIES[name])} alone"
    else:
        why = ": it takes each packet as it arrives, and waits for no time to be settled"
    return [f"{node.file.place(field.at)}: {node.describe()} can't have the input policy `{name}`{why}",
            f"leave the field out, or name {' or '.join(f'`{policy}`' for policy in fits)}"]


def port_place(graph: Graph, end: tuple[Node | None, Port]) -> str:
    node, port = end
    return (node.file if node else graph.files[0]).place(port.at)


def whose(end: tuple[Node | None, Port], own: str) -> str:
    return end[0].describe() if end[0] else own


def two_producers(note: Note, graph: Graph) -> list[str]:
    for kind in ("stream", "side_packet"):
        ends = graph.writers(kind).get(note["name"], [])
        if len(ends) > 1:
            first, second = ends[:2]
            return [f"{port_place(graph, second)}: `{note['name']}` is written a second time, by {whose(second, 'the graph itself, as its input')}; the first time "
                    f"at {port_place(graph, first)}, by {whose(first, 'the graph itself, as its input')}: rename one of the two"]
    return [f"`{note['name']}` is written twice"]


def no_producer(note: Note, graph: Graph, kind: str = "stream") -> list[str]:
    name = note["name"]
    ends = graph.readers(kind).get(name, [])
    if not ends:
        return [f"nobody writes `{name}`"]
    hint, *behind = hints(Home.of(graph, ends[0][0], name, kind), kind, name)
    return [f"{port_place(graph, end)}: {whose(end, 'the graph, as its output,')} reads `{name}`, and nobody writes it{hint}" for end in ends[:3]] + behind


def kind_clash(note: Note, graph: Graph) -> list[str]:
    name = note["name"]
    said = []
    for end in graph.writers().get(name, []):
        kind = port_kind(end[0], "output_stream", end[1].key)
        if kind != "Any":
            said.append((end, f"{whose(end, 'the graph')} writes `{name}` with packets of the kind {kind}"))
    for end in graph.readers().get(name, []):
        kind = port_kind(end[0], "input_stream", end[1].key)
        if kind != "Any":
            said.append((end, f"{whose(end, 'the graph')} reads `{name}` at {end[1].label or 'an untagged port'}, which takes the kind {kind}"))
    return [f"{port_place(graph, end)}: {what}" for end, what in said] or [f"two kinds of packets meet at `{name}`"]


def back_edge_misplaced(note: Note, graph: Graph) -> list[str]:
    node = node_of(note, graph)
    keys = {port.key for port in node.inputs}
    for info in node.field.all_of("input_stream_info"):
        text = first_text(info, "tag_index")
        if read_key(text) not in node.back_edges:
            continue
        if read_key(text) not in keys:
            return [f"{node.file.place(info.at)}: {node.describe()} has no input `{text}`" + near_said(text, [key_label(key) or ":0" for key in keys])]
        if not needs_back_edge(node, read_key(text)):
            return [f"{node.file.place(info.at)}: {node.describe()}: only LOOP of a PreviousLoopbackCalculator and FINISHED of a FlowLimiterCalculator may be back edges, and `{text}` is neither: take this away"]
    return [f"{node.place}: {node.describe()} has a back edge where none may be"]


def cycle(note: Note, graph: Graph) -> list[str]:
    numbers = [int(number) for number in note["nodes"].split()]
    way = ring(graph, set(numbers))
    if not way:
        return [f"the nodes {', '.join(map(str, numbers))} wait for each other"]
    said = [f"{node.place}: {node.describe()} waits for `{port.name}`" for node, port in way]
    rest = [number for number in numbers if number not in [node.number for node, _ in way]]
    behind = f"; {', '.join(f'node {number}' for number in rest)} waits behind it or in a ring of its own" if rest else ""
    return said + [f"these wait for each other in a ring{behind}: let the loop go through LOOP of a PreviousLoopbackCalculator, and mark it as a back edge"]


def ring(graph: Graph, among: set[int]) -> list[tuple[Node, Port]]:
    """One ring of nodes that wait for each other: each with the input by which it waits for the next."""
    writers = {port.name: node.number for node in graph.nodes for port in node.outputs}
    way: list[tuple[Node, Port]] = []
    at = min(among) if among else None
    while at is not None and at not in [node.number for node, _ in way]:
        node = graph.nodes[at]
        port = next((one for one in node.inputs if writers.get(one.name) in among and one.key not in node.back_edges), None)
        if port is None:
            return []
        way.append((node, port))
        at = writers[port.name]
    return way[[node.number for node, _ in way].index(at):] if way else []


def too_many(note: Note, graph: Graph) -> list[str]:
    if note["what"] == "Outputs":
        return [f"{graph.files[0].name}: it has {len(graph.outputs)} graph outputs, and 256 are the most: take away those that nobody reads"]
    edges = sum(len(node.inputs) for node in graph.nodes) + len(graph.outputs)
    most = max(graph.readers().items(), key=lambda pair: len(pair[1]))
    return [f"{graph.files[0].name}: {edges} ports read a stream, and 16384 are the most; `{most[0]}` has the most readers, {len(most[1])}"]


def free_node(note: Note, graph: Graph) -> list[str]:
    node = node_of(note, graph)
    return [f"{node.place}: {node.describe()} is a free node: what it lays depends on the order in which packets arrive, and this command doesn't serve it: "
            "`run` the graph, or take the node away, as `tools/core` does (docs/guide/live.md#a-run-checked)"]


def own_law(note: Note, graph: Graph) -> list[str]:
    node = node_of(note, graph)
    return [f"{node.place}: {node.describe()} is a calculator of its author's own: `solve` computes by the laws of mg, and has no code for this one: "
            "`run` the graph"]
