"""A graph of MediaPipe's with all its files, ported at once: which files have to be written in place of calculators, which ports nobody connects,
and the text of each file. A file that is used in two ways, with other ports connected, becomes two.
"""
from __future__ import annotations

from dataclasses import dataclass, field as attribute, replace
from itertools import count
from pathlib import Path

from .graph import LISTS, MOST_NODES, Field, File, Node, NotExpandable, Port, expand, first_text, is_true, ports_of, read_key
from .kinds import kinds, option_faults, port_faults
from .near import said as near_said
from .porting import DEFAULTS, OF_OPTION_VALUES, OF_STOOD_IN, edited, gone_of_graph, gone_of_node, is_in_list
from .stand_ins import Key, StandIn, listed
from .textform import Scalar, TextFault
from .wanted import Wanted

INPUTS = ("input_stream", "input_side_packet")
MOST_FILES, MOST_INPUTS = 64, 64


class Refusal(Exception):
    """The files can't be ported, for the reason that it says."""


@dataclass(frozen=True)
class Ends:
    """The inputs of a file that a node connects, each list by its name, and those of its streams that close a loop."""
    connected: tuple[frozenset[Key], frozenset[Key]]
    back: frozenset[Key]


@dataclass
class Use:
    """A file as it is used in one way: its type, the fields that go from it, and the texts that others take the place of."""
    file: File
    type: str
    gone: list[tuple[Field, str]] = attribute(default_factory=list)
    renamed: list[tuple[Scalar, str]] = attribute(default_factory=list)
    notes: list[tuple[int, str]] = attribute(default_factory=list)

    @property
    def text(self) -> bytes:
        return edited(self.file.data, [field for field, _ in self.gone], self.renamed)

    def said(self) -> list[str]:
        """What became of the file, in the order of its text."""
        lines = [(field.at, f"{why}; taken out") for field, why in self.gone] + self.notes
        return [f"{self.file.place(at)}: {line}" for at, line in sorted(lines, key=lambda pair: pair[0])]


class Porter:
    """Ports a graph with its further files."""

    def __init__(self, files: list[File], latencies: dict[str, int]):
        self.main, *further = files
        self.further = further
        self.library: dict[str, File] = {}
        for file in further:
            if file.type in self.library:
                raise Refusal(f"{file.name}: {self.library[file.type].name} has the type `{file.type}` too: name one of the two files alone")
            if file.type:
                self.library[file.type] = file
        self.types = {*kinds(), *self.library, *(first_text(node, "calculator") for file in files for node in file.root.all_of("node"))}
        self.uses: dict[tuple[str, Ends | None], Use] = {}
        self.stand_ins: dict[tuple, StandIn] = {}
        self.use(self.main, None, ())
        self.set_latencies(latencies)
        self.look_at_kinds()

    def written(self) -> list[tuple[str, bytes]]:
        """The files that the graph needs, each with its name: those that are used, as they are now, and those that stand in."""
        found = [(of_type(use, use.file.name.rsplit("/", 1)[-1]), use.text) for use in list(self.uses.values())[1:]]
        found += [(one.file, one.text().encode()) for one in self.stand_ins.values()]
        names = [name for name, _ in found]
        twice = next((name for name in names if names.count(name) > 1), None)
        if twice:
            raise Refusal(f"two files would have the name {twice}: give one another name")
        if len(found) > MOST_FILES:
            raise Refusal(f"{len(found)} files would be needed beside the graph, and mg takes {MOST_FILES}")
        return found

    def own_type(self, name: str) -> str:
        """A type for a further way to use a file, or to stand in for a calculator: the name with a number."""
        found = next(one for one in (f"{name}_{number}" for number in count(2)) if one not in self.types)
        self.types.add(found)
        return found

    def use(self, file: File, ends: Ends | None, through: tuple[File, ...]) -> Use:
        """The file with the inputs that a node connects; the main graph has no such node."""
        if any(one is file for one in through):
            raise Refusal(f"{file.name}: `{file.type}` uses itself")
        known = self.uses.get((file.name, ends))
        if known:
            return known
        use = Use(file, self.own_type(file.type) if any(one.file is file for one in self.uses.values()) else file.type)
        self.uses[file.name, ends] = use
        if use.type != file.type:
            use.renamed.append((file.root.all_of("type")[0].value, use.type))
            use.notes.append((0, f"it is used in two ways, with other ports connected; this is `{use.type}`"))
        for field in file.fields:
            use.gone += gone_of_graph(field)
            if field.name in OF_OPTION_VALUES:
                use.gone.append((field, f"only `option_value` of a node reads `{field.name}`, and no node has it here"))
        loose, back = (open_names(file, ends) if ends else ({}, set()))
        for node in file.root.all_of("node"):
            self.node(use, node, loose, back, (*through, file))
        for field, _ in use.gone:
            if is_in_list(file.data, field):
                raise Refusal(f"{file.place(field.at)}: `{field.name}` has to go from a list: write each of its elements as a field of its own")
        return use

    def node(self, use: Use, node: Field, loose: dict[str, dict[str, str]], back: set[str], through: tuple[File, ...]) -> None:
        """A node of a file. `loose` are the names of its inputs that nobody connects, each with its port, and `back` those that close a loop."""
        name = first_text(node, "calculator")
        if not name:
            return
        left = self.connected(use, node, loose)
        ports = {part: ports_of(left, part) for part in LISTS}
        self.look_for_gaps(use, ports)
        closing = {port.key for port in ports["input_stream"] if port.name in back} | marked(left)
        if name in self.library:
            ends = Ends(tuple(frozenset(port.key for port in ports[part]) for part in INPUTS), frozenset(closing))
            to, stood_in = self.use(self.library[name], ends, through).type, OF_STOOD_IN
        else:
            stand_in = self.stand_in(use, node, left, ports, closing)
            to, stood_in = (stand_in.type, OF_STOOD_IN) if stand_in else (name, ())
        use.gone += gone_of_node(left, stood_in)
        if to != name:
            use.renamed.append((node.all_of("calculator")[0].value, to))
            use.notes.append((node.at, f"`{name}` is `{to}` from now on"))

    def connected(self, use: Use, node: Field, loose: dict[str, dict[str, str]]) -> Field:
        """The node without the inputs that lead from ports of the file which nobody connects."""
        kept: list[Field] = []
        for field in node.fields:
            port = field.text.split(":")[-1] if field.name in INPUTS and field.text is not None else None
            if port in loose.get(field.name, {}):
                use.gone.append((field, f"nothing is connected to {loose[field.name][port]} of `{use.type}`, so nobody writes `{field.text}`"))
            else:
                kept.append(field)
        return replace(node, value=kept)

    def look_for_gaps(self, use: Use, ports: dict[str, list[Port]]) -> None:
        for part in INPUTS:
            keys = {port.key for port in ports[part]}
            for port in ports[part]:
                if port.index and (port.tag, port.index - 1) not in keys:
                    raise Refusal(f"{use.file.place(port.at)}: `{port.spelled}` has no port of {port.tag} before it any more, since nobody connects that: "
                                  "number the ports of this tag from 0")

    def stand_in(self, use: Use, node: Field, left: Field, ports: dict[str, list[Port]], closing: set[Key]) -> StandIn | None:
        """The file that stands in for the node's calculator; none where mg has the calculator."""
        name = first_text(node, "calculator")
        why = ""
        if name in kinds():
            why = self.misfit(use, left, ports)
            if not why:
                return None
        read, unread = ([port.key for port in ports["input_stream"] if (port.key in closing) == is_back] for is_back in (False, True))
        is_source = not node.all_of("input_stream")
        key = (name, frozenset(read), frozenset(unread), is_source)
        one = self.stand_ins.get(key)
        if one is None:
            is_taken = name in kinds() or name in [other.calculator for other in self.stand_ins.values()]
            one = StandIn(name, self.own_type(name) if is_taken else name, why, unread=unread, source=is_source)
            one.ports["input_stream"] = read
            self.stand_ins[key] = one
        if use.file.place(node.at) not in one.places:
            one.places.append(use.file.place(node.at))
        for part in LISTS[1:]:
            one.ports[part] += [port.key for port in ports[part] if port.key not in one.ports[part]]
        policy = first_text(next(iter(node.all_of("input_stream_handler")), node), "input_stream_handler")
        if policy not in ("", DEFAULTS["input_stream_handler"], *one.policies):
            one.policies.append(policy)
        self.look_at_ports(one, use.file.place(node.at))
        return one

    def look_at_ports(self, one: StandIn, place: str) -> None:
        """Refuses ports that no file can have which stands in."""
        ins, outs = one.ports["input_stream"], one.ports["output_stream"]
        if len(ins) > MOST_INPUTS or len(one.ports["output_side_packet"]) > MOST_INPUTS:
            raise Refusal(f"{place}: {one.calculator} has more than {MOST_INPUTS} inputs or output side packets: write a file that stands in for it")
        if not one.loop_end:
            return
        wanted, made = (("ITERABLE",), ("BATCH_END", "ITEM")) if one.loop_end == "Begin" else (("BATCH_END", "ITEM"), ("ITERABLE",))
        others = (("CLONE", "TICK"), ("CLONE",)) if one.loop_end == "Begin" else ((), ())
        bad = [key for keys, tags, more in zip((ins, outs), (wanted, made), others) for key in keys if key[0] not in (*tags, *more) or key[0] in tags and key[1]]
        missing = [tag for tag in wanted if (tag, 0) not in ins] + [tag for tag in made if one.loop_end == "End" and (tag, 0) not in outs]
        bad += one.unread + [key for key in outs if key[0] == "CLONE" and key not in ins]
        if bad or missing:
            fault = f"the port {listed(bad[:1], 'without a tag')}" if bad else f"no port {missing[0]}"
            raise Refusal(f"{place}: {one.calculator} has {fault}, and mg's loops over lists aren't so: write a file that stands in for it")

    def misfit(self, use: Use, left: Field, ports: dict[str, list[Port]]) -> str:
        """Why a calculator of mg's own isn't what this node wants, where a file can stand in for it; and else a note of that."""
        node = Node(-1, use.file, left, ports, "")
        going = [field.at for field, _ in gone_of_node(left, ())]
        faults = [(at, what) for at, what in [*port_faults(node), *option_faults(node)] if at not in going]
        if not faults:
            return ""
        ends = [{port.key for port in ports[part]} for part in LISTS[:2]]
        if node.calculator == "GateCalculator" and ends[0] == ends[1] != set() or node.calculator == "ConstantSidePacketCalculator" and not ends[0] | ends[1]:
            return f"mg's {node.calculator} isn't so: {faults[0][1]}"
        use.notes += [(at, f"{what}; left as it is, and `mg check` refuses it") for at, what in faults]
        return ""

    def set_latencies(self, latencies: dict[str, int]) -> None:
        for name, latency in latencies.items():
            found = [one for one in self.stand_ins.values() if one.calculator == name]
            if not found:
                close = near_said(name, [one.calculator for one in self.stand_ins.values()])
                raise Refusal(f"--latency {name}: no file is written in place of `{name}`{close}")
            for one in found:
                if one.loop_end or not one.ports["output_stream"]:
                    what = "an end of a loop over lists" if one.loop_end else "a calculator without output streams"
                    raise Refusal(f"--latency {name}: {what} has no latency")
                one.latency = latency

    def look_at_kinds(self) -> None:
        """Finds which outputs have to be truth values, and tells which packets have to be lists or numbers."""
        try:
            files = [File.of(use.file.name, use.text) for use in self.uses.values()]
            graph = expand(files)
        except TextFault as fault:
            raise Refusal(f"{self.main.name}: what is left is no text, {fault}") from None
        except NotExpandable:
            raise Refusal(f"{self.main.name}: more than {MOST_NODES} nodes would come of it") from None
        by_type = {one.type: one for one in self.stand_ins.values()}
        wanted = Wanted(graph, by_type)
        merging = [(node, by_type[node.calculator]) for node in graph.nodes if node.calculator in by_type and by_type[node.calculator].merges]
        for node, one in merging:
            one.flags |= {port.key for port in node.outputs if wanted.is_flag(port.name)}
        for node, one in merging:
            if one.source:
                one.needs = [what for port in node.outputs for what in wanted.said(port.name, listed([port.key], "the output"))]
        self.of_inputs = [f"{graph.files[0].place(port.at)}: {what}" for port in graph.inputs for what in wanted.said(port.name, f"`{port.name}`")]

    def said(self, folder: Path) -> list[str]:
        """What a person has to know: what went, and what each file that was written assumes."""
        lines = list(dict.fromkeys(line for use in self.uses.values() for line in use.said()))
        used = [use.file for use in self.uses.values()]
        lines += [f"{file.name}: {'no node uses its type' if file.type else 'it has no `type`, so no node can use it'}; left out"
                  for file in self.further if not any(one is file for one in used)]
        for one in self.stand_ins.values():
            more = f" and {len(one.places) - 1} more" if len(one.places) > 1 else ""
            said = "; ".join(one.assumes())
            lines.append(f"{folder / one.file}: stands in for {one.calculator} at {one.places[0]}{more}" + (f": {said}" if said else ""))
        return lines + self.of_inputs


def marked(node: Field) -> set[Key]:
    """The inputs that a node marks as back edges."""
    return {read_key(first_text(info, "tag_index")) for info in node.all_of("input_stream_info") if is_true(next(iter(info.all_of("back_edge")), None))}


def open_names(file: File, ends: Ends) -> tuple[dict[str, dict[str, str]], set[str]]:
    """The names inside a file of the inputs that a node doesn't connect, each with its port, and of the streams that close a loop."""
    loose = {part: {port.name: listed([port.key], part.replace("_", " ")) for port in ports_of(file.root, part) if port.key not in keys}
             for part, keys in zip(INPUTS, ends.connected)}
    return loose, {port.name for port in ports_of(file.root, "input_stream") if port.key in ends.back}


def of_type(use: Use, name: str) -> str:
    """The name of a file, with the number of its type where it has one."""
    number = use.type[len(use.file.type):]
    stem, dot, end = name.rpartition(".")
    return f"{stem}{number}{dot}{end}" if dot else name + number
