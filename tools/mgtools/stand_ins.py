"""Files that stand in for calculators: each hands on what comes in, since what the calculator computes isn't known; and what each of them assumes."""
from __future__ import annotations

import re
from collections.abc import Iterable
from dataclasses import dataclass, field as attribute

from .counterparts import counterpart
from .graph import LISTS, key_label

# The tag and the index of a port.
Key = tuple[str, int]
# The names inside a file begin so, by the list of the port.
PREFIXES = {"input_stream": "in", "output_stream": "out", "input_side_packet": "side_in", "output_side_packet": "side_out"}
LOOP_END = re.compile(r"(Begin|End)Loop\w*Calculator")
# A stand-in for a source makes so many numbers, so far apart.
COUNT, STEP = 10, 33333


@dataclass
class StandIn:
    """A file that stands in for a calculator. `ports` has the tags and indexes of each list, those of the inputs without `unread` ones, which
    close loops. `flags` are the outputs that a truth value is wanted of, and `source` says that the calculator has no input at all."""
    calculator: str
    type: str
    why: str = ""
    ports: dict[str, list[Key]] = attribute(default_factory=lambda: {name: [] for name in LISTS})
    unread: list[Key] = attribute(default_factory=list)
    flags: set[Key] = attribute(default_factory=set)
    policies: list[str] = attribute(default_factory=list)
    places: list[str] = attribute(default_factory=list)
    needs: list[str] = attribute(default_factory=list)
    source: bool = False
    latency: int = 0

    @property
    def loop_end(self) -> str:
        """`Begin` or `End` where it is an end of a loop over lists."""
        match = LOOP_END.fullmatch(self.calculator)
        return match[1] if match else ""

    @property
    def is_gate(self) -> bool:
        return self.calculator == "GateCalculator"

    @property
    def merges(self) -> bool:
        """Whether each output hands on what comes first of all inputs."""
        return not self.loop_end and not self.is_gate

    @property
    def file(self) -> str:
        return re.sub(r"[^A-Za-z0-9_.-]", "_", self.type) + ".pbtxt"

    def takes(self, key: Key) -> str:
        """The kind of packets that an input takes."""
        return "Items" if self.loop_end == "Begin" and key[0] == "ITERABLE" else "Any"

    def hands_on(self, key: Key) -> list[Key]:
        """The outputs that packets of an input may go to."""
        if self.loop_end:
            return [out for out in self.ports["output_stream"] if key[0] == "CLONE" and out == key]
        return [out for out in self.ports["output_stream"] if out not in self.flags and (out == key or not self.is_gate)]

    def names(self, part: str) -> dict[Key, str]:
        """The names inside the file of the ports of a list."""
        found: dict[Key, str] = {}
        for tag, index in self.ports[part] + (self.unread if part == "input_stream" else []):
            name = PREFIXES[part] + (f"_{tag.lower()}" if tag else "") + (f"_{index}" if index else "")
            while name in found.values():
                name += "_"
            found[tag, index] = name
        return found

    def text(self) -> str:
        """The file."""
        lines = [f"# Written by tools/port, in place of {self.calculator}.", *(f"# {said[0].upper()}{said[1:]}." for said in self.assumes())]
        lines.append(f'type: "{self.type}"')
        for part in LISTS:
            lines += [f'{part}: "{spelled(key, name)}"' for key, name in self.names(part).items()]
        return "\n".join(lines + self.nodes()) + "\n"

    def nodes(self) -> list[str]:
        ins, outs, sides = (self.names(part) for part in (LISTS[0], LISTS[1], LISTS[3]))
        lines = constants({name: f'string_value: "{name}"' for name in sides.values()}) if sides else []
        if self.loop_end:
            return lines + (begin_loop(ins, outs) if self.loop_end == "Begin" else end_loop(ins, outs))
        came = [ins[key] for key in self.ports["input_stream"]]
        if outs and not came:
            came = ["counted"]
            lines += node("CountingSourceCalculator", [], ["counted"], f"count: {COUNT if self.source else 0} step: {STEP}")
        if self.flags:
            lines += constants({"yes": "bool_value: true"}) + node("SidePacketToStreamCalculator", [], ["AT_PRESTREAM:always"], sides=("yes",))
            lines += node("MergeCalculator", came, ["each_set"])
        for key, out in outs.items():
            to = f"early_{out}" if self.latency else out
            if key in self.flags:
                lines += node("PacketClonerCalculator", ["always", "TICK:each_set"], [to])
            else:
                lines += node("MergeCalculator", [ins[key]] if self.is_gate else came, [to])
            if self.latency:
                lines += node("TimestampShiftCalculator", [to], [out], f"offset: {self.latency}")
        return lines

    def assumes(self) -> list[str]:
        """What it does, and so what it takes the calculator to do, in clauses."""
        said = [self.why] if self.why else []
        said += self.of_loop() if self.loop_end else self.of_streams()
        if self.unread:
            said.append(f"nothing reads {listed(self.unread, 'input')}, which closes a loop")
        said += [f"it waits for all its inputs: {policy} isn't kept" for policy in self.policies]
        sides = self.ports["output_side_packet"]
        if sides:
            said.append(f"{listed(sides, 'the side packet')} {'is' if len(sides) == 1 else 'are'} a text, whatever the calculator would make")
        said += self.needs
        if self.merges and counterpart(self.calculator):
            said.append("docs/guide/porting.md has a counterpart, which may do better")
        return said

    def of_streams(self) -> list[str]:
        ins, outs = (self.ports[part] for part in LISTS[:2])
        plain, flags = ([key for key in outs if (key in self.flags) == is_flag] for is_flag in (False, True))
        if not outs:
            return [] if self.ports["output_side_packet"] else ["nothing comes of it"]
        if not ins and not self.source:
            return ["no input is left that it could wait for, so nothing comes of it"]
        if self.is_gate:
            return [f"the gate is always open{self.later}"]
        when, said = "at each input set ", []
        if not ins:
            when, said = "", [f"it has no input, so it emits {COUNT} times, {STEP} apart: change `count`, `start` and `step` in the file"]
        source = "numbers, from 0 on" if not ins else f"the packet of {listed(ins, 'the input')}"
        what = f"the packet of the first of {listed(ins, 'the input')} that has one" if len(ins) > 1 else source
        if plain:
            said.append(f"{when}{listed(plain, 'the output')} {gets(plain)} {what}{self.later}")
        if flags:
            said.append(f"{when}{listed(flags, 'the output')} {gets(flags)} true{self.later}, since a truth value is wanted there")
        return said

    @property
    def later(self) -> str:
        return f", {self.latency} later" if self.latency else ""

    def of_loop(self) -> list[str]:
        return [f"it is mg's {self.loop_end}LoopCalculator, which {'takes' if self.loop_end == 'Begin' else 'makes'} lists"]


def spelled(key: Key, name: str) -> str:
    tag, index = key
    return f"{tag}:{index}:{name}" if tag and index else f"{tag}:{name}" if tag else name


def listed(keys: list[Key], called: str) -> str:
    """Ports as a person reads them; an untagged one as it is called, with its index where there are others."""
    untagged = sum(not tag for tag, _ in keys)
    return ", ".join(key_label((tag, index)) if tag else f"{called} {index}" if untagged > 1 else called for tag, index in keys)


def gets(keys: list[Key]) -> str:
    return "gets" if len(keys) == 1 else "get"


def node(calculator: str, ins: Iterable[str], outs: Iterable[str], options: str = "", sides: Iterable[str] = (), part: str = "input_side_packet") -> list[str]:
    """The lines of a node. Its side packets are ports of the list that `part` names."""
    lines = [f'  {name}: "{port}"' for name, ports in (("input_stream", ins), (part, sides), ("output_stream", outs)) for port in ports]
    if options:
        lines.append(f"  options {{ [mediapipe.{calculator}Options.ext] {{ {options} }} }}")
    return ["node {", f'  calculator: "{calculator}"', *lines, "}"]


def constants(values: dict[str, str]) -> list[str]:
    """A node that makes side packets, each of the value that stands at its name."""
    ports = [f"PACKET:{place}:{name}" for place, name in enumerate(values)]
    options = " ".join(f"packet {{ {value} }}" for value in values.values())
    return node("ConstantSidePacketCalculator", [], [], options, ports, "output_side_packet")


def begin_loop(ins: dict[Key, str], outs: dict[Key, str]) -> list[str]:
    """The begin of a loop, by MediaPipe's rule. Each CLONE has its input and its output, and TICK is one more CLONE, which nobody reads."""
    clones = sorted(key for key in ins if key[0] == "CLONE") + [key for key in ins if key[0] == "TICK"]
    taken = [spelled(("CLONE", place), ins[key]) for place, key in enumerate(clones)]
    made = [spelled(("CLONE", place), outs.get(key, f"clone_{place}")) for place, key in enumerate(clones)]
    ends = [f"BATCH_END:{outs.get(('BATCH_END', 0), 'batch_end')}", f"ITEM:{outs.get(('ITEM', 0), 'item')}"]
    return node("BeginLoopCalculator", [f"ITERABLE:{ins['ITERABLE', 0]}", *taken], [*ends, *made], "always_end: true")


def end_loop(ins: dict[Key, str], outs: dict[Key, str]) -> list[str]:
    return node("EndLoopCalculator", [f"BATCH_END:{ins['BATCH_END', 0]}", f"ITEM:{ins['ITEM', 0]}"], [f"ITERABLE:{outs['ITERABLE', 0]}"], "empty_as_bound: true")
