"""The examples of docs/guide/calculators.md as something to run: a graph, packet lines, and what comes out."""
from __future__ import annotations

import re
from dataclasses import dataclass

PARTS = ("input_stream", "input_side_packet", "output_stream", "output_side_packet")


def node_text(calculator: str, ports: dict[str, list[str]], options: str = "") -> str:
    """A node with these ports, by the names of their fields, and these options."""
    lines = [f'  {part}: "{port}"' for part in PARTS for port in ports.get(part, [])]
    if options:
        lines.append(f"  options {{ [mediapipe.{calculator}Options.ext] {{ {options} }} }}")
    return "\n".join(["node {", f'  calculator: "{calculator}"', *lines, "}\n"])


@dataclass
class Stream:
    """A stream or a side packet of an example: its name, its port as the graph spells it, and its packets: values with their timestamps."""
    name: str
    port: str
    is_side: bool
    packets: list[tuple[str, int]]


def stream_of(text: str, untagged: str) -> Stream:
    """Reads `name: 7@1 9@2` or `name: 7`, where in brackets behind the name an index or a tag may stand."""
    name, mark, listed = re.fullmatch(r"(\w+)(?: \((\w+)\))?: (.*)", text).groups()
    packets = [(value or at, int(at) if value else 0) for value, _, at in (packet.rpartition("@") for packet in listed.split(" "))]
    is_side = "@" not in listed
    if mark and mark.isdigit():
        return Stream(f"{name}_{mark}", f"{name.upper()}:{mark}:{name}_{mark}", is_side, packets)
    return Stream(name, name if name in untagged else f"{mark or name.upper()}:{name}", is_side, packets)


def line_of(stream: str, at: int, value: str) -> str:
    return f'{{"stream":"{stream}","ts":{at},"value":{value}}}\n'


def example_of(calculator: str, text: str) -> tuple[str, str, str]:
    """The graph, the packet lines and the output of an example. A side packet that goes out is seen by what is made of it, at 0."""
    before, after = ([part for part in re.split(" {2,}", half.strip()) if part] for half in text.split("→"))
    options = next((part[len("with "):] for part in before if part.startswith("with ")), "")
    came = [stream_of(part, "abc") for part in before if not part.startswith("with ")]
    went = [stream_of(part, "xyz") for part in after]
    ports = {part: [one.port for one in streams if one.is_side == is_side]
             for part, streams, is_side in zip(PARTS, (came, came, went, went), (False, True, False, True))}
    shown = [f"{one.name}_at_zero" if one.is_side else one.name for one in went]
    heads = [f'{"input_side_packet" if one.is_side else "input_stream"}: "{one.name}"\n' for one in came]
    heads += [f'output_stream: "{name}"\n' for name in shown]
    seen = [node_text("SidePacketToStreamCalculator", {"input_side_packet": [one.name], "output_stream": [f"AT_ZERO:{name}"]})
            for one, name in zip(went, shown) if one.is_side]
    lines = [f'{{"side":"{one.name}","value":{one.packets[0][0]}}}\n' for one in came if one.is_side]
    lines += [line_of(one.name, at, value) for one in came if not one.is_side for value, at in one.packets]
    output = sorted((at, place, value) for place, one in enumerate(went) for value, at in one.packets)
    return "".join([*heads, node_text(calculator, ports, options), *seen]), "".join(lines), "".join(
        line_of(shown[place], at, value) for at, place, value in output)
