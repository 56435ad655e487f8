"""Takes out of a graph of MediaPipe's what mg refuses although it changes nothing of what comes out, and what a node can't have whose calculator
a file stands in for. The rest of the text stays byte for byte.
"""
from __future__ import annotations

import re
from collections.abc import Iterator

from .graph import Field, File, first_text
from .schema import IDLE_IN_GRAPH, IDLE_IN_NODE
from .textform import Scalar

# What a subgraph node can't have, and so a node whose calculator a file stands in for.
OF_CALCULATORS = ("options", "node_options", "input_stream_info", "input_stream_handler", "max_in_flight")
# What no node can have here, and what only the calculator would have heeded that a file stands in for.
OF_STOOD_IN = (*OF_CALCULATORS, "output_stream_handler", "option_value", "external_input")
# Options of a graph, which only `option_value` of its nodes reads.
OF_OPTION_VALUES = ("options", "graph_options")
# Policies that are what an absent one means.
DEFAULTS = {"input_stream_handler": "DefaultInputStreamHandler", "output_stream_handler": "InOrderOutputStreamHandler"}
# Options of a FlowLimiterCalculator that mg's hasn't, each with the reason why it may go.
OF_LIMITER = {"max_in_queue": "sizes a queue, and mg's limiter has none", "in_flight_timeout": "is a time by a clock, and mg knows no clock"}


def gone(file: File, types: set[str]) -> Iterator[tuple[Field, str]]:
    """The fields that go, each with the reason. `types` are the calculators that files stand in for."""
    for field in file.fields:
        if field.name == "node":
            yield from gone_of_node(field, OF_CALCULATORS if first_text(field, "calculator") in types else ())
        else:
            yield from gone_of_graph(field)


def gone_of_graph(field: Field) -> Iterator[tuple[Field, str]]:
    """A field of the graph itself, where it goes."""
    if field.name in IDLE_IN_GRAPH:
        yield field, f"`{field.name}` changes nothing of what comes out"
    elif field.name in DEFAULTS and first_text(field, field.name) == DEFAULTS[field.name]:
        yield field, f"`{field.name}` names the policy that is there without it"


def gone_of_node(node: Field, stood_in: tuple[str, ...]) -> Iterator[tuple[Field, str]]:
    """The fields of a node that go. `stood_in` are those that it can't have since a file stands in for its calculator; none where none does."""
    calculator = first_text(node, "calculator")
    for field in node.fields:
        if field.name in IDLE_IN_NODE:
            yield field, f"`{field.name}` changes nothing of what comes out"
        elif field.name in stood_in:
            yield field, f"a file stands in for {calculator}, and such a node can't have `{field.name}`"
        elif field.name == "output_stream_handler" and first_text(field, field.name) == DEFAULTS[field.name]:
            yield field, f"`{field.name}` names the policy that is there without it"
        elif calculator == "FlowLimiterCalculator" and field.name in ("options", "node_options"):
            yield from ((option, f"`{option.name}` {OF_LIMITER[option.name]}") for message in field.fields for option in message.fields
                        if option.name in OF_LIMITER)


def without(data: bytes, fields: list[Field]) -> bytes:
    """The text without some fields: each with the comma or semicolon behind it, and with its lines where nothing else stands on them."""
    return edited(data, fields, [])


def edited(data: bytes, fields: list[Field], renamed: list[tuple[Scalar, str]]) -> bytes:
    """The text without some fields, and with other texts in place of some scalars."""
    cuts = [(*lines_of(data, field), b"") for field in fields]
    cuts += [(scalar.at, scalar.end, f'"{text}"'.encode()) for scalar, text in renamed]
    kept, at = b"", 0
    for begin, end, text in sorted(cuts):
        kept += data[at:max(at, begin)] + text
        at = max(at, end)
    return kept + data[at:]


def lines_of(data: bytes, field: Field) -> tuple[int, int]:
    """Where the text begins and ends that goes with a field."""
    begin, end = field.at, field.end
    if data[end:end + 1] in (b",", b";"):
        end += 1
    line = data.rfind(b"\n", 0, begin) + 1
    rest = data.find(b"\n", end)
    rest = len(data) if rest < 0 else rest
    behind = data[end:rest].strip()
    if not data[line:begin].strip() and (not behind or behind.startswith(b"#")):
        return line, rest + 1
    return begin, end + (data[end:end + 1] == b" ")


def is_in_list(data: bytes, field: Field) -> bool:
    """Whether a field is an element of a list, as `name: [..]`, so that it can't go by itself."""
    return not re.match(re.escape(field.name.encode()) + rb"\s*:?\s*[^\s:\[]", data[field.at:field.end])
