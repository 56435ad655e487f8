"""The fields of graph files, as docs/guide/graph_file.md has them, and those of MediaPipe's that mg leaves out."""
from __future__ import annotations

from .kinds import TRUTHS, whole_number
from .textform import Field, Scalar

# Each field with the shape of its value; a star marks one that may be repeated.
GRAPH = {"type": "text", "input_stream": "text*", "output_stream": "text*", "input_side_packet": "text*", "output_side_packet": "text*",
         "max_queue_size": "number", "num_threads": "number", "node": "message*"}
NODE = {"name": "text", "calculator": "text", "input_stream": "text*", "output_stream": "text*", "input_side_packet": "text*",
        "output_side_packet": "text*", "input_stream_info": "message*", "input_stream_handler": "message", "max_in_flight": "number",
        "buffer_size_hint": "number", "options": "message", "node_options": "message*"}
INFO = {"tag_index": "text", "back_edge": "truth"}
HANDLER = {"input_stream_handler": "text"}
SHAPES = {"text": "a text in quotes", "number": "a whole number from -2147483648 to 2147483647", "message": "a message, { .. }",
          "truth": "true or false"}

# Fields that change nothing of what comes out of a graph, at the graph and at a node: tools/port takes them out.
IDLE_IN_GRAPH = ("executor", "profiler_config", "report_deadlock", "package")
IDLE_IN_NODE = ("executor", "profiler_config", "source_layer")
# Others of MediaPipe's that mg leaves out.
LEFT_OUT = ("input_stream_handler", "output_stream_handler", "packet_factory", "packet_generator", "status_handler", "options",
            "graph_options", "option_value", "external_input")


def fields_at(path: str) -> dict[str, str]:
    """The fields of the message that the last field of a path stands in."""
    if ".input_stream_info[" in path:
        return INFO
    if ".input_stream_handler." in path:
        return HANDLER
    return NODE if path.startswith("node[") else GRAPH


def fits(shape: str, field: Field) -> bool:
    """Whether a field's value has a shape."""
    shape = shape.rstrip("*")
    value = field.value
    if shape == "message":
        return isinstance(value, list)
    if not isinstance(value, Scalar):
        return False
    if shape == "text":
        return value.kind == "text"
    if shape == "truth":
        return value.kind != "text" and value.text in TRUTHS
    number = whole_number(value)
    return number is not None and -2**31 <= number < 2**31
