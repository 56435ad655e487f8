"""Packet lines and timestamps: docs/guide/packets.md says their forms.

A timestamp is a number here, the special ones too, so that they compare as they should.
"""
from __future__ import annotations

import json
import math
import re
from collections.abc import Iterable, Iterator
from dataclasses import dataclass, field
from typing import Any

UNSET, UNSTARTED, PRE_STREAM, MIN = (-2**63 + i for i in range(4))
MAX, POST_STREAM, ONE_OVER_POST_STREAM, DONE = (2**63 - 4 + i for i in range(4))
SPECIAL = {"Unset": UNSET, "Unstarted": UNSTARTED, "PreStream": PRE_STREAM, "PostStream": POST_STREAM,
           "OneOverPostStream": ONE_OVER_POST_STREAM, "Done": DONE}
WORDS = {number: word for word, number in SPECIAL.items()}
# The longest line that `mg` takes, without its line feed, and the most lines.
MOST_BYTES, MOST_LINES = 1048576, 4000000


def read_time(value: Any) -> int | None:
    """The timestamp of a packet line: a whole number of the range, PreStream or PostStream; nothing for anything else."""
    if type(value) is int:
        return value if MIN <= value <= MAX else None
    return SPECIAL[value] if value in ("PreStream", "PostStream") and isinstance(value, str) else None


def read_bound(text: str) -> int:
    """A timestamp as the notes write it."""
    return SPECIAL[text] if text in SPECIAL else int(text)


def show_time(time: int) -> str:
    return WORDS.get(time, str(time))


def time_value(time: int) -> int | str:
    """A timestamp as a packet line has it."""
    return WORDS.get(time, time)


def after(time: int) -> int:
    """The lowest timestamp that may follow a packet at this one."""
    return ONE_OVER_POST_STREAM if time >= MAX or time == PRE_STREAM else time + 1


def kind_of(value: Any) -> str:
    """The kind of a payload, or why it is none."""
    if value is True or value is False:
        return "Flag"
    if isinstance(value, int):
        # Further out JSON readers hold a whole number as one with a fraction.
        return "Int" if -2**63 <= value < 2**63 else "TooWide" if 2**63 <= value < 2**64 else "Fraction"
    if isinstance(value, float):
        return "Fraction"
    return {str: "Text", list: "Items", dict: "Record"}.get(type(value), "Null")


KIND_WORDS = {"Flag": "a truth value", "Int": "a whole number", "Text": "a text", "Items": "a list", "Record": "a record",
              "Any": "any value", "Fraction": "a number with a fraction or an exponent", "Null": "null",
              "TooWide": "a whole number past 64 signed bits"}


def payload_fault(value: Any, depth: int = 0) -> str | None:
    """The first fault of a value, in its order."""
    kind = kind_of(value)
    if kind == "Fraction":
        if value == 0:
            return "-0 counts as a number with a fraction: write 0"
        if isinstance(value, int):
            return f"{value} has more than 64 bits: keep it as a text"
        return f"{value!r} has a fraction or an exponent, and is no whole number: scale it (tools/recording lines --decimals), or keep it as a text"
    if kind == "Null":
        return "null is none: leave the packet out"
    if kind == "TooWide":
        return f"{value} has more than 64 signed bits: keep it as a text"
    if kind in ("Items", "Record"):
        if depth == 16:
            return "lists and records stand in one another more than 16 deep"
        inner = value if kind == "Items" else [value[key] for key in sorted(value, key=str.encode)]
        return next(filter(None, (payload_fault(one, depth + 1) for one in inner)), None)
    return None


@dataclass
class Line:
    """A packet line: its number, its form, and what it says. `packets` are those of one time, by stream."""
    number: int
    form: str  # packets, bound, close, side, blank or bad
    time: int | None = None
    packets: dict[str, Any] = field(default_factory=dict)
    stream: str = ""
    value: Any = None
    why: str = ""  # of a bad line: TooLong, NotJson, BadShape or BadTimestamp


def no_constant(word: str) -> None:
    """NaN and Infinity, which Python's reader takes, are no JSON."""
    raise ValueError(word)


def whole(digits: str) -> int | float:
    """A whole number; -0 is one with a fraction to JSON readers that tell it from 0."""
    if len(digits) > 300:
        fraction(digits)
    return -0.0 if digits == "-0" else int(digits)


def fraction(digits: str) -> float:
    """A number that `mg` holds in 64 bits, as far as it has room there."""
    number = float(digits)
    if math.isinf(number):
        raise ValueError(digits)
    return number


def depth(value: Any) -> int:
    """How deep lists and records stand in one another."""
    inner = value if isinstance(value, list) else value.values() if isinstance(value, dict) else None
    return 0 if inner is None else 1 + max(map(depth, inner), default=0)


# Python's reader takes more than that of `mg`: a number past 64 bits of a fraction, half of a pair of surrogates, any depth.
UNUSUAL = re.compile(rb"-0|\\u[dD][89a-fA-F]|\d{300}|[eE]\+?\d{3}")
DEEPEST = 127
BYTE_ORDER_MARK = b"\xef\xbb\xbf"
usual_value = json.JSONDecoder(parse_constant=no_constant).decode
unusual_value = json.JSONDecoder(parse_constant=no_constant, parse_int=whole, parse_float=fraction).decode


def read_json(text: bytes) -> Any:
    """The JSON value of a line. Raises ValueError where it is none, as behind a byte order mark."""
    try:
        if UNUSUAL.search(text):
            value = unusual_value(text.decode())
            compact(value).encode()
        else:
            value = usual_value(text.decode())
        if text.count(b"[") + text.count(b"{") > DEEPEST and depth(value) > DEEPEST:
            raise ValueError("lists and records stand too deep")
    except RecursionError:
        raise ValueError("lists and records stand too deep") from None
    return value


def read_line(number: int, text: bytes) -> Line:
    """Reads one line by its form alone; whether the stream is there, and the times rise, is for others to say."""
    if len(text) > MOST_BYTES and len(text.rstrip(b"\n")) > MOST_BYTES:
        return Line(number, "bad", why="TooLong")
    if not text.strip(b" \t\r\n"):
        return Line(number, "blank")
    try:
        said = read_json(text)
    except ValueError:
        return Line(number, "bad", why="NotJson")
    if not isinstance(said, dict):
        return Line(number, "bad", why="BadShape")
    keys = said.keys()
    if keys == {"stream", "ts", "value"} and isinstance(said["stream"], str):
        time = read_time(said["ts"])
        return Line(number, "packets" if time is not None else "bad", time, {said["stream"]: said["value"]}, said["stream"],
                    said["value"], "" if time is not None else "BadTimestamp")
    if keys == {"at", "packets"} and isinstance(said["packets"], dict) and said["packets"]:
        time = read_time(said["at"])
        return Line(number, "packets" if time is not None else "bad", time, said["packets"], "", None, "" if time is not None else "BadTimestamp")
    if keys == {"stream", "bound"} and isinstance(said["stream"], str):
        time = read_time(said["bound"])
        return Line(number, "bound" if time is not None else "bad", time, {}, said["stream"], None, "" if time is not None else "BadTimestamp")
    if keys == {"stream", "close"} and isinstance(said["stream"], str) and said["close"] is True:
        return Line(number, "close", DONE, {}, said["stream"])
    if keys == {"side", "value"} and isinstance(said["side"], str):
        return Line(number, "side", None, {}, said["side"], said["value"])
    return Line(number, "bad", why="BadShape")


def read_lines(lines: Iterable[bytes]) -> Iterator[Line]:
    for number, text in enumerate(lines, 1):
        yield read_line(number, text)


# A value in the compact spelling of packet lines.
compact = json.JSONEncoder(separators=(",", ":"), ensure_ascii=False).encode


def packet_line(stream: str, time: int, value: Any) -> str:
    """A line with one packet."""
    return compact({"stream": stream, "ts": time_value(time), "value": value})


def packets_line(time: int, packets: dict[str, Any]) -> str:
    """A line with the packets of one time: of one stream in the first form, of several in the second."""
    if len(packets) == 1:
        [(stream, value)] = packets.items()
        return packet_line(stream, time, value)
    return compact({"at": time_value(time), "packets": packets})


def shown(value: Any, most: int = 60) -> str:
    """A value as a person reads it, cut where it is long."""
    text = json.dumps(value, ensure_ascii=False)
    return text if len(text) <= most else text[:most - 2] + ".."
