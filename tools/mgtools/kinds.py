"""The kinds of calculators as docs/guide/calculators.md has them: their ports, their options, and their offsets."""
from __future__ import annotations

import functools
import re
from dataclasses import dataclass, field

from .calculators import PAGE, Told, told_by, words
from .graph import Node, key_label
from .textform import Field, Scalar

LEAST, MOST = -2**63, 2**63 - 1
# What a side packet of a graph file may be.
PACKETS = ("int_value", "bool_value", "string_value")
TRUTHS = ("true", "True", "t", "1", "false", "False", "f", "0")


@dataclass(frozen=True)
class Ports:
    """Ports of one tag: how many at least and at most, and which kind of packets they have. Those that a node `may_lack` are as many
    inputs as outputs."""
    tag: str = ""
    least: int = 1
    most: int = 1
    kind: str = "Any"
    may_lack: bool = False

    def say(self) -> str:
        what = f"{self.tag}" if self.tag else "untagged"
        number = "one" if self.most == 1 else "any number of" if self.most == 64 else f"up to {self.most}"
        return f"{number} {what}" + (f" ({self.kind})" if self.kind != "Any" else "")


MANY = Ports(most=64)


@dataclass(frozen=True)
class Option:
    """An option: its words, or the least and the greatest number; `truth` for a truth value."""
    words: tuple[str, ...] = ()
    least: int = LEAST
    most: int = MOST
    required: bool = False
    repeated: bool = False

    def fits(self, value: Field) -> bool:
        scalar = value.value
        if self.repeated:
            return [field.name in PACKETS for field in value.fields] == [True]
        if not isinstance(scalar, Scalar):
            return False
        if self.words:
            return scalar.kind != "text" and scalar.text in self.words
        number = whole_number(scalar)
        return number is not None and self.least <= number <= self.most

    def say(self) -> str:
        if self.repeated:
            return f"a message with one of {', '.join(PACKETS)}"
        if self.words == TRUTHS:
            return "true or false"
        if self.words:
            return self.words[0] if len(self.words) == 1 else "one of " + ", ".join(self.words)
        return f"a whole number from {self.least} to {self.most}"


def whole_number(scalar: Scalar) -> int | None:
    """The whole number that a scalar says, in decimal, hexadecimal or, with a leading 0, octal form."""
    if scalar.kind != "number":
        return None
    sign, digits = (-1, scalar.text[1:]) if scalar.text.startswith("-") else (1, scalar.text)
    try:
        base = 16 if digits[:2] in ("0x", "0X") else 8 if digits.startswith("0") and len(digits) > 1 else 10
        return sign * int(digits, base)
    except ValueError:
        return None


@dataclass(frozen=True)
class Kind:
    """A kind of calculator. `alike` says that its outputs are as many as its untagged inputs; `mirror`, that they are the same
    ports; `either`, tags of which exactly one is connected."""
    inputs: tuple[Ports, ...] = ()
    outputs: tuple[Ports, ...] = ()
    sides_in: tuple[Ports, ...] = ()
    sides_out: tuple[Ports, ...] = ()
    options: dict[str, Option] = field(default_factory=dict)
    offset: str = "0"
    alike: bool = False
    mirror: bool = False
    either: tuple[str, ...] = ()


PORTS = re.compile(r"(perhaps )?(?:(k|one) untagged|(\w+(?: or \w+)*)( 0 to k-1)?)(?: \((\w+)\))?")


def ports_in(cell: str) -> tuple[Ports, ...]:
    """The ports that a cell of the page's table lists, as `k untagged, TICK`."""
    found: list[Ports] = []
    for entry in cell.split(", ") if cell not in ("", "none") else []:
        read = PORTS.fullmatch(entry)
        if not read:
            raise ValueError(f"{PAGE}: `{entry}` is no port of a calculator")
        lacks, untagged, tags, many, kind = read.groups()
        names = [""] if untagged else tags.split(" or ")
        most = 64 if untagged == "k" or many else 1
        found += [Ports(name, 1 if len(names) == 1 and not lacks else 0, most, kind or "Any", bool(lacks)) for name in names]
    return tuple(found)


def option_in(values: str, default: str, repeated: bool) -> Option:
    """The option whose values and default a row of the page lists."""
    required = default == "required"
    if repeated:
        return Option(required=required, repeated=True)
    if values == "truth value":
        return Option(words=TRUTHS, required=required)
    if span := re.fullmatch(r"(-?\d+) to (-?\d+)", values):
        return Option(least=int(span[1]), most=int(span[2]), required=required)
    if re.fullmatch("`[^`]+`(?:, `[^`]+`)*", values):
        return Option(words=words(values), required=required)
    raise ValueError(f"{PAGE}: `{values}` are no values of an option")


def streams_and_sides(cell: str) -> tuple[tuple[Ports, ...], tuple[Ports, ...]]:
    """The streams and the side packets of a cell, as `none` or `side packets: PACKET 0 to k-1`."""
    streams, _, sides = re.sub("side packets?: ", "|", cell).partition("|")
    return ports_in(streams.rstrip("; ")), ports_in(sides)


def kind_told(told: Told) -> Kind:
    """The kind of a calculator, by what the page tells of it."""
    options = {words(name)[0]: option_in(values, default, name.endswith("*")) for name, values, default in told.option_rows}
    if told.inputs == "any ports":
        return Kind(options=options, offset=told.offset, mirror=True)
    (inputs, sides_in), (outputs, sides_out) = streams_and_sides(told.inputs), streams_and_sides(told.outputs)
    either = tuple(ports.tag for ports in inputs + outputs if ports.least == 0 and not ports.may_lack)
    return Kind(inputs, outputs, sides_in, sides_out, options, told.offset, MANY in inputs and MANY in outputs, either=either)


@functools.cache
def kinds() -> dict[str, Kind]:
    """The kinds of calculators by their names, in the order of the page."""
    try:
        text = PAGE.read_text(encoding="utf-8")
    except OSError as fault:
        raise SystemExit(f"{PAGE}: {fault.strerror}: the tools read there which ports and options calculators have") from None
    return {told.name: kind_told(told) for told in told_by(text)}


PLACES = (("input_stream", "inputs", "input"), ("output_stream", "outputs", "output"),
          ("input_side_packet", "sides_in", "input side packet"), ("output_side_packet", "sides_out", "output side packet"))


def port_faults(node: Node) -> list[tuple[int, str]]:
    """What of a node's ports doesn't fit its calculator: where it stands, and what would fit."""
    kind = kinds().get(node.calculator)
    if kind is None:
        return []
    if kind.mirror:
        return mirror_faults(node)
    faults: list[tuple[int, str]] = []
    for name, part, called in PLACES:
        rules = {rule.tag: rule for rule in getattr(kind, part)}
        wanted = ", ".join(rule.say() for rule in rules.values()) or "none"
        counts: dict[str, int] = {}
        for port in node.ports[name]:
            counts[port.tag] = counts.get(port.tag, 0) + 1
            if port.tag not in rules:
                faults.append((port.at, f"{node.calculator} has no {called} `{port.spelled}`: its {called}s are {wanted}"))
            elif counts[port.tag] == rules[port.tag].most + 1:
                faults.append((port.at, f"one {called} too many, `{port.spelled}`: its {called}s are {wanted}"))
        for tag, rule in rules.items():
            if counts.get(tag, 0) < rule.least:
                faults.append((node.field.at, f"an {called} is missing, {tag or 'an untagged one'}: its {called}s are {wanted}"))
    if kind.either:
        given = [port for name in LISTS_OF_STREAMS for port in node.ports[name] if port.tag in kind.either]
        if len(given) != 1:
            faults.append((given[1].at if given else node.field.at, f"exactly one of {', '.join(kind.either)} has to be connected, not {len(given)}"))
    for tag in sorted({rule.tag for rule in kind.inputs if rule.may_lack}):
        into, out = (sum(port.tag == tag for port in node.ports[name]) for name in LISTS_OF_STREAMS)
        if into != out and not faults:
            faults.append((node.field.at, f"inputs {tag}: {into}, outputs {tag}: {out}; each input needs its output"))
    if kind.alike:
        into, out = (sum(not port.tag for port in node.ports[name]) for name in LISTS_OF_STREAMS)
        if into != out and not faults:
            faults.append((node.field.at, f"it has {into} untagged inputs and {out} untagged outputs, and each input needs its output"))
    return faults


LISTS_OF_STREAMS = ("input_stream", "output_stream")


def mirror_faults(node: Node) -> list[tuple[int, str]]:
    into, out = ({port.key: port for port in node.ports[name]} for name in LISTS_OF_STREAMS)
    faults = [(port.at, f"the {called} `{port.spelled}` has no {other} of the same tag and index")
              for mine, others, called, other in ((into, out, "input", "output"), (out, into, "output", "input"))
              for key, port in mine.items() if key not in others]
    sides = node.ports["input_side_packet"] + node.ports["output_side_packet"]
    faults += [(port.at, f"{node.calculator} takes no side packets here, as `{port.spelled}`") for port in sides]
    return faults or ([] if into else [(node.field.at, "it has no ports: at least one input and its output are needed")])


def option_faults(node: Node) -> list[tuple[int, str]]:
    """What of a node's options doesn't fit its calculator."""
    kind = kinds().get(node.calculator)
    if kind is None:
        return []
    own = f"mediapipe.{node.calculator}Options"
    faults: list[tuple[int, str]] = []
    seen: dict[str, Field] = {}
    for message in node.options:
        if message.name not in (f"[{own}.ext]", f"[type.googleapis.com/{own}]") or not isinstance(message.value, list):
            faults.append((message.at, f"options stand under [{own}.ext] in `options`, or [type.googleapis.com/{own}] in `node_options`,"
                                       f" not under {message.name}"))
            continue
        for option in message.fields:
            rule = kind.options.get(option.name)
            if rule is None:
                faults.append((option.at, f"it has no option `{option.name}`" + (
                    f": its options are {', '.join(kind.options)}" if kind.options else ": it has none")))
            elif not rule.fits(option):
                faults.append((option.at, f"the option `{option.name}` is {rule.say()}"))
            elif option.name in seen and not rule.repeated:
                faults.append((option.at, f"the option `{option.name}` stands twice"))
            seen[option.name] = option
    faults += [(node.field.at, f"the option `{name}` is required ({rule.say()})")
               for name, rule in kind.options.items() if rule.required and name not in seen]
    if node.calculator == "ConstantSidePacketCalculator":
        packets = sum(option.name == "packet" for message in node.options for option in message.fields)
        if packets != len(node.ports["output_side_packet"]):
            faults.append((node.field.at, f"it has {packets} `packet`s for {len(node.ports['output_side_packet'])} side packets"))
    return faults


def port_kind(node: Node | None, name: str, key: tuple[str, int]) -> str:
    """The kind of packets that a port takes or gives."""
    kind = kinds().get(node.calculator) if node else None
    if kind is None:
        return "Any"
    rules = kind.inputs if name == "input_stream" else kind.outputs
    return next((rule.kind for rule in rules if rule.tag == key[0]), "Any")


def offset_of(node: Node) -> int | None:
    """The offset that a node promises; none where it promises none."""
    kind = kinds().get(node.calculator)
    if kind is None or kind.offset == "none":
        return None
    return 0 if kind.offset == "0" else option_number(node, "offset")


def option_number(node: Node, name: str) -> int | None:
    """The whole number that an option of a node says; none where it isn't set to one."""
    option = next((option for message in node.options for option in message.all_of(name)), None)
    return whole_number(option.value) if option and isinstance(option.value, Scalar) else None


def needs_back_edge(node: Node, key: tuple[str, int]) -> bool:
    return (node.calculator, key_label(key)) in (("PreviousLoopbackCalculator", "LOOP"), ("FlowLimiterCalculator", "FINISHED"))
