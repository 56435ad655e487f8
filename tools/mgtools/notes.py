"""The notes of `mg`, read from their lines: docs/guide/messages.md has each."""
from __future__ import annotations

import re
from dataclasses import dataclass, field

# The forms of notes, each with its name; the first that fits a line is its own.
FORMS = [(name, re.compile(form)) for name, form in (
    ("store", r"store: (?P<file>.*)"),
    ("usage", r"usage: .*"),
    ("text", r"refused: (?P<file>.*) text (?P<refusal>Syntax|TooDeep|TooLong)(?: (?P<at>\d+))?"),
    ("config", r"refused: (?P<file>.*) config (?P<refusal>UnknownField|WrongShape|Repeated|BadPort) (?P<path>\S+)(?: (?P<cause>\w+))?"),
    ("TypeTwice", r"refused: expand TypeTwice (?P<name>.*)"),
    ("Recursive", r"refused: expand Recursive (?P<name>.*)"),
    ("TooManyNodes", r"refused: expand TooManyNodes"),
    ("ReservedName", r"refused: expand ReservedName (?P<name>.*)"),
    ("PortShared", r"refused: expand PortShared (?P<owner>.*) (?P<name>\S+)"),
    ("BadField", r"refused: expand BadField (?P<owner>.*) (?P<node>\d+) (?P<field>\w+)"),
    ("NoSuchPort", r"refused: expand NoSuchPort (?P<owner>.*) (?P<node>\d+) (?P<port>\S+)"),
    ("UnknownCalculator", r"refused: check UnknownCalculator (?P<node>\d+)"),
    ("NoMoreBoxes", r"refused: check NoMoreBoxes (?P<name>.*) (?P<has>\d+) (?P<needs>\d+)"),
    ("BadPorts", r"refused: check BadPorts (?P<node>\d+)"),
    ("BadOptions", r"refused: check BadOptions (?P<node>\d+)"),
    ("Unsupported", r"refused: check Unsupported (?P<node>\d+) (?P<field>\w+)"),
    ("TwoProducers", r"refused: check TwoProducers (?P<name>.*)"),
    ("NoProducer", r"refused: check NoProducer (?P<name>.*)"),
    ("SideMissing", r"refused: check SideMissing (?P<name>.*)"),
    ("KindClash", r"refused: check KindClash (?P<name>.*)"),
    ("BackEdgeMisplaced", r"refused: check BackEdgeMisplaced (?P<node>\d+)"),
    ("Cycle", r"refused: check Cycle (?P<nodes>\d+(?: \d+)*)"),
    ("TooMany", r"refused: check TooMany (?P<what>Edges|Outputs)"),
    ("FreeNode", r"refused: (?P<command>run|solve|generate|trace|replay) FreeNode (?P<node>\d+)"),
    ("OwnLaw", r"refused: solve OwnLaw (?P<node>\d+)"),
    ("line", r"line (?P<line>\d+): (?P<refusal>\w+)(?: (?P<cause>\w+))?"),
    ("read", r"read fault after line (?P<line>\d+)"),
    ("write", r"write fault"),
    ("memory", r"out of memory"),
    ("free", r"free (?P<node>\d+) (?P<input>\d+) (?P<time>\S+)"),
    ("sets", r"node (?P<node>\d+) (?P<label>.*) sets=(?P<sets>\d+)"),
    ("ends", r"stream (?P<name>.*) packets=(?P<packets>\d+) bound=(?P<bound>-?\d+|[A-Z]\w+)"),
    ("fault", r"node (?P<node>\d+) (?P<label>.*): (?P<phase>open|close|process (?P<time>\S+)|call (?P<call>\d+)): (?P<cause>\w+)"),
    ("stalled", r"stalled: (?P<name>.*) (?P<bound>-?\d+|[A-Z]\w+)"),
)]
NUMBERS = ("at", "node", "input", "line", "has", "needs", "sets", "packets", "call")


@dataclass
class Note:
    """A note: its text, the name of its form, and its parts. Numbers are numbers."""
    text: str
    form: str
    parts: dict[str, str | int | None]

    def __getitem__(self, name: str):
        return self.parts[name]

    @property
    def is_refusal(self) -> bool:
        return self.text.startswith("refused: ")


def read_note(text: str) -> Note | None:
    """Reads a note; nothing where the line is none."""
    for name, form in FORMS:
        found = form.fullmatch(text)
        if found:
            parts = {key: int(value) if key in NUMBERS and value is not None else value for key, value in found.groupdict().items()}
            return Note(text, name, parts)
    return None


def unescaped(text: str) -> str:
    """A name as it is, of one as notes show it: control bytes as escapes."""
    escapes = {"n": "\n", "r": "\r", "t": "\t"}
    return re.sub(r"\\([nrt]|[0-7]{3})", lambda found: escapes.get(found[1]) or chr(int(found[1], 8)), text)


def escaped(text: str) -> str:
    """A text as notes show one: control bytes as escapes, and so bytes that are no UTF-8."""
    names = {"\n": "\\n", "\r": "\\r", "\t": "\\t"}
    octal = lambda mark: "".join(f"\\{byte:03o}" for byte in mark.encode("utf-8", "surrogateescape"))
    return re.sub("[\x00-\x1f\x7f-\x9f\udc80-\udcff]", lambda found: names.get(found[0]) or octal(found[0]), text)


@dataclass
class Report:
    """What the notes of a run tell of its nodes and streams, by number and by name."""
    sets: dict[int, int] = field(default_factory=dict)
    packets: dict[str, int] = field(default_factory=dict)
    bounds: dict[str, str] = field(default_factory=dict)
    faults: dict[int, Note] = field(default_factory=dict)
    stalled: dict[str, str] = field(default_factory=dict)
    others: list[Note] = field(default_factory=list)

    @classmethod
    def read(cls, lines: list[str]) -> Report:
        report = cls()
        for note in filter(None, map(read_note, lines)):
            if note.form == "sets":
                report.sets[note["node"]] = note["sets"]
            elif note.form == "ends":
                report.packets[note["name"]] = note["packets"]
                report.bounds[note["name"]] = note["bound"]
            elif note.form == "fault":
                report.faults[note["node"]] = note
            elif note.form == "stalled":
                report.stalled[note["name"]] = note["bound"]
            else:
                report.others.append(note)
        return report
