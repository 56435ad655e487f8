"""Explains the notes on words and files: what stands at a place, and what would fit there."""
from __future__ import annotations

import os
import pathlib
import re

from . import contents, schema
from .graph import Field, find, first_text, key_label, parent, ports_of
from .near import said as near_said
from .notes import Note, unescaped
from .textform import Scalar, TextFault, line_and_column, parse

COMMANDS = ("run", "solve", "check", "expand", "generate", "trace", "replay")
# Those that read packet lines.
READING = ("run", "solve", "trace", "replay")
OPTIONS = {"--workers": (0, 64), "--max-queue-size": (1, 1000000), "--number": (0, 1000000), "--no-queue-limit": None, "--report": None,
           "--no-arrivals": None, "--unbuffered": None}
SPELLINGS = {"BadTag": "a tag is `[A-Z_][A-Z0-9_]*`, in capital letters", "BadIndex": "an index is 0 to 63, without leading zeros",
             "BadName": "a name is `[a-z_][a-z0-9_]*`, in small letters, and a text has at most two colons"}


class FileTexts:
    """The bytes of the files that the words name, each read once."""

    def __init__(self, names: list[str]):
        self.names = names
        self.data: dict[str, bytes] = {}
        for name in names:
            try:
                self.data[name] = pathlib.Path(name).read_bytes()
            except OSError:
                pass

    def named(self, shown: str) -> str | None:
        """The file that a note names."""
        wanted = unescaped(shown)
        return next((name for name in self.names if name in (wanted, shown)), None)

    def place(self, name: str, at: int) -> str:
        line, column = line_and_column(self.data[name], at)
        return f"{name}:{line}:{column}"

    def fields(self, name: str) -> Field | None:
        """The fields of a file, or nothing where it is no text."""
        try:
            return Field("", 0, parse(self.data[name]), len(self.data[name]))
        except (TextFault, KeyError):
            return None


def store(note: Note, texts: FileTexts) -> list[str]:
    name = unescaped(note["file"])
    path = pathlib.Path(name)
    if path.is_dir():
        return [f"`{name}` is a folder: name a file in it"]
    if path.exists():
        return [f"`{name}` is there and may not be read: look at its rights (ls -l)"]
    folder = path.parent
    if not folder.is_dir():
        return [f"there is no folder `{folder}`, as seen from {os.getcwd()}"]
    return [f"there is no file `{name}`, as seen from {os.getcwd()}" + near_said(path.name, [one.name for one in folder.iterdir()])]


def usage(words: list[str]) -> list[str]:
    """What isn't right about the words of a command, where they are known."""
    if not words:
        return ["the words are no command: COMMAND GRAPH, and further files and options behind; `mg --help` lists them"]
    faults, plain, at = [], [], 0
    seen: set[str] = set()
    while at < len(words):
        word, _, value = words[at].partition("=")
        at += 1
        if not word.startswith("-") or word == "-":
            plain.append(word)
        elif word in seen:
            faults.append(f"`{word}` stands twice")
        elif word not in OPTIONS:
            faults.append(f"there is no option `{word}`" + near_said(word, OPTIONS))
        elif OPTIONS[word]:
            least, most = OPTIONS[word]
            if not value and at < len(words):
                value, at = words[at], at + 1
            if not re.fullmatch("0|[1-9][0-9]*", value) or not least <= int(value) <= most:
                faults.append(f"{word} takes a whole number from {least} to {most}, in digits without a sign or a leading zero, not `{value}`" if value
                              else f"{word} needs a number behind it")
        seen.add(word)
    if not plain:
        faults.append("a command is missing: one of " + ", ".join(COMMANDS))
    elif plain[0] not in COMMANDS:
        faults.append(f"`{plain[0]}` is no command: {', '.join(COMMANDS)} are" + near_said(plain[0], COMMANDS))
    if len(plain) == 1:
        faults.append("the file of a graph is missing behind the command")
    if plain[:1] == ["generate"] and not any(word.startswith("--number") for word in words):
        faults.append("generate needs --number N: how many packets it makes")
    if len(plain) > 66:
        faults.append(f"{len(plain) - 2} further files are named, and at most 64 may be")
    return faults or ["an option is named that this version hasn't yet: `mg --help` lists what it has"]


def text(note: Note, texts: FileTexts) -> list[str]:
    name = texts.named(note["file"])
    if name is None or name not in texts.data:
        return [f"the file `{note['file']}` has a fault at byte {note['at']}; name it to this tool, and it tells the line"]
    data = texts.data[name]
    if note["refusal"] == "TooLong":
        return [f"{name}: it has {len(data)} bytes, and 4194304 are the most: make subgraphs of its parts"]
    at = note["at"]
    what = contents.of_graph(data[:contents.HEAD], name) if note["refusal"] == "Syntax" else ""
    if what:
        return [f"{texts.place(name, at)}: {what}"]
    wrong = not_utf_8(data)
    if wrong and wrong.start <= at <= wrong.end:
        return [f"{texts.place(name, wrong.start)}: this is no character in UTF-8 (byte {data[wrong.start]:#x}): save the file in UTF-8"]
    fault = fault_of(data)
    if note["refusal"] == "TooDeep":
        outer = fault.opened[0] if fault and fault.opened else ("a message", 0)
        return [f"{texts.place(name, at)}: 64 messages are open here already; the outermost is `{outer[0]}` at "
                f"{texts.place(name, outer[1])}: look for a brace that is never closed"]
    found = "the file ends here" if at >= len(data) else f"`{data[at:at + 12].split(bytes([10]))[0].decode(errors='surrogateescape') or 'the end of the line'}` stands here"
    wanted = f", where this was wanted: {fault.wanted}" if fault and fault.at == at else ", and can't"
    said = [f"{texts.place(name, at)}: {found}{wanted}"]
    if fault and fault.opened:
        last, begin = fault.opened[-1]
        said.append(f"{texts.place(name, begin)}: `{last}` was opened here and isn't closed yet")
    return said


def not_utf_8(data: bytes) -> UnicodeDecodeError | None:
    """The first bytes that are no character."""
    try:
        data.decode()
    except UnicodeDecodeError as fault:
        return fault
    return None


def fault_of(data: bytes) -> TextFault | None:
    try:
        parse(data)
    except TextFault as fault:
        return fault
    return None


def config(note: Note, texts: FileTexts) -> list[str]:
    name = texts.named(note["file"])
    root = texts.fields(name) if name else None
    path = note["path"]
    if root is None:
        return [f"in `{note['file']}` the field `{path}`; name the file to this tool, and it tells the line"]
    message, last = parent(root, path)
    at_of = lambda field: texts.place(name, field.at)
    same = message.all_of(last) if message else []
    if note["refusal"] == "UnknownField":
        here = at_of(same[0]) if same else at_of(message or root)
        return [f"{here}: there is no field `{last}` here" + unknown_field(path, last)]
    if note["refusal"] == "Repeated":
        first, second = same[0], same[1] if len(same) > 1 else same[0]
        return [f"{at_of(second)}: `{last}` stands a second time; the first is at {at_of(first)}, and only one may"]
    if note["refusal"] == "WrongShape":
        shape = schema.fields_at(path).get(last, "text").rstrip("*")
        field = find(root, path) if "[" in path.split(".")[-1] else next((one for one in same if not schema.fits(shape, one)), None)
        if last == "calculator" and (field is None or field.text == ""):
            return [f"{at_of(message or root)}: this node has no calculator: a field `calculator: \"..\"` is needed"]
        value = f", not `{field.value.text}`" if field and isinstance(field.value, Scalar) else ", not a message" if field else ""
        return [f"{at_of(field or message or root)}: `{last}` takes {schema.SHAPES[shape]}{value}" + quotes_said(shape, field)]
    return bad_port(note, name, root, texts)


def quotes_said(shape: str, field: Field | None) -> str:
    """A hint where the value differs in its quotes alone."""
    value = field.value if field else None
    if isinstance(value, Scalar) and shape == "text" and value.kind != "text":
        return ": put it into quotes"
    if isinstance(value, Scalar) and shape != "text" and value.kind == "text":
        return ": take its quotes away"
    return ""


def unknown_field(path: str, name: str) -> str:
    is_node = path.startswith("node[")
    if name in (schema.IDLE_IN_NODE if is_node else schema.IDLE_IN_GRAPH):
        return ": MediaPipe has it, and it changes nothing of what comes out; tools/port takes it away"
    if name in schema.LEFT_OUT:
        return ": MediaPipe has it, and mg leaves it out (docs/guide/differences.md)"
    known = schema.fields_at(path)
    if name in schema.NODE and not is_node and name not in known:
        return ": it is a field of a node, and stands outside of one"
    return near_said(name, known) or f": those that may stand are {', '.join(known)}"


def bad_port(note: Note, name: str, root: Field, texts: FileTexts) -> list[str]:
    path, cause = note["path"], note["cause"]
    message, last = parent(root, path)
    if cause in ("Twice", "Gap"):
        return port_list(cause, last, name, message, texts)
    field = find(root, path)
    if field is None or field.text is None:
        return [f"{name}: the field `{path}` has no port: {SPELLINGS.get(cause, '')}"]
    return [f"{texts.place(name, field.value.at)}: `{field.text}` is no port: {SPELLINGS[cause]}" + better(field.text, cause, last)]


def better(text: str, cause: str, field: str) -> str:
    """A spelling that would do, where one is at hand."""
    parts = text.split(":")
    if len(parts) > 3:
        return ""
    if field == "tag_index":
        return f"; as `{text.upper()}`" if cause == "BadTag" and text else "; as `TAG`, `TAG:index` or `:index`"
    name = re.sub(r"[^a-z0-9_]", "_", parts[-1].lower())
    name = "_" + name if name[:1].isdigit() else name or "name"
    tags = [re.sub(r"[^A-Z0-9_]", "_", parts[0].upper())] + parts[1:-1] if len(parts) > 1 else []
    if cause == "BadIndex":
        return ""
    return f"; as `{':'.join([*tags, name])}`"


def port_list(cause: str, last: str, name: str, message: Field | None, texts: FileTexts) -> list[str]:
    ports = ports_of(message, last) if message else []
    if cause == "Twice":
        first = {}
        for port in ports:
            if port.key in first:
                label = key_label(port.key) or "the untagged index 0"
                return [f"{texts.place(name, port.at)}: `{port.spelled}` has the tag and index ({label}) of `{first[port.key].spelled}` at "
                        f"{texts.place(name, first[port.key].at)}: give it another"]
            first[port.key] = port
    by_tag: dict[str, set[int]] = {}
    for port in ports:
        by_tag.setdefault(port.tag, set()).add(port.index)
    for port in ports:
        missing = next(index for index in range(len(ports) + 1) if index not in by_tag[port.tag])
        if port.index > missing:
            return [f"{texts.place(name, port.at)}: `{port.spelled}` has the index {port.index}, and no port of {port.tag or 'no tag'} has "
                    f"{missing}: indexes run from 0 without gaps"]
    return [f"{name}: the list `{last}` of {first_text(message, 'name') or 'the file'} has a {cause.lower()}"]
