"""What a file is that can't be read as what it was named for, by its first bytes: compressed, in another encoding, a table, packet lines, a graph."""
from __future__ import annotations

import re
import shlex

from .packets import read_line

# So many bytes are looked at.
HEAD = 1 << 14
PACKED = {b"\x1f\x8b": ("gzip", "gunzip -c"), b"\x28\xb5\x2f\xfd": ("zstd", "zstd -dc"), b"\xfd7zXZ\x00": ("xz", "xz -dc"),
          b"BZh": ("bzip2", "bunzip2 -c"), b"PK\x03\x04": ("zip", "unzip -p")}
# A mark of UTF-32 begins with one of UTF-16.
MARKS = {b"\xff\xfe\x00\x00": "UTF-32", b"\x00\x00\xfe\xff": "UTF-32", b"\xff\xfe": "UTF-16", b"\xfe\xff": "UTF-16"}
UTF_8_MARK = b"\xef\xbb\xbf"
GRAPH = re.compile(rb"(?:#[^\n]*\n|\s)*(?:(?:input|output)_(?:stream|side_packet)|node|type|num_threads|max_queue_size|executor)\s*[:{\[]")
JSON = re.compile(rb'\s*(?:\{\s*["}]|\[\s*[\[{"\d\]-])')
TAB, TAB_WORD = "\t", r"\t"
LIST = "'.[]'"
NUMBER = re.compile(r'"?[+-]?\d+(?:[.,]\d+)?"?')


def of_graph(head: bytes, name: str) -> str:
    """What a file is that was named as a graph, and what to do with it; nothing where it may be a graph with a fault."""
    name = shlex.quote(name)
    if is_packets(head):
        return f"these are packet lines, which come by `<`: mg run GRAPH < {name}"
    if JSON.match(head):
        return "this is JSON, and a graph is a text of fields, as `node { calculator: \"..\" }` (docs/guide/graph_file.md)"
    table = of_table(head, name)
    if table:
        return table + ", which come by `<`"
    return of_bytes(head, name, ": mg reads a graph in protobuf's text form, and not in its binary one")


def of_recording(head: bytes, name: str) -> str:
    """What a file is that came as packet lines, and what to do with it; nothing where it may be packet lines with a fault."""
    name = shlex.quote(name)
    if GRAPH.match(head):
        return "this is the text of a graph: a graph is a word of the command, and packet lines come by `<`"
    mark = head.split(b"\n")[0].strip()
    if mark in (b"{", b"["):
        return f"this is one JSON value over several lines, and each line has to be one: `jq -c {'.' if mark == b'{' else LIST} {name}` writes it so"
    return of_table(head, name) or of_bytes(head, name, "")


def of_table(head: bytes, name: str) -> str:
    """What to do with a table; nothing of what isn't one."""
    mark = separator(head)
    if not mark:
        return ""
    option = "" if mark == "," else f"--separator {shlex.quote(mark.replace(TAB, TAB_WORD))} "
    return f"this is a table: `tools/recording lines {option}{name} > packets.jsonl` makes packet lines of it"


def of_bytes(head: bytes, name: str, wanted: str) -> str:
    """What a file is that is no text in UTF-8, or begins with what no text here begins with."""
    packed = next((by for mark, by in PACKED.items() if head.startswith(mark)), None)
    if packed:
        return f"this is compressed by {packed[0]}: `{packed[1]} {name}` writes what is in it"
    encoding = encoding_of(head)
    if encoding:
        return f"this is a text in {encoding}, and UTF-8 is wanted: `iconv -f {encoding} -t UTF-8 {name}` writes it so"
    if head.startswith(UTF_8_MARK):
        return f"a byte order mark stands before the text: `tail -c +4 {name}` writes the text without it"
    if re.match(rb"\s*<(?:!doctype )?html", head, re.I):
        return "this is a web page, as a browser shows a file: save the file itself"
    odd = len(re.findall(rb"[\x00-\x08\x0e-\x1f\x7f]", head))
    return f"these are bytes of no text{wanted}" if b"\x00" in head or odd > max(1, len(head) // 50) else ""


def encoding_of(head: bytes) -> str | None:
    """The encoding of a text that is none in UTF-8: by its mark, or by the zeros of its letters."""
    marked = next((name for mark, name in MARKS.items() if head.startswith(mark)), None)
    if marked or len(head) < 8:
        return marked
    first, second = head[0:64:2], head[1:64:2]
    if not second.strip(b"\x00") and b"\x00" not in first:
        return "UTF-16LE"
    return "UTF-16BE" if not first.strip(b"\x00") and b"\x00" not in second else None


def separator(head: bytes) -> str:
    """What separates the cells of a table, where it begins as one: with two lines of as many cells, and a number in the second. Nothing otherwise."""
    lines = [line for line in head.decode("utf-8", "replace").lstrip("\ufeff").splitlines() if line.strip()][:2]
    if len(lines) < 2 or re.search(r"[{}\[\]<>\x00]", lines[0]):
        return ""
    for mark in ",;" + TAB:
        names, cells = (line.split(mark) for line in lines)
        if len(names) == len(cells) > 1 and any(NUMBER.fullmatch(cell.strip()) for cell in cells):
            return mark
    return ""


def is_packets(head: bytes) -> bool:
    """Whether its first line that isn't blank is a packet line."""
    first = next((line for line in head.split(b"\n") if line.strip()), b"")
    return read_line(1, first).form in ("packets", "bound", "close", "side")
