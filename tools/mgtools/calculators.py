"""The page docs/guide/calculators.md, read: what its table says of each calculator, and the options and the examples of each section."""
from __future__ import annotations

import pathlib
import re
from dataclasses import dataclass

PAGE = pathlib.Path(__file__).resolve().parents[2] / "docs/guide/calculators.md"


@dataclass(frozen=True)
class Told:
    """What the page tells of a calculator: its row of the table, the section that the row leads to, by its name and its text, and of this
    the rows of the options, and the examples."""
    name: str
    inputs: str
    outputs: str
    options: tuple[str, ...]
    offset: str
    stateless: str
    section: str
    part: str
    option_rows: tuple[tuple[str, ...], ...]
    examples: tuple[str, ...]


def rows(text: str, *head: str) -> list[tuple[str, ...]]:
    """The rows of the first table of a text whose head begins so."""
    start = re.search(r"(?m)^\| " + r" \| ".join(head) + r" \|.*\n\|[-|]+\n", text)
    if not start:
        return []
    table = re.match(r"(?:\|.*\n?)*", text[start.end():])[0]
    return [tuple(cell.strip() for cell in line[1:-1].split("|")) for line in table.splitlines()]


def sections(text: str) -> dict[str, str]:
    """The text under each heading of a page, up to the next one, by the name that a link has for the heading."""
    found = re.findall(r"(?ms)^##+ ([^\n]*)\n(.*?)(?=^##|\Z)", text)
    return {head.lower().replace(" ", "-"): part for head, part in found}


def words(cell: str) -> tuple[str, ...]:
    """What stands as code in a cell."""
    return tuple(re.findall("`([^`]+)`", cell))


def told_by(text: str) -> list[Told]:
    """What a page tells of each calculator, in the order of its table."""
    parts = sections(text)
    told = []
    for linked, inputs, outputs, options, offset, stateless in rows(text, "Calculator", "Inputs", "Outputs", "Options", "Offset"):
        name, _, section = linked.strip("[)").partition("](#")
        part = parts.get(section, "")
        told.append(Told(name, inputs, outputs, words(options), offset.strip("`"), stateless, section, part,
                         tuple(rows(part, "Option", "Values", "Default")), tuple(re.findall(r"(?m)^    (.*→.*)$", part))))
    return told
