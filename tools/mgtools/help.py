"""The help of mg, read: its commands, options and statuses. The text is that of crates/mg_words/specs/Help.antt, which the program is proved to
write; docs/guide/command_line.md tells which commands an option works with, and what there is to do at a status.
"""
from __future__ import annotations

import pathlib
import re
from dataclasses import dataclass

from .calculators import rows, words

TOP = pathlib.Path(__file__).resolve().parents[2]
TEXTS = TOP / "crates/mg_words/specs/Help.antt"
PAGE = TOP / "docs/guide/command_line.md"


@dataclass(frozen=True)
class Option:
    """An option: its names, what its value is called, what it does, and the commands that it works with; none for one without a command."""
    names: tuple[str, ...]
    value: str
    does: str
    commands: tuple[str, ...]


@dataclass(frozen=True)
class Help:
    """What the help says, part by part. `page` is the text of the page of the command line."""
    version: str
    headline: str
    usage: str
    files: str
    commands: dict[str, str]
    options: tuple[Option, ...]
    statuses: dict[str, str]
    example: str
    page: str


def defined(text: str, name: str) -> str:
    """A text that the program writes, as its definition has it."""
    found = re.search(rf'(?m)^{name} = codes "(.*)"$', text)
    if not found:
        raise ValueError(f"{TEXTS}: there is no `{name}`")
    return found[1].encode("ascii").decode("unicode_escape")


def entries(lines: list[str]) -> dict[str, str]:
    """The entries of a list of the help: a name, and behind two spaces or more what it is, which goes on in lines that are further in."""
    found: dict[str, str] = {}
    name = ""
    for line in lines:
        if begun := re.fullmatch(r"  (\S.*?)  +(\S.*)", line):
            name = begun[1]
            found[name] = begun[2]
        else:
            found[name] += " " + line.strip()
    return {name: does.replace("this text", "the help") for name, does in found.items()}


def option_of(spelled: str, does: str, works_with: dict[str, tuple[str, ...]]) -> Option:
    names = tuple(re.findall(r"(?<!\w)--?[\w-]+", spelled))
    value = re.search(r" ([A-Z]+)$", spelled)
    return Option(names, value[1] if value else "", does, works_with.get(names[-1], ()))


def read() -> Help:
    """Reads the help. An OSError or a ValueError says what couldn't be read."""
    texts, page = TEXTS.read_text(encoding="utf-8"), PAGE.read_text(encoding="utf-8")
    headline, usage, files, *lists = defined(texts, "help_text").rstrip("\n").split("\n\n")
    parts = {name: lines for name, *lines in (part.split("\n") for part in lists)}
    works_with = {words(option)[-1].split()[0]: words(commands) for option, commands, _ in rows(page, "Option", "Works with", "Does")}
    options = tuple(option_of(*entry, works_with) for entry in entries(parts["options:"]).items())
    return Help(defined(texts, "version_text").strip(), headline, usage.removeprefix("usage: "), files.replace("\n", " "),
                entries(parts["commands:"]), options, entries(parts["statuses:"]), parts["example:"][0].strip(), page)
