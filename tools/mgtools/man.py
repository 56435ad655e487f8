"""The man page of mg as text for `man`, made of its help and of the page of the command line, which has the details."""
from __future__ import annotations

import re
import textwrap
from collections.abc import Iterable, Iterator

from .help import PAGE, Help, Option

# A section of the page that has a name of its own in every man page.
NAMES = {"Statuses": "EXIT STATUS"}


def escaped(text: str) -> str:
    return text.replace("\\", r"\e").replace("-", r"\-").replace("'", r"\(aq")


def lines(text: list[str]) -> str:
    """Lines of text, none of which `man` takes for one of its own requests."""
    return "".join(rf"\&{line}" if line.startswith(".") else line for line in (f"{one}\n" for one in text))


def inline(text: str) -> str:
    """Sentences of the page: what is code there is bold, and of a link its text stays."""
    parts = re.sub(r"\[([^]]*)\]\([^)]*\)", r"\1", text).replace("**", "").split("`")
    return "".join(rf"\fB{escaped(part)}\fR" if number % 2 else escaped(part) for number, part in enumerate(parts))


def filled(text: str) -> str:
    return lines(textwrap.wrap(inline(text), 79, break_long_words=False, break_on_hyphens=False))


def words(usage: str) -> str:
    """Words of a usage: the names in capitals are italic, and all else is bold."""
    return " ".join(re.sub("[A-Z]+", r"\\fI\g<0>\\fR", word) if re.fullmatch(r"[][A-Z.]+", word) else rf"\fB{escaped(word)}\fR"
                    for word in usage.split())


def entry(name: str, text: str) -> str:
    return f".TP\n{name}\n{filled(text)}"


def code(text: str) -> str:
    return f".RS 4\n.EX\n{lines(escaped(text).splitlines())}.EE\n.RE\n"


def said(sentences: Iterable[str]) -> str:
    """Sentences of table cells: those behind the first begin with a capital, and where there are several, each has its full stop."""
    first, *others = (sentence for sentence in sentences if sentence)
    return ". ".join([first, *(one[0].upper() + one[1:] for one in others)]) + ("." if others else "")


def option_entry(option: Option) -> str:
    value = f" {option.value}" if option.value else ""
    *some, last = (f"`{command}`" for command in option.commands or ("",))
    works_with = f"it works with {', '.join(some)}{' and ' if some else ''}{last}" if option.commands else ""
    return entry(", ".join(words(name + value) for name in option.names), said([option.does, works_with]))


def body(text: str) -> Iterator[str]:
    """A part of the page, block by block: tables row by row, the first cell as a name, and what the other cells say of it."""
    for number, block in enumerate(re.split(r"\n\s*\n", text.strip("\n"))):
        if block.startswith("|"):
            for row in block.split("\n")[2:]:
                name, *cells = (cell.strip() for cell in row.strip("|").split("|"))
                yield entry(inline(name), said(cells))
            continue
        # A heading begins a paragraph by itself.
        yield ".PP\n" if number else ""
        yield code(textwrap.dedent(block)) if block.startswith("    ") else filled(block)


def pages(page: str) -> Iterator[str]:
    """The pages of the guide that the page leads to, each with its title."""
    for name in dict.fromkeys(re.findall(r"\]\((\w+\.md)", page)):
        title = (PAGE.parent / name).read_text(encoding="utf-8").split("\n")[0].lstrip("# ")
        yield entry(rf"\fBdocs/guide/{escaped(name)}\fR", title)


def man_page(help: Help) -> str:
    head, *parts = re.split(r"(?m)^(?=##)", help.page)
    of_options = head.rsplit("|\n", 1)[1]
    name, headline = help.headline.rstrip(".").split(" ", 1)
    text = f'.\\" `tools/man-page` made this of the help of mg.\n.TH {name.upper()} 1 "" "{help.version}" "User Commands"\n.nh\n.ad l\n'
    text += f".SH NAME\n{name} \\- {escaped(headline)}\n.SH SYNOPSIS\n{words(help.usage)}\n.SH DESCRIPTION\n{filled(help.files)}"
    text += ".SH COMMANDS\n" + "".join(entry(words(command), does) for command, does in help.commands.items())
    text += ".SH OPTIONS\n" + "".join(map(option_entry, help.options)) + ".PP\n" + "".join(body(of_options))
    for part in parts:
        (level, title), rest = part.split("\n", 1)[0].split(" ", 1), part.split("\n", 1)[1]
        text += (f".SS {inline(title)}\n" if level == "###" else f".SH {NAMES.get(title, title.upper())}\n") + "".join(body(rest))
    return text + f".SH EXAMPLES\n{code(help.example)}.SH SEE ALSO\nOf the repository:\n" + "".join(pages(help.page))
