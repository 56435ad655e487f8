"""What stands here for calculators of MediaPipe's that mg hasn't: the page docs/guide/porting.md, read."""
from __future__ import annotations

import functools
import re

from .calculators import PAGE, rows

# MediaPipe's loops over lists have a calculator for each type of their items.
LOOP = re.compile(r"(BeginLoop|EndLoop)\w+Calculator")


@functools.cache
def counterparts() -> dict[str, str]:
    """A sentence about each calculator that the page's table names; none where the page isn't there."""
    try:
        text = PAGE.with_name("porting.md").read_text(encoding="utf-8")
    except OSError:
        return {}
    found: dict[str, str] = {}
    for cells in rows(text, "MediaPipe", "Here", "Mind"):
        theirs, here, mind = (re.sub(r"\[(.*?)\]\(.*?\)", r"\1", cell) for cell in cells)
        told = f"in place of {theirs}: {here}" + (f"; mind: {mind}" if mind else "") + " (docs/guide/porting.md#counterparts)"
        found.update({name: told for name in re.findall(r"\b[A-Z]\w*(?:Calculator|Container)\b", theirs)})
    return found


def counterpart(name: str) -> str | None:
    """The sentence about a calculator that has a counterpart here."""
    loop = LOOP.fullmatch(name)
    if loop:
        option = "always_end" if loop[1] == "BeginLoop" else "empty_as_bound"
        return f"in place of {name}: {loop[1]}Calculator with `{option}: true`, for items of any type (docs/guide/calculators.md#loops-over-lists)"
    return counterparts().get(name)
