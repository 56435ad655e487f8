"""Names that are near a misspelled one."""
from __future__ import annotations

import difflib
import re
from collections.abc import Iterable

# What all names of a kind end with: what counts of them is what stands before it. The first is often cut short.
CALCULATOR, SHORT, POLICY = "Calculator", "Calc", "InputStreamHandler"


def near(name: str, names: Iterable[str], most: int = 3) -> list[str]:
    """The names nearest to one, the nearest first; small and large letters count as the same."""
    by_lower: dict[str, str] = {}
    for known in names:
        by_lower.setdefault(known.lower(), known)
    found = difflib.get_close_matches(name.lower(), by_lower, most, 0.6)
    # A name that holds the other whole is near too, as `--queue` is to `--max-queue-size`.
    found += [lower for lower in by_lower if lower not in found and len(name) > 2 and (name.lower() in lower or lower in name.lower())]
    return [by_lower[lower] for lower in found[:most]]


def near_stems(name: str, names: Iterable[str], suffix: str, most: int = 3) -> list[str]:
    """The names that a misspelled one may mean, the nearest first. The suffix that they share doesn't count, or all of them would be near."""
    own = stem(name, suffix)
    found = [(distance, known) for known in names if (distance := apart(own, stem(known, suffix))) is not None]
    return [known for _, known in sorted(found, key=lambda pair: pair[0])[:most]]


def said(name: str, names: Iterable[str]) -> str:
    """A clause that names what is near, or nothing."""
    return listed(near(name, names))


def listed(found: list[str]) -> str:
    """The clause that names some names, or nothing where there are none."""
    return f"; near it: {', '.join(f'`{one}`' for one in found)}" if found else ""


def stem(name: str, suffix: str) -> str:
    """A name without its suffix, which may be misspelled, or cut short."""
    wanted, lower = suffix.lower(), name.lower()
    begins = range(max(0, len(name) - len(suffix) - 2), max(0, len(name) - len(suffix) + 3))
    wrong, at = min([(edits(lower[begin:], wanted), begin) for begin in begins], default=(3, 0))
    if wrong <= 2:
        return name[:at]
    return name[:-len(SHORT)] if suffix == CALCULATOR and lower.endswith(SHORT.lower()) else name


def apart(own: str, known: str) -> int | None:
    """How far two stems are apart; nothing where the first hardly means the second. It may where a letter or two are wrong, where one word is
    spelled otherwise, as in PassThru, or where it is the first or last words of the second, as Loopback is."""
    if not own or not known:
        return None
    if abs(len(own) - len(known)) <= 2:
        wrong = edits(own.lower(), known.lower())
        if wrong <= (1 if len(known) < 8 else 2) and wrong < len(known):
            return wrong
    mine, theirs = words(own), words(known)
    pairs = [pair for pair in zip(mine, theirs) if pair[0] != pair[1]]
    if len(mine) == len(theirs) > 1 == len(pairs) and difflib.SequenceMatcher(None, *pairs[0]).ratio() >= 0.7:
        return 3
    return 4 if mine and len(own) > 2 and mine in (theirs[:len(mine)], theirs[-len(mine):]) else None


def words(name: str) -> list[str]:
    """The words of a name that large letters begin, in small letters."""
    return [word.lower() for word in re.findall(r"[A-Z]+(?![a-z])|[A-Z]?[a-z]+|\d+", name)]


def edits(one: str, other: str) -> int:
    """How many letters have to be put in, taken out, changed or swapped with the next, to come from one text to another."""
    before: list[int] = []
    row = list(range(len(other) + 1))
    for at, letter in enumerate(one, 1):
        older, before, row = before, row, [at]
        for place, wanted in enumerate(other, 1):
            least = min(before[place] + 1, row[-1] + 1, before[place - 1] + (letter != wanted))
            if at > 1 and place > 1 and letter == other[place - 2] and one[at - 2] == wanted:
                least = min(least, older[place - 2] + 1)
            row.append(least)
    return row[-1]
