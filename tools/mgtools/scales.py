"""Decimal numbers and times of tables, made into whole numbers and back, digit by digit."""
from __future__ import annotations

import re
from dataclasses import dataclass
from datetime import date, datetime, timedelta

DECIMAL = re.compile(r"([+-]?)(\d*)(?:\.(\d*))?(?:[eE]([+-]?\d+))?")
ISO = re.compile(r"(\d{4})-(\d\d)-(\d\d)(?:([T ])(\d\d):(\d\d)(?::(\d\d)(?:[.,](\d+))?)? ?(Z|[+-]\d\d(?::?\d\d)?)?)?", re.ASCII)
BEGIN = datetime(1970, 1, 1)
# As many decimals times have that are written as ISO 8601, unless others are asked for: microseconds are MediaPipe's custom.
ISO_DECIMALS = 6


def parts_of(text: str) -> tuple[str, str, str, int] | None:
    """A decimal number in parts: its sign, the digits before and behind its point, and its power of 10."""
    found = DECIMAL.fullmatch(text)
    if not found or not (found[2] or found[3]) or not text.isascii() or abs(int(found[4] or 0)) > 400:
        return None
    return found[1], found[2] or "0", found[3] or "", int(found[4] or 0)


def scaled(text: str, decimals: int, rounds: bool) -> int | None:
    """A decimal number times 10 to the power of `decimals`, exactly. What doesn't come out whole is rounded, half away from zero,
    where that was asked for; otherwise it is none, as is what isn't a number."""
    whole, _, part = text.partition(".")
    if len(text) < 18 and text.isascii() and whole.isdigit() and len(part) <= decimals and (part.isdigit() or not part):
        return int(whole + part) * 10**(decimals - len(part))
    parts = parts_of(text.strip())
    if not parts:
        return None
    sign, whole, part, power = parts
    digits, shift = int(whole + part), decimals + power - len(part)
    if shift >= 0:
        number = digits * 10**shift
    else:
        number, rest = divmod(digits, 10**-shift)
        if rest and not rounds:
            return None
        number += 2 * rest >= 10**-shift and rest > 0
    return -number if sign == "-" else number


def decimals_of(text: str) -> int | None:
    """How many decimals a number is written with, as far as its power of 10 leaves some; nothing for what is no number."""
    parts = parts_of(text.strip())
    return max(0, len(parts[2]) - parts[3]) if parts else None


def unscaled(number: int, decimals: int, least: int | None = None) -> str:
    """The decimal number that was scaled, with all its decimals, or with no more than it needs and at least so many."""
    digits = str(abs(number)).rjust(decimals + 1, "0")
    whole, part = digits[:len(digits) - decimals], digits[len(digits) - decimals:]
    if least is not None:
        part = part.rstrip("0").ljust(min(least, decimals), "0")
    return ("-" if number < 0 else "") + whole + ("." + part if part else "")


@dataclass
class Iso:
    """How times are written as ISO 8601: what stands before the hour, and the zone as it is spelled."""
    before: str = "T"
    zone: str = "Z"

    @property
    def minutes(self) -> int:
        """How far the zone is before UTC."""
        digits = self.zone.strip("Z").replace(":", "")
        size = int(digits[1:3]) * 60 + int(digits[3:] or 0) if digits else 0
        return -size if digits[:1] == "-" else size


def iso_form(text: str) -> Iso | None:
    """How an ISO time is written; nothing for what is none."""
    found = ISO.fullmatch(text)
    return Iso(found[4] or "T", found[9] or "") if found else None


def iso_decimals(text: str) -> int | None:
    """How many decimals the seconds of an ISO time have; nothing for what is none."""
    found = ISO.fullmatch(text)
    return len(found[8] or "") if found else None


def read_iso(text: str, decimals: int, rounds: bool) -> int | None:
    """The seconds since 1970 in UTC of an ISO time, scaled as other numbers are; a time without a zone counts as UTC."""
    found = ISO.fullmatch(text)
    if not found:
        return None
    year, month, day, hour, minute, second = (int(found[place] or 0) for place in (1, 2, 3, 5, 6, 7))
    minutes, fraction = Iso("", found[9] or "").minutes, scaled("0." + (found[8] or "0"), decimals, rounds)
    try:
        days = date(year, month, day).toordinal() - BEGIN.toordinal()
    except ValueError:
        return None
    if hour > 23 or minute > 59 or second > 59 or abs(minutes) >= 24 * 60 or fraction is None:
        return None
    return (days * 86400 + (hour * 60 + minute - minutes) * 60 + second) * 10**decimals + fraction


def write_iso(number: int, decimals: int, form: Iso, least: int | None = None) -> str:
    """The ISO time of scaled seconds since 1970. Raises ValueError where its year has more or fewer than four digits."""
    seconds, fraction = divmod(number, 10**decimals)
    try:
        at = BEGIN + timedelta(seconds=seconds, minutes=form.minutes)
    except OverflowError:
        raise ValueError(f"{number} is no time of the years 1 to 9999") from None
    part = unscaled(fraction, decimals, least).partition(".")[2]
    return at.isoformat(form.before) + ("." + part if part else "") + form.zone
