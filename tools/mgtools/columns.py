"""The small file beside a recording of tables: how their times and numbers were written, so that they can be written so again."""
from __future__ import annotations

import json
import pathlib
from collections.abc import Iterable
from dataclasses import dataclass, field

from .scales import Iso


@dataclass
class Scale:
    """How many decimals a column's numbers keep, and with how many each was written at least; nothing where all of them are written."""
    decimals: int = 0
    least: int | None = None

    def saw(self, digits: int) -> None:
        """Another number was written with so many decimals."""
        if self.least is None or digits < self.least:
            self.least = min(digits, self.decimals)

    def told(self) -> dict[str, int]:
        return {"decimals": self.decimals, **({} if self.least is None else {"least": self.least})}


@dataclass
class Columns:
    """The columns of tables: that of the times, and by stream the head and the scale of each other one."""
    time: str = "time"
    time_scale: Scale = field(default_factory=Scale)
    iso: Iso | None = None
    streams: dict[str, tuple[str, Scale]] = field(default_factory=dict)
    separator: str = ","
    comma: bool = False
    default: Scale = field(default_factory=Scale)

    def head_of(self, stream: str) -> str:
        return self.streams[stream][0] if stream in self.streams else stream

    def scale_of(self, stream: str) -> Scale:
        return self.streams[stream][1] if stream in self.streams else self.default

    def text(self) -> str:
        time = {"column": self.time, **self.time_scale.told()}
        if self.iso:
            time["iso"] = {"before": self.iso.before, "zone": self.iso.zone}
        streams = {name: {"column": head, **scale.told()} for name, (head, scale) in self.streams.items()}
        said = {"time": time, "streams": streams, "separator": self.separator, "decimal_comma": self.comma}
        return json.dumps(said, ensure_ascii=False, indent=1) + "\n"


def beside(recording: str) -> pathlib.Path:
    """The file that says of a recording how its table was written."""
    return pathlib.Path(recording.removesuffix(".jsonl") + ".columns.json")


def joined(tables: Iterable[Columns]) -> Columns:
    """The columns of several tables whose packets are merged: the times are written as those of the first one that has any."""
    whole = Columns()
    for place, table in enumerate(tables):
        if not place:
            whole = Columns(table.time, table.time_scale, table.iso, {}, table.separator, table.comma)
        whole.streams.update({name: column for name, column in table.streams.items() if name not in whole.streams})
    return whole


def load(name: str | pathlib.Path) -> Columns:
    """Reads such a file. Raises ValueError where it isn't one."""
    def scale(said: dict) -> Scale:
        numbers = said.get("decimals", 0), said.get("least")
        if not all(one is None or type(one) is int and 0 <= one <= 18 for one in numbers):
            raise ValueError(numbers)
        return Scale(*numbers)

    try:
        said = json.loads(pathlib.Path(name).read_text(encoding="utf-8"))
        time, iso = said["time"], said["time"].get("iso")
        return Columns(str(time["column"]), scale(time), Iso(iso["before"], iso["zone"]) if iso else None,
                       {stream: (str(one["column"]), scale(one)) for stream, one in said["streams"].items()},
                       str(said["separator"]), bool(said["decimal_comma"]))
    except (ValueError, KeyError, TypeError, AttributeError):
        raise ValueError(f"{name}: this is no file of columns, as tools/recording lines writes it beside a recording") from None
