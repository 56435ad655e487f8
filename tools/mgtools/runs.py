"""A run of a graph by `mg`, also with the streams inside it: their packets are had by runs of the same graph with other outputs."""
from __future__ import annotations

import os
import pathlib
import shutil
import stat
import subprocess
import sys
import tempfile
from collections.abc import Iterator
from dataclasses import dataclass

from .flat import Flat
from .graph import Graph
from .notes import Report
from .timelines import Row, read_rows

MOST_OUTPUTS = 256
# The statuses at which a run printed all that it came to.
RUN = (0, 4, 5, 6)


class NotRun(Exception):
    """A run came to nothing, as its notes say."""


@dataclass
class Run:
    """What a run came to: its status, its output, its notes."""
    status: int
    output: bytes
    notes: list[str]


def program() -> str:
    """The program `mg`: the one that MG names, or that on the path, or the script at the top of the repository."""
    return os.environ.get("MG") or shutil.which("mg") or str(pathlib.Path(__file__).resolve().parents[2] / "mg")


def run(mg: str, files: list[str], recording: str, keeps_output: bool = True) -> Run:
    """Runs a graph over a recording, with a report."""
    with open(recording, "rb") as lines:
        ended = subprocess.run([mg, "run", "--report", *files], stdin=lines, stdout=subprocess.PIPE if keeps_output else subprocess.DEVNULL,
                               stderr=subprocess.PIPE)
    return Run(ended.returncode, ended.stdout or b"", ended.stderr.decode(errors="replace").splitlines())


def recording_of(name: str | None, folder: str) -> str:
    """The file with the packet lines: the one that is named, or standard input. What comes through a pipe is kept in the folder, since it is read
    more than once."""
    if name:
        return name
    if stat.S_ISREG(os.fstat(0).st_mode):
        return "/dev/fd/0"
    path = pathlib.Path(folder) / "packets.jsonl"
    with open(path, "wb") as file:
        shutil.copyfileobj(sys.stdin.buffer, file)
    return str(path)


def lines_inside(mg: str, graph: Graph, recording: str, report: Report, streams: list[str] | None = None) -> Iterator[bytes]:
    """The lines of the packets of some streams that come out of nodes, or of all of these, as the runs print them. Raises NotRun. A run prints what
    is settled on all its outputs, so one run prints the streams that came equally far."""
    written = [port.name for node in graph.nodes for port in node.outputs] if streams is None else streams
    by_bound: dict[str, list[str]] = {}
    for name in dict.fromkeys(written):
        if report.packets.get(name, 0):
            by_bound.setdefault(report.bounds[name], []).append(name)
    for names in by_bound.values():
        for begin in range(0, len(names), MOST_OUTPUTS):
            yield from lines_of(mg, graph, recording, names[begin:begin + MOST_OUTPUTS])


def lines_of(mg: str, graph: Graph, recording: str, streams: list[str]) -> Iterator[bytes]:
    """The lines that the graph prints with these outputs in place of its own."""
    with tempfile.TemporaryDirectory() as folder, tempfile.TemporaryFile() as notes, open(recording, "rb") as lines:
        path = pathlib.Path(folder) / "graph.pbtxt"
        path.write_text(Flat(graph).with_outputs(streams))
        with subprocess.Popen([mg, "run", str(path)], stdin=lines, stdout=subprocess.PIPE, stderr=notes) as process:
            yield from process.stdout
        if process.returncode not in RUN:
            notes.seek(0)
            raise NotRun(f"mg run: status {process.returncode}: {notes.read(4096).decode(errors='replace').strip()}")


def inner_streams(mg: str, graph: Graph, recording: str, report: Report, most: int) -> dict[str, Row]:
    """The rows of the streams that come out of nodes, each with so many packets at most."""
    found: dict[str, Row] = {}
    read_rows(lines_inside(mg, graph, recording, report), "inner", most, found)
    return found
