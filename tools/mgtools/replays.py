"""Recordings that are run again, and compared with what is expected of them.

A folder has a graph, graph.pbtxt, and recordings beside it, in one of two ways or in both:

    packets.jsonl or NAME.packets.jsonl     with expected.jsonl or NAME.expected.jsonl
    recordings/NAME.jsonl                   with expected/NAME.jsonl

Beside an expected output .notes has the notes that are expected, and .status the status; without them there are none, and the status is 0.
The other graph files of the folder are used where a node names their type.
"""
from __future__ import annotations

import contextlib
import filecmp
import os
import pathlib
import re
import signal
import subprocess
import tempfile
import time
from collections.abc import Iterator
from dataclasses import dataclass, field

from .differences import difference, difference_said
from .folders import within, written
from .graph import File, first_text
from .textform import TextFault

GRAPH = "graph.pbtxt"
# What a graph and its input decide; any other status is of the call, the files or the machine, and is never taken over.
OF_THE_GRAPH = (0, 3, 4, 5, 6)
MOST_SHOWN = 12


@dataclass
class Case:
    """A recording, the graph that it goes into, and the names, without their ends, of what is expected."""
    name: str
    folder: pathlib.Path
    files: list[str]
    recording: pathlib.Path
    expected: pathlib.Path

    def wants(self, end: str) -> pathlib.Path:
        return self.expected.with_name(self.expected.name + end)


@dataclass
class Came:
    """What a run came to: its status, nothing where it didn't end in time, its output in a file, its notes, and its time."""
    status: int | None
    output: pathlib.Path
    notes: str
    seconds: float


@dataclass
class Outcome:
    """What became of a case: PASS, FAIL or WROTE, what is said of it, and whether the run itself went wrong."""
    case: Case
    verdict: str
    said: list[str] = field(default_factory=list)
    is_error: bool = False
    notes: str = ""
    seconds: float = 0.0


def cases_of(folder: pathlib.Path, graph: list[str]) -> Iterator[Case]:
    """The cases of a folder and of those inside it, in the order of their names. Each runs in its folder, or all go into one graph."""
    for at, inner, names in os.walk(folder):
        inner[:] = sorted(name for name in inner if not name.startswith("."))
        here = pathlib.Path(at)
        pairs = dict(pairs_in(here, sorted(names)))
        if "recordings" in inner or "expected" in inner:
            inner[:] = [name for name in inner if name not in ("recordings", "expected")]
            pairs.update(pairs_below(here))
        if not pairs or not (graph or GRAPH in names or any(expected_of(base) for base in pairs.values())):
            continue
        files = graph or [GRAPH, *further_files(here, names)]
        for recording, base in sorted(pairs.items()):
            name = recording.parent / recording.name.removesuffix(".jsonl").removesuffix("packets").rstrip(".")
            yield Case(str(name), pathlib.Path() if graph else here, files, recording, base)


def pairs_in(here: pathlib.Path, names: list[str]) -> Iterator[tuple[pathlib.Path, pathlib.Path]]:
    """The recordings that lie beside a graph, and those that lack although something is expected of them."""
    for name in names:
        found = re.fullmatch(r"(.+\.)?(packets|expected)\.jsonl", name)
        if found:
            yield here / f"{found[1] or ''}packets.jsonl", here / f"{found[1] or ''}expected"


def pairs_below(here: pathlib.Path) -> Iterator[tuple[pathlib.Path, pathlib.Path]]:
    """The same of two folders beside it."""
    for name in {*within(str(here / "recordings")), *within(str(here / "expected"))}:
        yield here / "recordings" / name, here / "expected" / name.removesuffix(".jsonl")


def expected_of(base: pathlib.Path) -> bool:
    return any(base.with_name(base.name + end).exists() for end in (".jsonl", ".notes", ".status"))


def further_files(here: pathlib.Path, names: list[str]) -> list[str]:
    """The graph files of a folder that its graph uses, directly or through others."""
    types: dict[str, list[str]] = {}
    uses: dict[str, list[str]] = {}
    for name in sorted(name for name in names if name.endswith(".pbtxt")):
        data = (here / name).read_bytes()
        try:
            file = File.of(name, data)
        except TextFault:
            # What can't be read is used where it may be; `mg` says then what is wrong with it.
            for found in re.findall(rb'^\s*type\s*:\s*"([^"]*)"', data, re.M):
                types.setdefault(found.decode(errors="replace"), []).append(name)
            continue
        uses[name] = [first_text(node, "calculator") for node in file.root.all_of("node")]
        if file.type:
            types.setdefault(file.type, []).append(name)
    used, left = [], [GRAPH]
    for name in left:
        new = {file for calculator in uses.get(name, []) for file in types.get(calculator, []) if file not in left}
        left += sorted(new)
        used += sorted(new)
    return used


def run(case: Case, command: list[str], seconds: float, folder: pathlib.Path, running: set[subprocess.Popen]) -> Came:
    """Runs the program over a recording, for so long at most."""
    begin = time.monotonic()
    output = folder / "output.jsonl"
    with open(case.recording, "rb") as lines, open(output, "wb") as out, open(folder / "notes", "wb") as notes:
        process = subprocess.Popen([*command, *case.files], cwd=case.folder, stdin=lines, stdout=out, stderr=notes, start_new_session=True)
        running.add(process)
        try:
            status: int | None = process.wait(seconds)
        except subprocess.TimeoutExpired:
            status = None
        finally:
            stop(process)
            running.discard(process)
    return Came(status, output, (folder / "notes").read_text(errors="replace"), time.monotonic() - begin)


def stop(process: subprocess.Popen) -> None:
    """Ends a program that goes on, and what it started."""
    if process.poll() is None:
        with contextlib.suppress(ProcessLookupError):
            os.killpg(process.pid, signal.SIGKILL)
        process.wait()


def tried(case: Case, command: list[str], seconds: float, updates: bool, running: set[subprocess.Popen]) -> Outcome:
    """Runs a case, and compares it or takes over what came."""
    for what, path in ("recording", case.recording), ("graph", case.folder / case.files[0]):
        if not path.exists():
            return Outcome(case, "FAIL", [f"there is no {what} {path}"], True)
    with tempfile.TemporaryDirectory() as folder:
        came = run(case, command, seconds, pathlib.Path(folder), running)
        fault = went_wrong(came, seconds)
        if fault:
            return Outcome(case, "FAIL", [fault, *shown_notes(came)], True, came.notes, came.seconds)
        said = [*status_said(case, came), *output_said(case, came), *notes_said(case, came)]
        if said and updates and came.status in OF_THE_GRAPH:
            take_over(case, came)
            return Outcome(case, "WROTE", said, False, came.notes, came.seconds)
        return Outcome(case, "FAIL" if said else "PASS", said, False, came.notes, came.seconds)


def went_wrong(came: Came, seconds: float) -> str:
    """Why a run has no answer to compare."""
    if came.status is None:
        return f"the run wasn't done after {seconds:g} seconds"
    if came.status < 0:
        return f"the program was ended by signal {-came.status} ({signal.strsignal(-came.status)})"
    return ""


def wanted_status(case: Case) -> int:
    path = case.wants(".status")
    try:
        return int(path.read_text()) if path.exists() else 0
    except ValueError:
        raise ValueError(f"{path}: a status is a number") from None


def status_said(case: Case, came: Came) -> list[str]:
    wanted = wanted_status(case)
    return [] if came.status == wanted else [f"the status is {came.status}, and {wanted} was expected"]


def output_said(case: Case, came: Came) -> list[str]:
    """How the output differs from what is expected."""
    path = case.wants(".jsonl")
    if not path.exists():
        return [f"there is no {path} (--update writes it)"]
    if filecmp.cmp(path, came.output, shallow=False):
        return []
    names = str(path), "the output"
    try:
        with open(path, "rb") as one, open(came.output, "rb") as other:
            found = difference(one, other, names)
    except ValueError as fault:
        return [str(fault)]
    return list(difference_said(found, names))


def notes_said(case: Case, came: Came) -> list[str]:
    """The first note that differs from what is expected."""
    path = case.wants(".notes")
    wanted = path.read_text(errors="replace").splitlines() if path.exists() else []
    notes = came.notes.splitlines()
    for number in range(max(len(wanted), len(notes))):
        one, other = ("`" + lines[number] + "`" if number < len(lines) else "no note" for lines in (wanted, notes))
        if one != other:
            place = f" in {path}:{number + 1}" if number < len(wanted) else ""
            return [f"of the notes: {one} was expected{place}, and {other} came"]
    return []


def shown_notes(came: Came) -> list[str]:
    return ["the last note is `" + came.notes.splitlines()[-1] + "`"] if came.notes.strip() else []


def take_over(case: Case, came: Came) -> None:
    """Writes what came as what is expected. No file stands for no notes, and for the status 0."""
    case.expected.parent.mkdir(parents=True, exist_ok=True)
    status = "" if came.status == 0 else f"{came.status}\n"
    for end, data in ((".jsonl", came.output.read_bytes()), (".notes", came.notes.encode()), (".status", status.encode())):
        path = case.wants(end)
        if data or end == ".jsonl":
            with written(path) as file:
                file.write(data)
        else:
            path.unlink(missing_ok=True)
