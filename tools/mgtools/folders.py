"""Recordings and outputs in folders: those that names stand for, pairs of them, and files that are written whole or not at all."""
from __future__ import annotations

import contextlib
import os
import pathlib
from collections.abc import Iterator
from typing import IO


def within(folder: str) -> list[str]:
    """The recordings of a folder and of those inside it, by their names below it."""
    return sorted(str(file.relative_to(folder)) for file in pathlib.Path(folder).rglob("*.jsonl") if file.is_file())


def files_of(names: list[str]) -> list[str]:
    """Files, and in place of each folder its recordings."""
    found = []
    for name in names:
        if not os.path.isdir(name):
            found.append(name)
            continue
        inner = within(name)
        if not inner:
            raise ValueError(f"{name}: no file of this folder is named *.jsonl")
        found += [os.path.join(name, file) for file in inner]
    return found


def pairs_of(ones: list[str], other: str) -> tuple[list[tuple[str, str]], list[str]]:
    """Files to compare with each other, and those that have no counterpart. Of two folders the files of one name are a pair; a file has its
    counterpart in a folder by its own name."""
    pairs, alone = [], []
    if not os.path.isdir(other):
        if len(ones) > 1 or os.path.isdir(ones[0]):
            raise ValueError(f"{other}: several files are compared with a folder, and this is none")
        return [(ones[0], other)], []
    for one in ones:
        if not os.path.isdir(one):
            pairs.append((one, os.path.join(other, os.path.basename(one))))
            continue
        here, there = within(one), within(other)
        for name in sorted({*here, *there}):
            pair = os.path.join(one, name), os.path.join(other, name)
            if name in here and name in there:
                pairs.append(pair)
            else:
                alone.append(pair[name in there])
    if not pairs and not alone:
        raise ValueError(f"{other}: no file of these folders is named *.jsonl")
    return pairs, alone


@contextlib.contextmanager
def written(path: pathlib.Path) -> Iterator[IO[bytes]]:
    """A file that takes its name when all of it is written; behind a fault the name keeps what it had."""
    part = path.with_name(path.name + ".part")
    try:
        with open(part, "wb") as file:
            yield file
        os.replace(part, path)
    except BaseException:
        part.unlink(missing_ok=True)
        raise
