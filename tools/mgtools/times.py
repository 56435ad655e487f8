"""Times of packets, kept in a file: of runs of any length, in a memory that only the number of streams decides."""
from __future__ import annotations

import tempfile
from array import array

BLOCK = 256


class TimeFile:
    """A file with the times of many streams, in blocks. It is gone with the object."""

    def __init__(self):
        self.file = tempfile.TemporaryFile(buffering=0)
        self.blocks = 0

    def put(self, times: array) -> int:
        """Writes a block; its place."""
        self.file.seek(self.blocks * BLOCK * 8)
        self.file.write(times.tobytes())
        self.blocks += 1
        return self.blocks - 1

    def get(self, block: int) -> array:
        self.file.seek(block * BLOCK * 8)
        return array("q", self.file.read(BLOCK * 8))


class Times:
    """The times of a stream's packets, in order. One block is at hand, besides the last one."""

    def __init__(self, file: TimeFile):
        self.file = file
        self.places = array("q")
        self.last = array("q")
        self.near: array = self.last
        self.near_is = -1

    def __len__(self) -> int:
        return len(self.places) * BLOCK + len(self.last)

    def append(self, time: int) -> None:
        self.last.append(time)
        if len(self.last) == BLOCK:
            self.places.append(self.file.put(self.last))
            self.last = array("q")

    def __getitem__(self, number: int) -> int:
        block, at = divmod(number, BLOCK)
        if block == len(self.places):
            return self.last[at]
        if block != self.near_is:
            self.near, self.near_is = self.file.get(self.places[block]), block
        return self.near[at]
