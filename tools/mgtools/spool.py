"""Passes a pipe on to a command, and keeps in a temporary file what was passed on, so that it can be read a second time."""
from __future__ import annotations

import os
import select
import tempfile
import threading

PIECE = 1 << 16
# Of a longer recording nothing is kept.
MOST = 1 << 30


class Spool:
    """What came through a pipe. It is kept as long as the temporary folder has room, and up to `MOST` bytes; it is passed on in any case."""

    def __init__(self, source: int):
        self.source = source
        self.length = 0
        # Why nothing is kept, where it isn't.
        self.why_not = ""
        try:
            self.file = tempfile.TemporaryFile(buffering=0)
        except OSError as fault:
            self.file = None
            self.why_not = f"no temporary file can be made ({fault.strerror})"

    def pass_on(self, sink: int) -> None:
        """Begins to pass on what comes, in a thread of its own. Each piece is kept before the command has it."""
        threading.Thread(target=self.run, args=(sink,), daemon=True).start()

    def run(self, sink: int) -> None:
        try:
            while piece := self.next():
                self.keep(piece)
                write_all(sink, piece)
        except BrokenPipeError:
            # The command reads no more.
            pass
        finally:
            os.close(sink)

    def next(self) -> bytes:
        """What comes next; nothing at the end. A pipe may be one that doesn't block."""
        while True:
            try:
                return os.read(self.source, PIECE)
            except BlockingIOError:
                select.select([self.source], [], [])

    def keep(self, piece: bytes) -> None:
        if self.why_not:
            return
        self.length += len(piece)
        try:
            if self.length <= MOST:
                write_all(self.file.fileno(), piece)
            else:
                self.why_not = f"more than {MOST >> 20} MB came through the pipe"
        except OSError as fault:
            self.why_not = f"the temporary file can't be written ({fault.strerror})"
        if self.why_not:
            self.file.truncate(0)

    def path(self) -> str | None:
        """The path under which what was kept is read from its start; nothing where it isn't kept."""
        return None if self.why_not else f"/dev/fd/{self.file.fileno()}"


def write_all(sink: int, piece: bytes) -> None:
    while piece:
        piece = piece[os.write(sink, piece):]
