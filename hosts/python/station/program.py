"""The station's program as a child with two pipes, as a planner has it that owns the pipe."""

import os
import subprocess
import tempfile
from typing import Optional, Union

from .messages import LENGTH_MOST, whole

PATIENCE = 60
"""Seconds that a program has for its end once its input has ended."""


class Ended(Exception):
    """The program has ended before it answered, or badly: its status, and its last line on standard error, if it said one."""

    def __init__(self, status: int, line: str):
        super().__init__(status, line)
        self.status, self.line = status, line

    def __str__(self) -> str:
        return f"the station has ended with status {self.status}" + (f": {self.line}" if self.line else "")


class Program:
    """A running station: `Program("bin/station", "--new", "north.journal", "--garage", "north")`. Left as a context it is ended."""

    LONGEST = LENGTH_MOST
    """The greatest length that a message to it may have."""

    def __init__(self, path: Union[str, "os.PathLike[str]"], *words: str):
        # what it tells goes to a file, as a pipe that nobody reads could hold it up
        self.told = tempfile.TemporaryFile()
        try:
            self.child = subprocess.Popen([os.fspath(path), *words], stdin=subprocess.PIPE, stdout=subprocess.PIPE, stderr=self.told)
        except OSError:
            self.told.close()
            raise
        self.ended: Optional[Ended] = None

    def send(self, message: bytes) -> bytes:
        """Sends one message, and gives the message that answers it; raises Ended where none comes."""
        if not whole(message, self.LONGEST):
            raise ValueError(f"not one whole message: {message.hex(' ')}")
        if self.ended:
            raise self.ended
        try:
            self.child.stdin.write(message)
            self.child.stdin.flush()
        except BrokenPipeError:
            raise self.wait() from None
        head = self.child.stdout.read(2)
        body = self.child.stdout.read(int.from_bytes(head, "little")) if len(head) == 2 else b""
        if len(head) < 2 or len(body) < int.from_bytes(head, "little"):
            # an answer that didn't come whole is none
            raise self.wait()
        return head + body

    def wait(self) -> Ended:
        """Ends its input, and gives how it ended."""
        if self.ended is None:
            try:
                self.child.stdin.close()
            except BrokenPipeError:
                pass  # it has ended already, and its status tells why
            try:
                status = self.child.wait(PATIENCE)
            except subprocess.TimeoutExpired:
                self.child.terminate()
                status = self.child.wait()
            self.child.stdout.close()
            self.told.seek(0)
            lines = self.told.read().decode(errors="replace").splitlines()
            self.told.close()
            self.ended = Ended(status, lines[-1] if lines else "")
        return self.ended

    def end(self) -> None:
        """Ends it; raises Ended where its status isn't 0."""
        ended = self.wait()
        if ended.status:
            raise ended

    def __enter__(self) -> "Program":
        return self

    def __exit__(self, kind, *_) -> None:
        # an exception that is under way is told, and not how the program ended after it
        if kind is None:
            self.end()
        else:
            self.wait()
