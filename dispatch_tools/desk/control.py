"""The server of the desk's store: whether it runs, what ends it, and the command that starts it.

A file `stop` in the store ends a server. The desk takes it away when the server has ended, so that the next start goes on.
"""
from __future__ import annotations

import os
import subprocess
import time
from typing import Optional, Sequence

from dispatch_tools.desk.locks import is_held
from dispatch_tools.formats.files import BadFile

# So many seconds after its start a command has the store's lock, or has ended.
PATIENCE = 10.0


class Control:
    """A store, and the words of the command that starts its server; none if the desk was not given one."""

    def __init__(self, store: str, command: Sequence[str]) -> None:
        self.lock, self.stop, self.command = f'{store}/lock', f'{store}/stop', list(command)
        self.started: Optional[subprocess.Popen[bytes]] = None
        self.is_closing = False

    def runs(self) -> Optional[bool]:
        """Whether a server runs over the store; None if that cannot be known."""
        return is_held(self.lock)

    def is_ending(self) -> bool:
        """Whether a server is told to end."""
        return os.path.exists(self.stop)

    def close(self) -> None:
        """Tells the server to end."""
        try:
            open(self.stop, 'ab').close()
        except OSError as error:
            raise BadFile(self.stop, None, error.strerror or 'cannot be written') from error
        self.is_closing = True

    def look(self) -> None:
        """Takes the file that ended a server away once it has ended, and lets go of a command that has ended."""
        if self.started is not None and self.started.poll() is not None:
            self.started = None
        if self.is_closing and self.runs() is False:
            self.is_closing = False
            if os.path.exists(self.stop):
                os.remove(self.stop)

    def start(self) -> None:
        """Runs the command, and waits until the store is taken; BadFile if that does not come about. What it prints is its own matter."""
        self.look()
        try:
            started = subprocess.Popen(self.command, stdin=subprocess.DEVNULL, stdout=subprocess.DEVNULL, stderr=subprocess.DEVNULL,
                                       start_new_session=True)
        except OSError as error:
            raise BadFile(self.command[0], None, error.strerror or 'cannot be run') from error
        self.started = started
        ends = time.monotonic() + PATIENCE
        while not self.runs():
            status = started.poll()
            if status or time.monotonic() > ends:
                what = f'it ended with status {status}' if status else f'no server has the store after {PATIENCE:.0f} s'
                raise BadFile(self.command[0], None, what)
            time.sleep(0.05)
