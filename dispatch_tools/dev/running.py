"""Commands that leave nothing behind where they do not end in time.

Each command runs in a session of its own. If it does not end in time, all of that session is ended: what it has started, too.
"""
from __future__ import annotations

import contextlib
import os
import signal
import subprocess
import sys
from collections.abc import Sequence
from pathlib import Path
from typing import Any

# So long a session has, after SIGTERM, to end what it started in sessions of their own.
GRACE = 10.0


def run_whole(words: Sequence[str | Path], seconds: float, **how: Any) -> subprocess.CompletedProcess[Any]:
    """As subprocess.run does, but for the session. TimeoutExpired if the command does not end in time; then all of it has ended."""
    with subprocess.Popen(words, start_new_session=True, **how) as child:
        try:
            out, also = child.communicate(timeout=seconds)
        except BaseException:
            end_session(child)
            raise
    return subprocess.CompletedProcess(words, child.returncode, out, also)


def end_session(leader: subprocess.Popen[Any]) -> None:
    """Ends the leader of a session and what it has started."""
    send(leader.pid, signal.SIGTERM)
    with contextlib.suppress(subprocess.TimeoutExpired):
        leader.wait(GRACE)
    send(leader.pid, signal.SIGKILL)


def send(group: int, sign: signal.Signals) -> None:
    with contextlib.suppress(ProcessLookupError):
        os.killpg(group, sign)


def end_by_exit() -> None:
    """Lets SIGTERM end this process as an exit does, so that the commands that it runs are ended, too."""
    signal.signal(signal.SIGTERM, lambda number, _: sys.exit(128 + number))
