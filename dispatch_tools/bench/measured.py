"""Says what a command takes, its seconds and its memory, by a small process that starts it.

The memory of a child begins with that of the process from which it was forked. So this process is small, about 9 MB.
"""
from __future__ import annotations

import os
import subprocess
import sys
from typing import NamedTuple, Optional, Sequence

HELPER = '''
import os, resource, sys, time
limit, stack, words = int(sys.argv[1]), int(sys.argv[2]), sys.argv[3:]
resource.setrlimit(resource.RLIMIT_CPU, (limit, limit))
if stack:
    resource.setrlimit(resource.RLIMIT_STACK, (stack, stack))
quiet = [(os.POSIX_SPAWN_OPEN, 2, os.devnull, os.O_WRONLY, 0)]
begun = time.monotonic()
child = os.posix_spawnp(words[0], words, os.environ, file_actions=quiet)
_, status, used = os.wait4(child, 0)
wall = time.monotonic() - begun
print(os.waitstatus_to_exitcode(status), used.ru_utime, used.ru_stime, wall, used.ru_maxrss / 1024, file=sys.stderr)
'''


class Measured(NamedTuple):
    """What a command printed, its status, the seconds of processor of the program and of the system for it, the seconds by the clock,
    and the most megabytes of memory."""
    printed: str
    status: int
    user: float
    system: float
    wall: float
    megabytes: float

    @property
    def seconds(self) -> float:
        """The seconds of processor."""
        return self.user + self.system


def measured(words: Sequence[str], limit: int = 3600, folder: Optional[str] = None, output: Optional[str] = None,
             stack: int = 0) -> Measured:
    """Runs a command in a folder, with so many bytes of stack if a number is given. It is ended after so many seconds of processor.

    What it prints goes into a file of the folder if one is named, and otherwise into the result.
    """
    command = [sys.executable, '-S', '-c', HELPER, str(limit), str(stack), *words]
    with open(os.path.join(folder or '', output or os.devnull), 'wb') as file:
        done = subprocess.run(command, cwd=folder, stdout=file if output else subprocess.PIPE, stderr=subprocess.PIPE, check=True)
    status, user, system, wall, megabytes = done.stderr.split()
    printed = '' if output else done.stdout.decode('utf-8', 'replace')
    return Measured(printed, int(status), float(user), float(system), float(wall), float(megabytes))
