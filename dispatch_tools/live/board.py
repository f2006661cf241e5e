"""All times of a board in one line whenever one has changed."""
from __future__ import annotations

import re
import select
import subprocess
import sys
from io import BufferedIOBase
from typing import Iterable, Iterator, Optional

from dispatch_tools.formats.files import in_one_line

# A number has so many digits at most, a line so many bytes: enough for all events of a network, also in hexadecimal digits.
NUMBER = b'[0-9]{1,20}'
LONGEST_LINE = 8_000_000

# An event with its time, or with the word that it is cancelled.
CANCELLED = b'cancelled'
SHOWN = b'%b|%b' % (NUMBER, CANCELLED)
TIME = re.compile(b'(%b); (%b)' % (NUMBER, SHOWN))
TIMES = re.compile(b'%b; (?:%b)(?:, %b; (?:%b))*' % (NUMBER, SHOWN, NUMBER, SHOWN))

# What a board shows of events: the time of each, or None where it is cancelled.
Shown = list[tuple[int, Optional[int]]]

# How many seconds a command has to send a line.
TIMEOUT = 30

# At most so many skipped lines are reported one by one.
TOLD = 5


class Skipped:
    """Lines that were skipped."""

    def __init__(self, script: str):
        self.script, self.count = script, 0

    def skip(self, number: int, why: str) -> None:
        self.count += 1
        if self.count <= TOLD:
            print(f'{self.script}: line {number} is skipped: {why}', file=sys.stderr, flush=True)

    def end(self) -> None:
        if self.count:
            print(f'{self.script}: lines skipped: {self.count}', file=sys.stderr, flush=True)


def whole_lines(file: BufferedIOBase, patience: Optional[float] = None) -> Iterator[list[Optional[bytes]]]:
    """The lines of a file that have come together, without their ends; None for one that is too long. What is broken off is no line.
    With a patience there are none whenever nothing has come for so many seconds."""
    rest, is_long = b'', False
    while True:
        if patience is not None and not select.select([file], [], [], patience)[0]:
            yield []
            continue
        chunk = file.read1(1 << 16)
        if not chunk:
            return
        *ended, rest = (rest + chunk).split(b'\n')
        lines = [line if len(line) <= LONGEST_LINE else None for line in ended]
        if is_long and lines:
            lines[0], is_long = None, False
        if len(rest) > LONGEST_LINE:
            rest, is_long = b'', True
        yield lines


def unpacked(payload: Optional[bytes]) -> Optional[bytes]:
    """The bytes that stand as hexadecimal digits, or None if there are others."""
    try:
        return None if payload is None or not payload.isalnum() else bytes.fromhex(payload.decode('ascii'))
    except ValueError:
        return None


def times_of(line: Optional[bytes]) -> Optional[Shown]:
    """The events of a line with what it shows of them, or None if it is none of a board."""
    if line is None or not TIMES.fullmatch(line):
        return None
    return [(int(event), None if time == CANCELLED else int(time)) for event, time in TIME.findall(line)]


def in_a_line(times: Iterable[tuple[int, Optional[int]]]) -> str:
    """What a board shows, in one line."""
    return ', '.join(f'{event}; {CANCELLED.decode() if time is None else time}' for event, time in times)


def whole_boards(file: BufferedIOBase, skipped: Skipped, again: Optional[int] = None) -> Iterator[str]:
    """A line of all times whenever some have changed, or nothing has come for a while."""
    times: dict[int, Optional[int]] = {}
    number = 0
    for lines in whole_lines(file, again):
        before = dict(times)
        for number, line in enumerate(lines, number + 1):
            heard = times_of(line)
            if heard is None:
                skipped.skip(number, 'it is no line `event; time`')
            else:
                times.update(heard)
        if times != before or again and times and not lines:
            yield in_a_line(times.items())


class Sender:
    """Sends lines by a command."""

    def __init__(self, command: list[str], script: str = 'board') -> None:
        self.command, self.script, self.fault = command, script, ''

    def send(self, line: str) -> None:
        """Sends a line, and says what is wrong if that is not what was wrong before."""
        try:
            done = subprocess.run(self.command, input=line.encode(), stdout=subprocess.DEVNULL, stderr=subprocess.PIPE, timeout=TIMEOUT)
            said = done.stderr.decode('utf-8', 'replace').splitlines()
            fault = f'it ends with status {done.returncode}: {said[0] if said else ""}' if done.returncode else ''
        except OSError as error:
            fault = error.strerror or 'it cannot be run'
        except subprocess.TimeoutExpired:
            fault = f'it has not ended in {TIMEOUT} seconds'
        if fault and fault != self.fault:
            print(f'{self.script}: {in_one_line(self.command[0])}: {in_one_line(fault)}', file=sys.stderr, flush=True)
        self.fault = fault


def standard_input() -> BufferedIOBase:
    """The bytes of standard input, as they come."""
    assert isinstance(sys.stdin.buffer, BufferedIOBase)
    return sys.stdin.buffer
