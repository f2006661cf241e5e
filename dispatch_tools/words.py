"""Words of command lines that several tools read. argparse says what is wrong with one."""
from __future__ import annotations

import argparse
import os
import re
from typing import Callable, Optional

from dispatch_tools.formats.gtfs_rows import seconds_of


def command_line(page: Optional[str], allow_abbrev: bool = True) -> argparse.ArgumentParser:
    """The words of a command, whose page is the comment at the head of its script."""
    return argparse.ArgumentParser(description=page, formatter_class=argparse.RawDescriptionHelpFormatter, allow_abbrev=allow_abbrev)


def add_network(words: argparse.ArgumentParser) -> None:
    words.add_argument('net', metavar='NET', help='folder of a network, with Events-expanded.giv and Activities-expanded.giv')


def add_start(words: argparse.ArgumentParser) -> None:
    """The files that say how a day starts."""
    words.add_argument('--event-delays', metavar='NAME', help='file in NET with delays of events at the start, if any')
    activities = 'file in NET with delays of activities at the start, if any'
    words.add_argument('--activity-delays', metavar='NAME', help=activities)
    words.add_argument('--cancelled', metavar='NAME', help='file in NET with events that are cancelled at the start, if any')


def start_options(given: argparse.Namespace) -> list[str]:
    """The options of the program that say how a day starts, as the words have them."""
    options = (('event-delays', given.event_delays), ('activity-delays', given.activity_delays), ('cancelled', given.cancelled))
    return [f'--{name}={value}' for name, value in options if value]


def add_run(words: argparse.ArgumentParser) -> None:
    """A network, the text of a run over it, and how its day starts."""
    add_network(words)
    words.add_argument('text', metavar='TEXT', help='the text of a run over it')
    add_start(words)


def whole_path(name: str) -> str:
    return os.path.abspath(name)


def add_program(words: argparse.ArgumentParser) -> None:
    words.add_argument('program', metavar='DISPATCHER', type=whole_path, help='the built program')


def whole_between(least: int, most: int) -> Callable[[str], int]:
    """Reads a whole number that is not outside of two others."""
    def read(text: str) -> int:
        if not re.fullmatch('[0-9]{1,9}', text) or not least <= int(text) <= most:
            raise argparse.ArgumentTypeError(f'"{text}" is no whole number from {least} to {most}')
        return int(text)
    return read


def time_of_day(text: str) -> int:
    """Reads a time such as 06:30 or 06:30:00."""
    seconds = seconds_of(text if text.count(':') == 2 else f'{text}:00')
    if seconds is None:
        raise argparse.ArgumentTypeError(f'"{text}" is no time, as 06:30')
    return seconds


def stops_of(text: str) -> list[int]:
    """Reads ids of stops with commas between."""
    if not re.fullmatch('[0-9]{1,10}(,[0-9]{1,10})*', text):
        raise argparse.ArgumentTypeError(f'"{text}" is no list of stops, as 6,17')
    return [int(stop) for stop in text.split(',')]
