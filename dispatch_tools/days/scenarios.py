"""Drawn days of source delays, as feeds."""
from __future__ import annotations

import argparse
import re
import tempfile

from dispatch_tools.days.delays import Drawing, drawn_day, KINDS, Lines, size_of, Told
from dispatch_tools.days.playing import FEED, Played, Program, replanned, Replanning
from dispatch_tools.formats.files import BadFile, write_all
from dispatch_tools.formats.giv import read_network
from dispatch_tools.model.network import Network
from dispatch_tools.model.railway import Rows
from dispatch_tools.words import whole_between


def add_drawing_words(words: argparse.ArgumentParser) -> None:
    """The options by which days are drawn."""
    words.add_argument('--seed', type=whole_between(0, 999_999_999), default=1, metavar='S', help='seed of the days (1)')
    words.add_argument('--days', type=whole_between(1, 9_999), default=1, metavar='N', help='number of days (1)')
    words.add_argument('--kind', choices=KINDS, default='delays', help='what befalls the days (delays)')
    words.add_argument('--probability', type=probability, default=0.1, metavar='P', help='of a delay of a train (0.1)')
    words.add_argument('--size', default='exponential:300', metavar='SIZE', help='how long delays are (exponential:300)')
    every = 'minutes from one report, or one plan, to the next (10)'
    words.add_argument('--every', type=whole_between(1, 1440), default=10, metavar='MINUTES', help=every)
    words.add_argument('--ahead', type=whole_between(1, 1440), default=40, metavar='MINUTES', help='minutes of a window (40)')


def probability(text: str) -> float:
    if not re.fullmatch(r'0?\.[0-9]+|[01](\.0*)?', text):
        raise argparse.ArgumentTypeError(f'"{text}" is no probability from 0 to 1')
    return float(text)


def drawing_of(words: argparse.ArgumentParser, given: argparse.Namespace) -> Drawing:
    try:
        return Drawing(given.kind, given.probability, size_of(given.size))
    except ValueError as error:
        words.error(str(error))


def played_day(given: argparse.Namespace, network: Network, lines: Lines, told: list[Told], folder: str) -> Played:
    """The feed of a day, with choices where there is a program."""
    played = Played(network, Rows(network), not given.no_clock, ahead=told)
    how = Replanning(60 * given.every, 60 * given.ahead)
    start, end = lines.span()
    if given.dispatcher is None:
        for now in range(start, end + how.every, how.every):
            played.tell(now)
        played.tell(None)
    else:
        replanned(Program(given.dispatcher, given.net, given.penalty, folder), played, start, end, how)
    return played


def made(given: argparse.Namespace, drawing: Drawing) -> None:
    network = read_network(given.net)
    lines = Lines(network)
    for day in range(1, given.days + 1):
        told = drawn_day(lines, drawing, given.seed, day)
        with tempfile.TemporaryDirectory() as folder:
            played = played_day(given, network, lines, told, folder)
        feed = ''.join(f'{line}\n' for line in played.lines)
        if len(feed) > FEED:
            raise BadFile(given.folder, None, f'day {day} needs {len(feed)} bytes of a feed, which holds {FEED}: try --no-clock')
        table = ''.join(f'{one.time};{one.message}\n' for one in told)
        write_all(given.folder, {f'day-{day}': feed, f'day-{day}.csv': '# time;message\n' + table})
