"""The choices of a run's rows as a mixed integer programme, in print."""
from __future__ import annotations

import argparse
from typing import Optional

from dispatch_tools.formats.files import BadFile
from dispatch_tools.formats.giv import read_network, start_rows
from dispatch_tools.formats.runtext import Entry
from dispatch_tools.model.network import Network
from dispatch_tools.model.programme import Window
from dispatch_tools.model.railway import Rows
from dispatch_tools.pictures.scene import read_text, rows_of
from dispatch_tools.words import add_network, add_start, whole_between

LATEST = 1_000_000_000


def add_rows_words(words: argparse.ArgumentParser) -> None:
    """The words that name rows: a network, a text, and what the run was given."""
    add_network(words)
    words.add_argument('text', metavar='TEXT', help='the text of a run over it')
    words.add_argument('--at', type=whole_between(0, 1_000_000), metavar='N', help='number of entries (all)')
    add_start(words)


def read_rows(given: argparse.Namespace) -> tuple[Network, Rows, list[Entry], int]:
    """The network, the rows and the entries that words name, and the penalty; BadFile if there are none."""
    network = read_network(given.net)
    start = start_rows(network, given.net, given.event_delays, given.activity_delays, given.cancelled)
    run = read_text(given.text, network)
    if given.at is not None and given.at > len(run.journal):
        raise BadFile(given.text, None, f'it has {len(run.journal)} entries')
    run = run._replace(journal=run.journal[:given.at])
    return network, rows_of(network, start, run, given.text), run.journal, run.penalty


def add_window_words(words: argparse.ArgumentParser) -> None:
    words.add_argument('--from', dest='start', type=whole_between(0, LATEST), metavar='F', help='first second of a window')
    words.add_argument('--to', dest='end', type=whole_between(0, LATEST), metavar='T', help='last second of a window')


def window_of(words: argparse.ArgumentParser, given: argparse.Namespace) -> Optional[Window]:
    """The window that words give, where they do."""
    if (given.start is None) != (given.end is None):
        words.error('--from and --to go together')
    return None if given.start is None else Window(given.start, given.end)
