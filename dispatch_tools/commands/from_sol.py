"""Turns a solver's solution into lines of a feed: dispatch-tools from_sol NET TEXT SOLUTION [--at=N] [--from=F --to=T] [--whole] > LINES

NET, TEXT and the options are those that dispatch-tools to_mps got. SOLUTION is what CBC (`cbc FILE -solve -solu SOLUTION`) or
GLPK (`glpsol --freemps FILE -o SOLUTION`) wrote. The script prints a line `drop A`, `keep A` or `first E F` for each choice of
the solution that differs from the rows. It prints them in an order in which none closes a cycle.

With --whole it prints a whole feed: first the first N entries of the journal as lines, with the decisions of an adopted plan one
by one; then the choices; then `cost`. A run of that feed says what the solution costs.

The status is 2 if a file is not good, if SOLUTION has no solution, or if it is of another problem.
"""
from __future__ import annotations

import argparse
import sys
from typing import Iterable, Iterator, Sequence

from dispatch_tools.days.to_mps import add_rows_words, add_window_words, read_rows, window_of
from dispatch_tools.formats.files import BadFile
from dispatch_tools.formats.giv import start_rows
from dispatch_tools.formats.runtext import Entry
from dispatch_tools.formats.solution import decisions_of, read_solution
from dispatch_tools.model.decide import in_turn
from dispatch_tools.model.messages import Adopt
from dispatch_tools.model.network import Network
from dispatch_tools.model.programme import choices_in
from dispatch_tools.model.railway import apply, Rows
from dispatch_tools.words import command_line


def said_again(network: Network, rows: Rows, journal: Iterable[Entry]) -> Iterator[str]:
    """The entries of a journal as lines of a feed, from the rows at the start, which they change."""
    for entry in journal:
        if isinstance(entry.message, Adopt):
            yield from map(str, in_turn(network, rows, entry.message.decisions))
        else:
            yield str(entry.message)
        apply(network, rows, entry.message)


def lines_of_solution(given: argparse.Namespace, words: argparse.ArgumentParser) -> list[str]:
    window = window_of(words, given)
    network, rows, journal, _ = read_rows(given)
    decisions = decisions_of(given.solution, read_solution(given.solution), choices_in(network, rows, window))
    try:
        lines = [*map(str, in_turn(network, rows, decisions))]
    except ValueError as error:
        raise BadFile(given.solution, None, 'its choices have a cycle: it is of another problem') from error
    if given.whole:
        start = start_rows(network, given.net, given.event_delays, given.activity_delays, given.cancelled)
        lines = [*said_again(network, start, journal), *lines, 'cost']
    return lines


def main(argv: Sequence[str] | None = None) -> int:
    words = command_line(__doc__)
    add_rows_words(words)
    words.add_argument('solution', metavar='SOLUTION', help='solution file of CBC or GLPK')
    add_window_words(words)
    words.add_argument('--whole', action='store_true', help='print a whole feed, which ends with `cost`')
    given = words.parse_args(argv)
    try:
        print(''.join(f'{line}\n' for line in lines_of_solution(given, words)), end='')
    except BadFile as fault:
        print(f'from_sol: {fault}', file=sys.stderr)
        return 2
    return 0
