"""Prints the choices of a plan as lines of a feed, such as `drop 5` and `first 5 3`: dispatch-tools choices TEXT [--feed=K]

TEXT is the text of a run, or what `dispatcher window` printed. `-` is standard input. It prints

    of a run                     the choices of the plan for the most entries; of several such plans it takes the last one
    of a window                  the choices of its plan
    of a window with --minimal   the choices on its list, those that matter most
    of a window with --at        of these only those that still differ from the rows after the last entry

Append the lines to a feed. In the journal they are then a dispatcher's own lines.

The status is 0 if there is a plan. It is 1 if there is none, or if it could not be carried over to the last entry. It is 2 if
TEXT is neither of these texts, or cannot be read.
"""
from __future__ import annotations

import sys
from typing import Sequence

from dispatch_tools.days.choices import bytes_of, choices_in, lines_of, NoPlan
from dispatch_tools.formats.lines import Bad
from dispatch_tools.formats.runtext import MOST_FEEDS
from dispatch_tools.words import command_line, whole_between


def main(argv: Sequence[str] | None = None) -> int:
    words = command_line(__doc__, allow_abbrev=False)
    words.add_argument('text', metavar='TEXT', help='the text of a run, or what `dispatcher window` printed; - is standard input')
    words.add_argument('--feed', type=whole_between(1, MOST_FEEDS), metavar='K', help='only the plans of this feed of a run')
    given = words.parse_args(argv)
    try:
        print(lines_of(choices_in(bytes_of(given.text), given.feed)), end='')
    except NoPlan as why:
        sys.exit(f'{given.text}: {why}')
    except (Bad, OSError) as fault:
        line = f' line {fault.args[0]} has not its form' if isinstance(fault, Bad) else f': {fault.strerror}'
        print(f'{given.text}{line}', file=sys.stderr)
        return 2
    return 0
