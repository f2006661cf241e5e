"""Makes a network of a shape: dispatch-tools shapes SHAPE FOLDER [--lines=N] [--trains=N] [--stations=N] [--number=S]

    single   a line with one track: trains of both directions meet in its stations, and of two that want a section one waits
    hub      lines that meet in one station within ten minutes of each full hour, with changes from each to each other
    ring     trains that go around a ring of stations, both ways, several times, and lines that come to it from outside
    mesh     lines over a region of stations, which cross where they may; its timetable is drawn from --number

--trains is how many trains a line has. In `single` and `mesh` it is so many in each direction, in `mesh` half an hour apart. In
`ring` it is the trains on the ring. Ten passengers leave each train at each station, and one takes each change. FOLDER gets the
two files of the network, and those of its names.

Without the options `single` has 1 line, 30 trains and 13 stations, `hub` 40 lines of 4 trains, `ring` 4 lines, 8 trains and 12
stations, and `mesh` 30 lines of 4 trains and 49 stations.
"""
from __future__ import annotations

import sys
from collections import Counter
from typing import Sequence

from dispatch_tools.days.trains import Refused
from dispatch_tools.days.from_gtfs import texts_of
from dispatch_tools.days.shapes import made, Sizes, USUAL
from dispatch_tools.formats.files import BadFile, write_all
from dispatch_tools.model.network import KINDS
from dispatch_tools.words import command_line, whole_between


def main(argv: Sequence[str] | None = None) -> int:
    words = command_line(__doc__)
    words.add_argument('shape', metavar='SHAPE', choices=USUAL, help='single, hub, ring or mesh')
    words.add_argument('folder', metavar='FOLDER', help='folder for the network')
    for name, most in ('lines', 400), ('trains', 2_000), ('stations', 1_000), ('number', 999_999_999):
        words.add_argument(f'--{name}', type=whole_between(1, most), metavar='N', help=f'from 1 to {most}')
    given = words.parse_args(argv)
    usual = USUAL[given.shape]
    sizes = Sizes(*(getattr(given, name) or getattr(usual, name) for name in ('lines', 'trains', 'stations', 'number')))
    try:
        network = made(given.shape, sizes)
        write_all(given.folder, texts_of(network))
    except (BadFile, Refused) as fault:
        print(f'shapes: {fault}', file=sys.stderr)
        return 2
    kinds = Counter(activity.kind for activity in network.expanded.activities)
    print(f'trains {len(network.expanded.trains)}, events {len(network.expanded.events)}, '
          + ', '.join(f'{kind}s {kinds[kind]}' for kind in KINDS), file=sys.stderr)
    return 0
