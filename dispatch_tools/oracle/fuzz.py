"""Draws small networks and feeds by number, and compares the program with the judge: dispatch-tools fuzz DISPATCHER FROM TO [--plain]

DISPATCHER is the built program. For each number from FROM to below TO the script draws a network of up to 16 events, a penalty, a
batch, and one to three feeds of every kind of line, some of them refused or malformed. It runs the program. Of the text

    the judge (judge) finds it good
    each log has the due lines of its feed, which the script reads anew, and ends with `end`
    the logs keep to rounds of the batch

Then `DISPATCHER check` has to say what the judge says, of the text, of its version 1 where no line of it says `solve`, and of twelve
texts that are made from these by small changes: a number, a byte or words are changed; lines are left out, moved or swapped; a text
is cut off, or has bytes after its end.

With --plain no line says `solve`: what is drawn then is what was drawn before that word was there.

The script prints each number in which something differs, with what differs and the folder of its files. If the verdicts on a text
differ, it is the file `text` there. The status is then 1.

With --plain no feed cancels, restores, locks, unlocks or carries. Left out are boards, delay files, cancelled events at the start,
column words, more than three feeds, and feeds that cannot be read or are too long.
"""
from __future__ import annotations

import shutil
import tempfile
from typing import Sequence

from dispatch_tools.oracle.drawing import Fuzz
from dispatch_tools.words import add_program, command_line


def main(argv: Sequence[str] | None = None) -> int:
    words = command_line(__doc__)
    add_program(words)
    words.add_argument('begin', metavar='FROM', type=int, help='first number')
    words.add_argument('end', metavar='TO', type=int, help='number before which to end')
    words.add_argument('--plain', action='store_true', help='draw nothing cancelled, locked or carried, and no plan by parts')
    given = words.parse_args(argv)
    fuzz, differing = Fuzz(given.program, given.plain), 0
    for number in range(given.begin, given.end):
        folder = tempfile.mkdtemp(prefix='fuzz-')
        fault = fuzz.fault_of(number, folder)
        if fault is None:
            shutil.rmtree(folder)
        else:
            print(f'{number}: {fault}, in {folder}')
            differing += 1
    print(', '.join(f'{count} {name}' for name, count in fuzz.counts.items()))
    print(f'{differing} numbers differ')
    return 1 if differing else 0
