"""Judges texts of runs by a second reading of the rules, which shares no code with the program:

    dispatch-tools judge DIR TEXT [--penalty=T] [--plans=N] [--event-delays=NAME] [--activity-delays=NAME] [--cancelled=NAME]
    dispatch-tools judge --cases FOLDER

The first form prints what `dispatcher check` prints of the same words: `good ENTRIES PLANS` with status 0, or `bad LINE KIND`
with status 1. The second form judges every case of FOLDER, which is laid out as the data of dm_check_cases. It prints each stored
verdict that differs, and the status is then 1. docs/FORMATS.md says how a text is written, and docs/MODEL.md what is true.

It does not judge the words, files and networks that the program refuses: dispatch_tools/model/railway.py takes the files to be
good. It also leaves out the options for the order of columns, and the refusal of a text that is too long.
"""
from __future__ import annotations

from typing import Sequence

from dispatch_tools.formats.giv import read_network, start_rows
from dispatch_tools.formats.runtext import STANDARD_PLANS
from dispatch_tools.oracle.judging import Good, judge_cases, read_bytes, verdict_on
from dispatch_tools.words import command_line


def main(argv: Sequence[str] | None = None) -> int:
    words = command_line(__doc__)
    words.allow_abbrev = False
    words.add_argument('--cases', metavar='FOLDER', help='folder of cases')
    words.add_argument('--penalty', type=int, default=3600, help='penalty of the run in seconds (3600)')
    words.add_argument('--plans', type=int, default=STANDARD_PLANS, help='plans that a feed may have (%(default)s)')
    words.add_argument('--event-delays', help='file in DIR with delays of events at the start')
    words.add_argument('--activity-delays', help='file in DIR with delays of activities at the start')
    words.add_argument('--cancelled', help='file in DIR with events that are cancelled at the start')
    words.add_argument('names', nargs='*', metavar='DIR TEXT', help='folder of a network, and text of a run over it')
    given = words.parse_intermixed_args(argv)
    if given.cases is not None:
        return 0 if judge_cases(given.cases) else 1
    if len(given.names) != 2:
        words.error('there are to be a folder and a text')
    folder, text = given.names
    network = read_network(folder)
    start = start_rows(network, folder, given.event_delays, given.activity_delays, given.cancelled)
    verdict = verdict_on(network, start, given.penalty, read_bytes(text), given.plans)
    print(verdict)
    return 0 if isinstance(verdict, Good) else 1
