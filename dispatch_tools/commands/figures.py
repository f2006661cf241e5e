"""Makes the figures of a study of waiting rules: dispatch-tools figures NET TEXT FOLDER [--dispatcher PROGRAM]

NET is the folder of a network, and TEXT the text of a run over it. The figures are about the rows after all entries of TEXT.
FOLDER gets three of them, each as a picture (.svg) and as a table (.csv). Costs are in thousandths of passenger seconds:

    rules      the cost of each waiting rule: `never`, at most k seconds, `always`; beside them that of a plan by parts, and its bound
    budgets    the cost and the bound of a plan, and of one by parts, by the budget of nodes
    lateness   how late the arrivals of each quarter of an hour are, before and after a plan by parts is adopted

The last column of a table is the command that made the numbers of its row. Plans by parts come from a run of the file `feed` in
FOLDER. Its lines bring back the rows of TEXT, ask for the plans and adopt the last one. PROGRAM is the built program. The script
calls its commands `rules` and `run` some forty times. Standard error shows how far it is.

The status is 2, and no picture is written, if a file or a text is not good, or if PROGRAM says so.
"""
from __future__ import annotations

import sys
from typing import Sequence

from dispatch_tools.formats.files import BadFile
from dispatch_tools.pictures.figures import make_all, progress
from dispatch_tools.words import add_network, add_start, command_line


def main(argv: Sequence[str] | None = None) -> int:
    words = command_line(__doc__)
    add_network(words)
    words.add_argument('text', metavar='TEXT', help='the text of a run over it')
    words.add_argument('folder', metavar='FOLDER', help='folder for the figures')
    words.add_argument('--dispatcher', default='dispatcher', metavar='PROGRAM', help='the built program (dispatcher in the path)')
    add_start(words)
    given = words.parse_args(argv)
    try:
        make_all(given)
        progress('\n')
    except BadFile as fault:
        progress('\n')
        print(f'figures: {fault}', file=sys.stderr)
        return 2
    return 0
