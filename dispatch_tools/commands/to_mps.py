"""Writes the choices of a run's rows as a mixed integer programme: dispatch-tools to_mps NET TEXT [--at=N] [--lp] [--from=F --to=T] > FILE

NET is the folder of a network, and TEXT the text of a run over it. The programme is about the rows after N entries, or after all.
Its least solution costs what the best choices cost, at the penalty of TEXT. The script prints it in free MPS form, or with --lp
in LP form. With --from and --to only the choices in that window are free, as in the command `window`. The others stay as they
are.

dispatch-tools from_sol turns a solution back into lines. dispatch_tools/model/programme.py says what the names mean, and
docs/MODEL.md has the formulas. The status is 2 if a file or a text is not good.
"""
from __future__ import annotations

import sys
from typing import Sequence

from dispatch_tools.days.to_mps import add_rows_words, add_window_words, read_rows, window_of
from dispatch_tools.formats.files import BadFile
from dispatch_tools.model.programme import lp_text, mps_text, Posed, programme_of
from dispatch_tools.words import command_line


def main(argv: Sequence[str] | None = None) -> int:
    words = command_line(__doc__)
    add_rows_words(words)
    add_window_words(words)
    words.add_argument('--lp', action='store_true', help='print LP form')
    given = words.parse_args(argv)
    window = window_of(words, given)
    try:
        network, rows, _, penalty = read_rows(given)
    except BadFile as fault:
        print(f'to_mps: {fault}', file=sys.stderr)
        return 2
    programme = programme_of(Posed(network, rows, penalty, window))
    print((lp_text if given.lp else mps_text)(programme), end='')
    return 0
