"""Counts and times the commands that read texts: dispatch-tools readers DISPATCHER [--against=PROGRAM] [--only=ROW,..]

DISPATCHER is the built program. PROGRAM is another one, as of the commit before a change, or any with the same commands. The day
is that of dispatch-tools day with number 7 and 2,000 trains. DISPATCHER makes the texts, and both read the same ones:

    empty      of an empty feed
    delays     of a full feed of delays
    mixed      of a full feed of mixed lines
    plans      of 16 plans of 4,096 nodes, adopted one after the other between delays

A row is a question about one of the texts. `--only` takes rows, such as check-delays, or questions:

    check      is the text good
    follow     the timetable after it
    journey    the journeys between two stops, with a change
    window     a plan from 7 to 9 o'clock, of 4,096 nodes
    at         the same after the first 100 entries, and what becomes of it
    rules      the rule `always` beside a plan of 1,024 nodes

A row has the instructions in millions (by callgrind of Debian's `valgrind`, if that is installed), and the least seconds of
processor of several runs. All rows of both programs run in turn. The column beyond has what a row takes more than another one.
For check, follow and journey that is the same question about the empty text. For the others it is `follow` of their own text, so
that the search is left. If the two programs do not print the same, the row is marked, and the status is then 1.
"""
from __future__ import annotations

import argparse
import shutil
import tempfile
from typing import Iterator, Mapping, NamedTuple, Optional, Sequence

from dispatch_tools.bench.instructions import counted, PENALTY, TRAINS, write_day
from dispatch_tools.bench.measured import measured, Measured
from dispatch_tools.bench.speed import least_of
from dispatch_tools.words import command_line, whole_between, whole_path

REPEATS = 12

# The texts, and the feeds that they are of.
FEEDS = {'empty': 'empty', 'delays': 'full', 'mixed': 'mixed', 'plans': 'plans'}

WINDOW = ['25200', '32400', '4096']

# The command of each question, and its words behind the text.
QUESTIONS: dict[str, tuple[str, list[str]]] = {
    'check': ('check', []),
    'follow': ('follow', []),
    'journey': ('journey', ['1', '22', '21600']),
    'window': ('window', WINDOW),
    'at': ('window', [*WINDOW, '--at=100']),
    'rules': ('rules', ['always', '1024']),
}

# The questions that are answered by a search in the rows after a text.
SEARCHING = ('window', 'at', 'rules')


class Row(NamedTuple):
    """A question, and the text that it is asked of."""
    question: str
    text: str

    @property
    def name(self) -> str:
        return f'{self.question}-{self.text}'

    @property
    def base(self) -> Optional[Row]:
        """The row beyond which this one is counted."""
        if self.question in SEARCHING:
            return Row('follow', self.text)
        return None if self.text == 'empty' else Row(self.question, 'empty')

    @property
    def words(self) -> list[str]:
        command, words = QUESTIONS[self.question]
        return [command, 'net', text_name(self.text), *words, PENALTY]


ROWS = [Row(question, text) for question in QUESTIONS for text in FEEDS if question not in SEARCHING or text != 'empty']


class Figures(NamedTuple):
    """Millions of instructions, if they are counted, and seconds of processor."""
    millions: Optional[float]
    seconds: float

    def beyond(self, base: Figures) -> Figures:
        counts = None if self.millions is None or base.millions is None else self.millions - base.millions
        return Figures(counts, self.seconds - base.seconds)


def text_name(text: str) -> str:
    return f'{text}-text'


def rows_named(said: str) -> list[Row]:
    """Rows by their names, or by their questions, with commas between."""
    names = said.split(',')
    for name in names:
        if name not in QUESTIONS and all(name != row.name for row in ROWS):
            raise argparse.ArgumentTypeError(f'"{name}" is neither a row nor a question, such as check-delays or check')
    return [row for row in ROWS if row.question in names or row.name in names]


def with_bases(rows: Sequence[Row]) -> list[Row]:
    """These rows, and those beyond which they are counted, and so on."""
    wanted: set[Row] = set()
    for row in rows:
        one: Optional[Row] = row
        while one is not None:
            wanted.add(one)
            one = one.base
    return [row for row in ROWS if row in wanted]


def taken(program: str, folder: str, row: Row) -> Measured:
    """What a run takes, and what it prints."""
    found = measured([program, *row.words], folder=folder)
    if found.status != 0:
        raise SystemExit(f'{program} {" ".join(row.words)} ended with {found.status}')
    return found


def differing(programs: Sequence[str], folder: str, rows: Sequence[Row]) -> set[Row]:
    """The rows for which not all programs print the same."""
    return {row for row in rows if len({taken(program, folder, row).printed for program in programs}) > 1}


def least_seconds(programs: Sequence[str], folder: str, rows: Sequence[Row], repeats: int) -> list[dict[Row, float]]:
    """The least seconds that each program takes for each row. All run in turn, again and again."""
    least: list[dict[Row, Measured]] = [{} for _ in programs]
    for _ in range(repeats):
        for row in rows:
            for known, program in zip(least, programs):
                known[row] = least_of(taken(program, folder, row), known.get(row))
    return [{row: found.seconds for row, found in known.items()} for known in least]


def figures_of(programs: Sequence[str], folder: str, rows: Sequence[Row], repeats: int) -> list[dict[Row, Figures]]:
    """The figures of each program."""
    counts = shutil.which('valgrind') is not None
    return [
        {row: Figures(counted(program, folder, row.words) if counts else None, seconds[row]) for row in rows}
        for program, seconds in zip(programs, least_seconds(programs, folder, rows, repeats))
    ]


def cells(values: Sequence[Optional[float]], digits: int) -> str:
    """A value of each program, and the ratio of two."""
    said = ''.join(f'{"" if value is None else f"{value:.{digits}f}":>10}' for value in values)
    if len(values) == 1:
        return said
    one, other = values
    return said + (f'{one / other:7.2f}' if one is not None and other is not None and other > 0 else f'{"":7}')


def columns(row: Row, figures: Sequence[Mapping[Row, Figures]]) -> Iterator[str]:
    """The cells of a row: instructions, and those beyond its base; seconds, and those beyond."""
    whole = [known[row] for known in figures]
    beyond = [known[row].beyond(known[row.base]) if row.base else None for known in figures]
    yield cells([each.millions for each in whole], 1)
    yield cells([each.millions if each else None for each in beyond], 1)
    yield cells([each.seconds for each in whole], 3)
    yield cells([each.seconds if each else None for each in beyond], 3)


def table(rows: Sequence[Row], figures: Sequence[Mapping[Row, Figures]], marked: set[Row]) -> Iterator[str]:
    """The lines of the table."""
    behind = f'{"against":>10}{"ratio":>7}' if len(figures) > 1 else ''
    yield f'{"row":<16}' + ''.join(f'{title:>10}{behind}' for title in ('millions', 'beyond', 'seconds', 'beyond'))
    for row in rows:
        yield f'{row.name:<16}{"".join(columns(row, figures))}{"  differs" if row in marked else ""}'.rstrip()


def arguments(argv: Sequence[str] | None) -> argparse.Namespace:
    words = command_line(__doc__)
    words.add_argument('dispatcher', metavar='DISPATCHER', type=whole_path, help='the built program')
    words.add_argument('--against', metavar='PROGRAM', type=whole_path, help='a second program, for the same rows')
    words.add_argument('--only', metavar='ROW,..', type=rows_named, default=ROWS, help='only these rows or questions')
    words.add_argument('--trains', type=whole_between(2, TRAINS), default=TRAINS, help='trains of the day (%(default)s)')
    words.add_argument('--repeats', type=whole_between(1, 1000), default=REPEATS, help='how often each row is timed (%(default)s)')
    return words.parse_args(argv)


def main(argv: Sequence[str] | None = None) -> int:
    given = arguments(argv)
    programs = [given.dispatcher, *([given.against] if given.against else [])]
    rows = with_bases(given.only)
    with tempfile.TemporaryDirectory() as folder:
        write_day(given.dispatcher, folder, {text_name(text): feed for text, feed in FEEDS.items()}, given.trains)
        marked = differing(programs, folder, rows)
        figures = figures_of(programs, folder, rows, given.repeats)
    for line in table(rows, figures, marked):
        print(line)
    return bool(marked)
