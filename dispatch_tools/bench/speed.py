"""Times runs of a generated day: dispatch-tools speed FOLDER DISPATCHER [BEFORE] [--country=COUNTRY]

FOLDER is a day that day wrote. DISPATCHER is the built program, and BEFORE another one, as of the commit before a change. Each
row runs some feeds several times. It has the least processor time, the least time by the clock, and the ratio of the processor
time to that of an empty feed. Then come ratios with their bounds. If feeds work at once it is the ratio of the times by the
clock, for which people wait, and else that of the processor times:

    delays     a full feed of delays against an empty one          2.0
    mixed      a full feed of mixed lines against an empty one     2.5
    few        500 delays against an empty feed                    1.3
    4, 16, 64  so many feeds of as many lines in all against one   1.2
    4-1000 ..  the same in rounds of 1,000 lines a feed            1.2
    boards     boards of 64 of the stops against none              1.5
    rounds     with --batch=1000, against BEFORE                   1.1
    default    with the default batch, against BEFORE              1.5

COUNTRY is a folder that country wrote. With it the script also runs its full feeds, in rounds of 1,000 lines, against one of
them by the clock. The bound is 2.1 for 16 feeds, and 2.9 for 64, which are each of the 16 four times. The system may take for
them at most a tenth of what the program does.

A ratio over its bound is marked, and the status is then 1. At the end stand the ratios of processor times of feeds that work at
once. They have no bound.
"""
from __future__ import annotations

import argparse
import os
from typing import Iterator, Mapping, Optional, Sequence

from dispatch_tools.bench.measured import measured, Measured
from dispatch_tools.words import command_line, whole_path

REPEATS = 15
COUNTRY_REPEATS = 3

# As many boards as a run may have.
BOARDS = range(1, 65)

# Into how many feeds the full feed is split.
SPLITS = (4, 16, 64)

# How many feeds of the country are run at once, and the bound of their time against that of one.
COUNTRY_BOUNDS = {16: 2.1, 64: 2.9}


def part_names(count: int) -> list[str]:
    """The names of the feeds that the full feed is split into."""
    return [f'part-{number}-of-{count}' for number in range(1, count + 1)]


NO_WORDS: list[str] = []

# Name, feeds, further words.
RUNS: list[tuple[str, list[str], list[str]]] = [
    ('empty', ['empty'], []),
    ('few', ['delays'], []),
    ('delays', ['full'], []),
    ('mixed', ['mixed'], []),
    ('questions', ['questions'], []),
    ('boards', ['full'], ['--boards=' + ','.join(str(stop) for stop in BOARDS)]),
    ('rounds', ['full'], ['--batch=1000']),
    *((str(count), part_names(count), NO_WORDS) for count in SPLITS),
    *((f'{count}-1000', part_names(count), ['--batch=1000']) for count in SPLITS),
]


def split_full(folder: str) -> None:
    """Splits the full feed into feeds of as many lines in all."""
    with open(os.path.join(folder, 'full')) as file:
        lines = file.readlines()
    for count in SPLITS:
        for number, name in enumerate(part_names(count)):
            with open(os.path.join(folder, name), 'w') as file:
                file.writelines(lines[number::count])


def board_files(folder: str) -> list[str]:
    return [os.path.join(folder, 'net', f'board-{stop}.txt') for stop in BOARDS]


def empty_boards(folder: str) -> None:
    """Empties the files of boards, which a run goes on in. They are not taken away: to make a file where one was
    just taken away costs a file system far more than to go on in one."""
    for path in board_files(folder):
        open(path, 'w').close()


def remove_boards(folder: str) -> None:
    """Takes the files of boards away."""
    for path in board_files(folder):
        if os.path.exists(path):
            os.remove(path)


def timed(program: str, folder: str, feeds: list[str], words: list[str]) -> Measured:
    """What a run takes."""
    command = [program, 'run', 'net', '--penalty=3600'] + words + feeds
    taken = measured(command, folder=folder, output=os.devnull)
    if taken.status != 0:
        raise SystemExit(f'{command} ended with {taken.status}')
    return taken


def least_of(run: Measured, known: Optional[Measured]) -> Measured:
    """What took the least processor time, with the least time by the clock."""
    if known is None:
        return run
    quicker = min(run, known, key=lambda taken: taken.seconds)
    return quicker._replace(wall=min(run.wall, known.wall))


def least(programs: list[str], folder: str) -> list[dict[str, Measured]]:
    """The least that each program takes for each row. All run in turn, again and again, so that a machine that is slower for a while
    is so for all of them."""
    seconds: list[dict[str, Measured]] = [{} for _ in programs]
    for _ in range(REPEATS):
        for name, feeds, words in RUNS:
            for taken, program in zip(seconds, programs):
                empty_boards(folder)
                taken[name] = least_of(timed(program, folder, feeds, words), taken.get(name))
    remove_boards(folder)
    return seconds


def country_feeds(count: int) -> list[str]:
    return [f'feed{number % 16 + 1}' for number in range(count)]


def least_of_country(program: str, folder: str) -> dict[str, Measured]:
    """The least that one, 16 and 64 feeds of a country take."""
    taken: dict[str, Measured] = {}
    for _ in range(COUNTRY_REPEATS):
        for count in (1, *COUNTRY_BOUNDS):
            run = timed(program, folder, country_feeds(count), ['--batch=1000'])
            taken[f'country-{count}'] = least_of(run, taken.get(f'country-{count}'))
    return taken


def print_table(title: str, seconds: Mapping[str, Measured], unit: str) -> None:
    print(f'{title}:{"processor":>21}{"system":>9}{"wall":>9}{"ratio":>8}')
    for name, taken in seconds.items():
        ratio = taken.seconds / seconds[unit].seconds
        print(f'  {name:<16}{taken.seconds:>10.3f} s{taken.system:>7.3f} s{taken.wall:>7.3f} s{ratio:>8.2f}')


def ratios_of_day(seconds: list[dict[str, Measured]]) -> list[tuple[str, float, float]]:
    """The name, the ratio and the bound of what is bounded, of the program and the one before it, if there is one."""
    now = seconds[0]
    used = {name: taken.seconds for name, taken in now.items()}
    ratios = [
        ('delays', used['delays'] / used['empty'], 2.0),
        ('mixed', used['mixed'] / used['empty'], 2.5),
        ('few', used['few'] / used['empty'], 1.3),
        *((str(count), now[str(count)].wall / now['delays'].wall, 1.2) for count in SPLITS),
        *((f'{count}-1000', now[f'{count}-1000'].wall / now['rounds'].wall, 1.2) for count in SPLITS),
        ('boards', used['boards'] / used['delays'], 1.5),
    ]
    for before in seconds[1:]:
        ratios.append(('rounds', used['rounds'] / before['rounds'].seconds, 1.1))
        ratios.append(('default', used['delays'] / before['delays'].seconds, 1.5))
    return ratios


def ratios_of_country(taken: Mapping[str, Measured]) -> Iterator[tuple[str, float, float]]:
    one = taken['country-1']
    for count, bound in COUNTRY_BOUNDS.items():
        many = taken[f'country-{count}']
        yield f'country-{count}', many.wall / one.wall, bound
        yield f'system-{count}', many.system / many.user, 0.1


def arguments(argv: Sequence[str] | None) -> argparse.Namespace:
    words = command_line(__doc__)
    words.add_argument('folder', metavar='FOLDER', help='folder that day wrote')
    words.add_argument('programs', metavar='DISPATCHER', nargs='+', type=whole_path, help='one or two built programs')
    words.add_argument('--country', metavar='COUNTRY', help='folder that country wrote')
    return words.parse_args(argv)


def main(argv: Sequence[str] | None = None) -> int:
    given = arguments(argv)
    split_full(given.folder)
    seconds = least(given.programs, given.folder)
    for title, taken in zip(('now', 'before'), seconds):
        print_table(title, taken, 'empty')
    ratios = ratios_of_day(seconds)
    if given.country is not None:
        taken = least_of_country(given.programs[0], given.country)
        print_table('country', taken, 'country-1')
        ratios += ratios_of_country(taken)
    for name, ratio, bound in ratios:
        print(f'{name:<12}{ratio:6.2f} of {bound}{"  over" if ratio > bound else ""}')
    for count in SPLITS:
        for name, one in ((str(count), 'delays'), (f'{count}-1000', 'rounds')):
            print(f'{name:<12}{seconds[0][name].seconds / seconds[0][one].seconds:6.2f} of processor time')
    return any(ratio > bound for _, ratio, bound in ratios)
