"""Prints the tables of the pages anew: dispatch-tools tables [NAME PROGRAM] [--folder=FOLDER]

Without words it lists the names, with the page and heading of each table, what it needs, and its commands with their limits. With
a name it says on which machine and with which program it runs, runs the commands, and says how long they took. PROGRAM is the
built program that the table is of: DISPATCHER, or DM_ROWS_CASES or DM_STORE_CASES where the list says so. The commands leave their
days, networks and studies in FOLDER, or in a folder that is removed at the end.

The status is that of the first command that does not end with 0 or 1.
"""
from __future__ import annotations

import hashlib
import os
import resource
import subprocess
import sys
import tempfile
import time
from dataclasses import dataclass
from typing import Sequence

from dispatch_tools.here import TOP, words_of
from dispatch_tools.words import command_line, whole_path

# What stands for the built program and for the folder of a table in its commands.
PROGRAM, FOLDER = 'PROGRAM', 'FOLDER'


@dataclass(frozen=True)
class Table:
    """A table of a page: its heading, the commands that print it, each a script and its words, what it needs, and how long it may take."""
    page: str
    heading: str
    commands: Sequence[Sequence[str]]
    needs: str = ''
    takes: str = ''
    program: str = 'DISPATCHER'


DAY = ('day', '7', '2000', f'{FOLDER}/day')
COUNTRY = ('country', '7', f'{FOLDER}/country')
MESH = ('shapes', 'mesh', f'{FOLDER}/mesh')
SOLVERS = 'coinor-cbc, glpk-utils, python3-scipy'
SMALL = [f'{trains}:{number}' for trains in (20, 40) for number in range(1, 10)] + ['100:1', '100:2']
LARGE = [f'100:{number}' for number in range(3, 10)]
LARGEST = ['200:1', '200:4', '200:7', '500:1', '500:7', '2000:7']
WINDOWS = [f'2000:{number}:{start}:{start + 60 * minutes}' for minutes in (10, 20, 40) for start in (30_000, 50_000, 70_000) for number in (1, 7)]
AGAINST = ('against', PROGRAM)

TABLES = {
    'days': Table('SOLVERS', 'Days', [
        (*AGAINST, *SMALL, '--limit=20'), (*AGAINST, *LARGE, '--limit=60'), (*AGAINST, *LARGEST, '--solvers=CBC,HiGHS', '--limit=60'),
    ], SOLVERS, 'at most 20 s for each of 20 days and solvers, and 60 s for each of the others'),
    'windows': Table('SOLVERS', 'Windows', [(*AGAINST, *WINDOWS, '--limit=30')], SOLVERS, 'at most 30 s for each of 18 windows and solvers'),
    'shapes-solved': Table('SOLVERS', 'Shapes', [
        (*AGAINST, 'single:1', 'hub:1', 'mesh:1', '--limit=60'), (*AGAINST, 'ring:1', '--limit=20'),
    ], SOLVERS, 'at most 60 s for each of three shapes and solvers, and 20 s for the ring'),
    'shapes': Table('STUDIES', 'Networks of other shapes', [('shaped', PROGRAM)]),
    'policies': Table('STUDIES', 'A hundred days by several policies', [
        MESH, ('study', PROGRAM, f'{FOLDER}/mesh', f'{FOLDER}/study', '--days=100', '--kind=mixed'),
    ], '', '33 minutes of one processor of a busy machine'),
    'replanned-200': Table('STUDIES', 'A day that is replanned', [('examples/replan/play.py', PROGRAM, '--trains=200')]),
    'replanned-2000': Table('STUDIES', 'A day that is replanned', [('examples/replan/play.py', PROGRAM)], '', '4 minutes of a busy processor'),
    'plans': Table('MEASURED', 'Plans', [('plans', PROGRAM)]),
    'beside': Table('MEASURED', 'Feeds and boards beside each other',
                    [DAY, COUNTRY, ('speed', f'{FOLDER}/day', PROGRAM, f'--country={FOLDER}/country')]),
    'instructions': Table('MEASURED', 'One feed', [('instructions', PROGRAM)], 'valgrind'),
    'checks': Table('MEASURED', 'Texts that are checked', [DAY, COUNTRY, ('check', f'{FOLDER}/day', PROGRAM, f'{FOLDER}/country')]),
    'readers': Table('MEASURED', 'Texts that are checked', [('readers', PROGRAM)], 'valgrind'),
    'workers': Table('MEASURED', 'Plans, by several workers', [('workers', PROGRAM, '200', '500', '2000')]),
    'updates': Table('MEASURED', 'Single changes', [('updates', PROGRAM)], program='DM_ROWS_CASES'),
    'journals': Table('MEASURED', 'Journals', [('store', PROGRAM)], 'strace, valgrind', program='DM_STORE_CASES'),
    'live': Table('MEASURED', 'A live server', [('live', PROGRAM, '--sync=2')]),
    'desk': Table('MEASURED', 'The desk', [('control_room', PROGRAM, '--trains=2000', '--only-measured')], 'chromium'),
    'limits': Table('MEASURED', 'At the limits', [('limits', PROGRAM)]),
    'converters': Table('REALTIME', 'How it was tried', [('converters', PROGRAM)]),
}


def in_print(command: Sequence[str]) -> str:
    return ' '.join(['python3' if '/' in command[0] else 'dispatch-tools', *command])


def listed() -> str:
    """The names, and what is known of each table."""
    lines = []
    for name, table in TABLES.items():
        beside = [f'needs {table.needs}'] if table.needs else []
        beside += [f'takes {table.takes}'] if table.takes else []
        lines.append(f'{name} {table.program}: {table.page}, {table.heading}{"".join(f"; {one}" for one in beside)}')
        lines += [f'    {in_print(command)}' for command in table.commands]
    return '\n'.join(lines) + '\n'


def first_of(path: str, key: str) -> str:
    """The value of a key in a table of the system; empty if it has none."""
    with open(path, encoding='utf-8', errors='replace') as file:
        return next((line.partition(':')[2].strip() for line in file if line.startswith(key)), '')


def machine(program: str) -> str:
    """On which machine a table is made, and with which program."""
    with open(program, 'rb') as file:
        digest = hashlib.sha256(file.read()).hexdigest()[:12]
    memory = int(first_of('/proc/meminfo', 'MemTotal').split()[0]) >> 10
    load = ', '.join(f'{one:.1f}' for one in os.getloadavg())
    return (f'{os.cpu_count()} processors ({first_of("/proc/cpuinfo", "model name") or os.uname().machine}), {memory} MB, load {load}; '
            f'program {digest}; {time.strftime("%Y-%m-%d %H:%M")}')


def filled(command: Sequence[str], program: str, folder: str) -> list[str]:
    script, *words = command
    call = [sys.executable, '-B', os.path.join(TOP, script)] if '/' in script else words_of(script)
    return [*call, *(word.replace(PROGRAM, program).replace(FOLDER, folder) for word in words)]


def made(table: Table, program: str, folder: str) -> int:
    """Runs the commands of a table; the status of the first that fails, or of the last."""
    began, status = time.monotonic(), 0
    print(f'Made on {machine(program)}.', flush=True)
    for command in table.commands:
        print(f'\n{in_print(command)}\n', flush=True)
        status = subprocess.run(filled(command, program, folder), check=False).returncode
        if status not in (0, 1):
            break
    used = resource.getrusage(resource.RUSAGE_CHILDREN)
    print(f'\nThat took {time.monotonic() - began:.0f} s by the clock, {used.ru_utime + used.ru_stime:.0f} s of processor.')
    return status


def main(argv: Sequence[str] | None = None) -> int:
    words = command_line(__doc__)
    words.add_argument('name', nargs='?', choices=TABLES, metavar='NAME', help='the table')
    words.add_argument('program', nargs='?', type=whole_path, metavar='PROGRAM', help='the built program')
    words.add_argument('--folder', type=whole_path, metavar='FOLDER', help='folder for days, networks and studies')
    given = words.parse_args(argv)
    if given.name is None:
        print(listed(), end='')
        return 0
    if given.program is None or not os.access(given.program, os.X_OK):
        words.error(f'{given.name} needs the built program {TABLES[given.name].program}')
    with tempfile.TemporaryDirectory() as other:
        folder = given.folder or other
        os.makedirs(folder, exist_ok=True)
        return made(TABLES[given.name], given.program, folder)
