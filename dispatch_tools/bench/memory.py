"""Refuses memory to a program: dispatch-tools memory DISPATCHER [CASE..], or dispatch-tools memory --calls PROGRAM

DISPATCHER is the built program. Each case does one task again and again, over examples/connection, or also over a day of
dispatch-tools day if several workers search. Each time another call for memory is refused: the first, the second and so on, until
a run makes fewer calls. A run to which memory is refused has to end within a minute. It ends with status 6 and nothing written,
or with the status and the text that it has with enough memory. A line names each other end, and the status is then 1. Each case
has a row with the number of calls, and of ends of each kind. With several workers the order of the calls depends on their
threads, and so do the trees of plans. There each text will do that `check` finds good.

With --calls, PROGRAM is the built program of dm_memory_cases, which makes each call again to which memory was refused. Whichever
call is refused, it has to print the same.

A library of a few lines that stands before malloc and realloc refuses memory. It needs a C compiler, `cc`, and a system that
takes LD_PRELOAD.
"""
from __future__ import annotations

import os
import shutil
import subprocess
import tempfile
from itertools import islice
from typing import Optional, Sequence

from dispatch_tools.days.generated import delays, Draws, write_day
from dispatch_tools.here import TOP
from dispatch_tools.words import command_line, whole_path

SHIM = r'''
#define _GNU_SOURCE
#include <dlfcn.h>
#include <fcntl.h>
#include <stdatomic.h>
#include <stdlib.h>
#include <unistd.h>
static atomic_long calls;
/* Whether this call is the one to refuse; a file shows that it came. */
static int is_refused(void) {
    const char *number = getenv("REFUSED");
    if (!number || atomic_fetch_add(&calls, 1) + 1 != atol(number)) return 0;
    close(open(getenv("CAME"), O_CREAT | O_WRONLY, 0600));
    return 1;
}
void *malloc(size_t size) {
    static void *(*next)(size_t);
    if (!next) next = dlsym(RTLD_NEXT, "malloc");
    return is_refused() ? NULL : next(size);
}
void *realloc(void *old, size_t size) {
    static void *(*next)(void *, size_t);
    if (!next) next = dlsym(RTLD_NEXT, "realloc");
    return is_refused() ? NULL : next(old, size);
}
'''

NO_MEMORY = 6

# The trains of the day.
TRAINS = 12

PLAN = b'delay event 1 60\nplan 100\nsolve 100\nadopt\n'
DAY_PLAN = ''.join([*islice(delays(Draws(7), TRAINS), 500), 'plan 100\n', 'solve 100\n']).encode()

# The words of each case and the bytes of its feed. The text is that of the run `plan`.
CASES = {
    'run': (['run', 'net', 'feed', '--penalty=10'], b'delay event 1 60\ntime 6\ncost\n'),
    'plan': (['run', 'net', 'feed', '--penalty=10'], PLAN),
    'plan-2': (['run', 'net', 'feed', '--penalty=10', '--workers=2'], PLAN),
    'plan-4': (['run', 'net', 'feed', '--penalty=10', '--workers=4'], PLAN),
    'day-2': (['run', 'day', 'feed', '--penalty=10', '--workers=2'], DAY_PLAN),
    'day-4': (['run', 'day', 'feed', '--penalty=10', '--workers=4'], DAY_PLAN),
    'check': (['check', 'net', 'text', '--penalty=10'], b''),
    'gen': (['gen', '7', '9', '--penalty=10'], b''),
    'follow': (['follow', 'net', 'text', '--penalty=10'], b''),
    'window': (['window', 'net', 'text', '200', '235', '100', '--penalty=10'], b''),
    'window-parts': (['window', 'net', 'text', '200', '235', '100', '--solve', '--minimal=0', '--at=0', '--penalty=10'], b''),
    'rules': (['rules', 'net', 'text', 'always', '100', '--penalty=10'], b''),
    'rules-parts': (['rules', 'net', 'text', 'always', '100', '--solve', '--penalty=10'], b''),
    'journey': (['journey', 'net', 'text', '1', '4', '150', '--penalty=10'], b''),
}

# Above this number of calls a case gives up, and above these seconds a run does not end.
MOST = 100_000
SECONDS = 60


def done(program: str, words: list[str], folder: str, shim: str, number: int) -> tuple[Optional[int], bytes, bool]:
    """The status and the text of a run whose call of this number is refused, and whether there was such a call. The status of a run
    that does not end is None."""
    mark = os.path.join(folder, 'came')
    if os.path.exists(mark):
        os.remove(mark)
    env = {'LD_PRELOAD': shim, 'REFUSED': str(number), 'CAME': mark}
    try:
        ran = subprocess.run([program, *words], cwd=folder, env=env, stdout=subprocess.PIPE, stderr=subprocess.DEVNULL, check=False,
                             timeout=SECONDS)
    except subprocess.TimeoutExpired:
        return None, b'', True
    return ran.returncode, ran.stdout, os.path.exists(mark)


def is_good(program: str, words: list[str], folder: str, text: bytes) -> bool:
    """Whether `check` finds the text of a search by several workers good."""
    if not any(word.startswith('--workers') for word in words):
        return False
    with open(os.path.join(folder, 'searched'), 'wb') as file:
        file.write(text)
    told = subprocess.run([program, 'check', words[1], 'searched', '--penalty=10'], cwd=folder, stdout=subprocess.PIPE, check=False)
    return told.returncode == 0


def judge(program: str, name: str, folder: str, shim: str) -> bool:
    """Whether all ends of a case are as they should be; prints its row."""
    words, feed = CASES[name]
    with open(os.path.join(folder, 'feed'), 'wb') as file:
        file.write(feed)
    status, text, _ = done(program, words, folder, shim, 0)
    if status == 2:
        print(f'{name:<8} is no command of this program')
        return True
    refused = whole = others = 0
    for number in range(1, MOST):
        now, written, came = done(program, words, folder, shim, number)
        if not came:
            break
        if now == NO_MEMORY and not written:
            refused += 1
        elif now == status and (written == text or is_good(program, words, folder, written)):
            whole += 1
        else:
            others += 1
            print(f'{name}: call {number} refused: status {now}, {len(written)} bytes written')
    print(f'{name:<8}{refused + whole + others:6} calls: {refused} end without memory, {whole} as with it, {others} otherwise')
    return others == 0


def judge_calls(program: str, folder: str, shim: str) -> bool:
    """Whether a program that makes its calls again prints the same, whichever call for memory is refused; prints its row."""
    due = done(program, [], folder, shim, 0)[:2]
    others = 0
    for number in range(1, MOST):
        status, text, came = done(program, [], folder, shim, number)
        if not came:
            break
        if (status, text) != due:
            others += 1
            print(f'call {number} refused: status {status}')
            print(''.join(line for line in text.decode().splitlines(True) if not line.endswith(' ok\n')), end='')
    print(f'{number - 1:6} calls: {others} come out otherwise')
    return others == 0


def built(folder: str) -> str:
    """The library that refuses memory."""
    shim = os.path.join(folder, 'refusing.so')
    subprocess.run(['cc', '-shared', '-fPIC', '-O1', '-x', 'c', '-', '-o', shim, '-ldl'], input=SHIM.encode(), check=True)
    return shim


def judge_all(program: str, names: list[str]) -> list[bool]:
    """Whether each case ends as it should."""
    example = os.path.join(TOP, 'examples', 'connection')
    with tempfile.TemporaryDirectory() as folder:
        shutil.copytree(os.path.join(example, 'net'), os.path.join(folder, 'net'))
        write_day(7, TRAINS, os.path.join(folder, 'made'))
        os.rename(os.path.join(folder, 'made', 'net'), os.path.join(folder, 'day'))
        shim = built(folder)
        with open(os.path.join(folder, 'feed'), 'wb') as file:
            file.write(CASES['plan'][1])
        with open(os.path.join(folder, 'text'), 'wb') as file:
            subprocess.run([program, 'run', 'net', 'feed', '--penalty=10'], cwd=folder, stdout=file, check=True)
        return [judge(program, name, folder, shim) for name in names]


def main(argv: Sequence[str] | None = None) -> int:
    words = command_line(__doc__)
    words.add_argument('program', metavar='DISPATCHER', nargs='?', type=whole_path, help='the built program')
    words.add_argument('cases', metavar='CASE', nargs='*', help=', '.join(CASES))
    words.add_argument('--calls', metavar='PROGRAM', type=whole_path, help='the built program of dm_memory_cases')
    given = words.parse_args(argv)
    if given.calls:
        with tempfile.TemporaryDirectory() as folder:
            return 0 if judge_calls(given.calls, folder, built(folder)) else 1
    if given.program is None:
        words.error('there is to be a DISPATCHER, or --calls')
    if unknown := [name for name in given.cases if name not in CASES]:
        words.error(f'"{unknown[0]}" is no case; cases are {", ".join(CASES)}')
    good = judge_all(given.program, given.cases or list(CASES))
    return 0 if all(good) else 1
