"""Measures a live server over a generated day: dispatch-tools live DISPATCHER [WHAT..] [--trains=N] [--disk=FOLDER] [--sync=MS]

WHAT is one or more of these (all):

    reply      from a line's end to its reply, 1,000 lines one after the other, a random time apart: the median and the longest
    plan       the same for 8 plans of 16,384 nodes, each of a feed of its own
    lines      lines a second, appended at one go: 200,000 of one feed, and as many of 64 feeds
    idle       the share of a processor that a server takes while nothing comes, with 3 feeds and with 64
    restart    how long a killed server takes until it answers again, with 300,000 entries, and then with 8 plans
    memory     the most memory of those 300,000 entries, beside that of `run` over the same lines

The store is in a folder of its own below FOLDER (where temporary files are). So the disk is that of FOLDER. The script first says
what a sync of this disk takes. With --sync each sync of the server takes at least so many milliseconds. A library of a few lines
that stands before it does that. It needs a C compiler, `cc`, and a system that takes LD_PRELOAD.
"""
from __future__ import annotations

import argparse
import os
import random
import shutil
import statistics
import subprocess
import sys
import tempfile
import time
from collections.abc import Callable, Iterator, Sequence
from itertools import islice

from dispatch_tools.bench.measured import measured
from dispatch_tools.days.generated import delays, Draws, FEED, mixed, write_day
from dispatch_tools.live.serving import Server
from dispatch_tools.words import add_program, command_line

SHIM = r'''
#define _GNU_SOURCE
#include <dlfcn.h>
#include <stdlib.h>
#include <time.h>
static int slowly(const char *name, int file) {
    int (*next)(int) = dlsym(RTLD_NEXT, name);
    struct timespec end;
    clock_gettime(CLOCK_MONOTONIC, &end);
    end.tv_nsec += atol(getenv("SYNC")) * 1000000;
    end.tv_sec += end.tv_nsec / 1000000000;
    end.tv_nsec %= 1000000000;
    int answer = next(file);
    clock_nanosleep(CLOCK_MONOTONIC, TIMER_ABSTIME, &end, NULL);
    return answer;
}
int fdatasync(int file) { return slowly("fdatasync", file); }
int fsync(int file) { return slowly("fsync", file); }
'''

LINES, LINES_AT_ONCE, ENTRIES = 1_000, 200_000, 300_000
PLANS, NODES = 8, 16_384
SETTLED, IDLE_SECONDS = 1.0, 10.0
MANY = 64


class Day:
    """A generated day, and servers over it."""

    def __init__(self, program: str, folder: str, trains: int) -> None:
        self.program, self.folder, self.trains = program, folder, trains
        self.count = 0
        self.server: Server | None = None
        write_day(7, trains, folder)

    def served(self, feeds: int) -> Server:
        """A server that has started over feeds without lines, with a store of its own."""
        self.count += 1
        folder = os.path.join(self.folder, f'{self.count}')
        os.mkdir(folder)
        names = [os.path.join(folder, f'feed-{number}') for number in range(1, feeds + 1)]
        self.server = Server(self.program, os.path.join(self.folder, 'net'), os.path.join(folder, 'store'), names)
        self.server.start()
        return self.server

    def lines(self, number: int) -> Iterator[str]:
        """Lines of every kind but the clock, which moves each event that it has overtaken and that has not passed."""
        return (line.rstrip('\n') for line in mixed(Draws(number), self.trains) if not line.startswith('now'))

    def delays(self, number: int) -> Iterator[str]:
        return (line.rstrip('\n') for line in delays(Draws(number), self.trains))


# ---- What a process takes


def seconds_of(server: Server) -> float:
    """The seconds of processor of a server so far."""
    assert server.process is not None
    with open(f'/proc/{server.process.pid}/stat', encoding='ascii') as file:
        fields = file.read().rpartition(')')[2].split()
    return (int(fields[11]) + int(fields[12])) / os.sysconf('SC_CLK_TCK')


def megabytes_of(server: Server) -> float:
    """The most memory of a server so far."""
    assert server.process is not None
    with open(f'/proc/{server.process.pid}/status', encoding='ascii') as file:
        return next(int(line.split()[1]) for line in file if line.startswith('VmHWM')) / 1024


def sync_of(folder: str) -> float:
    """The median of what a sync of 100 bytes takes, in milliseconds."""
    took = []
    with open(os.path.join(folder, 'synced'), 'wb', buffering=0) as file:
        for _ in range(51):
            file.write(bytes(100))
            begun = time.perf_counter()
            os.fdatasync(file.fileno())
            took.append(time.perf_counter() - begun)
    return statistics.median(took) * 1000


def sync_slowly(folder: str, milliseconds: int) -> None:
    """Lets each sync of programs that are started from now on take so long at least."""
    library = os.path.join(folder, 'sync.so')
    subprocess.run(['cc', '-shared', '-fPIC', '-x', 'c', '-', '-o', library, '-ldl'], input=SHIM.encode(), check=True)
    os.environ.update(LD_PRELOAD=library, SYNC=str(milliseconds))


# ---- From a line to its reply


def until_reply(server: Server, feed: int, line: str) -> float:
    """The milliseconds from a line's end to the byte that ends its reply."""
    path = server.reply(feed)
    size = os.stat(path).st_size
    begun = time.perf_counter()
    server.append(feed, [line])
    server.wait_until(lambda: os.stat(path).st_size > size, pause=0.0001)
    return (time.perf_counter() - begun) * 1000


def report_times(what: str, took: list[float]) -> None:
    nearly = sorted(took)[len(took) * 99 // 100]
    print(f'{what}: {statistics.median(took):.1f} ms in the middle, {nearly:.1f} for 99 of 100, {max(took):.1f} at the worst of {len(took)}')


def reply(day: Day) -> None:
    server, draws = day.served(3), random.Random(1)
    took = []
    for number, line in enumerate(islice(day.lines(3), LINES)):
        time.sleep(draws.random() * 0.02)
        took.append(until_reply(server, number % 3, line))
    server.kill()
    report_times('a reply', took)


def plan(day: Day) -> None:
    server = day.served(PLANS)
    server.append(0, islice(day.delays(5), 500))
    server.wait_for([500] + [0] * (PLANS - 1))
    took = [until_reply(server, feed, f'plan {NODES}') for feed in range(PLANS)]
    server.kill()
    report_times(f'a plan of {NODES} nodes', took)


# ---- Many lines


def lines(day: Day) -> None:
    for feeds in (1, MANY):
        server = day.served(feeds)
        each = LINES_AT_ONCE // feeds
        parts = [list(islice(day.lines(number), each)) for number in range(feeds)]
        begun, before = time.perf_counter(), seconds_of(server)
        for feed, part in enumerate(parts):
            server.append(feed, part)
        server.wait_for([each] * feeds)
        took, work = time.perf_counter() - begun, seconds_of(server) - before
        server.kill()
        print(f'{each * feeds} lines of {feeds} feeds: {each * feeds / took:.0f} a second, {work:.2f} s of processor in {took:.2f} s')


def idle(day: Day) -> None:
    for feeds in (3, MANY):
        server = day.served(feeds)
        # Its reply files are there before it goes round.
        time.sleep(SETTLED)
        before = seconds_of(server)
        time.sleep(IDLE_SECONDS)
        share = (seconds_of(server) - before) / IDLE_SECONDS
        server.kill()
        print(f'idle with {feeds} feeds: {100 * share:.2f} % of a processor')


def fed(day: Day) -> Server:
    """A server with many entries, of feeds that `run` could read."""
    each = FEED // len(f'delay event {20 * day.trains} 900\n')
    feeds = -(-ENTRIES // each)
    server = day.served(feeds)
    counts = [min(each, ENTRIES - each * feed) for feed in range(feeds)]
    for feed, count in enumerate(counts):
        server.append(feed, islice(day.delays(100 + feed), count))
    server.wait_for(counts)
    return server


def restart(day: Day) -> None:
    server = fed(day)
    server.kill()
    print(f'a restart with {ENTRIES} entries: {server.start():.2f} s, {seconds_of(server):.2f} s of processor')
    for feed in range(PLANS):
        until_reply(server, feed, f'plan {NODES}')
    server.kill()
    print(f'and with {PLANS} plans of {NODES} nodes: {server.start():.2f} s, {seconds_of(server):.2f} s of processor')
    server.kill()


def memory(day: Day) -> None:
    server = fed(day)
    most = megabytes_of(server)
    server.kill()
    server.start()
    again = megabytes_of(server)
    server.kill()
    run = measured([server.program, 'run', server.net, *server.feeds, '--batch=1000'])
    more = (most - run.megabytes) * 1024 * 1024 / ENTRIES
    print(f'{ENTRIES} entries: {most:.0f} MB, {again:.0f} MB at a restart; `run` {run.megabytes:.0f} MB: {more:.0f} bytes a line more')


WHAT: dict[str, Callable[[Day], None]] = {
    'reply': reply, 'plan': plan, 'lines': lines, 'idle': idle, 'restart': restart, 'memory': memory,
}


def known(word: str) -> str:
    if word not in WHAT:
        raise argparse.ArgumentTypeError(f'"{word}" is none of {", ".join(WHAT)}')
    return word


def arguments(argv: Sequence[str] | None) -> argparse.Namespace:
    words = command_line(__doc__)
    add_program(words)
    words.add_argument('what', metavar='WHAT', nargs='*', type=known, help=', '.join(WHAT))
    words.add_argument('--trains', metavar='N', type=int, default=2000, help='trains of the day (2000)')
    words.add_argument('--sync', metavar='MS', type=int, help='least milliseconds of each sync')
    words.add_argument('--disk', metavar='FOLDER', default=None, help='folder for the store')
    return words.parse_args(argv)


def main(argv: Sequence[str] | None = None) -> int:
    given = arguments(argv)
    folder = tempfile.mkdtemp(prefix='live-', dir=given.disk)
    day = Day(given.program, folder, given.trains)
    try:
        print(f'a sync of the disk takes {sync_of(folder):.2f} ms', flush=True)
        if given.sync:
            sync_slowly(folder, given.sync)
            print(f'each sync of the server takes {given.sync} ms at least', flush=True)
        for what in given.what or WHAT:
            WHAT[what](day)
            sys.stdout.flush()
    finally:
        if day.server is not None:
            day.server.kill()
        shutil.rmtree(folder)
    return 0
