"""Does to a live server what disks and people do: dispatch-tools hostile DISPATCHER

A server answers a day of three feeds, and is told to end. Each case begins with a copy of that folder. It does something to a
feed, to the store, to the words or to the server, and starts the server again. Each start has to end with its status and its
line, to leave what it refuses as it was, and to lose no line that was answered. So whatever a reply file showed is the beginning
of a later log, or the start is refused. `--big` also tries 64 feeds of 64 MiB, a million lines at one go, and a journal that is nearly
full. That needs 10 GB of disk and some minutes.

The script prints what differs, with the folder, which stays there. The status is then 1.
"""
from __future__ import annotations

import argparse
import os
import resource
import shutil
import signal
import socket
import subprocess
import tempfile
import threading
import time
from collections.abc import Callable, Iterator, Sequence
from pathlib import Path

from dispatch_tools.bench.hostile_begin import (
    journal_filled, journal_short_of_room, list_of_sums, network_changed, no_store, store_begun_before, store_empty,
)
from dispatch_tools.bench.hostile_day import Day, End, expect, FEEDS, goes_on, PATIENCE, refused
from dispatch_tools.bench.kill import part_of, Wrong
from dispatch_tools.days.generated import write_day
from dispatch_tools.words import add_program, command_line

TRAINS = 20
LONG = 67_108_864
FAKETIME = Path('/usr/lib/x86_64-linux-gnu/faketime/libfaketime.so.1')
USAGE = b'usage: serve DIR STORE FEED.. | text DIR STORE FEED..\n'

# The lines of the first feed that are answered.
DUE = (2, *range(4, 15))


# ---- feeds

def as_it_was(day: Day) -> None:
    goes_on(day)


def feed_cut(day: Day) -> None:
    lines = FEEDS[0].splitlines(keepends=True)
    for left in range(len(lines)):
        day.feeds[0].write_bytes(b''.join(lines[:left]))
        first = next((line for line in DUE if line > left), None)
        if first is None:
            goes_on(day)
        else:
            refused(day, b'refused feed 1 line %d\n' % first)


def feed_cut_within_a_line(day: Day) -> None:
    day.feeds[0].write_bytes(FEEDS[0][:-1])
    refused(day, b'refused feed 1 line %d\n' % DUE[-1])


def feed_empty(day: Day) -> None:
    day.feeds[2].write_bytes(b'')
    refused(day, b'refused feed 3 line 1\n')


def feed_replaced(day: Day) -> None:
    day.feeds[0].write_bytes(FEEDS[1])
    refused(day, b'refused feed 1 line 1\n')


def answered_line_changed(day: Day) -> None:
    lines = FEEDS[0].splitlines(keepends=True)
    for line in DUE:
        changed = b'no line\n' if lines[line - 1] != b'no line\n' else b'cost\n'
        day.feeds[0].write_bytes(b''.join(lines[:line - 1]) + changed + b''.join(lines[line:]))
        refused(day, b'refused feed 1 line %d\n' % line)


def line_put_between(day: Day) -> None:
    day.feeds[0].write_bytes(FEEDS[0].replace(b'\n\n', b'\ncost\n', 1))
    refused(day, b'refused feed 1 line 3\n')


def comment_changed(day: Day) -> None:
    day.feeds[0].write_bytes(FEEDS[0].replace(b'# the first feed', b'#', 1))
    goes_on(day)


def line_end_changed(day: Day) -> None:
    day.feeds[1].write_bytes(FEEDS[1].replace(b'\r\n', b'\n'))
    goes_on(day)


def line_in_two(day: Day) -> None:
    day.append(0, b'delay event 61')
    before = goes_on(day)
    day.append(0, b' 90\n')
    if goes_on(day) == before:
        raise Wrong('the line was not answered')


def feed_gone(day: Day) -> None:
    day.feeds[1].unlink()
    expect(day.served(), 4, b'read fault %s\n' % str(day.feeds[1]).encode())


def feed_is_no_file(day: Day) -> None:
    """A folder, a named pipe to which nobody writes, a socket and a device are refused at once, by name."""
    day.feeds[1].unlink()
    line = b'read fault %s\n' % str(day.feeds[1]).encode()
    day.feeds[1].mkdir()
    expect(day.served(), 4, line)
    day.feeds[1].rmdir()
    os.mkfifo(day.feeds[1])
    expect(day.served(), 4, line)
    day.feeds[1].unlink()
    day.feeds[1].symlink_to('/dev/zero')
    expect(day.served(), 4, line)
    day.feeds[1].unlink()
    with socket.socket(socket.AF_UNIX) as listener:
        # Its name has to be short.
        folder = Path(tempfile.mkdtemp())
        listener.bind(str(folder / 's'))
        day.feeds[1].symlink_to(folder / 's')
        expect(day.served(), 4, line)
        shutil.rmtree(folder)


def is_said(day: Day, take: Callable[[Path], object], word: str) -> None:
    """What is done to the first feed while a server runs is said at once, by a word. The other feeds go on."""
    said = day.folder / 'said'
    with said.open('wb') as file:
        server = day.begun(file)
    take(day.feeds[0])
    ends = time.monotonic() + PATIENCE / 6
    while f'feed {day.feeds[0]} {word} at '.encode() not in said.read_bytes():
        if time.monotonic() > ends:
            server.kill()
            server.communicate()
            raise Wrong(f'{word} is not said, but {said.read_bytes()!r}')
        time.sleep(0.01)
    day.ask(server)
    text = day.end(server)
    if server.returncode != 0 or text.count(b'\nfault\n') != 1:
        raise Wrong(f'status {server.returncode}, {text.count(b"fault")} feeds with a fault')


def feed_cut_meanwhile(day: Day) -> None:
    is_said(day, lambda feed: os.truncate(feed, 20), 'shorter')
    refused(day, b'refused feed 1 line 2\n')
    day.feeds[0].write_bytes(FEEDS[0])
    goes_on(day)


def feed_rotated(day: Day) -> None:
    """A feed that is moved away, and a new one that takes its name."""
    def rotate(feed: Path) -> None:
        feed.rename(day.folder / 'old')
        feed.write_bytes(b'cost\n')
    is_said(day, rotate, 'replaced')
    refused(day, b'refused feed 1 line 1\n')
    (day.folder / 'old').rename(day.feeds[0])
    goes_on(day)


def feed_moved(day: Day) -> None:
    is_said(day, lambda feed: feed.rename(day.folder / 'old'), 'replaced')
    (day.folder / 'old').rename(day.feeds[0])
    goes_on(day)


def stopped_under_load(day: Day) -> None:
    """A server ends when it is told to, even if a line comes in each round, and the next one answers the rest."""
    server, ends = day.begun(), threading.Event()

    def append() -> None:
        with day.feeds[0].open('ab', buffering=0) as feed:
            while not ends.wait(0.001):
                feed.write(b'read\n' * 20)
    source = threading.Thread(target=append, daemon=True)
    source.start()
    try:
        time.sleep(0.5)
        day.end(server, PATIENCE / 8)
    except subprocess.TimeoutExpired:
        raise Wrong('a server under load does not end') from None
    finally:
        ends.set()
        source.join()
        server.kill()
        server.communicate()
    if server.returncode != 0:
        raise Wrong(f'status {server.returncode}')
    goes_on(day)


# ---- the store

def bytes_changed(day: Day) -> None:
    """Each byte of the journal: refused and left as it is, or nothing is lost."""
    whole, replies = day.journal(), day.replies()
    for place, byte in enumerate(whole):
        (day.store / 'journal').write_bytes(whole[:place] + bytes([byte ^ 1]) + whole[place + 1:])
        end = day.ran('text')
        if end.status not in (0, 3):
            raise Wrong(f'text at byte {place}: status {end.status}')
        end = day.served()
        if end.status == 3:
            if day.journal() != whole[:place] + bytes([byte ^ 1]) + whole[place + 1:]:
                raise Wrong(f'byte {place}: the refused journal was changed')
            if not end.text.startswith((b'refused store ', b'refused feed ')):
                raise Wrong(f'byte {place}: {end.text[-100:]!r}')
        else:
            expect(end, 0, None)
            for feed, shown in enumerate(replies):
                if not part_of(end.text, feed + 1).startswith(shown):
                    raise Wrong(f'byte {place}, {bytes([byte])!r}: reply-{feed + 1}.txt showed what the text has not')
        for feed, shown in enumerate(replies):
            (day.store / f'reply-{feed + 1}.txt').write_bytes(shown)


def journal_cut(day: Day) -> None:
    """The journal cut behind each of its bytes: it holds less than was shown."""
    whole, replies = day.journal(), day.replies()
    for left in range(0, len(whole) - 1):
        (day.store / 'journal').write_bytes(whole[:left])
        end = day.served()
        if end.status != 3 or not end.text.startswith(b'refused store '):
            raise Wrong(f'cut to {left} of {len(whole)} bytes: status {end.status}: {end.text[-60:]!r}')
        for feed, shown in enumerate(replies):
            (day.store / f'reply-{feed + 1}.txt').write_bytes(shown)


def no_gate_behind(day: Day) -> None:
    (day.store / 'journal').write_bytes(day.journal()[:-1])
    goes_on(day)


def journal_of_another(day: Day) -> None:
    (day.store / 'journal').write_bytes(b'a letter to nobody\n')
    refused(day, b'refused store form 1\n')


def reply_gone(day: Day) -> None:
    (day.store / 'reply-1.txt').unlink()
    goes_on(day)


def reply_cut(day: Day) -> None:
    (day.store / 'reply-1.txt').write_bytes(day.reply(0)[:-5])
    goes_on(day)


def reply_with_more(day: Day) -> None:
    (day.store / 'reply-2.txt').write_bytes(day.reply(1) + b'9 malformed\n')
    refused(day, b'refused store reply 2\n')


def store_is_a_file(day: Day) -> None:
    shutil.rmtree(day.store)
    day.store.write_bytes(b'')
    expect(day.ran('serve'), 4, b'read fault %s\n' % str(day.store).encode())


def two_servers(day: Day) -> None:
    server = day.begun()
    try:
        expect(day.ran('serve'), 3, b'refused store locked\n')
        expect(day.ran('text'), 0, None)
    finally:
        day.end(server)
    goes_on(day)


def clock_jumps(day: Day) -> None:
    """The clock jumps by years while a server runs, back and ahead: it answers as before."""
    if not FAKETIME.exists():
        print('a clock that jumps is tried where libfaketime is')
        return
    clock = day.folder / 'clock'
    clock.write_text('+0')
    fake = {**os.environ, 'LD_PRELOAD': str(FAKETIME), 'FAKETIME_TIMESTAMP_FILE': str(clock), 'FAKETIME_NO_CACHE': '1'}
    server = day.begun(env=fake)
    try:
        for days in (-4000, 4000, -4000, 0):
            clock.write_text(f'{days:+}d')
            told = int(subprocess.run(['date', '+%s'], env=fake, capture_output=True, check=True).stdout)
            if abs(told - time.time() - days * 86_400) > 3600:
                raise Wrong('the clock did not jump')
            day.ask(server)
    finally:
        day.end(server)
    goes_on(day)


def disk_full(day: Day) -> None:
    """A limit on the size of files: the server ends with 5, and a later one loses nothing."""
    def limited() -> None:
        signal.signal(signal.SIGXFSZ, signal.SIG_IGN)
        resource.setrlimit(resource.RLIMIT_FSIZE, (len(day.journal()) + 200, resource.RLIM_INFINITY))
    day.append(0, b'cost\n' * 500)
    expect(day.served(preexec_fn=limited), 5, b'')
    goes_on(day)


def is_noticed(day: Day, take: Callable[[Path], object]) -> None:
    """What is taken away from a server: it does not go on as if answers were kept."""
    server = day.begun()
    take(day.store)
    day.append(0, b'cost\n')
    try:
        server.communicate(timeout=PATIENCE / 6)
    except subprocess.TimeoutExpired:
        server.kill()
        server.communicate()
        raise Wrong('a server without its store goes on') from None
    if server.returncode != 5:
        raise Wrong(f'status {server.returncode}')


def store_gone(day: Day) -> None:
    is_noticed(day, shutil.rmtree)


def store_moved(day: Day) -> None:
    """The store is moved away; back in its place it goes on."""
    away = day.folder / 'away'
    is_noticed(day, lambda store: store.rename(away))
    away.rename(day.store)
    goes_on(day)


def store_put_anew(day: Day) -> None:
    """Another server begins over a new folder of the same name."""
    others: list[subprocess.Popen[bytes]] = []

    def put_anew(store: Path) -> None:
        store.rename(day.folder / 'away')
        store.mkdir()
        others.append(day.begun())
    try:
        is_noticed(day, put_anew)
    finally:
        for other in others:
            day.end(other)
    goes_on(day)


def reply_moved(day: Day) -> None:
    """A reply file that a rotation moves away is not written on unseen. The next start shows all of it again."""
    shown = day.reply(0)
    is_noticed(day, lambda store: (store / 'reply-1.txt').rename(store / 'old'))
    goes_on(day)
    if not day.reply(0).startswith(shown):
        raise Wrong('a reply file lost what it showed')


def lock_gone(day: Day) -> None:
    is_noticed(day, lambda store: (store / 'lock').unlink())
    goes_on(day)


def journal_gone(day: Day) -> None:
    """A journal without a byte is none, and a new one is refused beside reply files that show more."""
    is_noticed(day, lambda store: (store / 'journal').unlink())
    (day.store / 'journal').touch()
    before = day.replies()
    expect(day.ran('serve'), 3, b'refused store missing\n')
    expect(day.ran('serve', '--new'), 3, b'refused store reply 1\n')
    if day.replies() != before:
        raise Wrong('what was refused was changed')


def without_rights(day: Day) -> None:
    if os.geteuid() != 0:
        print('a folder without rights is tried by root alone')
        return
    for path in (day.folder, day.folder.parent):
        path.chmod(0o755)
    expect(day.ran('serve', user='nobody'), 4, b'read fault %s\n' % str(day.store).encode())


# ---- words

def other_words(day: Day) -> None:
    for option in ('--penalty=7', '--plans=3'):
        day.options = [option]
        refused(day, b'refused store head\n')
    day.options = []
    day.feeds.pop()
    expect(day.served(), 3, b'refused store head\n')


def no_words(day: Day) -> None:
    for words in ('serve', 'serve DIR STORE', 'text DIR', 'serve DIR STORE FEED --batch=0', 'text  STORE FEED'):
        done = subprocess.run([day.program, *words.split(' ')], capture_output=True, timeout=PATIENCE, check=False)
        expect(End(done.returncode, done.stdout), 2, USAGE)


def files_refused(day: Day) -> None:
    """Files are refused with the line that `run` prints, where the store does not list others."""
    (day.store / 'files').unlink()
    events = day.folder / 'net' / 'Events-expanded.giv'
    for text in (b'no record\n', None):
        if text is None:
            events.unlink()
        else:
            events.write_bytes(text)
        done = subprocess.run([day.program, 'run', str(day.folder / 'net'), str(day.feeds[0])], capture_output=True, check=False)
        expect(day.served(), done.returncode, done.stdout)


# ---- much

def big_feeds(day: Day) -> None:
    """64 feeds, each longer than one is read: each ends with `long`, and its lines up to there are answered."""
    line = b'x' * 59_999 + b'\n'
    lines = (LONG - 5) // len(line)
    day.feeds = [day.folder / f'big-{number}' for number in range(1, 65)]
    shutil.rmtree(day.store)
    day.store.mkdir()
    for path in day.feeds:
        path.write_bytes(b'cost\n' + line * (lines + 1))
    end = day.served()
    due = [b'\nfeed %d %d\n' % (number, lines + 1) for number in range(1, 65)]
    if end.status != 0 or end.text.count(b'\nlong\n') != 64 or not all(head in end.text for head in due):
        raise Wrong(f'status {end.status}, {end.text.count(b"long")} long, {sum(head in end.text for head in due)} whole')


def million_lines(day: Day) -> None:
    day.append(2, b'time 2\n' * 1_000_000)
    text = goes_on(day)
    if part_of(text, 3).count(b'\n') != 1_000_001:
        raise Wrong('not each of a million lines was answered once')


CASES: tuple[Callable[[Day], None], ...] = (
    as_it_was, feed_cut, feed_cut_within_a_line, feed_empty, feed_replaced, answered_line_changed, line_put_between,
    comment_changed, line_end_changed, line_in_two, feed_gone, feed_is_no_file, feed_cut_meanwhile, feed_rotated, feed_moved,
    stopped_under_load, bytes_changed, journal_cut, no_gate_behind, journal_of_another, reply_gone, reply_cut, reply_with_more,
    no_store, store_empty, store_begun_before, network_changed, list_of_sums,
    journal_short_of_room, store_is_a_file, two_servers, clock_jumps, disk_full, store_gone, store_moved, store_put_anew, reply_moved, lock_gone,
    journal_gone, without_rights, other_words, no_words, files_refused,
)
BIG: tuple[Callable[[Day], None], ...] = (big_feeds, million_lines, journal_filled)


def first_day(program: str, folder: Path) -> Day:
    """The day that each case begins with."""
    day = Day(program, folder)
    write_day(7, TRAINS, str(folder))
    day.store.mkdir()
    for path, text in zip(day.feeds, FEEDS):
        path.write_bytes(text)
    expect(day.served(), 0, None)
    return day


def wrong_cases(given: argparse.Namespace, top: Path) -> Iterator[str]:
    first = first_day(given.program, top / 'first')
    for case in (*CASES, *(BIG if given.big else ())):
        if given.only and case.__name__ not in given.only:
            continue
        day = Day(given.program, top / case.__name__)
        shutil.copytree(first.folder, day.folder)
        try:
            case(day)
        except (Wrong, subprocess.TimeoutExpired) as wrong:
            yield f'{case.__name__}: {wrong}'
        else:
            shutil.rmtree(day.folder)


def arguments(argv: Sequence[str] | None) -> argparse.Namespace:
    words = command_line(__doc__)
    add_program(words)
    words.add_argument('--only', metavar='CASE', nargs='*', default=[], help='only these cases')
    words.add_argument('--big', action='store_true', help='also 64 feeds of 64 MiB, and a million lines')
    words.add_argument('--disk', metavar='FOLDER', default=None, help='folder in which the cases are made')
    return words.parse_args(argv)


def main(argv: Sequence[str] | None = None) -> int:
    given = arguments(argv)
    top = Path(tempfile.mkdtemp(prefix='hostile-', dir=given.disk))
    wrong = list(wrong_cases(given, top))
    print(*(wrong or ['all cases end as they should']), sep='\n')
    if not wrong:
        shutil.rmtree(top)
    else:
        print(top)
    return 1 if wrong else 0
