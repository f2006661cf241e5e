"""Cases of a live server: how its store is begun, over which network, and what waits where its journal is short of room."""
from __future__ import annotations

import os
import shutil
import subprocess
import time
from collections.abc import Callable

from dispatch_tools.bench.hostile_day import Day, expect, FEEDS, goes_on, PATIENCE, refused
from dispatch_tools.bench.kill import Wrong

# So many bytes, and answers to so many lines without a form, are more than four fifths of a journal.
SHORT = 110_000_000
MUCH = 6_300_000


def no_store(day: Day) -> None:
    """A store that is gone is not begun anew unasked, and its folder is not made."""
    shutil.rmtree(day.store)
    expect(day.ran('serve'), 3, b'refused store missing\n')
    expect(day.ran('serve', '--new'), 4, b'read fault %s\n' % str(day.store).encode())
    if day.store.exists():
        raise Wrong('a folder was made')


def store_empty(day: Day) -> None:
    """An empty folder, as behind a disk that is not mounted, is no store. One is begun where that is asked for, with the same answers."""
    text = goes_on(day)
    shutil.rmtree(day.store)
    day.store.mkdir()
    expect(day.ran('serve'), 3, b'refused store missing\n')
    if any(day.store.iterdir()):
        raise Wrong('something was made in a folder without a store')
    expect(day.served('serve', '--new'), 0, text)
    goes_on(day)


def store_begun_before(day: Day) -> None:
    """A store is begun once."""
    before = day.journal(), day.replies()
    expect(day.served('serve', '--new'), 3, b'refused store exists\n')
    if (day.journal(), day.replies()) != before:
        raise Wrong('what was refused was changed')
    goes_on(day)


def network_changed(day: Day) -> None:
    """Other bytes of a file of the network are refused, even a comment; those of the beginning go on, and so does a store without a list."""
    for name in ('Events-expanded.giv', 'Activities-expanded.giv'):
        path = day.folder / 'net' / name
        whole = path.read_bytes()
        path.write_bytes(whole + b'# a comment\n')
        refused(day, b'refused store files\n')
        expect(day.ran('text'), 3, b'refused store files\n')
        path.write_bytes(whole)
        goes_on(day)
    (day.folder / 'net').rename(day.folder / 'moved')
    (day.folder / 'net').symlink_to('moved')
    goes_on(day)
    (day.store / 'files').unlink()
    path.write_bytes(whole + b'# a comment\n')
    goes_on(day)


def list_of_sums(day: Day) -> None:
    """The list of a store is one of `sha256sum`, and one that `sha256sum` wrote in another folder does as well."""
    done = subprocess.run(['sha256sum', 'Activities-expanded.giv', 'Events-expanded.giv'], cwd=day.folder / 'net', capture_output=True, check=True)
    if (day.store / 'files').read_bytes() != done.stdout:
        raise Wrong(f'the list is {(day.store / "files").read_bytes()!r}')
    done = subprocess.run('sha256sum net/*.giv', shell=True, cwd=day.folder, capture_output=True, check=True)
    (day.store / 'files').write_bytes(done.stdout)
    goes_on(day)
    (day.store / 'files').write_bytes(done.stdout.replace(b'net/E', b'net/e'))
    refused(day, b'refused store files\n')


def plan_waits(day: Day, word: bytes, is_read: Callable[[], bool] = lambda: True) -> None:
    """A server whose journal is short of room lets the second feed wait that asks for a plan, of the kind that a word asks for, and
    answers what the third one says."""
    said = day.folder / 'said'
    with said.open('wb') as file:
        server = day.begun(file, 10 * PATIENCE)
    while not is_read():
        day.ask(server)
        time.sleep(1)
    shown = day.reply(1)
    day.append(1, word + b' 30\n')
    day.ask(server)
    time.sleep(1)
    day.ask(server)
    if day.reply(1) != shown:
        raise Wrong(f'a plan was made: {day.reply(1)[len(shown):]!r}')
    day.end(server)
    for words in (b'is 80 % full', b'feed %s waits' % str(day.feeds[1]).encode()):
        if words not in said.read_bytes():
            raise Wrong(f'not said: {words!r}')


def journal_short_of_room(day: Day) -> None:
    """From four fifths of a journal on a plan waits, also behind a restart. Here closed bytes fill it, which the start cuts away later."""
    for word in (b'solve', b'plan'):
        os.truncate(day.store / 'journal', SHORT)
        plan_waits(day, word)
    goes_on(day)
    if any(day.reply(1).count(b' %s 30 -> ' % word) != 1 for word in (b'solve', b'plan')):
        raise Wrong('plans were not made where there is room again')


def journal_filled(day: Day) -> None:
    """The same with a journal that is filled by answers."""
    day.append(0, b'x\n' * (MUCH - FEEDS[0].count(b'\n')))
    day.options = ['--batch=1000000']
    for word in (b'plan', b'solve'):
        plan_waits(day, word, lambda: day.reply(0).endswith(b'\n%d malformed\n' % MUCH))
