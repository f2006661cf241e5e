"""Feeds get whole lines or none: on full disks, where writers are killed, and behind half a line of somebody else."""
from __future__ import annotations

import contextlib
import fcntl
import os
import resource
import shutil
import signal
import subprocess
import sys
import unittest
from typing import Iterator
from unittest import mock

from dispatch_tools.desk.feed import Feed
from dispatch_tools.formats.files import BadFile
from dispatch_tools.formats.runtext import due_items, heard, LINES, LONGEST_LINE
from dispatch_tools.live import feed_file
from dispatch_tools.live.feed_file import append, ending
from dispatch_tools.live.relay import FeedFile
from dispatch_tools.live.serving import Server
from dispatch_tools.model.messages import AskCost, DelayEvent, Drop, Keep, Pass
from tests.folders import InFolder
from tests.patience import PATIENCE
from tests.samples import TOP

WHOLE = [
    'delay event 12 600', 'delay activity 3 40', 'pass 41 30120', 'recall 41', 'keep 36', 'drop 36', 'first 13 5', 'now 30180', 'time 4',
    'cost', 'read', 'plan 4096', 'solve 16384', 'adopt', ' drop  007 ',
    'cancel 12', 'restore 12', 'lock 36', 'lock 13 5', 'unlock 5 13', 'unlock 36', 'carry',
]


def bytes_of(name: str) -> bytes:
    with open(name, 'rb') as file:
        return file.read()


def said_in(name: str) -> list[object]:
    return [said for _, said in due_items(bytes_of(name).decode('latin-1'))]


@contextlib.contextmanager
def largest_file(size: int) -> Iterator[None]:
    """No file may become larger than this."""
    before = resource.getrlimit(resource.RLIMIT_FSIZE)
    resource.setrlimit(resource.RLIMIT_FSIZE, (size, before[1]))
    try:
        yield
    finally:
        resource.setrlimit(resource.RLIMIT_FSIZE, before)


@contextlib.contextmanager
def writing(most: int) -> Iterator[None]:
    """A disk that keeps no room, and of which a write takes so many bytes."""
    write = os.write
    with mock.patch('dispatch_tools.live.feed_file.keep_room'), mock.patch('dispatch_tools.live.feed_file.os.write', lambda file, data: write(file, data[:most])):
        yield


class InFeed(InFolder):
    def setUp(self) -> None:
        super().setUp()
        self.feed = os.path.join(self.folder, 'feed')

    def begin(self, data: bytes) -> None:
        with open(self.feed, 'wb') as file:
            file.write(data)

    def write_by_each(self) -> Iterator[tuple[str, object]]:
        """What appends a line here, by name: whatever does so, does it by one module."""
        yield 'append', lambda: append(self.feed, ['delay event 12 600'])
        yield 'desk', lambda: Feed(self.feed).tell(['delay event 12 600'])
        yield 'relay', lambda: FeedFile(self.feed).write('delay event 12 600')
        yield 'serving', lambda: Server('', '', os.path.join(self.folder, 'store'), [self.feed]).append(0, ['delay event 12 600'])


class Halves(InFeed):
    def test_each_front_of_a_line_is_ended_as_a_malformed_one(self) -> None:
        self.assertLessEqual({kind.split()[0] for kind in LINES}, {line.split()[0] for line in WHOLE})
        odd = ['#', ' # late', '   ', '\r', 'drop 36\r', '\t', '\xff', 'a' * LONGEST_LINE, '#' * 5000, '# delay event 12 60']
        for half in [line[:size] for line in WHOLE for size in range(1, len(line) + 1)] + odd:
            self.begin(b'cost\n' + half.encode('latin-1'))
            self.assertEqual(append(self.feed, ['drop 5', 'keep 6']), len(bytes_of(self.feed)) - 14)
            self.assertEqual(said_in(self.feed), [AskCost(), None, Drop(5), Keep(6)], half)

    def test_nothing_is_put_before_a_whole_line(self) -> None:
        self.assertEqual(append(self.feed, ['cost']), 0)
        self.assertEqual(append(self.feed, []), 5)
        self.assertEqual(append(self.feed, ['read', 'adopt']), 5)
        self.assertEqual(bytes_of(self.feed), b'cost\nread\nadopt\n')
        self.assertEqual(ending(b''), b'')

    def test_each_writer_ends_half_a_line_so(self) -> None:
        for name, write in self.write_by_each():
            self.begin(b'delay event 12 60')
            assert callable(write)
            write()
            self.assertEqual(said_in(self.feed), [None, DelayEvent(12, 600)], name)

    def test_a_relay_that_begins_knows_nothing_of_half_a_line(self) -> None:
        self.begin(b'delay event 9 300\ndelay event 9 30')
        self.assertEqual(list(FeedFile(self.feed).told()), [(9, 300)])


class Full(InFeed):
    def fails(self, name: str, write: object) -> None:
        before = bytes_of(self.feed)
        assert callable(write)
        with self.assertRaises(BadFile, msg=name) as caught:
            write()
        self.assertEqual(bytes_of(self.feed), before, name)
        self.assertEqual(caught.exception.name, self.feed)

    def test_a_file_that_may_not_grow_stays_as_it_was(self) -> None:
        for name, write in self.write_by_each():
            self.begin(b'cost\n')
            for most in range(5, 24):
                with largest_file(most):
                    self.fails(name, write)
            with largest_file(24):
                write()  # type: ignore[operator]
            self.assertEqual(said_in(self.feed), [AskCost(), DelayEvent(12, 600)], name)

    def test_a_write_that_takes_a_part_is_taken_back(self) -> None:
        for half in b'', b'now 5':
            self.begin(b'cost\n' + half)
            for most in range(0, 18 + len(half)):
                with writing(most):
                    self.fails('append', lambda: append(self.feed, ['delay event 12 600']))

    def test_what_another_put_behind_a_part_stays(self) -> None:
        self.begin(b'cost\n')
        write = os.write

        def both(file: int, data: bytes) -> int:
            count = write(file, data[:17])
            with open(self.feed, 'ab') as other:
                other.write(b'\nnow 5\n')
            return count
        with mock.patch('dispatch_tools.live.feed_file.os.write', both), self.assertRaises(BadFile):
            append(self.feed, ['delay event 12 600'])
        self.assertTrue(bytes_of(self.feed).endswith(b'\nnow 5\n'))

    def test_full_file_system(self) -> None:
        words = ['mount', '-t', 'tmpfs', '-o', 'size=32k', 'tmpfs', self.folder]
        if os.geteuid() or not shutil.which('mount') or subprocess.run(words, capture_output=True).returncode:
            self.skipTest('only root may mount a file system')
        self.addCleanup(lambda: subprocess.run(['umount', self.folder], check=True))
        page = os.sysconf('SC_PAGE_SIZE')
        start = b'now 1\n' * ((page - 17) // 6)
        start += b'#' * (page - 18 - len(start)) + b'\n'
        self.begin(start)
        other = os.path.join(self.folder, 'other')
        with contextlib.suppress(OSError), open(other, 'wb', buffering=0) as file:
            while file.write(b'x' * page):
                pass
        for name, write in self.write_by_each():
            self.fails(name, write)
        # A line that the last 17 bytes take.
        append(self.feed, ['delay event 1 60'])
        os.remove(other)
        append(self.feed, ['delay event 12 600'])
        self.assertEqual(said_in(self.feed)[-2:], [DelayEvent(1, 60), DelayEvent(12, 600)])


KILLED = '''
import os, signal, sys
sys.path.insert(0, sys.argv[1])
from dispatch_tools.live import feed_file
write = os.write

def half(file, data):
    write(file, data[:int(sys.argv[3])])
    os.kill(os.getpid(), signal.SIGKILL)
feed_file.os.write = half
feed_file.append(sys.argv[2], ['delay event 12 600', 'drop 5'])
'''

MANY = '''
import sys
sys.path.insert(0, sys.argv[1])
from dispatch_tools.live import feed_file
feed_file.PATIENCE = float(sys.argv[4])
for count in range(100):
    feed_file.append(sys.argv[2], [f'pass {sys.argv[3]} {count}', f'delay event {sys.argv[3]} {count}'])
'''


class Others(InFeed):
    def test_a_writer_that_is_killed_between(self) -> None:
        for size in 1, 17, 18, 19, 22:
            self.begin(b'cost\n')
            done = subprocess.run([sys.executable, '-c', KILLED, TOP, self.feed, str(size)])
            self.assertEqual(done.returncode, -signal.SIGKILL)
            append(self.feed, ['keep 6'])
            whole = [DelayEvent(12, 600)] if size >= 19 else []
            self.assertEqual(said_in(self.feed), [AskCost(), *whole, *([None] if size != 19 else []), Keep(6)])

    def test_writers_take_turns(self) -> None:
        writers = [subprocess.Popen([sys.executable, '-c', MANY, TOP, self.feed, str(number), str(PATIENCE)]) for number in range(3)]
        self.assertEqual([writer.wait() for writer in writers], [0, 0, 0])
        said = said_in(self.feed)
        for first, second in zip(said[::2], said[1::2]):
            assert isinstance(first, Pass) and isinstance(second, DelayEvent)
            self.assertEqual(first.numbers(), second.numbers())
        self.assertEqual(len(set(said)), 600)

    def test_a_lock_that_another_keeps(self) -> None:
        self.begin(b'cost\n')
        with open(self.feed, 'rb') as file, mock.patch('dispatch_tools.live.feed_file.PATIENCE', 0.05):
            fcntl.flock(file, fcntl.LOCK_EX)
            with self.assertRaisesRegex(BadFile, 'another writer has had its lock'):
                append(self.feed, ['read'])
        self.assertEqual(bytes_of(self.feed), b'cost\n')

    def test_what_is_no_file(self) -> None:
        pipe = os.path.join(self.folder, 'pipe')
        os.mkfifo(pipe)
        for name in pipe, self.folder, os.path.join(self.folder, 'no', 'feed'), '/dev/null':
            with self.assertRaises(BadFile):
                append(name, ['cost'])

    def test_half_lines_are_no_lines(self) -> None:
        for lines in ['drop 5\nkeep 6'], ['drop 5', '\n']:
            with self.assertRaises(ValueError):
                append(self.feed, lines)
        self.assertFalse(os.path.exists(self.feed))
        self.assertIsNone(heard('a (broken off)'))
        self.assertTrue(feed_file.BROKEN_OFF.startswith(b' '))


if __name__ == '__main__':
    unittest.main()
