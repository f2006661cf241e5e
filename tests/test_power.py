"""What a loss of power may leave of a recording, and the order in which its calls have to be."""
from __future__ import annotations

import random
import unittest
from pathlib import Path
from typing import Sequence

from dispatch_tools.bench.power import Disk, File, order_of, Tear, torn
from dispatch_tools.bench.recording import (
    Cut, Event, FeedSynced, FolderSynced, Made, Recording, Renamed, Synced, Took, whole_calls, Wrote,
)

# A journal with a block of one byte, and the steps in which another comes behind it.
JOURNAL = b'+1\na~'
NAMES = {'journal': 1, 'reply-1.txt': 2}
COMMIT: Sequence[Event] = (
    Took(0, 4), FeedSynced(0), Wrote(1, 5, b'1\nb~'), Synced(1), Wrote(1, 4, b'+'), Synced(1), Wrote(2, 0, b'1 b\n'),
)
PUT_ANEW: Sequence[Event] = (
    Made('reply-1.txt.new', 3), Wrote(3, 0, b'1 b\n'), Synced(3), Renamed('reply-1.txt.new', 'reply-1.txt'), FolderSynced(),
)


def spelled(text: str) -> str:
    """A string as strace writes it in hexadecimal."""
    return '"' + ''.join(f'\\x{byte:02x}' for byte in text.encode()) + '"'


TRACE = f'''
7 openat(AT_FDCWD, {spelled('/s/journal')}, O_RDWR|O_CREAT|O_CLOEXEC, 0666) = 3
7 openat(AT_FDCWD, {spelled('/s/none')}, O_RDWR|O_CLOEXEC) = -1 ENOENT (No such file or directory)
7 openat(AT_FDCWD, {spelled('/f')}, O_RDONLY|O_CLOEXEC) = 4
7 read(4, {spelled('cost')}, 65536)          = 4
7 read(4, "", 65536)                = 0
7 lseek(3, 2, SEEK_SET)             = 2
7 write(3, {spelled('abc')}, 3 <unfinished ...>
8 fdatasync(4)                      = 0
7 <... write resumed>)              = 2
7 ftruncate(3, 1)                   = 0
7 fdatasync(3)                      = 0
7 rename({spelled('/s/journal')}, {spelled('/s/other')}) = 0
7 openat(AT_FDCWD, {spelled('/s')}, O_RDONLY|O_CLOEXEC) = 5
7 fsync(5)                          = 0
7 write(1, {spelled('x')}, 1)                = 1
7 +++ exited with 0 +++
'''


def swapped(events: Sequence[Event], one: int, other: int) -> list[Event]:
    """The events with two of them in each other's place."""
    now = list(events)
    now[one], now[other] = now[other], now[one]
    return now


def disk_of(events: Sequence[Event]) -> Disk:
    """A disk with the journal of one block and a reply file, after these events."""
    disk = Disk(1)
    disk.files = {1: File(JOURNAL), 2: File()}
    disk.names, disk.kept_names = dict(NAMES), dict(NAMES)
    for event in events:
        disk.goes(event)
    return disk


def journals(events: Sequence[Event]) -> set[bytes]:
    """What may be left of the journal after these events."""
    return {image.files['journal'] for image in disk_of(events).images([4], random.Random(1), 50)}


class Read(unittest.TestCase):
    def test_calls_that_were_interrupted_are_whole(self) -> None:
        calls = [call for call in whole_calls(TRACE.splitlines()) if call[0] == 'write']
        self.assertEqual(calls, [('write', f'3, {spelled("abc")}, 3 ', 2), ('write', f'1, {spelled("x")}, 1', 1)])

    def test_events_of_a_store_and_its_feeds(self) -> None:
        recording = Recording(Path('/s'), [Path('/f')], {}, {})
        self.assertEqual(list(recording.events(TRACE.splitlines())), [
            Made('journal', 1), Took(0, 4), FeedSynced(0), Wrote(1, 2, b'ab'), Cut(1, 1), Synced(1),
            Renamed('journal', 'other'), FolderSynced(),
        ])
        self.assertEqual(recording.names, {'other': 1})


class Ordered(unittest.TestCase):
    def faults(self, events: Sequence[Event]) -> list[str]:
        return order_of(events, NAMES)[1]

    def test_a_commit_and_a_file_put_anew(self) -> None:
        order, faults = order_of([*COMMIT, *PUT_ANEW], NAMES)
        self.assertEqual((faults, order.commits, order.put_anew), ([], 1, 1))

    def test_feeds_come_first(self) -> None:
        self.assertEqual(self.faults(swapped(COMMIT, 1, 2)), ['a block is written before feed 1 is synced'])

    def test_the_gate_comes_behind_the_sync_of_its_block(self) -> None:
        self.assertIn('a gate is opened before its block is synced', self.faults(swapped(COMMIT, 3, 4)))

    def test_nothing_is_shown_before_the_gate_is_synced(self) -> None:
        self.assertEqual(self.faults(swapped(COMMIT, 5, 6)), ['reply-1.txt shows what is not yet on the disk'])

    def test_a_file_is_synced_before_it_takes_its_name(self) -> None:
        self.assertEqual(self.faults(swapped(PUT_ANEW, 2, 3)), ['reply-1.txt is put anew before it is synced'])

    def test_the_folder_is_synced_before_more_is_written(self) -> None:
        names = ['journal', 'journal', 'reply-1.txt']
        events = [*PUT_ANEW[:-1], *COMMIT[:-1], Wrote(3, 4, b'2 c\n')]
        self.assertEqual(self.faults(events), [f'{name} is written before the folder is synced' for name in names])


class Left(unittest.TestCase):
    def test_what_is_synced_is_there(self) -> None:
        self.assertEqual(journals(COMMIT), {b'+1\na+1\nb~'})

    def test_a_write_is_there_or_not_or_torn(self) -> None:
        left = journals(COMMIT[:3])
        self.assertLessEqual({JOURNAL, b'+1\na~1', b'+1\na~1\n', b'+1\na~1\nb', b'+1\na~1\nb~', b'+1\na~\0\0\0\0'}, left)
        self.assertTrue(all(it.startswith(JOURNAL) for it in left))

    def test_a_gate_is_open_or_not(self) -> None:
        self.assertEqual(journals(COMMIT[:5]), {b'+1\na~1\nb~', b'+1\na+1\nb~'})

    def test_a_gate_that_is_opened_too_early_may_stand_alone(self) -> None:
        self.assertIn(b'+1\na+', journals(swapped(COMMIT, 3, 4)[:4]))

    def test_a_cut_is_done_or_not(self) -> None:
        self.assertEqual(journals([Cut(1, 4)]), {JOURNAL, JOURNAL[:4]})

    def test_a_name_is_there_once_the_folder_is_synced(self) -> None:
        old: list[Event] = [Wrote(2, 0, b'old\n'), Synced(2)]
        for count, replies in ((4, {b'old\n', b'1 b\n'}), (5, {b'1 b\n'})):
            images = list(disk_of([*old, *PUT_ANEW[:count]]).images([4], random.Random(1), 50))
            self.assertEqual({image.files['reply-1.txt'] for image in images}, replies)

    def test_what_was_shown_and_what_was_read_are_kept_in_mind(self) -> None:
        images = list(disk_of(COMMIT).images([9], random.Random(1), 50))
        self.assertEqual({image.shown for image in images}, {(b'1 b\n',)})
        self.assertEqual({image.feeds[0] >= 4 for image in images}, {True})
        self.assertEqual(min(image.feeds[0] for image in images), 4)
        self.assertTrue(any(image.zeros == {'reply-1.txt'} for image in images))

    def test_no_write_stands_behind_one_that_is_missing(self) -> None:
        file = File(b'', [Wrote(2, 0, b'one\n'), Wrote(2, 4, b'two\n')])
        self.assertEqual(torn(file, [Tear(0), None]), (b'', False))
        self.assertEqual(torn(file, [None, Tear(2)]), (b'one\ntw', False))
        self.assertEqual(torn(file, [None, Tear(2, True)]), (b'one\ntw\0\0', True))
        self.assertEqual(torn(file, []), (b'one\ntwo\n', False))


if __name__ == '__main__':
    unittest.main()
