"""What is said of a live server's health, over stores that are written here. No server runs."""
from __future__ import annotations

import fcntl
import io
import os
import subprocess
import sys
import unittest
from contextlib import redirect_stdout
from unittest import mock

from dispatch_tools.commands import health as health_command
from dispatch_tools.formats.giv import ACTIVITIES, EVENTS
from dispatch_tools.live import health
from dispatch_tools.oracle.journals import at_rest
from tests.test_live import DELAYED, HEAD, InStore, PLANNED

REPLIES = [b'1 delay event 1 60 -> 1 ok\n', b'''1 plan 100 -> 1 plan optimal cost 940000 bound 940000 choices 2 nodes 1
choice drop 5
choice first 5 3
bound 940000
3 adopt -> 2 ok
''']


class Health(InStore):
    def setUp(self) -> None:
        super().setUp()
        self.write(at_rest([HEAD, DELAYED, PLANNED]))
        for number, text in enumerate(REPLIES, 1):
            (self.store / f'reply-{number}.txt').write_bytes(text)
        self.feeds = [self.store / 'north', self.store / 'south']
        self.feeds[0].write_bytes(b'delay event 1 60\n')
        self.feeds[1].write_bytes(b'plan 100\n\nadopt\n')
        (self.store / 'lock').write_bytes(b'')

    def serve(self) -> None:
        """Holds the lock of the store, as a server does."""
        file = open(self.store / 'lock', 'rb')
        self.addCleanup(file.close)
        fcntl.flock(file, fcntl.LOCK_EX)

    def said(self, *words: str) -> tuple[int, str]:
        """The status and the line, with the feeds named."""
        given = ['health', str(self.store), *map(str, self.feeds), *words]
        with mock.patch.object(sys, 'argv', given), redirect_stdout(io.StringIO()) as out:
            status = health_command.main()
        return status, out.getvalue()

    def append(self, feed: int, data: bytes, ago: float = 0) -> None:
        with open(self.feeds[feed], 'ab') as file:
            file.write(data)
        then = os.stat(self.feeds[feed]).st_mtime - ago
        os.utime(self.feeds[feed], (then, then))

    def test_a_server_that_has_answered_all_is_well(self) -> None:
        self.serve()
        status, line = self.said()
        self.assertEqual(status, health.WELL, line)
        self.assertIn('entries 2,', line)
        self.assertIn('lines answered 1, 3,', line)

    def test_other_files_of_the_network_are_critical(self) -> None:
        net = self.store / 'net'
        net.mkdir()
        for name in EVENTS, ACTIVITIES:
            (net / name).write_bytes(b'# a comment\n')
        self.serve()
        self.assertEqual(self.said(f'--net={net}')[0], health.WELL)
        done = subprocess.run(['sha256sum', EVENTS, ACTIVITIES], cwd=net, capture_output=True, check=True)
        for listed in done.stdout, done.stdout.replace(b'  ', b'  some/folder/'):
            (self.store / 'files').write_bytes(listed)
            self.assertEqual(self.said(f'--net={net}')[0], health.WELL)
        # A half line is no line.
        (self.store / 'files').write_bytes(done.stdout[:-1])
        self.assertEqual(self.said(f'--net={net}')[0], health.CRITICAL)
        (self.store / 'files').write_bytes(done.stdout)
        (net / EVENTS).write_bytes(b'# another comment\n')
        status, line = self.said(f'--net={net}')
        self.assertEqual(status, health.CRITICAL)
        self.assertIn('begun over other files of the network', line)
        (net / EVENTS).unlink()
        self.assertEqual(self.said(f'--net={net}')[0], health.UNKNOWN)

    def test_no_server_is_critical(self) -> None:
        self.assertEqual(self.said()[0], health.CRITICAL)

    def test_a_waiting_line_is_critical(self) -> None:
        self.serve()
        self.append(1, b'cost\n', ago=60)
        status, line = self.said()
        self.assertEqual(status, health.CRITICAL)
        self.assertIn('feed 2 waits with 1 lines', line)

    def test_a_feed_that_goes_on_while_nothing_is_answered_is_critical(self) -> None:
        self.serve()
        self.append(1, b'cost\n')
        self.assertEqual(self.said('--patience=1')[0], health.CRITICAL)

    def test_half_lines_comments_and_blank_lines_wait_for_nothing(self) -> None:
        self.serve()
        self.append(0, b'# a comment\n\n  \ntime 3', ago=60)
        self.assertEqual(self.said()[0], health.WELL)

    def test_limits_are_near(self) -> None:
        self.serve()
        with mock.patch.object(health, 'JOURNAL', 200), mock.patch.object(health, 'MOST_ENTRIES', 2):
            status, line = self.said()
        self.assertEqual(status, health.WARNING)
        self.assertIn('journal at', line)
        self.assertIn('entries at 100 %', line)

    def test_a_silent_source_is_a_warning(self) -> None:
        self.serve()
        self.append(0, b'', ago=100)
        self.assertEqual(self.said('--quiet=50')[0], health.WARNING)
        self.assertEqual(self.said('--quiet=200')[0], health.WELL)

    def test_what_is_no_store_is_unknown(self) -> None:
        for journal in b'~', at_rest([b'dm-store 9\n']):
            self.write(journal)
            status, _ = self.said()
            self.assertEqual(status, health.CRITICAL if journal == b'~' else health.UNKNOWN)
        (self.store / 'journal').unlink()
        self.assertEqual(self.said()[0], health.UNKNOWN)

    def test_an_item_is_found_before_a_plan_of_any_length(self) -> None:
        long = b'1 cost -> 7 cost 0\n2 plan 9 -> 8 plan open cost 1 bound 0 choices 0 nodes 30000\n' + b'bound 940000\n' * 30000
        (self.store / 'reply-1.txt').write_bytes(long + b'3 cost -> 9 co')
        shown = health.read_shown(str(self.store / 'reply-1.txt'), 0.0)
        self.assertEqual((shown.line, shown.entry), (2, 8))

    def test_figures_are_written_for_prometheus(self) -> None:
        self.serve()
        name = self.store / 'figures "of"\\it.prom'
        self.assertEqual(self.said(f'--metrics={name}')[0], health.WELL)
        lines = name.read_text().splitlines()
        store = f'store="{self.store}"'
        self.assertIn(f'dispatcher_up{{{store}}} 1', lines)
        self.assertIn(f'dispatcher_answered_line{{{store},feed="2"}} 3', lines)
        for line in lines:
            self.assertRegex(line, r'^(# (HELP|TYPE) dispatcher_[a-z_]+ .+|dispatcher_[a-z_]+\{store="[^"]+"(,feed="[0-9]+")?\} [0-9.e+]+)$')

    def test_a_name_ends_no_label(self) -> None:
        self.assertEqual(health.label('a"b\\c\nd\u202e'), '"a\\"b\\\\c\\nd?"')


if __name__ == '__main__':
    unittest.main()
