"""The units for systemd are in its form, and a day's store is begun once, by a command of its own."""
from __future__ import annotations

import os
import re
import shutil
import subprocess
import tempfile
import time
import unittest
from pathlib import Path

from tests.patience import comes_to_be
from tests.samples import stand_in, TOP

LIVE = Path(TOP, 'examples', 'live')
REGIONS = Path(TOP, 'examples', 'regions')

# What is installed on a machine that runs the units, and not where this test runs.
PROGRAM = '/usr/local/bin/dispatcher(-standby|-region)?|/usr/sbin/mosquitto'


class Units(unittest.TestCase):
    @unittest.skipUnless(shutil.which('systemd-analyze'), 'systemd-analyze is not installed')
    def test_systemd_finds_nothing_wrong(self) -> None:
        with tempfile.TemporaryDirectory() as folder:
            for unit in [*LIVE.glob('*.service'), *LIVE.glob('*.timer'), *REGIONS.glob('*.service')]:
                Path(folder, unit.name).write_text(re.sub(PROGRAM, '/bin/true', unit.read_text()))
            for unit in Path(folder).iterdir():
                name = unit.name.replace('@', '@2026-12-24')
                done = subprocess.run(['systemd-analyze', 'verify', '--man=no', '--recursive-errors=no', f'./{name}'], cwd=folder,
                                      capture_output=True, text=True, check=False)
                self.assertEqual(done.stderr, '', name)

    def test_a_region_has_all_its_services(self) -> None:
        unit = (REGIONS / 'dispatcher-region@.service').read_text()
        kinds = re.findall('^([a-z]+)\\)$', (REGIONS / 'dispatcher-region').read_text(), re.MULTILINE)
        self.assertEqual(kinds, ['begin', 'server', 'room', 'relay', 'boards', 'state'])
        self.assertEqual(re.findall('dispatcher-client@([a-z]+)-%i.service', unit), kinds[2:])
        self.assertIn('\nRestartPreventExitStatus=2 3 4 5\n', unit)

    def test_server_is_not_started_again_where_people_have_to_look(self) -> None:
        unit = (LIVE / 'dispatcher@.service').read_text()
        self.assertIn('\nRestartPreventExitStatus=2 3 4 5\n', unit)
        self.assertIn('\nAssertPathExists=/var/lib/dispatcher/%i/store/journal\n', unit)
        self.assertNotIn('mkdir', unit)


class Days(unittest.TestCase):
    def setUp(self) -> None:
        self.days = Path(tempfile.mkdtemp())
        self.addCleanup(shutil.rmtree, self.days)
        self.day = self.days / '2026-12-24'
        (self.day / 'net').mkdir(parents=True)
        for name in 'Events-expanded.giv', 'Activities-expanded.giv':
            (self.day / 'net' / name).write_text('')

    def begin(self, *words: str) -> subprocess.CompletedProcess[str]:
        programs = tempfile.mkdtemp()
        self.addCleanup(shutil.rmtree, programs)
        return subprocess.run([LIVE / 'dispatcher-day', '2026-12-24', *words], capture_output=True, text=True, check=False,
                              env={**os.environ, 'DISPATCHER_DAYS': str(self.days), 'DISPATCHER': stand_in(programs)})

    def test_a_day_gets_a_store_and_its_feeds(self) -> None:
        (self.day / 'south').write_text('now 5\n')
        self.assertEqual(self.begin().returncode, 0)
        self.assertEqual(sorted(os.listdir(self.day)), ['net', 'north', 'south', 'store'])
        self.assertEqual((self.day / 'north').read_text(), '')
        self.assertEqual(sorted(os.listdir(self.day / 'store')), ['files', 'journal', 'lock', 'reply-1.txt', 'reply-2.txt'])
        self.assertEqual((self.day / 'south').read_text(), 'now 5\n')

    def test_feeds_and_options_are_those_that_are_given(self) -> None:
        self.assertEqual(self.begin('room', '--plans=400', 'relay').returncode, 0)
        self.assertEqual(sorted(os.listdir(self.day)), ['net', 'relay', 'room', 'store'])

    def test_a_store_that_is_there_is_left_as_it_is(self) -> None:
        (self.day / 'store').mkdir()
        (self.day / 'store' / 'journal').write_text('+0\n~')
        done = self.begin()
        self.assertEqual((done.returncode, done.stderr), (1, 'dispatcher-day: 2026-12-24 has a store already\n'))
        self.assertEqual((self.day / 'store' / 'journal').read_text(), '+0\n~')

    def test_no_day_is_begun_without_its_network(self) -> None:
        (self.day / 'net' / 'Events-expanded.giv').unlink()
        self.assertNotEqual(self.begin().returncode, 0)
        self.assertFalse((self.day / 'store').exists())


@unittest.skipUnless(shutil.which('rsync'), 'rsync is not installed')
class Standby(Days):
    """What a standby copies; the tests of a day's begin hold there, too."""

    def test_a_copy_is_made_and_kept_up(self) -> None:
        self.assertEqual(self.begin().returncode, 0)
        copies = self.days / 'copies'
        copies.mkdir()
        follower = subprocess.Popen([LIVE / 'dispatcher-standby', '2026-12-24', str(self.day), '0.05'],
                                    env={**os.environ, 'DISPATCHER_DAYS': str(copies)}, stderr=subprocess.DEVNULL)
        try:
            for text in 'now 5\n', 'now 5\nnow 6\n':
                (self.day / 'store' / 'journal').write_text(text)
                (self.day / 'north').write_text(text)
                self.assertTrue(comes_to_be(lambda: self.has_in(copies / '2026-12-24', text)))
            self.assertEqual(sorted(os.listdir(copies / '2026-12-24')), ['net', 'north', 'south', 'store'])
            # No journal is put in place before the feeds whose lines it answers.
            (copies / '2026-12-24' / 'north').unlink()
            (copies / '2026-12-24' / 'north' / 'in the way').mkdir(parents=True)
            (self.day / 'store' / 'journal').write_text('now 7 and more\n')
            time.sleep(0.5)
            self.assertEqual((copies / '2026-12-24' / 'store' / 'journal').read_text(), 'now 5\nnow 6\n')
        finally:
            follower.kill()
            follower.wait()

    def has_in(self, copy: Path, text: str) -> bool:
        """Whether a feed and the journal of a copy hold this text."""
        files = [copy / name for name in ('north', 'store/journal')]
        return all(file.exists() and file.read_text() == text for file in files)


if __name__ == '__main__':
    unittest.main()
