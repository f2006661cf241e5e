"""What the units of a country run: the broker as it is set up, and the services of its regions but for their servers."""
from __future__ import annotations

import contextlib
import io
import os
import re
import shutil
import subprocess
import sys
import tempfile
import time
import unittest
from pathlib import Path
from typing import Callable

from dispatch_tools.commands import split
from dispatch_tools.formats.giv import read_network
from dispatch_tools.live.relay import read_boundary
from tests.samples import CASES, stand_in, TOP

sys.path.insert(0, os.path.join(TOP, 'examples', 'regions'))
from broker import Tls  # noqa: E402
from measure import Country, Growing  # noqa: E402
from services import broker_of, Keeper, SCRIPT, services_of, surroundings  # noqa: E402
from tests.test_broker import free_port, IS_THERE  # noqa: E402

NET = os.path.join(CASES, 'networks', 'forty_trains', 'net')
STOPS = ','.join(str(11 * line + 6) for line in range(8))
PATIENCE = 60.0


@unittest.skipUnless(IS_THERE and shutil.which('openssl'), 'mosquitto, mosquitto-clients or openssl are not installed')
class Services(unittest.TestCase):
    def setUp(self) -> None:
        folder = tempfile.TemporaryDirectory()
        self.addCleanup(folder.cleanup)
        self.folder = Path(folder.name)
        with contextlib.redirect_stdout(io.StringIO()):
            self.assertEqual(split.main([NET, STOPS, folder.name, '--regions=2']), 0)
        self.broker = Tls(folder.name, free_port(), 2)
        self.environment = surroundings(folder.name, stand_in(folder.name), 1)
        for number in 1, 2:
            subprocess.run([SCRIPT, f'begin-{number}'], env=self.environment, check=True)
        # No program is built here: all run but the servers.
        self.services = {service.name: service for number in (1, 2) for service in services_of(folder.name, number, self.environment)[1:]}
        self.keeper = Keeper([broker_of(folder.name), *self.services.values()])
        self.keeper.start()
        self.addCleanup(self.keeper.end)

    def read(self, region: int, name: str) -> str:
        return (self.folder / f'region-{region}' / name).read_text()

    def until(self, is_so: Callable[[], bool]) -> None:
        end = time.monotonic() + PATIENCE
        while not is_so():
            said = ''.join(path.read_text() for path in (self.folder / 'said').iterdir())
            self.assertLess(time.monotonic(), end, said[-2000:])
            time.sleep(0.05)

    def say(self, line: str) -> None:
        words = self.broker.client('room-1', 'mosquitto_pub', '-q', '1', '-t', 'feed/1', '-m', line)
        self.until(lambda: subprocess.run(words, capture_output=True).returncode == 0)

    def is_taken(self, line: str) -> bool:
        self.say(line)
        return self.read(1, 'room').startswith(f'{line}\n')

    def test_lines_boards_and_states_pass(self) -> None:
        stops = {event.id: event.stop for event in read_network(NET).events}
        cut = next(cut for cut in read_boundary(str(self.folder / 'region-1' / 'Boundary.csv')) if cut.region == 2)
        board = f'net/board-{stops[cut.here]}.txt'
        self.assertEqual(self.read(1, board), '')
        late = cut.scheduled - cut.lower + 300
        with open(self.folder / 'region-1' / board, 'a') as file:
            file.write(f'{cut.here}; {late}\n')
        self.until(lambda: self.read(2, 'relay') == f'delay event {cut.there} 300\n')
        # The first line is said again until the broker knows who listens.
        self.until(lambda: self.is_taken('now 5'))
        self.services['room-1'].kill()
        self.say('now 6')
        self.until(lambda: self.read(1, 'room').endswith('now 6\n'))
        words = self.broker.client('watch', 'mosquitto_sub', '-q', '1', '-C', '1', '-W', '60', '-t', 'state/1')
        said = subprocess.run(words, capture_output=True, text=True).stdout
        self.assertRegex(said, '^status 2; entries 0; journal 46; feeds [0-9 ]+; told ; said no server runs')
        # Whatever ends is started again.
        self.assertGreaterEqual(self.services['room-1'].starts, 2)

    def test_nobody_else_reads_passwords_and_keys(self) -> None:
        secret = [path for path in self.folder.rglob('*') if path.suffix == '.key' or path.name in ('passwords', 'mosquitto_pub', 'mosquitto_sub')]
        self.assertEqual(len(secret), 2 + 1 + 2 * 6)
        self.assertEqual([path for path in secret if path.stat().st_mode & 0o77], [])
        self.assertRegex((self.folder / 'mosquitto.conf').read_text(), re.compile('^listener [0-9]+ 127.0.0.1\ncafile ', re.MULTILINE))

    def test_a_store_is_begun_once(self) -> None:
        done = subprocess.run([SCRIPT, 'begin-1'], env=self.environment, capture_output=True, text=True)
        self.assertEqual((done.returncode, done.stderr), (1, 'dispatcher-day: region-1 has a store already\n'))

    def test_what_is_no_service_is_refused(self) -> None:
        done = subprocess.run([SCRIPT, 'other-1'], env=self.environment, capture_output=True, text=True)
        self.assertEqual(done.returncode, 2)
        self.assertIn('dispatcher-region SERVICE-N', done.stderr)


class Measured(unittest.TestCase):
    """What a measure reads of a country's files."""

    def test_a_board_is_read_from_now_on(self) -> None:
        with tempfile.TemporaryDirectory() as folder:
            board = Path(folder, 'board-6.txt')
            board.write_text('9; 100\n')
            growing = Growing(board, 9)
            self.assertEqual(growing.time(), -1)
            for text, due in ('9; 20', -1), ('0\n8; 300\n', 200), ('9; 250\n9; 260\n', 260), ('7; 1\n', 260):
                with open(board, 'a') as file:
                    file.write(text)
                self.assertEqual(growing.time(), due)
            growing.file.close()

    def test_the_last_delay_of_an_event_counts(self) -> None:
        with tempfile.TemporaryDirectory() as folder:
            Path(folder, 'region-1').mkdir()
            Path(folder, 'region-1', 'room').write_text('delay event 9 300\ndelay event 8 5\ndelay event 9 0\n')
            country = Country.__new__(Country)
            country.folder = Path(folder)
            self.assertEqual(country.reported(1), {9: 0, 8: 5})


if __name__ == '__main__':
    unittest.main()
