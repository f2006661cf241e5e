"""Regions over the broker that ships: relays and feeds that are away lose nothing, and nobody writes where he may not."""
from __future__ import annotations

import os
import re
import shutil
import socket
import subprocess
import sys
import tempfile
import unittest
from typing import Any, Sequence

from dispatch_tools.commands.split import boundary_text
from dispatch_tools.days.split import Cut
from dispatch_tools.here import words_of
from tests.patience import comes_to_be, PATIENCE
from tests.samples import TOP

sys.path.insert(0, os.path.join(TOP, 'examples', 'regions'))
from broker import Broker  # noqa: E402
from play import stop  # noqa: E402

IS_THERE = all(map(shutil.which, ('mosquitto', 'mosquitto_passwd', 'mosquitto_pub', 'mosquitto_sub')))
CUTS = [Cut(1, 1, 2, 9, 60, 1000), Cut(2, 1, 2, 9, 30, 1000), Cut(3, 3, 2, 10, 0, 1000)]

BOARDS = ['-q', '1', '-F', '%t %x', '-t', 'board/1/+', '-t', 'board/3/+']


def free_port() -> int:
    with socket.socket() as one:
        one.bind(('127.0.0.1', 0))
        port: int = one.getsockname()[1]
        return port


@unittest.skipUnless(IS_THERE, 'mosquitto and mosquitto-clients are not installed')
class OverBroker(unittest.TestCase):
    KIND = Broker

    def setUp(self) -> None:
        folder = tempfile.TemporaryDirectory()
        self.addCleanup(folder.cleanup)
        self.folder = folder.name
        self.broker = self.KIND(self.folder, free_port())
        self.running = [self.broker.start()]
        self.addCleanup(lambda: stop(self.running))

    def name(self, name: str) -> str:
        return os.path.join(self.folder, name)

    def read(self, name: str) -> str:
        if not os.path.exists(self.name(name)):
            return ''
        with open(self.name(name), encoding='ascii') as file:
            return file.read()

    def start(self, command: list[str], **files: Any) -> subprocess.Popen[bytes]:
        started: subprocess.Popen[bytes] = subprocess.Popen(command, stderr=subprocess.DEVNULL, **files)
        self.running.append(started)
        return started

    def say(self, user: str, topic: str, *lines: str, words: Sequence[str] = ('-r',)) -> int:
        """Says lines on a topic, of which the last is retained, and waits until the broker has them."""
        command = self.broker.client(user, 'mosquitto_pub', '-q', '1', '-l', '-t', topic, *words)
        return subprocess.run(command, input=''.join(f'{line}\n' for line in lines), text=True, capture_output=True).returncode

    def hear(self, user: str, topic: str, into: str, client: str, is_known: bool = False) -> list[subprocess.Popen[bytes]]:
        """Starts a client with a name, and what puts the lines that it gets into a feed."""
        command = self.broker.client(user, 'mosquitto_sub', '-i', client, '-c', '-q', '1', '-F', '%x', '-t', topic)
        if not is_known:
            # This one ends as soon as the broker knows its topics.
            subprocess.run([*command, '-E'], check=True, capture_output=True)
        return self.piped(command, [*words_of('append'), self.name(into), '--payloads'])

    def piped(self, command: list[str], reader: list[str]) -> list[subprocess.Popen[bytes]]:
        """Starts a client, and what reads the lines that it writes."""
        heard = self.start(command, stdout=subprocess.PIPE)
        read_by = self.start(reader, stdin=heard.stdout)
        assert heard.stdout is not None
        heard.stdout.close()
        return [heard, read_by]

    def listen(self, user: str, into: str) -> None:
        """Starts a client that puts all payloads that it gets into a file, as they are."""
        command = self.broker.client(user, 'mosquitto_sub', '-i', into, '-c', '-q', '1', '-t', '#')
        subprocess.run([*command, '-E'], check=True, capture_output=True)
        with open(self.name(into), 'ab') as file:
            self.start(command, stdout=file)

    def relay(self) -> list[subprocess.Popen[bytes]]:
        """Starts the relay of region 2."""
        return self.piped(self.broker.client('region-2', 'mosquitto_sub', '-i', 'relay-2', '-c', *BOARDS), self.relay_words())

    def relay_words(self) -> list[str]:
        with open(self.name('Boundary.csv'), 'w', encoding='ascii') as file:
            file.write(boundary_text(CUTS))
        words = ['--region=2', '--topics', '--feed', self.name('lines')]
        return [*words_of('relay'), self.name('Boundary.csv'), *words]

    def until(self, name: str, lines: Any) -> None:
        """Waits until these lines stand in a file."""
        due = ''.join(f'{line}\n' for line in lines)
        self.assertTrue(comes_to_be(lambda: self.read(name) == due), f'{self.read(name)!r} and not {due!r}')


class Away(OverBroker):
    def test_relay_that_is_away_loses_nothing(self) -> None:
        relay = self.relay()
        self.say('region-1', 'board/1/6', '1; 950, 2; 1270')
        self.until('lines', ['delay event 9 300'])
        stop(relay)
        # One board goes on and comes back, another comes for the first time; of one nothing is retained.
        self.say('region-1', 'board/1/6', '1; 1400, 2; 1270', '1; 900, 2; 900')
        self.say('region-3', 'board/3/7', '3; 1005, 1; 5000', words=())
        relay = self.relay()
        self.until_last({9: 0, 10: 5})
        stop(relay)
        # A relay that has never been there has the retained lines alone, and what was reported to the region.
        with open(self.name('lines'), 'w', encoding='ascii') as file:
            file.write('delay event 9 300\n')
        command = self.broker.client('region-2', 'mosquitto_sub', '-C', '1', *BOARDS)
        retained = subprocess.run(command, capture_output=True).stdout
        self.assertEqual(retained, b'board/1/6 %b\n' % b'1; 900, 2; 900'.hex().encode())
        subprocess.run(self.relay_words(), input=retained, check=True)
        self.assertEqual(self.read('lines'), 'delay event 9 300\ndelay event 9 0\n')

    def until_last(self, due: dict[int, int]) -> None:
        """Waits until these delays of events are the last of the feed."""
        self.assertTrue(comes_to_be(lambda: self.last_delays() == due), self.last_delays())

    def last_delays(self) -> dict[int, int]:
        """The last delay of each event in the feed."""
        return {int(words[2]): int(words[3]) for words in map(str.split, self.read('lines').splitlines())}

    def test_feed_that_is_away_loses_nothing_even_where_the_broker_starts_again(self) -> None:
        feed = self.hear('region-1', 'feed/1', 'lines', 'feed-1')
        self.say('room-1', 'feed/1', 'delay event 1 60', words=())
        self.until('lines', ['delay event 1 60'])
        stop(feed)
        self.say('room-1', 'feed/1', 'delay event 1 70', 'drop 5', words=())
        stop(self.running[:1])
        self.running[0] = self.broker.start()
        self.say('room-1', 'feed/1', 'keep 5', words=())
        self.hear('region-1', 'feed/1', 'lines', 'feed-1', is_known=True)
        self.until('lines', ['delay event 1 60', 'delay event 1 70', 'drop 5', 'keep 5'])


class WithCertificates(Broker):
    """The broker with the lines of TLS that stand in its configuration, whose clients have certificates."""

    def __init__(self, folder: str, port: int) -> None:
        subprocess.run([os.path.join(TOP, 'examples', 'regions', 'certificates'), folder, 'localhost', 'region-1', 'region-2'], check=True)
        super().__init__(folder, port)

    def config(self) -> str:
        lines = 'cafile|certfile|keyfile|require_certificate|use_identity_as_username'
        return re.sub(f'^# ({lines}) ', r'\1 ', super().config(), flags=re.MULTILINE)

    def client(self, user: str, program: str, *words: str) -> list[str]:
        own = [os.path.join(self.folder, f'{user}.{kind}') for kind in ('crt', 'key')]
        names = ['--cert', own[0], '--key', own[1]] if os.path.exists(own[0]) else []
        return ['env', f'XDG_CONFIG_HOME={self.folder}', f'HOME={self.folder}', program, '-h', 'localhost', '-p', str(self.port),
                '--cafile', os.path.join(self.folder, 'ca.crt'), *names, *words]


@unittest.skipUnless(shutil.which('openssl'), 'openssl is not installed')
class Certificates(OverBroker):
    KIND = WithCertificates

    def test_a_client_is_who_its_certificate_says(self) -> None:
        self.listen('region-2', 'heard')
        for user, line, is_known in ('nobody', '1; 900', False), ('region-2', '1; 901', True), ('region-1', '1; 950', True):
            # Not by `mosquitto_pub -l`, which waits for ever where TLS fails.
            words = self.broker.client(user, 'mosquitto_pub', '-q', '1', '-t', 'board/1/6', '-m', line)
            self.assertEqual(subprocess.run(words, capture_output=True, timeout=PATIENCE).returncode == 0, is_known, user)
        self.until('heard', ['1; 950'])
        self.assertEqual([name for name in os.listdir(self.folder) if name.endswith('.key') and os.stat(self.name(name)).st_mode & 0o77], [])


class Access(OverBroker):
    def test_a_region_speaks_for_nobody_else(self) -> None:
        self.relay()
        forged = b'1; 900\nboard/3/7 3; 1500'
        for payload in forged, forged + b'\n', forged + b'\nboard/3/7 ' + b'3; 1500'.hex().encode() + b'\n', b'\nboard/3/7 3; 1500\n':
            said = self.broker.client('region-1', 'mosquitto_pub', '-q', '1', '-t', 'board/1/6', '-s')
            self.assertEqual(subprocess.run(said, input=payload).returncode, 0)
        # The broker takes no topic with a line feed, and none of another region.
        for topic in 'board/1/6\nboard/3/7', 'board/1/6 1\nboard/3/7', 'board/3/7':
            subprocess.run(self.broker.client('region-1', 'mosquitto_pub', '-q', '1', '-t', topic, '-m', '3; 1500'), capture_output=True)
        self.say('region-1', 'board/1/6', '1; 950, 3; 1500')
        self.until('lines', ['delay event 9 10'])
        self.say('region-3', 'board/3/7', '3; 1007')
        self.until('lines', ['delay event 9 10', 'delay event 10 7'])

    def test_a_payload_of_a_control_room_is_one_line(self) -> None:
        self.hear('region-1', 'feed/1', 'lines', 'feed-1')
        for payload in b'drop 5\nkeep 6', b'drop 5', b'drop', b'keep 6':
            said = self.broker.client('room-1', 'mosquitto_pub', '-q', '1', '-t', 'feed/1', '-s')
            self.assertEqual(subprocess.run(said, input=payload).returncode, 0)
        self.until('lines', ['drop 5', 'keep 6'])

    def test_nobody_gets_in_without_a_password(self) -> None:
        where = ['-h', '127.0.0.1', '-p', str(self.broker.port), '-t', 'feed/1', '-m', 'drop 5']
        users: list[list[str]] = [[], ['-u', 'room-1'], ['-u', 'room-1', '-P', 'room-1'], ['-u', 'nobody', '-P', 'x']]
        for user in users:
            environment = {**os.environ, 'XDG_CONFIG_HOME': self.folder, 'HOME': self.folder}
            done = subprocess.run(['mosquitto_pub', *where, *user], env=environment, capture_output=True, text=True)
            self.assertNotEqual(done.returncode, 0, user)
            self.assertIn('not authorised', done.stderr)

    def test_each_says_and_hears_its_own_topics_alone(self) -> None:
        said = [
            ('region-1', 'board/1/6'), ('region-1', 'board/2/6'), ('region-1', 'feed/1'), ('region-1', 'feed/2'), ('region-1', 'text/1'),
            ('region-1', 'text/2'), ('region-1', 'state/1'), ('region-1', 'state/2'), ('region-2', 'board/2/6'), ('room-1', 'feed/1'),
            ('room-1', 'feed/2'), ('room-1', 'board/1/7'), ('site', 'text/3'), ('site', 'feed/1'), ('watch', 'feed/1'), ('region-1', 'other'), ('region-1', '$SYS/x'),
        ]
        self.listen('watch', 'all')
        self.listen('site', 'site')
        self.listen('region-2', 'region-2')
        for user, topic in said:
            self.say(user, topic, f'{user} {topic}', words=())
        own = [('region-1', 'board/1/6'), ('region-1', 'text/1'), ('region-1', 'state/1'), ('region-2', 'board/2/6'), ('room-1', 'feed/1')]
        self.until('all', [f'{user} {topic}' for user, topic in own])
        self.until('site', ['region-1 text/1'])
        self.until('region-2', ['region-1 board/1/6', 'region-2 board/2/6'])


if __name__ == '__main__':
    unittest.main()
