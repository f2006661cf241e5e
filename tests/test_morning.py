"""A morning with GTFS-Realtime in and out: the simulator's own rules, and the updates of the six stations."""
from __future__ import annotations

import glob
import os
import shutil
import subprocess
import sys
import tempfile
import unittest

from dispatch_tools.bench import morning, morning_day
from dispatch_tools.commands import from_gtfs, gtfs_rt_in
from dispatch_tools.dev.feeds import DATE, EXAMPLE, SHIPPED
from dispatch_tools.formats.giv import read_network
from dispatch_tools.formats.runtext import heard
from dispatch_tools.model.messages import Message, STATEMENTS
from dispatch_tools.model.network import Network
from dispatch_tools.model.railway import admit, cost_of, Rows, sound_times
from tests.folders import InFolder, read
from tests.samples import lines_of_run, TOP

HAS_PROTOC = unittest.skipUnless(shutil.which('protoc'), 'protoc (protobuf-compiler of Debian) is not here')


def rows_after(net: Network, feed: str) -> tuple[list[Message], Rows]:
    """The messages of a feed and the rows after them, by the second reading of the rules; none is refused."""
    rows, messages = Rows(net), list[Message]()
    for line in read(feed).splitlines():
        message = heard(line)
        assert isinstance(message, STATEMENTS)
        refusal, after = admit(net, rows, len(messages), message)
        assert refusal is None and after is not None, (message, refusal)
        rows = after
        messages.append(message)
    return messages, rows


def answer(folder: str, feeds: list[str], text: str) -> list[str]:
    """Writes the text of a run of a feed without the program."""
    net = read_network(folder)
    messages, rows = rows_after(net, feeds[0])
    times = sound_times(net, rows)
    with open(text, 'w', encoding='ascii') as file:
        file.writelines(f'{line}\n' for line in lines_of_run(net, messages, times, cost_of(net, rows, times, 0)))
    return [text]


class Simulator(unittest.TestCase):
    def test_world_waits_and_gives_up(self) -> None:
        """Two trains that meet: the one that leaves waits, by the bound of the change, and no longer than it has patience."""
        late, other = morning_day.Event('x', 1, 'arrival'), morning_day.Event('y', 0, 'departure')
        trains = [
            morning_day.Train('x', 'A', 0, '', ['P', 'Mid'], {morning_day.Event('x', 0, 'departure'): 1000, late: 1600}),
            morning_day.Train('y', 'B', 0, '', ['Mid', 'Q'], {other: 1800, morning_day.Event('y', 1, 'arrival'): 2400}),
        ]
        change = morning_day.Connection(morning_day.Bound(late, other, 180), False)
        world = morning.World(trains, list(morning.bounds_of(trains)), [change], [morning.Delay(late, 300, 1500, 300, 0)])
        world.go_to(1440)
        self.assertEqual(world.known()[other], 1800)
        world.go_to(1500)
        self.assertEqual((world.known()[other], world.decide()), (2080, []))
        self.assertEqual(world.known()[morning_day.Event('y', 1, 'arrival')], 2638)
        world.delays[0].seconds = world.delays[0].at_first = 600
        self.assertEqual(world.decide(), [change])
        self.assertEqual(world.known()[other], 1800)
        world.go_to(2000)
        self.assertEqual(world.happened, {morning_day.Event('x', 0, 'departure'): 1000, other: 1800})
        self.assertEqual(world.known()[late], 2200)

    @HAS_PROTOC
    def test_what_comes_out_is_what_it_expects(self) -> None:
        world, timetable = morning.world_of(1)
        with tempfile.TemporaryDirectory() as folder:
            come = morning.played(answer, world, timetable, folder, 8 * 3600, 1200)
        self.assertEqual((come.minutes, come.differ), (7, 0))
        self.assertEqual(come.calls, 7 * len(world.scheduled))
        self.assertTrue(any(line.startswith('delay event') for line in come.lines))

    @HAS_PROTOC
    def test_what_differs_is_told(self) -> None:
        world, timetable = morning.world_of(1)

        def forgets(folder: str, feeds: list[str], text: str) -> list[str]:
            lines = [line for line in read(feeds[0]).splitlines() if not line.startswith('delay')]
            with open(feeds[0], 'w', encoding='ascii') as file:
                file.writelines(f'{line}\n' for line in lines)
            return answer(folder, feeds, text)

        with tempfile.TemporaryDirectory() as folder, open(os.devnull, 'w', encoding='ascii') as nowhere:
            printed, sys.stdout = sys.stdout, nowhere
            try:
                come = morning.played(forgets, world, timetable, folder, 7 * 3600, 1800)
            finally:
                sys.stdout = printed
        self.assertGreater(come.differ, 0)


class SixStations(InFolder):
    """The updates of examples/six_stations: each line of the feed was worked out by hand."""
    DUE = {
        '0830': 'pass 1 28800|pass 2 30000|pass 3 30060|pass 7 30000|pass 11 30300|now 30600',
        '0850': 'pass 4 31200|pass 8 31080|pass 9 31560|pass 12 31500|delay event 5 600|now 31800',
        '0915': ('pass 5 31920|pass 6 32925|pass 10 32700|pass 13 32040|pass 14 33120|pass 15 32100|pass 16 33300|pass 23 33225|'
                 'delay event 19 480|now 33300'),
        '0940': 'pass 17 33360|pass 18 34500|pass 19 33360|pass 20 34380|pass 21 34470|pass 24 34230|pass 25 34260|now 34800',
    }

    @HAS_PROTOC
    def test_say_what_is_new(self) -> None:
        self.call(from_gtfs, SHIPPED, DATE, self.net)
        net, feed, count = read_network(self.net), os.path.join(self.folder, 'feed'), 0
        for name in sorted(glob.glob(os.path.join(EXAMPLE, 'updates', '*.txt'))):
            told = os.path.basename(name)[:4]
            message = os.path.join(self.folder, f'{told}.pb')
            with open(name, 'rb') as file, open(message, 'wb') as out:
                words = ['protoc', '--encode=transit_realtime.FeedMessage', f'--proto_path={TOP}/dispatch_tools/formats', 'gtfs-realtime.proto']
                subprocess.run(words, stdin=file, stdout=out, check=True)
            self.assertEqual(self.call(gtfs_rt_in, self.net, feed, message, '--replay'), (0, ''))
            lines = read(feed).splitlines()[count:]
            self.assertEqual((sorted(lines), lines[-1]), (sorted(self.DUE[told].split('|')), self.DUE[told].split('|')[-1]))
            times = dict(zip((event.id for event in net.events), sound_times(net, rows_after(net, feed)[1])))
            if told == '0850':
                # S 3 keeps two minutes behind RE 1, and RB 2 waits for RE 1's way back: 9:08:45 + 5:00 + 16:45 + 4:00.
                self.assertEqual((times[13], times[23], times[21]), (32040, 33225, 34470))
            if told == '0915':
                self.assertEqual(times[25], 34365 + 240)
                with open(feed, 'a', encoding='ascii') as file:
                    file.write('drop 36\n')
                self.assertEqual(sound_times(net, rows_after(net, feed)[1])[24], 34260)
            count = len(read(feed).splitlines())


if __name__ == '__main__':
    unittest.main()
