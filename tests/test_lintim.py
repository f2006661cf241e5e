"""Networks of LinTim's files: expanded ones in the program's form, and periodic ones rolled out."""
from __future__ import annotations

import os
import unittest
from typing import Mapping, Optional

from dispatch_tools.commands import from_lintim
from dispatch_tools.dev.feeds import File, write_feed
from dispatch_tools.formats.giv import read_delays, read_network
from dispatch_tools.formats.names import read_stops
from dispatch_tools.model.messages import Decision, DelayEvent, Drop, First, Keep, Message
from dispatch_tools.model.railway import apply, cost_of, free_choices, Rows, sound_times, times_of, ways_of, with_decisions
from tests.folders import InFolder, read
from tests.samples import TOP

EVENTS = [
    '# event-id; periodic-id; type; time; passengers; stop-id', '1; 7; "departure"; 28800; 0.0; 4',
    '2; 8; "arrival"; 29400.4; 1.25E2; 5', '3; 9; "fix"; 0; 0; 0', '4; 8; "departure"; 29520; 0; 5',
]
ACTIVITIES = [
    '# activity-id; periodic-id; type; tail-event-id; head-event-id; lower-bound; upper-bound; passengers',
    '1; 1; "drive"; 1; 2; 539.5; 600; 12.3456789', '2; 2; "change"; 2; 4; 60; 3600; 1E-7', '3; 3; "sync"; 1; 4; 0; 0; 0',
    '4; 4; "wait"; 2; 3; 0; 0; 0', '5; 5; "headway"; 1; 4; 0; 60; 0',
]
PERIODIC = {
    'Events-periodic.giv': [
        '# event-id; type; stop-id; line-id; passengers; line-direction; line-freq-repetition', '1; "departure"; 1; 1; 0; >; 1',
        '2; "arrival"; 2; 1; 30; >; 1', '3; "departure"; 2; 1; 0; >; 1', '4; "arrival"; 3; 1; 20; >; 1',
        '5; "departure"; 2; 2; 0; >; 1', '6; "arrival"; 4; 2; 10; >; 1',
    ],
    'Activities-periodic.giv': [
        '# activity-index; type; from-event; to-event; lower-bound; upper-bound; passengers', '1; "drive"; 1; 2; 9; 10; 30',
        '2; "wait"; 2; 3; 1; 3; 30', '3; "drive"; 3; 4; 8; 9; 20', '4; "drive"; 5; 6; 9; 10; 10', '5; "change"; 2; 5; 3; 62; 4',
        '6; "headway"; 3; 5; 2; 57; 0', '7; "sync"; 3; 5; 0; 0; 0', '8; "turnaround"; 4; 1; 10; 39; 0',
    ],
    'Timetable-periodic.tim': ['# event-index; time', '1; 0', '2; 10', '3; 12', '4; 20', '5; 15', '6; 25'],
}
BROKEN: list[tuple[dict[str, File], str]] = [
    ({'Events-expanded.giv': [EVENTS[0], '1; 7; "departure"; -1; 0; 4']}, 'line 2: column time: "-1" is no number from 0'),
    ({'Events-expanded.giv': [EVENTS[0], '1; 7; "departure"; 1; NaN; 4']}, 'line 2: column weight: "NaN" is no number from 0'),
    ({'Events-expanded.giv': [EVENTS[0], '1; 7; "departure"; 1; 1E7; 4']}, 'line 2: column weight: 1E7 is above 1000000'),
    ({'Events-expanded.giv': [EVENTS[0], '1; 7; "departure"; 1E10; 0; 4']}, 'line 2: column time: 1E10 is above 1000000000'),
    ({'Events-expanded.giv': [EVENTS[0], '1.5; 7; "departure"; 1; 0; 4']}, 'line 2: column id: "1.5" is no whole number'),
    ({'Events-expanded.giv': [EVENTS[0], '1; 7; "departure"; 1']}, 'line 2: column weight: the record ends before it'),
    ({'Events-expanded.giv': ['# event-id; type; time', '1; "departure"; 1']}, 'line 1: there is no one column for weight'),
    ({'Activities-expanded.giv': None}, 'Activities-expanded.giv: No such file or directory'),
]


class InLinTim(InFolder):
    def source(self, files: Mapping[str, File]) -> str:
        return write_feed(os.path.join(self.folder, f'source{len(os.listdir(self.folder))}'), files)

    def refused(self, files: Mapping[str, File], what: str, *options: str) -> None:
        status, said = self.call(from_lintim, self.source(files), self.net, *options)
        self.assertEqual(status, 2, said)
        self.assertIn(what, said)
        self.assertFalse(os.path.exists(self.net))


class Expanded(InLinTim):
    FILES = {'Events-expanded.giv': EVENTS, 'Activities-expanded.giv': ACTIVITIES}

    def test_numbers_and_kinds_are_those_of_the_program(self) -> None:
        delays = {'Event-Delays.giv': ['# ID; delay', '2; 60.2', '3; 10'], 'Activity-Delays.giv': ['# ID; delay', '1; 30', '3; 1']}
        words = ['--event-delays=Event-Delays.giv', '--activity-delays=Activity-Delays.giv']
        status, said = self.call(from_lintim, self.source({**self.FILES, **delays}), self.net, *words)
        self.assertEqual(status, 0, said)
        self.assertEqual(read(self.net, 'Events-expanded.giv').splitlines(), [
            '# event-id; periodic-id; type; time; passengers; stop-id', '1; 7; "departure"; 28800; 0; 4',
            '2; 8; "arrival"; 29400; 125; 5', '4; 8; "departure"; 29520; 0; 5',
        ])
        self.assertEqual(read(self.net, 'Activities-expanded.giv').splitlines()[1:], [
            '1; 1; "drive"; 1; 2; 540; 0; 12.345', '2; 2; "change"; 2; 4; 60; 0; 0',
        ])
        self.assertEqual(read_delays(self.net, 'Event-Delays.giv'), [(2, 61)])
        self.assertEqual(read_delays(self.net, 'Activity-Delays.giv'), [(1, 30)])
        self.assertEqual(said.splitlines(), [
            'events 3, activities 2: drives 1, waits 0, turnarounds 0, changes 1, headways 0',
            'left out: activities of type sync: 1', 'left out: activities whose events are not there: 1',
            'left out: delays in Activity-Delays.giv of what is not there: 1',
            'left out: delays in Event-Delays.giv of what is not there: 1',
            'left out: events of type fix: 1', 'left out: headways of no length: 1',
            'besides: bounds and delays that are no whole seconds, rounded up: 2',
            'besides: times that are no whole seconds, rounded: 1',
        ])

    def test_columns_stand_as_the_first_line_says_or_in_the_usual_order(self) -> None:
        network = []
        for events in (
            ['# type; event-id; passengers; what; time', 'departure; 1; 0; x; 5', 'ARRIVAL; 2; 3; x; 6'],
            ['1; 0; departure; 5; 0', '2; 0; arrival; 6; 3'], ['# a day', '1; 0; departure; 5; 0', '2; 0; arrival; 6; 3'],
        ):
            status, said = self.call(from_lintim, self.source({**self.FILES, 'Events-expanded.giv': events}), self.net)
            self.assertEqual(status, 0, said)
            network.append(read_network(self.net).events)
        self.assertEqual(network[0][1], (2, 'arrival', 6, 3000, 0))
        self.assertEqual(network, [network[0]] * 3)

    def test_names_of_stops_are_taken_along(self) -> None:
        stops = ['# stop-id; short-name; long-name; x-coordinate; y-coordinate', '4; "A"; "Ärn"; 1.0; 2.0', '5; "B"; ""; 1.0; 2.0']
        source = self.source({**self.FILES, 'Stop.giv': stops})
        self.assertEqual(self.call(from_lintim, source, self.net, f'--stops={source}/Stop.giv')[0], 0)
        self.assertEqual(read_stops(self.net), {4: 'Ärn', 5: 'B'})

    def test_broken_files_are_told_by_line_and_column(self) -> None:
        for files, what in BROKEN:
            with self.subTest(what):
                self.refused({**self.FILES, **files}, what)


class Periodic(InLinTim):
    WORDS = ['--period=60', '--from=08:00', '--to=09:30']

    def test_each_period_has_its_events_and_activities(self) -> None:
        status, said = self.call(from_lintim, self.source(PERIODIC), self.net, *self.WORDS)
        self.assertEqual(status, 0, said)
        network = read_network(self.net)
        self.assertEqual([(event.time - 28800) // 60 for event in network.events], [0, 60, 10, 70, 12, 72, 20, 80, 15, 75, 25, 85])
        weights = [event.weight for event in network.events if event.kind == 'arrival']
        self.assertEqual(weights, [30000, 30000, 20000, 20000, 10000, 10000])
        at = {event.id: (event.time - 28800) // 60 for event in network.events}
        found = [(one.kind, at[one.tail], at[one.head], one.lower // 60) for one in network.activities]
        self.assertEqual(found, [
            ('drive', 0, 10, 9), ('drive', 60, 70, 9), ('wait', 10, 12, 1), ('wait', 70, 72, 1), ('drive', 12, 20, 8),
            ('drive', 72, 80, 8), ('drive', 15, 25, 9), ('drive', 75, 85, 9), ('change', 10, 15, 3), ('change', 70, 75, 3),
            ('headway', 12, 15, 2), ('headway', 15, 12, 3), ('headway', 72, 15, 2), ('headway', 15, 72, 3), ('headway', 72, 75, 2),
            ('headway', 75, 72, 3), ('turnaround', 20, 60, 10),
        ])
        self.assertEqual(times_of(network, Rows(network)), [event.time for event in network.events])
        self.assertIn('2; 1; "departure"; 32400; 0; 1\n', read(self.net, 'Events-expanded.giv'))
        self.assertIn('17; 8; "turnaround"; 7; 2; 600; 0; 0\n', read(self.net, 'Activities-expanded.giv'))
        self.assertEqual(said.splitlines()[1:], [
            'left out: activities that lead out of the stretch of time: 1', 'left out: periodic activities of type sync: 1',
            'besides: activities above their upper bound: 2',
        ])

    def test_words_belong_together(self) -> None:
        self.refused(PERIODIC, '--period, --from and --to belong together', '--period=60')
        self.refused(PERIODIC, 'delays are of expanded files', *self.WORDS, '--event-delays=x')

    def test_broken_files_are_told(self) -> None:
        lines = PERIODIC['Timetable-periodic.tim']
        what = 'Events-periodic.giv, line 3: column id: Timetable-periodic.tim has no event 2'
        self.refused({**PERIODIC, 'Timetable-periodic.tim': [*lines[:2], *lines[3:]]}, what, *self.WORDS)
        events = PERIODIC['Events-periodic.giv']
        what = 'line 8: column id: event 1 stands twice'
        self.refused({**PERIODIC, 'Events-periodic.giv': [*events, events[1]]}, what, *self.WORDS)
        what = 'the network would have more than 100000 events'
        self.refused(PERIODIC, what, '--period=60', '--from=00:00', '--to=999:00', '--unit=1')


class Worked(InFolder):
    """The instances of examples/lintim, whose answers were worked out by hand on its page."""

    def costs(self, folder: str, penalty: int, message: Optional[Message] = None) -> dict[Decision, int]:
        """What the one choice of an instance costs each way, after its delays and perhaps a message."""
        network = read_network(folder)
        delays = 'Delays-Events.giv'
        rows = Rows(network, read_delays(folder, delays if os.path.exists(os.path.join(folder, delays)) else None))
        if message is not None:
            apply(network, rows, message)
        return {decision: cost_of(network, after, sound_times(network, after), penalty) for choice in free_choices(network, rows)
                for decision in ways_of(choice) for after in [with_decisions(network, rows, [decision])]}

    def test_change(self) -> None:
        folder = os.path.join(TOP, 'examples', 'lintim', 'change')
        self.assertEqual(self.costs(folder, 3600), {Keep(5): 35_200_000, Drop(5): 61_200_000})
        self.assertEqual(self.costs(folder, 900), {Keep(5): 35_200_000, Drop(5): 34_200_000})

    def test_order(self) -> None:
        folder = os.path.join(TOP, 'examples', 'lintim', 'order')
        self.assertEqual(self.costs(folder, 3600), {First(1, 3): 23_300_000, First(3, 1): 7_500_000})

    def test_periodic(self) -> None:
        source = os.path.join(TOP, 'examples', 'lintim', 'periodic')
        self.assertEqual(self.call(from_lintim, source, self.net, '--period=60', '--from=06:00', '--to=08:00')[0], 0)
        costs = self.costs(self.net, 3600, DelayEvent(1, 600))
        self.assertEqual((costs[Keep(5)], costs[Drop(5)]), (21_600_000, 32_400_000))


if __name__ == '__main__':
    unittest.main()
