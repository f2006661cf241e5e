"""The lines that carry a day on lead to its rows, each accepted; from one day to the next they keep what a late train reported."""
from __future__ import annotations

import io
import shutil
import sys
import tempfile
import unittest
from contextlib import redirect_stderr, redirect_stdout
from pathlib import Path
from random import Random
from unittest import mock

from dispatch_tools.commands import carry as carry_command
from dispatch_tools.days import carry
from dispatch_tools.formats.giv import write_records
from dispatch_tools.formats.runtext import Entry, Run
from dispatch_tools.model.messages import (
    Cancel, DelayActivity, DelayEvent, Drop, First, Keep, Lock, Message, Now, Pass, Recall, Restore, Unlock,
)
from dispatch_tools.model.network import Activity, Change, Choice, Event, Network
from dispatch_tools.model.railway import admit, apply, Rows, sound_times
from tests.drawn import drawn_network
from tests.samples import lines_of_run

DAY = 86_400


def drawn_journal(draws: Random, network: Network, most: int, cancels: bool = False) -> list[Message]:
    """Messages of all kinds that are accepted one after the other; some cancel events and lock choices, where that is wanted."""
    rows = Rows(network)
    journal: list[Message] = []
    for _ in range(most):
        event, activity = draws.choice(network.events), draws.choice(network.activities)
        pair = draws.choice(network.pairs) if network.pairs else (0, 0)
        drawn: list[Message] = [
            DelayEvent(event.id, draws.randrange(0, 120)), DelayActivity(activity.id, draws.randrange(0, 40)),
            Pass(event.id, event.time + draws.randrange(0, 90)), Recall(event.id), Now(draws.randrange(0, 120)),
            Drop(activity.id), Keep(activity.id), First(network.events[pair[0]].id, network.events[pair[1]].id),
            First(network.events[pair[1]].id, network.events[pair[0]].id),
        ]
        if cancels:
            choices: list[Choice] = [Change(activity.id), *map(network.pair_choice, range(len(network.pairs)))]
            drawn += [Cancel(event.id), Restore(event.id), Lock(draws.choice(choices)), Unlock(draws.choice(choices)), Cancel(event.id)]
        message = draws.choice(drawn)
        refusal, after = admit(network, rows, len(journal), message)
        if refusal is None and after is not None:
            journal.append(message)
            rows = after
    return journal


def rows_after_all(network: Network, journal: list[Message]) -> Rows:
    rows = Rows(network)
    for message in journal:
        apply(network, rows, message)
    return rows


def run_of(journal: list[Message]) -> Run:
    return Run(2, 10, [Entry(1, number, message) for number, message in enumerate(journal, 1)], [], [], {}, 0)


class OneDay(unittest.TestCase):
    def accepted(self, network: Network, messages: list[Message]) -> Rows:
        """The rows after messages, each of which a dispatcher accepts."""
        rows = Rows(network)
        for count, message in enumerate(messages):
            refusal, after = admit(network, rows, count, message)
            self.assertIsNone(refusal, message)
            assert after is not None
            rows = after
        return rows

    def test_drawn_days_are_carried_by_accepted_lines(self) -> None:
        for seed in range(150):
            draws = Random(seed)
            network = drawn_network(draws)
            journal = drawn_journal(draws, network, 40)
            target = rows_after_all(network, journal)
            for messages in (carry.messages_to(network, Rows(network), target, run_of(journal)),
                             carry.as_it_went(network, Rows(network), target, journal)):
                self.assertEqual(vars(self.accepted(network, messages)), vars(target), seed)

    def test_drawn_days_with_cancelled_events_and_locks(self) -> None:
        cancelled, locked = 0, 0
        for seed in range(200):
            draws = Random(seed)
            network = drawn_network(draws)
            start = Rows(network, cancelled=[event.id for event in network.events if draws.random() < 0.05])
            journal = [message for message in drawn_journal(draws, network, 40, True)]
            target, accepted = start.copy(), list[Message]()
            for message in journal:
                refusal, after = admit(network, target, len(accepted), message)
                if refusal is None and after is not None:
                    target = after
                    accepted.append(message)
            cancelled, locked = cancelled + sum(target.cancelled), locked + len(target.locked)
            rows = start
            for count, message in enumerate(carry.messages_to(network, start, target, run_of(accepted))):
                refusal, after = admit(network, rows, count, message)
                self.assertIsNone(refusal, (seed, message))
                assert after is not None
                rows = after
            self.assertEqual(vars(rows), vars(target), seed)
        self.assertGreater(min(cancelled, locked), 100)

    def test_choices_that_a_pass_made_possible_go_as_they_went(self) -> None:
        """Two trains at two places: each order alone is free of cycles, both with nothing passed are not."""
        events = [Event(1, 'departure', 0, 0, 1), Event(2, 'departure', 50, 0, 2), Event(3, 'departure', 60, 0, 1),
                  Event(4, 'departure', 70, 0, 2)]
        activities = [Activity(1, 'drive', 1, 2, 10, 0), Activity(2, 'drive', 4, 3, 10, 0)]
        for number, (tail, head) in enumerate([(1, 3), (3, 1), (2, 4), (4, 2)], 3):
            activities.append(Activity(number, 'headway', tail, head, 5, 0))
        network = Network(events, activities)
        journal: list[Message] = [First(4, 2), Pass(1, 0), Pass(3, 90), Recall(1), Pass(1, 0)]
        target = rows_after_all(network, journal)
        messages = carry.messages_to(network, Rows(network), target, run_of(journal))
        self.assertEqual(vars(self.accepted(network, messages)), vars(target))

    def test_a_wrong_message_does_not_lead_there(self) -> None:
        network = drawn_network(Random(3))
        target = rows_after_all(network, [DelayEvent(1, 60)])
        self.assertFalse(carry.leads_to(network, Rows(network), target, [DelayEvent(1, 59)]))
        self.assertFalse(carry.leads_to(network, Rows(network), target, [DelayEvent(99_999, 60)]))

    def test_a_check_is_of_a_day_that_starts_as_planned(self) -> None:
        for word in '--event-delays=NAME', '--activity-delays=NAME', '--cancelled=NAME', '--to=NEXT':
            told = io.StringIO()
            with redirect_stderr(told), self.assertRaises(SystemExit) as ended:
                carry_command.main(['NET', 'TEXT', '--check=DISPATCHER', word])
            self.assertEqual(ended.exception.code, 2)
            self.assertIn('--check goes with NET and TEXT alone', told.getvalue())


# A train that leaves at 23:50, stands at a stop over midnight and arrives at 0:20; its other stop after midnight is at 0:30.
NIGHT = [Event(1, 'departure', DAY - 600, 0, 1), Event(2, 'arrival', DAY - 60, 1000, 2), Event(3, 'departure', DAY + 60, 0, 2),
         Event(4, 'arrival', DAY + 1200, 2000, 3), Event(5, 'departure', DAY + 1300, 0, 3), Event(6, 'arrival', DAY + 1800, 500, 4)]
WAY = [Activity(1, 'drive', 1, 2, 540, 0), Activity(2, 'wait', 2, 3, 60, 0), Activity(3, 'drive', 3, 4, 1100, 0),
       Activity(4, 'wait', 4, 5, 100, 0), Activity(5, 'drive', 5, 6, 500, 0)]


def next_day(event: Event, number: int) -> Event:
    return event._replace(id=number, time=event.time - DAY)


class TwoDays(unittest.TestCase):
    def setUp(self) -> None:
        folder = Path(tempfile.mkdtemp())
        self.addCleanup(shutil.rmtree, folder)
        self.first, self.second, self.text = folder / 'first', folder / 'second', folder / 'text'
        self.second_events = [Event(10, 'departure', 30_000, 0, 1)] + [next_day(event, event.id) for event in NIGHT[2:]]
        write_records(str(self.first), NIGHT, WAY)
        write_records(str(self.second), self.second_events, WAY[2:])

    def carried(self, journal: list[Message], *words: str) -> tuple[int, list[str]]:
        """The status and the lines behind such messages."""
        network = Network(NIGHT, WAY)
        self.text.write_text(''.join(f'{line}\n' for line in lines_of_run(network, journal)))
        given = ['carry', str(self.first), str(self.text), f'--to={self.second}', *words]
        with mock.patch.object(sys, 'argv', given), redirect_stdout(io.StringIO()) as out, redirect_stderr(io.StringIO()):
            status = carry_command.main()
        return status, out.getvalue().splitlines()

    def test_a_late_train_is_late_behind_midnight(self) -> None:
        """It leaves 600 s late; at the stop 60 of these are caught up, since it may go 60 s after its arrival and has 120 there."""
        status, lines = self.carried([DelayEvent(1, 600), DelayActivity(5, 30)])
        self.assertEqual((status, lines), (0, ['delay event 3 540', 'delay activity 5 30']))
        network = Network(self.second_events, WAY[2:])
        rows = rows_after_all(network, [DelayEvent(3, 540), DelayActivity(5, 30)])
        there = dict(zip((event.id for event in network.events), sound_times(network, rows)))
        self.assertEqual(there[4], 60 + 540 + 1100)

    def test_an_arrival_before_midnight_stands_at_its_zero(self) -> None:
        """A train arrives at 23:50; another one leaves at 0:12 and waits for it, 300 s after its arrival."""
        evening = [Event(1, 'departure', DAY - 1800, 0, 1), Event(2, 'arrival', DAY - 600, 1000, 2), Event(3, 'departure', DAY + 720, 0, 2),
                   Event(4, 'arrival', DAY + 1800, 1000, 3)]
        night = [event._replace(time=max(0, event.time - DAY)) for event in evening]
        def ways(lower: int, drive: int) -> list[Activity]:
            return [Activity(1, 'drive', 1, 2, drive, 0), Activity(2, 'drive', 3, 4, 1000, 0), Activity(3, 'change', 2, 3, lower, 500)]
        for lower, late in ((300, 500), (300, 1500), (900, 1500)):
            before, after = Network(evening, ways(lower, 1200)), Network(night, ways(min(lower, 720), 0))
            days = carry.Days(before, after, DAY, carry.events_of_both(before, after, carry.same_ids(before, after), DAY), {0: 0, 1: 1, 2: 2})
            self.assertEqual(days.events, {0: 0, 1: 1, 2: 2, 3: 3})
            rows = rows_after_all(before, [DelayEvent(2, late)])
            there = carry.rows_of_next_day(days, rows, Rows(after))
            times = [max(0, time - DAY) for time in sound_times(before, rows)]
            self.assertEqual(sound_times(after, there), times, (lower, late))
            after_drop = rows_after_all(after, [Drop(3)])
            after_drop.event_delays = there.event_delays
            self.assertEqual(sound_times(after, after_drop)[2] == 720, lower == 300)

    def test_what_has_passed_and_the_clock_go_along(self) -> None:
        journal: list[Message] = [Pass(1, DAY - 590), Pass(2, DAY - 50), Pass(3, DAY + 100), Now(DAY + 200)]
        self.assertEqual(self.carried(journal), (0, ['pass 3 100', 'now 200']))

    def test_before_midnight_the_clock_is_left_out(self) -> None:
        self.assertEqual(self.carried([Now(DAY - 700)]), (0, []))

    def test_other_times_are_another_train(self) -> None:
        self.assertEqual(self.carried([DelayEvent(1, 600)], '--shift=86000')[0], 2)

    def test_trains_are_found_by_their_trips(self) -> None:
        second = [event._replace(id=event.id + 100) for event in self.second_events]
        write_records(str(self.second), second, [way._replace(tail=way.tail + 100, head=way.head + 100) for way in WAY[2:]])
        for folder, day, events, trip in ((self.first, '2026-12-23', NIGHT, 'n@@ight'), (self.second, '2026-12-24', second[1:], 'n@@ight@20261223')):
            (folder / 'Day.csv').write_text(f'{day};Europe/Berlin\n')
            rows = (f'{event.id};{events[0].id};{trip};{event.id % 100};s{event.stop};{event.kind};\n' for event in events)
            (folder / 'Events.csv').write_text(''.join(rows))
        self.assertEqual(self.carried([DelayEvent(1, 600), Pass(5, 87_800)]), (0, ['delay event 103 540', 'pass 105 1400']))


if __name__ == '__main__':
    unittest.main()
