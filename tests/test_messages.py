"""Cancelled events, locked choices and plans that are carried over: what the second reading says, and what it finds false.

The times and costs were worked out by hand from the definitions. All are of the connection at one station, at a penalty of 10 seconds,
unless a test says otherwise.
"""
from __future__ import annotations

import itertools
import random
import unittest
from typing import Optional, Sequence

from dispatch_tools.desk.naming import Naming
from dispatch_tools.desk.reckoning import Reckoning
from dispatch_tools.desk.undoing import reversal
from dispatch_tools.formats.giv import read_network
from dispatch_tools.formats.runtext import heard
from dispatch_tools.model.messages import Adopt, Drop, First, Keep, Refusal, STATEMENTS
from dispatch_tools.model.network import Change, Network, Pair
from dispatch_tools.model.programme import Posed, programme_of
from dispatch_tools.model.railway import (
    admit, apply, cost_of, free_choices, is_cycle, refusal_at_once, Rows, sound_times, still_free, times_of, ways_of, with_decisions,
)
from dispatch_tools.oracle.drawing import drawn_feed, drawn_network, Lines
from dispatch_tools.oracle.judging import verdict_on
from dispatch_tools.oracle.queries import followed, journal_of, Travel
from tests.samples import network

PENALTY = 10

# A plan of the connection after `delay event 1 60`.
PLAN = ['plan optimal cost 940000 bound 940000 choices 2 nodes 3', 'choice drop 5', 'choice first 5 3', 'inner change 5', 'bound 1075000', 'bound 940000']


def connection() -> Network:
    return read_network(network('connection'))


class Feed:
    """What the second reading answers to the lines of a feed, and the rows after each entry."""

    def __init__(self, net: Optional[Network] = None, start: Optional[Rows] = None) -> None:
        self.net = net or connection()
        self.rows = start or Rows(self.net)
        self.entries = 0

    def say(self, line: str) -> str:
        said = heard(line)
        assert isinstance(said, STATEMENTS), line
        refusal, after = admit(self.net, self.rows, self.entries, said)
        if refusal is not None:
            return str(refusal)
        assert after is not None
        self.rows, self.entries = after, self.entries + 1
        return 'ok'

    def tell(self, *lines: str) -> Feed:
        """Says lines that are all accepted."""
        for line in lines:
            assert self.say(line) == 'ok', line
        return self

    @property
    def times(self) -> list[int]:
        return sound_times(self.net, self.rows)

    @property
    def cost(self) -> int:
        return cost_of(self.net, self.rows, self.times, PENALTY)


class Rowed(unittest.TestCase):
    def is_at(self, feed: Feed, times: str, cost: int) -> None:
        self.assertEqual((feed.times, feed.cost), ([*map(int, times.split())], cost))

    def answers(self, feed: Feed, *due: tuple[str, str]) -> None:
        self.assertEqual([(line, feed.say(line)) for line, _ in due], [*due])


class Cancelled(Rowed):
    def test_train_behind_is_free_and_passengers_are_charged(self) -> None:
        feed = Feed().tell('cancel 3', 'cancel 4', 'delay event 1 100')
        self.is_at(feed, '200 290 220 300 310 405', 1375000)
        self.is_at(feed.tell('restore 3'), '200 290 300 300 310 405', 1375000)
        self.is_at(feed.tell('restore 4'), '200 290 300 380 310 405', 2075000)

    def test_change_with_a_cancelled_end_is_charged_once(self) -> None:
        for lines in (['cancel 2'], ['drop 5', 'cancel 2'], ['cancel 2', 'cancel 5']):
            self.is_at(Feed().tell(*lines), '100 200 220 300 230 330', 140000)
        self.is_at(Feed().tell('cancel 5'), '100 200 220 300 230 330', 40000)
        self.is_at(Feed().tell('cancel 6'), '100 200 220 300 230 330', 50000)

    def test_nobody_comes_from_a_cancelled_train_to_one_that_has_left(self) -> None:
        feed = Feed().tell('cancel 2', 'pass 5 231')
        self.is_at(feed, '100 200 239 319 231 330', 330000)
        self.is_at(feed.tell('restore 2'), '100 200 239 319 231 330', 190000)

    def test_cancelled_event_waits_for_the_clock_and_keeps_its_delay(self) -> None:
        feed = Feed().tell('cancel 4', 'delay event 4 60', 'now 310')
        self.assertEqual(feed.times[3], 360)
        self.assertEqual(feed.tell('delay event 4 0').times[3], 310)
        self.assertEqual(Feed().tell('delay event 4 60', 'cancel 4', 'restore 4').times[3], 360)

    def test_pass_of_a_cancelled_event(self) -> None:
        feed = Feed()
        self.answers(feed, ('cancel 2', 'ok'), ('pass 2 200', 'ok'), ('cancel 2', 'passed 2 200'), ('restore 2', 'not-cancelled 2'), ('recall 2', 'ok'))
        self.is_at(feed, '100 200 220 300 230 330', 0)

    def test_refusals(self) -> None:
        self.answers(Feed(), ('pass 1 100', 'ok'), ('cancel 1', 'passed 1 100'), ('cancel 9', 'unknown-event 9'), ('restore 9', 'unknown-event 9'))
        self.answers(Feed(), ('cancel 2', 'ok'), ('cancel 2', 'cancelled 2'), ('recall 2', 'not-passed 2'), ('restore 2', 'ok'), ('restore 2', 'not-cancelled 2'))
        self.answers(Feed(), ('restore 2', 'not-cancelled 2'), ('restore 2', 'not-cancelled 2'))

    def test_decisions_of_a_cancelled_event(self) -> None:
        self.answers(Feed(), ('cancel 5', 'ok'), ('cancel 2', 'ok'), ('keep 5', 'cancelled 2'), ('drop 5', 'cancelled 2'), ('lock 5', 'cancelled 2'))
        self.answers(Feed(), ('cancel 5', 'ok'), ('drop 5', 'cancelled 5'), ('first 5 3', 'cancelled 5'), ('first 3 5', 'cancelled 5'),
                     ('cancel 3', 'ok'), ('first 5 3', 'cancelled 5'), ('first 3 5', 'cancelled 3'), ('lock 5 3', 'cancelled 3'))
        self.answers(Feed(), ('cancel 3', 'ok'), ('pass 5 230', 'ok'), ('first 3 5', 'passed 5 230'), ('lock 3 5', 'passed 5 230'))
        self.answers(Feed(), ('lock 5', 'ok'), ('cancel 2', 'ok'), ('keep 5', 'cancelled 2'))

    def test_restore_that_closes_a_cycle(self) -> None:
        feed = Feed(read_network(network('turnaround')))
        self.answers(feed, ('cancel 4', 'ok'), ('first 5 3', 'ok'))
        before = vars(feed.rows.copy())
        self.assertEqual(feed.say('restore 4'), 'cycle')
        self.assertEqual(vars(feed.rows), before)
        after = feed.rows.copy()
        after.cancelled[feed.net.event_place[4]] = False
        for cycle in (3, 8, 7), (8, 7, 3), (7, 3, 8):
            self.assertTrue(is_cycle(feed.net, after, cycle))
            self.assertFalse(is_cycle(feed.net, feed.rows, cycle))

    def test_events_that_are_cancelled_at_the_start(self) -> None:
        net = connection()
        feed = Feed(net, Rows(net, cancelled=[3, 4]))
        self.is_at(feed.tell('delay event 1 100'), '200 290 220 300 310 405', 1375000)
        self.is_at(feed.tell('restore 3', 'restore 4'), '200 290 300 380 310 405', 2075000)


class Locked(Rowed):
    def test_refusals(self) -> None:
        self.answers(Feed(), ('lock 9', 'unknown-activity 9'), ('lock 4', 'unknown-change 4'), ('lock 5 5', 'unknown-pair 5 5'),
                     ('lock 2 1', 'unknown-pair 1 2'), ('first 2 1', 'unknown-pair 2 1'), ('lock 9 3', 'unknown-event 9'), ('unlock 4', 'unknown-change 4'),
                     ('unlock 2 1', 'unknown-pair 1 2'), ('unlock 9', 'unknown-activity 9'), ('unlock 3 9', 'unknown-event 9'))
        self.answers(Feed(), ('lock 5 3', 'ok'), ('first 5 3', 'locked 3 5'), ('first 3 5', 'locked 3 5'), ('lock 3 5', 'locked 3 5'),
                     ('unlock 5 3', 'ok'), ('unlock 3 5', 'not-locked 3 5'), ('first 5 3', 'ok'))
        self.answers(Feed(), ('unlock 5', 'not-locked 5'), ('lock 5', 'ok'), ('drop 5', 'locked 5'), ('keep 5', 'locked 5'), ('lock 5', 'locked 5'))
        self.answers(Feed(), ('pass 5 230', 'ok'), ('lock 5', 'passed 5 230'), ('lock 3 5', 'passed 5 230'))

    def test_lock_is_taken_away_of_what_has_passed_or_is_cancelled(self) -> None:
        self.answers(Feed(), ('lock 5', 'ok'), ('lock 3 5', 'ok'), ('pass 5 230', 'ok'), ('unlock 5', 'ok'), ('unlock 5', 'not-locked 5'), ('unlock 3 5', 'ok'))
        self.answers(Feed(), ('lock 5', 'ok'), ('cancel 2', 'ok'), ('unlock 5', 'ok'))
        self.answers(Feed(), ('lock 5', 'ok'), ('pass 5 230', 'ok'), ('recall 5', 'ok'), ('drop 5', 'locked 5'))

    def test_adoption_of_a_locked_choice(self) -> None:
        feed = Feed().tell('lock 5', 'cancel 3')
        self.assertEqual(str(refusal_at_once(feed.net, feed.rows, Adopt((First(5, 3), Drop(5))))), 'cancelled 3')
        self.assertEqual(str(refusal_at_once(feed.net, feed.rows, Adopt((Drop(5), First(5, 3))))), 'locked 5')

    def test_free_is_what_only_a_cycle_can_refuse(self) -> None:
        for number in range(150):
            draws = random.Random(number)
            net = drawn_network(draws)
            rows = drawn_rows(draws, net, 20)
            choices = [Change(activity.id) for activity in net.activities if activity.kind == 'change'] + [*map(net.pair_choice, range(len(net.pairs)))]
            free = [choice for choice in choices if not any(refusal_at_once(net, rows, way) for way in ways_of(choice))]
            self.assertEqual(free_choices(net, rows), free, number)
            self.assertFalse(any(cancelled and passed is not None for cancelled, passed in zip(rows.cancelled, rows.passed)))


def drawn_rows(draws: random.Random, net: Network, lines: int) -> Rows:
    """Rows that drawn lines lead to, of which those that are refused say nothing."""
    rows, drawn = Rows(net), Lines(draws, net)
    for _ in range(lines):
        said = heard(drawn.line())
        if isinstance(said, STATEMENTS):
            refusal, after = admit(net, rows, 0, said)
            rows = after if refusal is None and after is not None else rows
    return rows


class Definitions(unittest.TestCase):
    """The definitions word for word: which activities are active, the least times by rounds over all of them, and the cost by its parts."""

    def is_active(self, net: Network, rows: Rows, place: int) -> bool:
        tail, head, pair = net.tails[place], net.heads[place], net.pair_by_activity[place]
        if rows.cancelled[tail] or rows.cancelled[head] or rows.passed[head] is not None:
            return False
        if net.activities[place].kind == 'change':
            return rows.kept[place]
        if pair is None:
            return True
        return rows.passed[tail] is not None or rows.first[pair] == tail

    def least(self, net: Network, rows: Rows) -> list[int]:
        times = [max(event.time + delay, rows.clock) if passed is None else passed
                 for event, delay, passed in zip(net.events, rows.event_delays, rows.passed)]
        active = [place for place in range(len(net.activities)) if self.is_active(net, rows, place)]
        for _ in range(len(times) + 1):
            for place in active:
                least = times[net.tails[place]] + net.activities[place].lower + rows.activity_delays[place]
                times[net.heads[place]] = max(times[net.heads[place]], least)
        return times

    def parts(self, net: Network, rows: Rows, times: list[int]) -> list[int]:
        changes = [place for place, activity in enumerate(net.activities) if activity.kind == 'change']
        ahead = [place for place in changes if rows.passed[net.heads[place]] is None]
        behind = [place for place in changes if rows.passed[net.heads[place]] is not None]

        def is_gone(place: int) -> bool:
            return rows.cancelled[net.tails[place]] or rows.cancelled[net.heads[place]]

        def is_early(place: int) -> bool:
            return times[net.heads[place]] < times[net.tails[place]] + net.activities[place].lower + rows.activity_delays[place]

        arrivals = [place for place, event in enumerate(net.events) if event.kind == 'arrival']
        return [
            sum(net.events[place].weight * max(0, times[place] - net.events[place].time) for place in arrivals if not rows.cancelled[place]),
            PENALTY * sum(net.events[place].weight for place in arrivals if rows.cancelled[place]),
            PENALTY * sum(net.activities[place].weight for place in ahead if not rows.kept[place] or is_gone(place)),
            PENALTY * sum(net.activities[place].weight for place in behind if rows.cancelled[net.tails[place]] or is_early(place)),
        ]

    def test_times_and_costs(self) -> None:
        seen = [0] * 4
        for number in range(300):
            draws = random.Random(number)
            net = drawn_network(draws)
            rows = drawn_rows(draws, net, 25)
            times = sound_times(net, rows)
            self.assertEqual(times, self.least(net, rows), number)
            parts = self.parts(net, rows, times)
            self.assertEqual(cost_of(net, rows, times, PENALTY), sum(parts), number)
            seen = [count + (part > 0) for count, part in zip(seen, parts)]
        self.assertGreater(min(seen), 10, seen)


def text_of(entries: Sequence[str], items: Sequence[str], times: str, cost: int, version: int = 2) -> bytes:
    """The text of one feed with these entries; an item that is not of its first line has no `->` before it."""
    count = sum(' -> ' in item or item.endswith('malformed') for item in items)
    lines = [f'dm-run {version}', f'penalty {PENALTY}', 'feeds 1', f'entries {len(entries)}']
    lines += [f'entry {number} feed 1 line {entry}' for number, entry in enumerate(entries, 1)]
    lines += [f'feed 1 {count}', *items, 'end', 'boards 0', f'times {len(entries)}']
    lines += [f'{event}; {time}' for event, time in enumerate(times.split(), 1)]
    return ''.join(f'{line}\n' for line in [*lines, f'cost {cost}', 'done']).encode()


class Texts(unittest.TestCase):
    def judged(self, text: bytes, net: Optional[Network] = None) -> str:
        net = net or connection()
        return str(verdict_on(net, Rows(net), PENALTY, text))

    def cancelled(self, times: str = '200 290 220 300 310 405', cost: int = 1375000, version: int = 2) -> bytes:
        lines = ['cancel 3', 'cancel 4', 'delay event 1 100']
        return text_of([f'{number} {line}' for number, line in enumerate(lines, 1)],
                       [f'{number} {line} -> {number} ok' for number, line in enumerate(lines, 1)], times, cost, version)

    def test_cancelled_train(self) -> None:
        self.assertEqual(self.judged(self.cancelled()), 'good 3 0')
        self.assertEqual(self.judged(self.cancelled(version=1)), 'good 3 0')

    def test_cancelled_event_that_still_binds(self) -> None:
        self.assertEqual(self.judged(self.cancelled('200 290 300 380 310 405', 1375000)), 'bad 17 time')

    def test_passengers_who_are_not_charged_or_twice(self) -> None:
        for cost in 1275000, 1475000, 2075000:
            self.assertEqual(self.judged(self.cancelled(cost=cost)), 'bad 21 cost')
        once = ['cancel 2', 'drop 5']
        for lines, cost, due in (['drop 5', 'cancel 2'], 140000, 'good 2 0'), (['drop 5', 'cancel 2'], 180000, 'bad 19 cost'), (once, 0, 'bad 6 entry'):
            entries = [f'{number} {line}' for number, line in enumerate(lines, 1)]
            items = [f'{number} {line} -> {number} ok' for number, line in enumerate(lines, 1)]
            self.assertEqual(self.judged(text_of(entries, items, '100 200 220 300 230 330', cost)), due)

    def test_restore_that_forgets_the_delay(self) -> None:
        lines = ['delay event 1 60', 'cancel 1', 'restore 1']
        entries = [f'{number} {line}' for number, line in enumerate(lines, 1)]
        items = [f'{number} {line} -> {number} ok' for number, line in enumerate(lines, 1)]
        self.assertEqual(self.judged(text_of(entries, items, '160 250 260 340 270 365', 1075000)), 'good 3 0')
        self.assertEqual(self.judged(text_of(entries, items, '100 200 220 300 230 330', 0)), 'bad 15 time')

    def test_locked_choice_in_a_plan(self) -> None:
        entries, times = ['1 delay event 1 60', '2 lock 5'], '160 250 260 340 270 365'
        items = ['1 delay event 1 60 -> 1 ok', '2 lock 5 -> 2 ok', '3 drop 5 -> 2 refused locked 5']
        small = ['4 plan 100 -> 2 plan optimal cost 1075000 bound 1075000 choices 0 nodes 1', 'bound 1075000']
        self.assertEqual(self.judged(text_of(entries, [*items, *small], times, 1075000)), 'good 2 1')
        whole = [f'4 plan 100 -> 2 {PLAN[0]}', *PLAN[1:]]
        self.assertEqual(self.judged(text_of(entries, [*items, *whole], times, 1075000)), 'bad 11 plan')
        unlocked = [*items, *small, '5 unlock 5 -> 3 ok', f'6 plan 100 -> 3 {PLAN[0]}', *PLAN[1:]]
        self.assertEqual(self.judged(text_of([*entries, '5 unlock 5'], unlocked, times, 1075000)), 'good 3 2')
        self.assertEqual(self.judged(text_of(entries, ['1 delay event 1 60 -> 1 ok', '2 lock 5 -> 2 ok', '3 drop 5 -> 2 refused cancelled 2'],
                                             times, 1075000)), 'bad 10 reply')

    def carried(self, line: str, said: str, carried: str, times: str, cost: int) -> bytes:
        """A text in which a line comes behind a plan, and then `carry` with the choices that it enters."""
        entries = ['1 delay event 1 60', f'3 {line}', f'5 adopt{carried}']
        items = ['1 delay event 1 60 -> 1 ok', f'2 plan 100 -> 1 {PLAN[0]}', *PLAN[1:], f'3 {line} -> 2 ok', '4 adopt -> 2 old', f'5 carry -> {said}']
        return text_of(entries, items, times, cost)

    def test_plan_that_is_carried_over(self) -> None:
        text = self.carried('delay event 1 50', '3 ok', ' drop 5 first 5 3', '150 240 250 330 230 330', 740000)
        self.assertEqual(self.judged(text), 'good 3 1')

    def test_carry_leaves_a_free_choice_out(self) -> None:
        text = self.carried('delay event 1 50', '3 ok', ' drop 5', '150 240 250 330 258 353', 855000)
        self.assertEqual(self.judged(text), 'bad 18 reply')

    def test_carry_enters_a_choice_that_is_not_free(self) -> None:
        locked = self.carried('lock 5', '3 ok', ' first 5 3', '160 250 278 358 270 365', 1255000)
        self.assertEqual(self.judged(locked), 'good 3 1')
        self.assertEqual(self.judged(self.carried('lock 5', '3 ok', ' drop 5 first 5 3', '160 250 260 340 230 330', 940000)), 'bad 7 entry')

    def test_carry_of_nothing(self) -> None:
        entries = ['1 delay event 1 60', '3 lock 5', '4 lock 3 5', '5 adopt']
        items = ['1 delay event 1 60 -> 1 ok', f'2 plan 100 -> 1 {PLAN[0]}', *PLAN[1:], '3 lock 5 -> 2 ok', '4 lock 3 5 -> 3 ok', '5 carry -> 4 ok']
        self.assertEqual(self.judged(text_of(entries, items, '160 250 260 340 270 365', 1075000)), 'good 4 1')

    def test_answers_to_carry(self) -> None:
        times = '100 200 220 300 230 330'
        for answer, due in ('noplan', 'good 0 0'), ('0 old', 'bad 6 reply'), ('0 refused full', 'bad 6 reply'), ('0 read', 'bad 6 reply'), ('1 ok', 'bad 6 reply'):
            self.assertEqual(self.judged(text_of([], [f'1 carry -> {answer}'], times, 0)), due, answer)
        self.assertEqual(self.judged(text_of(['1 carry'], ['1 carry -> 1 ok'], times, 0)), 'bad 5 form')

    def test_pair_that_is_named_the_wrong_way_round(self) -> None:
        times = '100 200 220 300 230 330'
        self.assertEqual(self.judged(text_of(['1 lock 3 5'], ['1 lock 3 5 -> 1 ok'], times, 0)), 'good 1 0')
        self.assertEqual(self.judged(text_of(['1 lock 5 3'], ['1 lock 3 5 -> 1 ok'], times, 0)), 'bad 5 form')
        self.assertEqual(self.judged(text_of(['1 lock 3 5'], ['1 lock 5 3 -> 1 ok'], times, 0)), 'bad 7 form')
        items = ['1 lock 3 5 -> 1 ok', '2 first 5 3 -> 1 refused locked 3 5']
        self.assertEqual(self.judged(text_of(['1 lock 3 5'], items, times, 0)), 'good 1 0')
        self.assertEqual(self.judged(text_of(['1 lock 3 5'], [items[0], items[1].replace('3 5', '5 3')], times, 0)), 'bad 8 form')

    def test_follow_tells_what_is_cancelled(self) -> None:
        net = connection()
        status, told = followed(net, PENALTY, journal_of(net, PENALTY, self.cancelled()))
        self.assertEqual((status, told.splitlines()[-3:]), (0, ['cancelled 3', 'cancelled 4', 'cost 1375000']))


class Questions(unittest.TestCase):
    def test_journey_takes_nothing_that_is_cancelled(self) -> None:
        feed = Feed()
        self.assertEqual(Travel(feed.net, feed.rows, feed.times, 1, 4, 0, 4).unbeaten(), [(1, 330)])
        feed.tell('cancel 5')
        self.assertEqual(Travel(feed.net, feed.rows, feed.times, 1, 4, 0, 4).unbeaten(), [])

    def test_exact_problem_costs_what_the_best_choices_do(self) -> None:
        settled = 0
        for number in range(120):
            draws = random.Random(number)
            net = drawn_network(draws)
            rows = Rows(net)
            for line in drawn_feed(draws, net).split('\n') + [f'cancel {draws.choice(net.events).id}' for _ in range(2) if net.events]:
                said = heard(line)
                if isinstance(said, STATEMENTS):
                    refusal, after = admit(net, rows, 0, said)
                    rows = after if refusal is None and after is not None else rows
            free = free_choices(net, rows)
            if len(free) > 6:
                continue
            costs = []
            for decisions in itertools.product(*map(ways_of, free)):
                decided = with_decisions(net, rows, decisions)
                times = times_of(net, decided)
                if times is not None:
                    costs.append(cost_of(net, decided, times, PENALTY))
            posed = Posed(net, rows, PENALTY)
            relaxed = posed.relaxed(())
            assert relaxed is not None
            self.assertLessEqual(relaxed.cost, min(costs), number)
            if not relaxed.violated:
                self.assertEqual(relaxed.cost, min(costs), number)
            programme = programme_of(posed)
            if all(variable.least == variable.most for variable in programme.variables):
                found = sum(variable.cost * variable.least for variable in programme.variables) + programme.constant
                self.assertEqual(found * programme.unit, min(costs), number)
                settled += 1
        self.assertGreater(settled, 40)

    def test_carry_enters_what_is_free_in_the_order_of_the_plan(self) -> None:
        feed = Feed().tell('lock 5')
        self.assertEqual(still_free(feed.net, feed.rows, (Keep(5), First(5, 3))), Adopt((First(5, 3),)))
        feed.tell('unlock 5', 'cancel 3')
        self.assertEqual(still_free(feed.net, feed.rows, (Keep(5), First(5, 3))), Adopt((Keep(5),)))

    def test_words_of_a_lock(self) -> None:
        self.assertEqual(str(heard('lock 10 9')), 'lock 9 10')
        self.assertEqual(str(heard('unlock  05')), 'unlock 5')
        for line in 'lock', 'lock 1 2 3', 'cancel', 'restore 1 2', 'carry 5', 'Lock 5', 'lock x', 'unlock 5 x', 'cancel 4294967296':
            self.assertIsNone(heard(line), line)
        self.assertEqual((Pair(3, 5).numbers, Change(5).numbers), ((3, 5), (5,)))


class Desk(unittest.TestCase):
    def test_times_are_kept_up_and_lines_are_taken_back(self) -> None:
        taken_back = 0
        for number in range(120):
            draws = random.Random(number)
            net = drawn_network(draws)
            reckoning, lines = Reckoning(net, Rows(net)), Lines(draws, net)
            for _ in range(30):
                said, before = heard(lines.line()), reckoning.rows.copy()
                if not isinstance(said, STATEMENTS) or admit(net, before, 0, said)[0] is not None:
                    continue
                reckoning.enter(said)
                self.assertEqual(reckoning.times, sound_times(net, reckoning.rows), (number, said))
                back = reversal(said, before, net)
                if back is None:
                    continue
                rows = reckoning.rows.copy()
                for message in back:
                    refusal = refusal_at_once(net, rows, message)
                    self.assertIsNone(refusal, (number, said, message))
                    apply(net, rows, message)
                self.assertEqual(vars(rows), vars(before), (number, said))
                taken_back += 1
        self.assertGreater(taken_back, 500)

    def test_lines_and_refusals_in_words(self) -> None:
        net = connection()
        naming = Naming(net, [[0, 1, 2, 3], [4, 5]], {1: 'Ahorn', 2: 'Buche', 3: 'Eibe'}, {1: 'RE 1', 5: 'RB 2'})
        said = {
            'cancel 3': 'RE 1 leaves Buche: cancelled', 'restore 3': 'RE 1 leaves Buche: not cancelled any more', 'cancel 9': 'event 9: cancelled',
            'lock 5': 'RE 1 to RB 2 in Buche: locked', 'unlock 5 3': 'RE 1 and RB 2 at Buche: not locked any more', 'lock 1 9': 'pair 1 9: locked',
            'carry': 'adopt what is still free of the plan',
        }
        self.assertEqual({line: naming.said(heard(line)) for line in said}, said)
        refused = {
            Refusal('cancelled', (3,)): 'RE 1 leaves Buche: this is cancelled', Refusal('not-cancelled', (3,)): 'RE 1 leaves Buche: this is not cancelled',
            Refusal('locked', (5,)): 'RE 1 to RB 2 in Buche: this is locked', Refusal('not-locked', (3, 5)): 'RE 1 and RB 2 at Buche: this is not locked',
        }
        self.assertEqual({refusal: naming.refusal(refusal) for refusal in refused}, refused)
