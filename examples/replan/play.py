#!/usr/bin/env python3
"""Plays a day that is planned anew every few minutes: python3 play.py DISPATCHER [--trains=2000] [--number=7] [--every=10] [--ahead=40] [FOLDER]
               [--policy=MODULE:FUNCTION ..]

DISPATCHER is the built program. The network and the 500 delays are those of dispatch-tools day. A delay is reported at the scheduled
time of its event. Every --every minutes the program plans a window of the next --ahead minutes. The choices of that plan are
entered, and all others stay as they are. Then the cost of the day is printed beside that of no plan, of one plan of what was
reported in the first two hours, and of one plan of all that was reported. The bound is that of the last one: no choices of that
day cost less. `check` judges each text.

Each --policy=MODULE:FUNCTION plays the day by a function of yours, too (dispatch_tools/days/policies.py), which is asked every --every minutes.
MODULE is looked for in the folder where you are, too.

With a FOLDER the files stay there: the network, the feed of the day (`text.feed`) and its text.
"""
from __future__ import annotations

import os
import sys
import tempfile

TOP = os.path.join(os.path.dirname(os.path.abspath(__file__)), '..', '..')
sys.path.insert(0, os.path.join(os.path.dirname(os.path.abspath(__file__)), '..', '..'))

from dispatch_tools.days.generated import write_day  # noqa: E402
from dispatch_tools.days.delays import Told  # noqa: E402
from dispatch_tools.days.playing import Played, Program, Replanning, replanned  # noqa: E402
from dispatch_tools.days.policies import play_by  # noqa: E402
from dispatch_tools.formats.files import BadFile  # noqa: E402
from dispatch_tools.formats.giv import read_network  # noqa: E402
from dispatch_tools.model.messages import DelayEvent  # noqa: E402
from dispatch_tools.model.network import Network  # noqa: E402
from dispatch_tools.model.railway import Rows  # noqa: E402
from dispatch_tools.formats.runtext import heard, read_run  # noqa: E402
from dispatch_tools.pictures.scene import clock_time  # noqa: E402
from dispatch_tools.words import command_line, whole_between  # noqa: E402

BUDGET = 16_384
MORNING = 7_200


def told_of(network: Network, name: str) -> list[Told]:
    """The delays of a feed, each with the scheduled time of its event. Two of one event stay in their order."""
    with open(name, encoding='ascii') as file:
        messages = [heard(line.rstrip('\n')) for line in file]
    told = [Told(network.events[network.event_place[message.event]].time, message) for message in messages if isinstance(message, DelayEvent)]
    return sorted(told, key=lambda one: one.time)


def watch(now: int, entered: int) -> None:
    if now % 3600 == 0:
        print(f'{clock_time(now)}: {entered} choices entered', flush=True)


def line_of(name: str, cost: int, bound: int) -> str:
    return f'{name}: cost {cost / 1e6:.2f}, {100 * (cost - bound) / bound:.1f} % above the bound of the day'


def played(program: Program, network: Network, told: list[Told], how: Replanning, policies: list[str]) -> None:
    times = [event.time for event in network.events]
    start, end = min(times), max(times)
    nothing = Played(network, Rows(network), ahead=told[:])
    nothing.tell(None)
    never = program.judged(nothing.lines)

    whole = program.judged([*nothing.lines, f'plan {BUDGET}', 'adopt'], 'whole')
    with open(program.path('whole'), 'rb') as file:
        run = read_run(file.read(), len(network.events))
    planned = run.logs[0].items[-2].answer
    assert planned is not None and planned.kind == 'plan', 'the line before the last asks for a plan'
    bound = planned.value.bound

    morning = Played(network, Rows(network), ahead=told[:])
    morning.tell(start + MORNING)
    program.run(morning.lines)
    morning.enter(program.window(start + MORNING, max(end, start + MORNING), BUDGET))
    morning.tell(None)
    once = program.judged(morning.lines, 'morning')

    day = Played(network, Rows(network), ahead=told[:])
    replanned(program, day, start, end, how, watch)
    cost = program.judged(day.lines)

    print(line_of('no plan', never, bound))
    print(line_of('one plan, of the first two hours', once, bound))
    print(line_of(f'a window of {how.ahead // 60} minutes each {how.every // 60} minutes', cost, bound))
    for policy in policies:
        own = Played(network, Rows(network), ahead=told[:])
        play_by(policy, own, start, end, how.every)
        print(line_of(policy, program.judged(own.lines, 'own'), bound))
    print(line_of('one plan, of all delays of the day', whole, bound))
    print(f'bound {bound / 1e6:.2f}')


def main() -> int:
    words = command_line(__doc__)
    words.add_argument('dispatcher', metavar='DISPATCHER', help='the built program')
    words.add_argument('folder', nargs='?', metavar='FOLDER', help='where files stay (a folder that is removed at the end)')
    words.add_argument('--trains', type=whole_between(1, 2_000), default=2_000, metavar='N', help='how many trains (2000)')
    words.add_argument('--number', type=whole_between(0, 999_999_999), default=7, metavar='S', help='what the day is drawn from (7)')
    words.add_argument('--every', type=whole_between(1, 1440), default=10, metavar='MINUTES', help='how often a window is planned (10)')
    words.add_argument('--ahead', type=whole_between(1, 1440), default=40, metavar='MINUTES', help='how long a window is (40)')
    own = 'plays the day by a policy of yours, too; may be given several times'
    words.add_argument('--policy', action='append', default=[], metavar='MODULE:FUNCTION', help=own)
    given = words.parse_args()
    with tempfile.TemporaryDirectory() as other:
        folder = given.folder or other
        os.makedirs(folder, exist_ok=True)
        write_day(given.number, given.trains, folder)
        net = os.path.join(folder, 'net')
        network = read_network(net)
        program = Program(os.path.abspath(given.dispatcher), net, 3600, folder)
        try:
            how = Replanning(60 * given.every, 60 * given.ahead)
            played(program, network, told_of(network, os.path.join(folder, 'delays')), how, given.policy)
        except BadFile as fault:
            print(f'play.py: {fault}', file=sys.stderr)
            return 2
    return 0


if __name__ == '__main__':
    sys.exit(main())
