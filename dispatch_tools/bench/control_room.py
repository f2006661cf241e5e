"""Works at the dispatcher's desk in a browser without a window:

    dispatch-tools control_room DISPATCHER [--trains=40] [--pictures=FOLDER]

Over a generated day it starts a server (`serve`) with two feeds, and the desk. With Debian's `chromium` it does a control room's
work. It reports a delay on the page, and sees the reply, the train and the board move. It asks for a plan, compares it, and
adopts it, or finds it old. It takes a correction back, and is asked if a colleague has said something since. It is asked before a
slip of the hand is sent. It sees alerts and hands over. On two sizes of screens, by day and by night, it looks what stands there:
the form, conflicts, the names of all trains, the trains of a line alone, clocks, units, and a plan in the diagram. It tries a window
and the waiting rules. It looks that names which are scripts do nothing. It sends what must be refused: requests from another origin,
without a token, too long, or with a path upwards. It kills the server, starts it again from the page, and closes the day. Then it
measures the first picture, an entry from the feed to the screen, ten pages at once, and memory.

It prints what differs, and the status is then 1. With --pictures it leaves pictures of the page in FOLDER, by day and by night.
"""
from __future__ import annotations

import argparse
import json
import os
import shutil
import sys
import tempfile
import time
from typing import Callable, Sequence

from dispatch_tools.bench.desk_page import choose, Desk, fill, has, press, text, until, visit, Wrong
from dispatch_tools.bench.desk_steps import (
    cancels_a_train, carries_a_plan, closes_the_day, corrects_a_colleague, hands_over, holds_a_choice, looks, names_trains, one_unit, previews,
    restarts, SCHEMES, sees_alerts, shows_clocks, shows_conflicts, shows_some_alone, SIZES, slips, takes_back_with_care,
)
from dispatch_tools.dev.browser import Browser, CHROMIUM, MISSING
from dispatch_tools.dev.hostile_names import HOSTILE
from dispatch_tools.words import add_program, command_line, whole_between

# What the desk promises: seconds to the first picture and from a feed to the screen, bytes of memory, and pages at once.
FIRST, SEEN, MEMORY, PAGES = 1.0, 0.2, 200 << 20, 10

# The seconds within which pages that are opened at once have to stand.
SETTLED = 4.0

# ---- What a dispatcher does


def reports_a_delay(browser: Browser, desk: Desk) -> None:
    """The reply, the train's line and the board move."""
    choose(browser, 'trains', '2')
    until(browser, has('#train caption', 'Train 41'), 'the train is shown')
    choose(browser, 'lines', next(str(line) for line in range(8) if 'data-t="2"' in desk.ask('GET', f'/line?line={line}')[1]))
    choose(browser, 'stops', browser.value("(async () => (await (await fetch('/day')).json()).stops.length)()") and '23')
    until(browser, "!!document.querySelector('#view .train[data-t=\"2\"]')", 'its line is drawn')
    until(browser, has('#board', 'Train 41'), 'its board is shown')
    path = "document.querySelector('#view .train[data-t=\"2\"]').innerHTML"
    drawn = browser.value(path)
    fill(browser, 'event', '41')
    fill(browser, 'minutes', '7')
    press(browser, 'Is late')
    until(browser, has('#told tbody tr', '7 min late') + ' && ' + has('#told tbody tr', 'entered as'), 'the reply')
    until(browser, has('#train tbody', '7 min'), 'the train is late')
    until(browser, has('#board tbody', '6:08'), 'the board has moved')
    until(browser, has('#late tbody', 'Train 41'), 'it stands among the late trains')
    until(browser, has('#alerts', 'Train 41'), 'there is an alert')
    until(browser, f'{path} !== {json.dumps(drawn)}', 'its line has moved')


def takes_it_back(browser: Browser, desk: Desk) -> None:
    press(browser, 'Undo: Train 41')
    until(browser, has('#told tbody tr', 'not late by itself'), 'the correction is reported')
    until(browser, f'!{has("#late", "Train 41")}', 'the train is punctual again')


def drops_a_change(browser: Browser, desk: Desk) -> None:
    press(browser, 'Drop the change Train 41 ')
    until(browser, has('#told tbody tr', 'does not wait for Train 41') + ' && ' + has('#told tbody tr', 'entered as'), 'the change is dropped')
    until(browser, has('#choices', 'dropped'), 'the train says so')


def turns_a_pair(browser: Browser, desk: Desk) -> None:
    press(browser, 'Turn: ')
    until(browser, has('#told tbody tr', 'goes before') + ' && ' + has('#told tbody tr', 'entered as'), 'an order is turned')


def reports_what_passed(browser: Browser, desk: Desk) -> None:
    fill(browser, 'event', '41')
    fill(browser, 'at', '6:01:30')
    press(browser, 'Has passed')
    until(browser, has('#train tbody tr', 'passed'), 'the train has left')
    fill(browser, 'event', '41')
    press(browser, 'Is late')
    until(browser, has('#told tbody tr', 'refused: Train 41 leaves'), 'a delay of a train that has left is refused in words')
    fill(browser, 'event', '41')
    press(browser, 'Has not passed after all')
    until(browser, f'!{has("#train tbody tr", "passed")}', 'it is recalled')


def plans(browser: Browser, desk: Desk) -> None:
    """A plan is compared and adopted. An old plan is not adopted."""
    desk.tell('delay event 41 600', 'delay event 61 900', 'delay event 101 300')
    until(browser, has('#late', 'Train 61'), 'others report delays')
    fill(browser, 'nodes', '300')
    press(browser, 'Ask for a plan')
    until(browser, has('#planned', 'instead of') + ' && ' + has('#planned', 'Nothing was entered since'), 'what the plan would change')
    for words in ('Choices', 'Alone, in passenger minutes', 'saves', 'Trains', 'Trains that decide together', 'no choices on the whole network cost less', 'orders turned',
                  'at their last stop', 'earlier'):
        if not browser.value(has('#planned', words)):
            raise Wrong(f'the comparison does not say "{words}"')
    desk.tell('delay event 141 60')
    until(browser, has('#planned', 'is old'), 'the plan became old')
    until(browser, has('#alerts', 'is old'), 'there is an alert of it')
    line, adopt = browser.value(text('#told tbody th')), {'Origin': desk.address.rstrip('/'), 'Authorization': f'Bearer {desk.token}'}
    if desk.ask('POST', '/adopt', json.dumps({'plan': int(line)}).encode(), **adopt)[0] != 200:
        raise Wrong('the last plan is not adopted by its line')
    until(browser, has('#told', 'something was entered since the plan'), 'the server says that it is old')
    press(browser, 'Ask again')
    until(browser, has('#planned', 'Nothing was entered since') + ' && ' + has('#planned', 'instead of'), 'a new plan')
    if desk.ask('POST', '/adopt', json.dumps({'plan': int(line)}).encode(), **adopt)[0] != 409:
        raise Wrong('a plan is adopted that was asked for before the last one')
    previews(browser, desk)
    cost = str(browser.value(text('#planned'))).split('optimal: ')[-1].split('Optimal: ')[-1].split(' instead of')[0]
    press(browser, 'Adopt this plan')
    until(browser, has('#planned', 'Adopted as entry'), 'the plan is adopted')
    until(browser, f'{text("#cost")} === {json.dumps(cost)}', 'the day costs what the plan said')


def tries(browser: Browser, desk: Desk) -> None:
    """A window with a choice held, and the waiting rules; nothing of them is entered."""
    entries = browser.value(text('#entries'))
    press(browser, 'Leave alone in what-if: ')
    fill(browser, 'begin', '6:00')
    fill(browser, 'end', '6:30')
    press(browser, 'Plan this window')
    until(browser, has('#windowed', 'instead of') + ' && ' + has('#windowed', 'no choices in this window cost less'), 'the window is compared')
    press(browser, 'Compare waiting rules')
    until(browser, "!!document.querySelector('#ruled svg polyline')", 'the rules are drawn')
    if browser.value(text('#entries')) != entries:
        raise Wrong('what was only tried was entered')


def is_killed(browser: Browser, desk: Desk) -> None:
    """The page says that the server has ended, and goes on when it is started again."""
    desk.server.kill()
    until(browser, has('#alerts', 'No server runs'), 'the page says that no server runs')
    choose(browser, 'trains', '4')
    until(browser, has('#train caption', 'Train 81'), 'the page goes on')
    press(browser, 'Not late by itself')
    until(browser, has('#told', 'waits for the server'), 'a line waits')
    restarts(browser, desk)
    until(browser, f'!{has("#told", "waits for the server")}', 'it is answered by the next server')


def keys(browser: Browser, desk: Desk) -> None:
    """All is reached by keys, each control has a name, and a delay is reported without a mouse."""
    reached = [browser.value("(one => (one.focus(), one.textContent))(document.querySelector('.skip'))")]
    for _ in range(12):
        browser.press('Tab')
        reached.append(browser.value("document.activeElement.id || document.activeElement.textContent"))
    wanted = ['Late trains', 'Train and what to report', 'wanted', 'Show', 'leave', 'numbers']
    if [name for name in reached if name in wanted] != wanted:
        raise Wrong(f'keys reach {reached}')
    hidden = browser.value("""[...document.querySelectorAll('button,input,select,.scroll,#view')].filter(one => one.checkVisibility() && !one.disabled)
        .filter(one => (one.focus(), document.activeElement !== one)).map(one => one.outerHTML.slice(0, 80))""")
    if hidden:
        raise Wrong(f'not reached by keys: {hidden}')
    fill(browser, 'minutes', '13')
    browser.value("document.getElementById('minutes').focus()")
    browser.press('Enter', '\r')
    until(browser, has('#told tbody tr', '13 min late') + ' && ' + has('#told tbody tr', 'entered as'), 'a delay is reported by keys')
    nodes = browser.ask('Accessibility.getFullAXTree')['nodes']
    controls = ('button', 'textbox', 'combobox', 'checkbox', 'searchbox', 'spinbutton', 'region')
    nameless = [node['role']['value'] for node in nodes if not node.get('ignored') and node.get('role', {}).get('value') in controls
                and not node.get('name', {}).get('value')]
    if nameless:
        raise Wrong(f'controls without a name: {nameless}')
    live = browser.value("[...document.querySelectorAll('[role=status],[role=alert],[aria-live]')].map(one => one.id)")
    if live != ['link', 'said']:
        raise Wrong(f'live regions: {live}')


def refuses(desk: Desk) -> None:
    """What is no page of the desk gets nothing, and nothing of it stands in the feed."""
    with open(desk.feeds[1], 'rb') as file:
        before = file.read()
    own, right = f'http://127.0.0.1:{desk.port}', f'Bearer {desk.token}'
    line = json.dumps({'kind': 'delay event', 'numbers': [41, 60]}).encode()
    cases: list[tuple[str, int, tuple[int, str]]] = [
        ('another origin', 403, desk.ask('POST', '/tell', line, Origin='http://evil.example', Authorization=right)),
        ('no origin', 403, desk.ask('POST', '/tell', line, Authorization=right)),
        ('no token', 403, desk.ask('POST', '/tell', line, Origin=own)),
        ('a wrong token', 403, desk.ask('POST', '/tell', line, Origin=own, Authorization=right + 'x')),
        ('another host', 403, desk.ask('GET', '/', Host='evil.example')),
        ('a page of another site', 403, desk.ask('GET', '/day', Sec_Fetch_Site='cross-site', Sec_Fetch_Mode='cors')),
        ('a mile of a body', 413, desk.ask('POST', '/tell', b'1' * 1_609_344, Origin=own, Authorization=right)),
        ('a mile of an address', 414, desk.ask('GET', '/' + 'x' * 100_000)),
        ('a path upwards', 404, desk.ask('GET', '/../../../etc/passwd')),
        ('a path upwards in code', 404, desk.ask('GET', '/%2e%2e/desk.py')),
        ('a line in a line', 409, desk.ask('POST', '/tell', b'{"kind": "delay event", "numbers": ["41 60\\nadopt", 1]}', Origin=own, Authorization=right)),
        ('the clock', 409, desk.ask('POST', '/tell', b'{"kind": "now", "numbers": [1]}', Origin=own, Authorization=right)),
        ('no JSON', 400, desk.ask('POST', '/tell', b'[' * 4000, Origin=own, Authorization=right)),
    ]
    for what, wanted, (status, words) in cases:
        if status != wanted:
            raise Wrong(f'{what} is answered with {status}: {words[:200]}')
    with open(desk.feeds[1], 'rb') as file:
        if file.read() != before:
            raise Wrong('something that was refused stands in the feed')


def only_shows(browser: Browser, program: str, folder: str) -> None:
    """Hostile names do nothing, and a desk without a token only shows."""
    desk = Desk(program, folder, 40)
    desk.name('Stops.csv', dict(enumerate(HOSTILE, 1)))
    desk.name('Trains.csv', {20 * place + 1: name for place, name in enumerate(HOSTILE)})
    desk.tell(*(f'delay event {20 * place + 1} {600 + place}' for place in range(len(HOSTILE))), 'now 21600')
    desk.server.start()
    desk.open()
    try:
        visit(browser, desk, token=False)
        until(browser, "document.querySelectorAll('#late tbody tr').length >= 20", 'the late trains')
        for place in range(len(HOSTILE)):
            choose(browser, 'trains', str(place))
        until(browser, f"document.querySelectorAll('#trains option')[3].textContent === {json.dumps(HOSTILE[3])}", 'a name is text')
        if browser.value('typeof hurt') != 'undefined' or browser.value("document.querySelectorAll('img, #late script, #late svg').length"):
            raise Wrong('a name is more than text')
        status = desk.ask('POST', '/tell', b'{"kind": "adopt", "numbers": []}', Origin=f'http://127.0.0.1:{desk.port}', Authorization='Bearer ')[0]
        shown = browser.value("[...document.querySelectorAll('form')].filter(form => form.checkVisibility()).map(form => form.id)")
        if status != 403 or shown != ['find']:
            raise Wrong(f'a desk without a token takes a line ({status}) or offers to ({shown})')
    finally:
        desk.close()


# ---- Measured


def memory_of(process: int) -> int:
    """The most memory that a process had."""
    with open(f'/proc/{process}/status', encoding='ascii') as file:
        return next(int(line.split()[1]) << 10 for line in file if line.startswith('VmHWM'))


def entries_seen(browser: Browser, desk: Desk, count: int) -> list[float]:
    """How long each of so many entries takes from the feed to the screen."""
    took = []
    for number in range(count):
        seen = f'{text("#journal tbody tr")}.includes("{number + 1} min {number + 1} s")'
        began = time.monotonic()
        desk.tell(f'delay event {20 * number + 201} {61 * (number + 1)}')
        browser.value(f'new Promise(done => {{ const look = () => {seen} ? done(true) : setTimeout(look, 2); look(); }})')
        took.append(time.monotonic() - began)
    return sorted(took)


def measured(desk: Desk, browser: Browser, first: float) -> bool:
    """Whether the page is as quick and small as it should be."""
    alone = entries_seen(browser, desk, 20)
    for _ in range(PAGES - 1):
        browser.beside(desk.address)
    time.sleep(SETTLED)
    together = entries_seen(browser, desk, 20)
    assert desk.page is not None
    memory = memory_of(desk.page.pid)
    print(f'first picture {first:.2f} s; an entry on the screen {alone[10] * 1000:.0f} ms in the middle, {alone[-1] * 1000:.0f} ms at most; with {PAGES} '
          f'pages {together[10] * 1000:.0f} ms and {together[-1] * 1000:.0f} ms; {memory >> 20} MB')
    return first <= FIRST and alone[10] <= SEEN and together[10] <= SEEN and memory <= MEMORY


def pictures(browser: Browser, folder: str, trains: int) -> None:
    os.makedirs(folder, exist_ok=True)
    for width, height in SIZES:
        for scheme in SCHEMES:
            browser.look(width, height, scheme)
            browser.value('scrollTo(0, 0)')
            browser.settled()
            name = f'desk-{trains}-{width}-{"day" if scheme == "light" else "night"}.png'
            with open(os.path.join(folder, name), 'wb') as file:
                file.write(browser.picture())


WORK: list[Callable[[Browser, Desk], None]] = [
    reports_a_delay, takes_it_back, shows_conflicts, names_trains, shows_some_alone, shows_clocks, cancels_a_train, holds_a_choice,
    carries_a_plan, drops_a_change, turns_a_pair, reports_what_passed,
    slips, takes_back_with_care, corrects_a_colleague, sees_alerts, looks, plans, hands_over, tries, one_unit, is_killed, closes_the_day, keys,
]


def tried(given: argparse.Namespace, folder: str) -> bool:
    browser = Browser()
    desk = Desk(given.program, os.path.join(folder, 'day'), given.trains, given.pictures)
    try:
        browser.look(*SIZES[0])
        desk.server.start()
        desk.open(f'--token={os.path.join(desk.folder, "token")}')
        first = visit(browser, desk)
        desk.tell('now 21600')
        for work in [] if given.only_measured else WORK:
            print(f'{work.__name__.replace("_", " ")}', flush=True)
            work(browser, desk)
        if given.pictures:
            pictures(browser, given.pictures, given.trains)
        quick = measured(desk, browser, first)
        if given.only_measured:
            return quick
        refuses(desk)
        only_shows(browser, given.program, os.path.join(folder, 'hostile'))
        return quick
    finally:
        desk.close()
        browser.close()


def arguments(argv: Sequence[str] | None) -> argparse.Namespace:
    words = command_line(__doc__)
    add_program(words)
    words.add_argument('--trains', type=whole_between(40, 2_000), default=40, metavar='N', help='trains of the day (40)')
    words.add_argument('--pictures', metavar='FOLDER', help='folder for pictures of the page')
    words.add_argument('--only-measured', action='store_true', help='measure only')
    return words.parse_args(argv)


def main(argv: Sequence[str] | None = None) -> int:
    given = arguments(argv)
    if CHROMIUM is None:
        print(MISSING, file=sys.stderr)
        return 2
    folder = tempfile.mkdtemp(prefix='desk-')
    try:
        quick = tried(given, folder)
    except Wrong as wrong:
        print(f'{wrong}\n{folder}')
        return 1
    shutil.rmtree(folder)
    if not quick:
        print('the page is slower or larger than it should be')
    return 0 if quick else 1
