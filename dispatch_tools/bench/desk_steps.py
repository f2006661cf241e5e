"""What a dispatcher does on the desk's page with care: slips, undoing after a colleague, alerts, handing over, closing the day; and what the
page shows on two sizes of screens, by day and by night."""
from __future__ import annotations

import json
import os
from itertools import product
from typing import Callable

from dispatch_tools.bench.desk_page import choose, Desk, fill, has, NAME, press, text, until, until_so, Wrong
from dispatch_tools.dev.browser import Browser
from dispatch_tools.formats.giv import read_network
from dispatch_tools.model.messages import DelayEvent
from dispatch_tools.model.railway import apply, Rows, sound_times
from dispatch_tools.pictures.scene import conflicts_of, lines_of, trains_of

# The sizes of screens on which the page is looked at.
SIZES = ((1366, 768), (1920, 1080))

SCHEMES = ('light', 'dark')

ASKED = "document.getElementById('question').open"


def at_each_look(browser: Browser, desk: Desk, name: str, check: Callable[[str], None]) -> None:
    """Checks something on each size of screens, by day and by night, and keeps a picture of each."""
    for (width, height), scheme in product(SIZES, SCHEMES):
        browser.look(width, height, scheme)
        browser.settled()
        check(f'at {width} by {height}, {scheme}')
        desk.keep_picture(browser, f'{name}-{width}-{scheme}')
    browser.look(*SIZES[0])
    browser.value("[document.documentElement, ...document.querySelectorAll('.column, .scroll, .view')].forEach(one => one.scrollTo(0, 0))")


def in_sight(browser: Browser, *selectors: str) -> Callable[[str], None]:
    """A check that some elements are seen whole across, and that nothing stands beyond the right edge."""
    def check(where: str) -> None:
        for selector in selectors:
            if not browser.value(f"""((one => one && one.checkVisibility() && (one.scrollIntoView({{ block: 'nearest' }}), one = one.getBoundingClientRect(),
                    one.width > 0 && one.left >= 0 && one.right <= innerWidth + 1))(document.querySelector({json.dumps(selector)})))"""):
                raise Wrong(f'{selector} is not in sight {where}')
        if browser.value('document.documentElement.scrollWidth > innerWidth'):
            raise Wrong(f'the page is too wide {where}')
    return check


def own_lines(desk: Desk) -> list[str]:
    with open(desk.feeds[1], encoding='ascii') as file:
        return file.read().splitlines()


def slips(browser: Browser, desk: Desk) -> None:
    """A delay above an hour, and a time far from the clock, are asked about before they are sent."""
    before = own_lines(desk)
    fill(browser, 'event', '41')
    fill(browser, 'minutes', '70')
    press(browser, 'Is late')
    until(browser, f'{ASKED} && {has("#question", "more than 1 h")}', 'a long delay is asked about')
    press(browser, 'Leave it')
    until(browser, has('[data-beside=tell]', 'Not sent'), 'it is not sent')
    fill(browser, 'at', '16:01')
    press(browser, 'Has passed')
    until(browser, f'{ASKED} && {has("#question", "after the clock")}', 'a time far from the clock is asked about')
    press(browser, 'Leave it')
    until(browser, f'!{ASKED}', 'nothing is asked any more')
    if own_lines(desk) != before:
        raise Wrong('what was left stands in the feed')
    fill(browser, 'minutes', '61')
    press(browser, 'Is late')
    until(browser, ASKED, 'it is asked about')
    press(browser, 'Do it all the same')
    until(browser, has('[data-beside=tell]', 'entered as'), 'the answer stands beside the button')
    press(browser, 'Undo: Train 41 leaves Stop 23: 1 h 1 min late')
    until(browser, has('#told tbody tr', 'taken back') + ' && ' + has('#told tbody tr', 'entered as'), 'it is taken back')


def takes_back_with_care(browser: Browser, desk: Desk) -> None:
    """An undo asks if a colleague has said something since, and the page says what stands then."""
    fill(browser, 'minutes', '5')
    press(browser, 'Is late')
    until(browser, has('#told tbody tr', '5 min late') + ' && ' + has('#told tbody tr', 'entered as'), 'a delay is entered')
    desk.tell('delay event 41 480')
    until(browser, has('#journal tbody tr', '8 min late'), 'a colleague has said something else')
    before = own_lines(desk)
    press(browser, 'Undo: Train 41 leaves Stop 23: 5 min late')
    until(browser, f'{ASKED} && {has("#question", "8 min late (entry")} && {has("#question", "It sets:")}', 'it is asked')
    press(browser, 'Leave it')
    until(browser, f'!{ASKED}', 'nothing is asked any more')
    if own_lines(desk) != before:
        raise Wrong("a colleague's line was taken back in silence")
    press(browser, 'Undo: Train 41 leaves Stop 23: 5 min late')
    until(browser, ASKED, 'it is asked again')
    press(browser, 'Do it all the same')
    until(browser, has('#told', 'taken back by line') + ' && ' + has('#told', 'now: Train 41 leaves Stop 23: not late by itself'), 'what stands now')


def corrects_a_colleague(browser: Browser, desk: Desk) -> None:
    """What is reported anew holds, whoever has said something before."""
    desk.tell('delay event 41 480')
    until(browser, has('#journal tbody tr', '8 min late'), 'a colleague has reported a delay')
    fill(browser, 'event', '41')
    fill(browser, 'minutes', '3')
    press(browser, 'Is late')
    until(browser, has('#journal tbody tr', '3 min late') + ' && ' + has('[data-beside=tell]', '3 min late: entered as'), 'the correction is the last word')
    press(browser, 'Not late by itself')
    until(browser, has('#journal tbody tr', 'not late by itself'), 'the delay is taken away')


def sees_alerts(browser: Browser, desk: Desk) -> None:
    """An alert is seen at all desks by name, and is there again when it is worse by five minutes."""
    desk.tell('delay event 81 360')
    late = '[...document.querySelectorAll("#alerts > ul li")].some(one => one.textContent.includes("Train 81 leaves"))'
    until(browser, late, 'a train is late')
    press(browser, 'Seen: Train 81 leaves')
    until(browser, f'!{late} && {has("#seen", f"Seen by {NAME} at ")}', 'it was seen')
    with open(os.path.join(desk.store, 'desks'), encoding='ascii') as file:
        notes = [json.loads(line) for line in file]
    if not any(note['is'] == 'seen' and note['who'] == NAME for note in notes):
        raise Wrong('no other desk learns who has seen it')
    desk.tell('delay event 81 660')
    until(browser, late, 'it is worse by five minutes')
    desk.tell('delay event 81 0')
    until(browser, f'!{late}', 'it is over')


def held_up(desk: Desk, before: int) -> tuple[int, int]:
    """An event that makes another train wait on its track if it is ten minutes late, by id, and the number of the train that waits, at a stop
    of that one's line before a time."""
    network = read_network(desk.net)
    trains, start = trains_of(network), Rows(network)
    lines = [set(line) for line in lines_of(network, trains, 40)]
    train_of = {place: number for number, train in enumerate(trains) for place in train}
    into: dict[int, list[int]] = {place: [] for place in range(len(network.events))}
    for activity, head in enumerate(network.heads):
        into[head].append(activity)
    for event in network.events:
        rows = start.copy()
        apply(network, rows, DelayEvent(event.id, 600))
        times = sound_times(network, rows)
        for _, second, _ in conflicts_of(network, rows, times, range(len(network.pairs)), into):
            number = train_of[second]
            stops = {network.events[place].stop for place in trains[number]}
            if times[second] < before and network.events[second].stop in max(lines, key=lambda line: len(line & stops)):
                return event.id, number
    raise Wrong('no train of this day makes another one wait')


def shows_conflicts(browser: Browser, desk: Desk) -> None:
    """A train that waits for another one on its track is marked in the diagram, and its report says so."""
    event, waits = held_up(desk, 21_600 + 5_400)
    desk.tell(f'delay event {event} 600')
    choose(browser, 'trains', str(waits))
    name = browser.value("document.getElementById('trains').selectedOptions[0].textContent")
    marked = f"""[...document.querySelectorAll('#view .conflict title')].some(one => one.textContent.startsWith({json.dumps(f'conflict: {name} waits ')}))"""
    until(browser, marked, 'the conflict is marked')
    until(browser, has('#choices', 'conflict, the other one waits'), 'the train says that it waits')
    at_each_look(browser, desk, 'conflicts', in_sight(browser, '#choices', '#view', '#view .conflict'))
    desk.tell(f'delay event {event} 0')
    until(browser, f'!{marked}', 'the conflict is over')
    choose(browser, 'trains', '2')


GEOMETRY = """(() => {
  const svg = document.querySelector('#view svg'), whole = svg.viewBox.baseVal;
  const names = [...svg.querySelectorAll('text.small')].map(one => [one.textContent, one.getBBox()]).filter(([name]) => !name.startsWith('clock '));
  const all = [...svg.querySelectorAll('text')].map(one => [one.textContent, one.getBBox()]);
  const cut = all.filter(([, box]) => box.x < 0 || box.y < 0 || box.x + box.width > whole.width || box.y + box.height > whole.height).map(([name]) => name);
  const trains = [...svg.querySelectorAll('g.train title')].map(one => one.textContent.slice(0, one.textContent.lastIndexOf(': ')));
  const meet = (a, b) => a.x < b.x + b.width - 1 && b.x < a.x + a.width - 1 && a.y + 3 < b.y + b.height - 3 && b.y + 3 < a.y + a.height - 3;
  const over = names.flatMap(([name, box], at) => names.slice(at + 1).filter(([, other]) => meet(box, other)).map(([other]) => `${name} ${other}`));
  return { trains: trains.length, missing: trains.filter(train => !names.some(([name]) => name === train)), cut, over };
})()"""


def names_trains(browser: Browser, desk: Desk) -> None:
    """Each train in the diagram has its name, none is cut off, and none lies over another."""
    def check(where: str) -> None:
        found = browser.value(GEOMETRY)
        if not found['trains'] or found['missing'] or found['cut'] or found['over']:
            raise Wrong(f'names of trains {where}: {found}')
    for line in range(min(8, browser.value("document.getElementById('lines').options.length"))):
        choose(browser, 'lines', str(line))
        title = browser.value(f"document.getElementById('lines').options[{line}].textContent.replace(' – ', ' to ')")
        until(browser, has('#view .title', f'{title}:'), 'the line is drawn')
        if browser.value(GEOMETRY)['trains']:
            at_each_look(browser, desk, f'names-{line}', check)


def shows_some_alone(browser: Browser, desk: Desk) -> None:
    """Lists show the trains of a line, or those that call at a stop, alone."""
    desk.tell('delay event 81 420', 'delay event 121 420', 'delay event 161 420')
    until(browser, has('#late', 'Train 81') + ' && ' + has('#late', 'Train 161'), 'trains are late')
    every = browser.value(text('#h-late'))
    line, stop = browser.value("(async () => { const day = await (await fetch('/day')).json(); return [day.trains[4][5], day.stops[0][0]]; })()")
    choose(browser, 'only-line', str(line))
    until(browser, f'{text("#h-late")} !== {json.dumps(every)} && {has("#late", "Train 81")}', 'the trains of a line alone')
    shown = json.loads(desk.ask('GET', f'/only?line={line}')[1])
    on_line = {row[0] for row in shown['late']}
    names = browser.value("[...document.querySelectorAll('#late tbody th')].map(one => one.textContent)")
    if names != [row[1] for row in shown['late']] or 4 not in on_line or shown['trains'] == len(json.loads(desk.ask('GET', '/day')[1])['trains']):
        raise Wrong(f'the line {line} alone shows {names}')
    if browser.value("document.getElementById('lines').value") != str(line):
        raise Wrong('the diagram does not show the line')
    at_each_look(browser, desk, 'only', in_sight(browser, '#only-line', '#only-stop', '#late'))
    choose(browser, 'only-stop', str(stop))
    until(browser, f"document.getElementById('stops').value === {json.dumps(str(stop))}", 'the board of the stop')
    for name in ('only-line', 'only-stop'):
        choose(browser, name, '')
    until(browser, f'{text("#h-late")} === {json.dumps(every)}', 'all trains again')
    desk.tell('delay event 81 0', 'delay event 121 0', 'delay event 161 0')


def shows_clocks(browser: Browser, desk: Desk) -> None:
    """The clock of the day and that on the wall have their seconds, and a cost says which entry it is of."""
    desk.tell('now 21660')
    until(browser, f'{text("#clock")} === "6:01:00"', 'the clock of the day')
    if not browser.value(f'/^\\d+:\\d\\d:\\d\\d$/.test({text("#wall")})'):
        raise Wrong('the clock on the wall has no seconds')
    until(browser, f'{text("#cost-at")} === `Cost at entry ${{{text("#entries")}}}` && {has("#cost", "passenger minutes")}', 'the cost with its entry')
    at_each_look(browser, desk, 'clocks', in_sight(browser, '#clock', '#wall', '#cost', '#cost-at'))


UNITS = "/million|thousandth|passenger seconds|\\d seconds/i"


def one_unit(browser: Browser, desk: Desk) -> None:
    """Costs are in passenger minutes, and times in minutes, wherever they stand."""
    said = f'[...document.querySelectorAll("main, header")].map(one => one.textContent).filter(words => {UNITS}.test(words))'
    found = browser.value(said) or [words for words in (desk.ask('GET', '/handover')[1],) if 'million' in words or 'thousandths' in words]
    if found or not browser.value(has('#ruled svg', 'passenger minutes')):
        raise Wrong(f'another unit: {found}')
    at_each_look(browser, desk, 'rules', in_sight(browser, '#ruled svg'))


def previews(browser: Browser, desk: Desk) -> None:
    """What a plan would move is drawn beside what stands, until it is adopted or somebody looks away."""
    drawn = "document.querySelectorAll('#view .then').length"
    late = browser.value("[...document.querySelectorAll('#planned div[aria-label=Trains] tbody th')].map(one => one.textContent)")
    number = browser.value("(async name => (await (await fetch('/day')).json()).trains.findIndex(one => one[0] === name))(%s)" % json.dumps(late[0]))
    choose(browser, 'trains', str(number))
    until(browser, f"!!document.querySelector('#view .then[data-t=\"{number}\"]')", 'the train as the plan would have it')
    until(browser, "document.querySelectorAll('#view .chosen-then').length > 1", 'where the plan decides')
    at_each_look(browser, desk, 'preview', in_sight(browser, '#preview', '#view'))
    browser.value("document.getElementById('preview').click()")
    until(browser, f'{drawn} === 1', 'the plan is not shown')
    browser.value("document.getElementById('preview').click()")
    until(browser, f'{drawn} > 1', 'the plan is shown again')


def cancels_a_train(browser: Browser, desk: Desk) -> None:
    """A train is cancelled from a stop on after a question, is shown struck out everywhere, and runs again."""
    choose(browser, 'trains', '2')
    until(browser, has('#train caption', 'Train 41'), 'the train is shown')
    fill(browser, 'event', '45')
    press(browser, 'Ends there')
    until(browser, f'{ASKED} && {has("#question", "is cancelled from ")} && {has("#question", "passengers leave the train there")}', 'it is asked')
    press(browser, 'Leave it')
    until(browser, f'!{ASKED}', 'nothing is asked any more')
    if any(line.startswith('cancel') for line in own_lines(desk)):
        raise Wrong('what was left stands in the feed')
    fill(browser, 'event', '45')
    press(browser, 'Ends there')
    until(browser, ASKED, 'it is asked again')
    press(browser, 'Do it all the same')
    gone = "document.querySelectorAll('#train tbody tr.gone').length"
    until(browser, f'{gone} > 10 && {has("#late tr.gone", "Train 41")} && {has("#late tr.gone", f"By {NAME}")}', 'it is struck out')
    until(browser, "!!document.querySelector('#view .train[data-t=\"2\"] .gone')", 'its path is struck out')
    until(browser, has('#choices .gone', 'cancelled'), 'its changes are struck out')
    if not browser.value(has('#board', 'Train 41')):
        choose(browser, 'stops', '26')
    until(browser, has('#board tr.gone', 'Train 41'), 'the board strikes it out')
    at_each_look(browser, desk, 'cancelled', in_sight(browser, '#view', '#train', '#late'))
    press(browser, 'Undo: Train 41 is cancelled')
    until(browser, f'{gone} === 0 && !{has("#late", "cancelled")}', 'it runs again')
    until(browser, has('[data-beside=tell]', 'taken back'), 'the answer beside the button says that it was taken back')
    for button, part in ('Begins there', 'up to'), ('Runs again', ''), ('Cancel the train', ''), ('Runs again', ''):
        before = len(own_lines(desk))
        fill(browser, 'event', '45')
        press(browser, button)
        if button != 'Runs again':
            until(browser, f'{ASKED} && {has("#question", f"Train 41 is cancelled {part}".strip())}', 'it is asked')
            press(browser, 'Do it all the same')
        until(browser, f'{gone} > 0 === {str(button != "Runs again").lower()} && {has("[data-beside=tell]", "entered as")}', f'{button}: it is shown')
        words = {line.split()[0] for line in own_lines(desk)[before:]}
        if words != {'restore' if button == 'Runs again' else 'cancel'}:
            raise Wrong(f'{button} writes {words}')


def holds_a_choice(browser: Browser, desk: Desk) -> None:
    """A choice is held: it is locked, nobody turns it, and the page says who holds it, until it is let go."""
    choose(browser, 'trains', '2')
    until(browser, has('#train caption', 'Train 41'), 'the train is shown')
    press(browser, 'Hold: Train 41 ')
    until(browser, has('#locks ul', f'by {NAME} (feed 2)') + ' && ' + has('#choices', ', held'), 'it is held')
    lock = next(line.split()[1:] for line in reversed(own_lines(desk)) if line.startswith('lock '))
    desk.tell(f'drop {lock[0]}' if len(lock) == 1 else f'first {lock[1]} {lock[0]}', f'first {lock[0]} {lock[-1]}')
    at_each_look(browser, desk, 'held', in_sight(browser, '#locks', '#choices'))
    with open(desk.server.reply(0), encoding='ascii') as file:
        until_so(lambda: 'locked' in file.read(), 'a colleague is told that it is locked')
    press(browser, 'Let go: ')
    until(browser, has('#locks ul', 'None.') + f' && !{has("#choices", ", held")}', 'it is let go')


def carries_a_plan(browser: Browser, desk: Desk) -> None:
    """Of a plan that has become old, what is still free is entered as one, after what is no longer free was shown."""
    desk.tell('delay event 41 600', 'delay event 61 900', 'delay event 101 300')
    until(browser, has('#late', 'Train 61'), 'others report delays')
    press(browser, 'Ask for a plan')
    until(browser, has('#planned', 'instead of') + ' && ' + has('#planned', 'Nothing was entered since'), 'what the plan would change')
    choice = browser.value("[...document.querySelectorAll('#planned div[aria-label=Choices] tbody tr .num')].map(one => one.textContent.trim().split('; ')[0])")[0].split()
    desk.tell(f'lock {" ".join(choice[1:])}')
    until(browser, has('#planned', 'is old'), 'the plan became old')
    press(browser, 'Enter what is still free')
    until(browser, f'{ASKED} && {has("#question", "No longer free: ")} && {has("#question", "Still free: ")}', 'what is no longer free')
    press(browser, 'Do it all the same')
    until(browser, has('#planned', 'Adopted as entry') + ' && ' + has('#planned', 'what was still free'), 'what is still free is entered')
    at_each_look(browser, desk, 'carried', in_sight(browser, '#planned'))
    press(browser, 'Undo: adopt what is still free of the plan')
    until(browser, has('#told', 'taken back by line') + ' && ' + has('#planned', 'Taken back by line'), 'it is taken back')
    desk.tell(f'unlock {" ".join(choice[1:])}', 'delay event 41 0', 'delay event 61 0', 'delay event 101 0')


def closes_the_day(browser: Browser, desk: Desk) -> None:
    """The page ends the server after it has said what is open, and starts it again."""
    press(browser, 'Close the day')
    until(browser, f'{ASKED} && {has("#question", "not arrived yet")}', 'it is asked')
    press(browser, 'Leave it')
    until(browser, f'!{ASKED}', 'nothing is asked any more')
    press(browser, 'Close the day')
    until(browser, ASKED, 'it is asked again')
    press(browser, 'Do it all the same')
    until(browser, has('#alerts', f'{NAME} has closed the day at') + ' && ' + has('#runs', 'No server runs'), 'the day is closed')
    until_so(lambda: not os.path.exists(os.path.join(desk.store, 'stop')), 'the file that ends the server stays')
    with open(desk.server.text, encoding='ascii') as file:
        if not file.read().startswith('dm-run 2\n'):
            raise Wrong('the server has printed no text of the day')
    at_each_look(browser, desk, 'closed', in_sight(browser, '#runs', '#start', '#close'))
    restarts(browser, desk)


def restarts(browser: Browser, desk: Desk) -> None:
    """The page starts the server again."""
    press(browser, 'Start the server')
    until(browser, has('#runs', 'A server runs') + f' && !{has("#alerts", "closed the day")} && !{has("#alerts", "No server runs")}', 'a server runs again')


def looks(browser: Browser, desk: Desk) -> None:
    """The report form and its answer stand in sight; a train that is chosen has its line; a search lists its hits."""
    for width, height in SIZES:
        for scheme in ('light', 'dark'):
            browser.look(width, height, scheme)
            browser.settled()
            hidden = browser.value("""[...document.querySelectorAll('#tell button, #tell select, [data-beside=tell]')].filter(one =>
                (({ top, bottom, left, right }) => top < 0 || left < 0 || bottom > innerHeight || right > innerWidth)(one.getBoundingClientRect()))
                .map(one => one.outerHTML.slice(0, 80))""")
            if hidden or browser.value('document.documentElement.scrollWidth > innerWidth'):
                raise Wrong(f'not in sight at {width} by {height}: {hidden}')
    browser.look(*SIZES[0])
    browser.value("(one => { one.value = 'train 8'; one.dispatchEvent(new Event('input')); })(document.getElementById('wanted'))")
    until(browser, has('#hits', 'Train 81, '), 'the search lists its hits')
    browser.value("document.querySelector('#hits button').click()")
    until(browser, has('#train caption', 'Train 81'), 'the train is shown')
    until(browser, "!!document.querySelector('#view .train[data-t=\"4\"]')", 'its line is drawn')
    choose(browser, 'trains', '2')
    until(browser, has('#train caption', 'Train 41') + " && !!document.querySelector('#view .train[data-t=\"2\"]')", 'and the line of the next one')


def hands_over(browser: Browser, desk: Desk) -> None:
    """The page for the next shift says what is open, who has seen it, and what was decided in the last hour."""
    status, page = desk.ask('GET', '/handover')
    for words in ('Open alerts', 'Decisions of the last hour', f'{NAME} (feed 2)', 'a plan of'):
        if status != 200 or words not in page:
            raise Wrong(f'the page for the next shift does not say "{words}"')
    if browser.value(text('header a')) != 'Handover':
        raise Wrong('no link leads to it')
