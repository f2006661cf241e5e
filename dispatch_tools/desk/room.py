"""What the page's server keeps: the day, read as the journal grows, the program's answers beside it, and the picture of the screen."""
from __future__ import annotations

import json
import threading
import time
from dataclasses import dataclass, field
from typing import Any, NamedTuple, Optional, Sequence, Union

from dispatch_tools.days.playing import Program
from dispatch_tools.desk.alerts import Alert, alerts_of, forgotten, Marks, MORE, Server, Since, Standing
from dispatch_tools.desk.asking import adoption, Asking, Followed, SecondReading
from dispatch_tools.desk.concerns import State
from dispatch_tools.desk.control import Control
from dispatch_tools.desk.day import Day, Reported, Told
from dispatch_tools.desk.doubts import doubts_of
from dispatch_tools.desk.effects import Alone, effect, Effect
from dispatch_tools.desk.feed import Feed, line_of
from dispatch_tools.desk.naming import few
from dispatch_tools.desk.notebook import Action, Notebook, Seen, wall_time
from dispatch_tools.desk.pictures import Asked, Picture, Pictures, Shown, Version
from dispatch_tools.desk.reckoning import Cycle
from dispatch_tools.desk.screen import screen_of
from dispatch_tools.desk.steering import (
    AGAIN, BEGINS, ENDS, held_lines, is_cancelled_words, lines_for, open_at_end, part_of, PARTS, still_free, warnings,
)
from dispatch_tools.desk.undoing import standing, Subject, subjects_of
from dispatch_tools.formats.files import BadFile
from dispatch_tools.formats.journal import Answered, Blocks, journal_of, read_head, Rounds
from dispatch_tools.formats.lines import Bad
from dispatch_tools.model.decide import in_turn
from dispatch_tools.formats.runtext import heard
from dispatch_tools.model.messages import Cancel, Decision, DECISIONS, Lock, Message
from dispatch_tools.model.parts import PlanByParts
from dispatch_tools.model.railway import apply, decision_refusal, Plan, refusal_at_once, Rows
from dispatch_tools.pictures.diagram import Preview
from dispatch_tools.pictures.scene import counted, lines_of, whole_time

# The seconds between two looks at the journal, between two looks at who is silent, and from one answer of the program to the next question.
LOOK, TICK, PAUSE = 0.01, 1.0, 0.3

# At most so many lines of stops are offered.
MOST_LINES = 40

# At most so many lines of the feed are compared with what was answered.
COMPARED = 20_000


class Refused(Exception):
    """What the page asks is refused, for a reason."""


class Doubted(Exception):
    """What the page asks is done if somebody says so again who has read some words, which hold up to an entry."""

    def __init__(self, words: list[str], entries: int) -> None:
        super().__init__(words, entries)
        self.words, self.entries = words, entries


class Undone(NamedTuple):
    """The number of the first line that takes something back, and in words what that sets and what could not be taken back."""
    line: int
    sets: list[str]
    left: list[str]


@dataclass
class Settings:
    """How a desk was started."""
    store: str
    marks: Marks
    program: Optional[str]
    net: str
    folder: str
    options: list[str]
    tells: bool
    name: str = ''
    start: Sequence[str] = ()


@dataclass
class Room:
    """A day, its journal and its feed. All that threads share is changed under one lock."""
    day: Day
    feed: Feed
    settings: Settings
    stopped: threading.Event = field(default_factory=threading.Event)

    def __post_init__(self) -> None:
        self.changed = threading.Condition(threading.RLock())
        self.pictures = Pictures(lines_of(self.day.network, self.day.trains, MOST_LINES))
        self.screen, self.number = b'{}', 0
        self.faults: list[str] = []
        self.standing = Standing()
        self.control = Control(self.settings.store, self.settings.start)
        self.begin_anew()

    def begin_anew(self) -> None:
        self.journal = Blocks(journal_of(self.settings.store))
        self.notebook = Notebook(f'{self.settings.store}/desks', self.day.feed)
        self.rounds: Optional[Rounds] = None
        self.asking: Union[Asking, SecondReading, None] = None
        self.followed: Optional[Followed] = None
        self.effect: Optional[Effect] = None
        self.pending: dict[int, tuple[str, float]] = {}
        self.is_other_feed = False
        self.broken = self.is_caught_up = False

    def start(self) -> None:
        """Starts to read the journal and to ask the program."""
        if self.settings.tells and self.settings.name:
            self.notebook.read()
            self.notebook.called(self.feed.next_line(), self.settings.name)
        if self.pictures.lines:
            self.pictures.lay(0, self.day.scene())
        for work in (self.read_on, self.ask_on):
            threading.Thread(target=work, daemon=True).start()

    # ---- The journal

    def read_on(self) -> None:
        ticked = 0.0
        while not self.stopped.is_set():
            has_more = False
            try:
                has_more = self.read_more()
            except (Bad, Cycle) as fault:
                self.broken = True
                what = f'line {fault.args[0]} of a block: {fault.args[1]}' if isinstance(fault, Bad) else 'its rows have a cycle'
                self.fail(f'The journal of the store is none of this network: {what}. Nothing behind it is shown.')
            except OSError as fault:
                self.fail(f'The journal of the store cannot be read: {fault.strerror}')
            self.is_caught_up = self.rounds is not None and not has_more
            if has_more or time.monotonic() - ticked >= TICK:
                ticked = time.monotonic()
                self.show()
            if not has_more:
                self.stopped.wait(LOOK)

    def read_more(self) -> bool:
        """Takes up what is new in the journal, and gives whether there was anything."""
        blocks = self.journal.read()
        if blocks is None:
            with self.changed:
                self.day.reset()
                self.begin_anew()
                self.faults = []
            return True
        if not blocks or self.broken:
            return False
        if self.rounds is None:
            self.begin_with(blocks.pop(0))
        assert self.rounds is not None
        answered = [one for block in blocks for one in self.rounds.read(block)]
        with self.changed:
            self.day.take(answered)
            self.compare(answered)
        return True

    def begin_with(self, content: bytes) -> None:
        head = read_head(content)
        settings, day = self.settings, self.day
        with self.changed:
            self.rounds = Rounds(head, day.network, day.start)
            day.begin(head)
            if settings.program is None:
                self.asking = SecondReading(day.network, day.start, head.penalty)
            else:
                program = Program(settings.program, settings.net, head.penalty, settings.folder, options=settings.options)
                self.asking = Asking(program, day.network, head.feeds)
            if day.feed > head.feeds:
                self.other_feed(f'The server has {head.feeds} feeds; there is no feed {day.feed}.')

    def compare(self, answered: list[Answered]) -> None:
        """Compares what was answered with the lines of the feed: with those written here, or else with those of the file."""
        own = [one.item for one in answered if one.feed == self.day.feed]
        if not own or self.is_other_feed:
            return
        said = self.feed.said(COMPARED) if own[0].line not in self.pending else None
        for item in own:
            line, _ = self.pending.pop(item.line, ('', 0.0))
            if said is not None and item.line <= len(said) and said[item.line - 1] != item.said:
                self.other_feed(f'Feed {self.day.feed} of the server is another file than the one to which this desk writes. See --feed.')
                return
            if said is None and line and str(item.said or '') != line:
                self.other_feed(f'Line {item.line} of feed {self.day.feed} was written by somebody else. See --feed.')
                return

    def other_feed(self, why: str) -> None:
        self.is_other_feed = True
        self.faults.append(why)

    def fail(self, why: str) -> None:
        with self.changed:
            if why not in self.faults:
                self.faults.append(why)

    # ---- The program beside

    def ask_on(self) -> None:
        while not self.stopped.is_set():
            began = time.monotonic()
            try:
                self.confirm()
                self.compare_plan()
            except BadFile as fault:
                self.fail(f'The program beside the desk does not answer: {fault.without_paths()}')
                self.stopped.wait(5)
            self.stopped.wait(max(PAUSE, 3 * (time.monotonic() - began)))

    def confirm(self) -> None:
        """Compares the times with those of the program, and takes the program's if they differ."""
        with self.changed:
            asking, day = self.asking, self.day
            count = len(day.entries)
            if asking is None or (self.followed is not None and self.followed.entries == count):
                return
            entries, times, reckoning = day.entries[:], day.reckoning.times[:], day.reckoning
        followed = asking.follow(entries)
        with self.changed:
            if day.reckoning is not reckoning:
                return
            self.followed = followed
            if followed.times != times:
                self.fail(f'After entry {count} the program has other times than this desk had worked out. The program is right.')
                if len(day.entries) == count:
                    reckoning.times = followed.times[:]
                    day.look_at(set(range(len(times))))
                    day.version += 1
        self.show()

    def compare_plan(self) -> None:
        """Works out what the last plan of the desk's feed would change."""
        with self.changed:
            plan, asking, day = self.day.plan, self.asking, self.day
            if plan is None or asking is None or (self.effect is not None and self.effect.plan is plan):
                return
            entries, line = day.entries[:plan.entry], day.plan_line
        known = self.effect_of(plan, entries)
        with self.changed:
            self.effect = known._replace(found={**known.found, 'line': line})
        self.show()

    def effect_of(self, plan: Plan | PlanByParts, entries: list[str]) -> Effect:
        assert self.asking is not None
        before = self.asking.follow(entries)
        after = self.asking.follow([*entries, adoption(plan.choices, self.day.feed)]) if plan.choices else before
        day, penalty = self.day, self.day.head.penalty if self.day.head else 0
        rows = SecondReading(day.network, day.start, penalty).rows_after(entries)
        found = effect(Alone(day.naming, day.trains, State(rows, before.times, before.cost), penalty), plan, before, after)
        return Effect(plan, found, after.times)

    # ---- What the page asks

    def show(self) -> None:
        """Makes the picture of the screen anew, and wakes the streams if it has changed."""
        with self.changed:
            waits_since = min((since for _, since in self.pending.values()), default=None)
            self.control.look()
            self.notebook.read()
            server = Server(self.control.runs(), waits_since, self.notebook.closed)
            if server.runs and server.closed is not None and self.settings.tells and not self.control.is_ending():
                self.notebook.reopen()
            self.stand(alerts_of(self.day, self.settings.marks, server, self.faults))
            screen = json.dumps(screen_of(self), separators=(',', ':'), ensure_ascii=True).encode()
            if screen != self.screen:
                self.screen = screen
                self.number += 1
                self.changed.notify_all()

    def stand(self, alerts: list[Alert]) -> None:
        """Takes up which alerts stand, and who has seen them."""
        if self.is_caught_up:
            forgotten(self.notebook.seen, alerts)
        clock = whole_time(self.day.clock) if self.day.clock else wall_time()
        self.standing.stand(alerts, self.notebook.seen, Since(clock, len(self.day.entries)))

    def see(self, kind: object, key: object) -> None:
        """Says to all desks that somebody has seen an alert. Refused if there is none of this kind and key."""
        with self.changed:
            row = next((row for row in self.standing.rows if (row['kind'], row['key']) == (kind, key)), None)
            if row is None or key == MORE:
                raise Refused('there is no such alert')
            self.notebook.see(row['kind'], row['key'], Seen(self.who(), wall_time(), row['level']))
        self.show()

    def close(self, agreed: object = None) -> None:
        """Closes the day: ends its server, after whoever asks has read what is still open."""
        with self.changed:
            if self.control.runs() is not True:
                raise Refused('no server runs over this store')
            if type(agreed) is not int:
                raise Doubted(open_at_end(self.day, len(self.pending)), len(self.day.entries))
            self.control.close()
            self.notebook.close(self.who())
        self.show()

    def start_server(self) -> None:
        """Runs the command that starts the server. Refused if the desk was given none, or a server runs."""
        if not self.control.command:
            raise Refused('this desk was started without --start')
        if self.control.runs() is not False:
            raise Refused('a server runs over this store')
        self.control.start()
        self.show()

    def who(self) -> str:
        """The name of whoever works at this desk."""
        return self.settings.name or self.day.names.feed(self.day.feed)

    def reporter(self, feed: int, line: int) -> str:
        """Who wrote a line of a feed."""
        name, called = self.notebook.name_of(feed, line), self.day.names.feed(feed)
        return f'{name} ({called})' if name else called

    def previewed(self) -> Optional[Effect]:
        """What the last plan would change, if it is known and the plan can still be adopted."""
        known, day = self.effect, self.day
        return known if known and known.plan is day.plan and not day.adopted and known.plan.entry == len(day.entries) else None

    def draw(self, asked: Asked) -> Picture:
        with self.changed:
            known = self.previewed() if asked.is_planned else None
            version: Version = self.day.version, self.day.plan_line if known else 0

        def shown() -> Shown:
            with self.changed:
                choices = [(choice, self.day.naming.decision(choice)) for choice in known.plan.choices] if known else []
                return Shown(self.day.scene(), Preview(known.times, choices) if known else None)
        return self.pictures.draw(asked, version, shown)

    def tell(self, kind: object, numbers: object, agreed: object = None) -> int:
        """Appends a line to the feed, and gives its number. Refused if the page may not write it, and doubted if it may be a slip."""
        line = line_of(kind, numbers)
        if line is None:
            raise Refused('the page may not write this line')
        with self.changed:
            doubts = doubts_of(self.day, heard(line))
            if doubts and type(agreed) is not int:
                raise Doubted(doubts, len(self.day.entries))
            return self.put([line])

    def undo(self, number: object, agreed: object = None) -> Undone:
        """Appends the lines that take a line back, or all lines of the action that it begins. Doubted if somebody has said something
        of the same since, and `agreed` is not the number of an entry that has come later."""
        with self.changed:
            group = self.told_by(number)
            back, left = self.back_of(group)
            if not back:
                raise Refused(f'nothing of it can be taken back: {"; ".join(left)}' if left else 'nothing of it is left to take back')
            sets = few([self.day.naming.said(one) for one in back])
            since = self.said_since(max(told.entry or 0 for told in group), back)
            if since and not (type(agreed) is int and agreed >= max(one.entry for one in since)):
                raise Doubted([*(f'It sets: {words}.' for words in sets), *few([self.since_words(one) for one in since])], len(self.day.entries))
            line = self.put([*map(str, back)], f'taken back: line {group[0].item.line}', group[0].item.line)
            return Undone(line, sets, left)

    def told_by(self, number: object) -> list[Told]:
        """The lines of the action that begins with a line, or the line alone, with their answers."""
        action = self.notebook.actions.get(number) if type(number) is int else None
        last = action.last if action else number
        if type(number) is not int or type(last) is not int or any(number <= line <= last for line in self.pending):
            raise Refused('this line cannot be taken back')
        group = [told for told in self.day.told if number <= told.item.line <= last and told.entry is not None and told.back is not None]
        if not group:
            raise Refused('this line cannot be taken back')
        if not any(told.back for told in group):
            raise Refused('this line changed nothing')
        return group

    def back_of(self, group: list[Told]) -> tuple[list[Message], list[str]]:
        """What takes lines back, so far as it can still be said and does not stand anyway; and in words what cannot be."""
        network, rows = self.day.network, self.day.reckoning.rows
        back: dict[Subject, Message] = {}
        for told in reversed(group):
            for one in told.back or []:
                for subject in subjects_of(one):
                    back.pop(subject, None)
                    back[subject] = one
        moved = [one for subject, one in back.items() if standing(subject, rows, network) != one]
        # What is locked or cancelled binds choices: so these end before choices are made, and begin behind them.
        reports = [one for one in moved if not isinstance(one, (*DECISIONS, Cancel, Lock))]
        reported = self.rows_behind(rows, reports)
        free, left = still_free(self.day.naming, reported, [one for one in moved if isinstance(one, DECISIONS)])
        binding = [one for one in moved if isinstance(one, (Cancel, Lock))]
        decided = self.turned(free, reported) if len(free) > 1 else free
        self.rows_behind(self.rows_behind(reported, decided), binding)
        return [*reports, *decided, *binding], left

    def rows_behind(self, rows: Rows, messages: Sequence[Message]) -> Rows:
        """The rows behind messages that take something back. Refused if one of them is refused at once."""
        behind = rows.copy()
        for one in messages:
            refusal = refusal_at_once(self.day.network, behind, one)
            if refusal is not None:
                raise Refused(f'it cannot be taken back: {self.day.naming.refusal(refusal)}')
            apply(self.day.network, behind, one)
        return behind

    def said_since(self, entry: int, back: list[Message]) -> list[Reported]:
        """What was said later than an entry of what some lines are about, the last of each."""
        latest = [self.day.latest[subject] for one in back for subject in subjects_of(one) if subject in self.day.latest]
        return sorted({one.entry: one for one in latest if one.entry > entry}.values())

    def since_words(self, one: Reported) -> str:
        return f'{self.reporter(one.feed, one.line)} has said since: {self.day.naming.said(one.message)} (entry {one.entry}).'

    def turned(self, decisions: Sequence[Decision], rows: Rows) -> list[Decision]:
        """The decisions that differ from the rows, in an order in which none closes a cycle."""
        try:
            return in_turn(self.day.network, rows, decisions)
        except ValueError as error:
            raise Refused('with what was entered since, they would close a cycle') from error

    def looked_at(self, line: object) -> Plan | PlanByParts:
        """The last plan of the desk's feed, which whoever names its line has looked at. Refused if another one was asked for since."""
        plan = self.day.plan
        if plan is None:
            raise Refused('no plan was asked for')
        if type(line) is not int or line != self.day.plan_line or self.feed.asks_for_a_plan(self.day.answered):
            raise Refused('another plan was asked for since. Look at that one first')
        return plan

    def adopt(self, line: object) -> int:
        """Adopts the plan that a line asked for; the number of the line that does. Refused if it is not the last one."""
        with self.changed:
            self.looked_at(line)
            return self.put(['adopt'])

    def carry(self, line: object, agreed: object = None) -> int:
        """Enters what is still free of the plan that a line asked for; the number of the line that does. Refused if it is not the last plan,
        and doubted if some of its choices are no longer free."""
        with self.changed:
            plan = self.looked_at(line)
            free, gone = still_free(self.day.naming, self.day.reckoning.rows, plan.choices)
            if not free:
                raise Refused('nothing of this plan is still free')
            if gone and type(agreed) is not int:
                words = [f'No longer free: {words}.' for words in gone]
                raise Doubted([*words, f'Still free: {counted(len(free), "choice", "choices")} of {len(plan.choices)}.'], len(self.day.entries))
            return self.put(['carry'])

    def cancel(self, train: object, part: object, event: object, agreed: object = None) -> int:
        """Cancels a train, or a part of it, or lets it run again; the number of the first line. Doubted before something is cancelled."""
        with self.changed:
            day = self.day
            if type(train) is not int or not 0 <= train < len(day.trains) or part not in PARTS:
                raise Refused('there is no such train, or no such part of one')
            place = day.network.event_place.get(event) if type(event) is int else None
            if part in (ENDS, BEGINS) and place not in day.trains[train]:
                raise Refused('the train has no such event')
            lines = lines_for(day, str(part), part_of(day.network, day.trains[train], str(part), -1 if place is None else place))
            if not lines:
                raise Refused('nothing of it is cancelled' if part == AGAIN else 'nothing of it is left to cancel')
            if part != AGAIN and type(agreed) is not int:
                raise Doubted(warnings(day, train, lines), len(day.entries))
            return self.put([*map(str, lines)], is_cancelled_words(day, train, lines))

    def hold(self, kind: object, numbers: object) -> int:
        """Makes a choice and locks it; the number of the first line. Refused if it cannot be made or locked."""
        decision = heard(line_of(kind, numbers) or '')
        if not isinstance(decision, DECISIONS):
            raise Refused('this is no choice')
        with self.changed:
            refusal = decision_refusal(self.day.network, self.day.reckoning.rows, decision)
            if refusal is not None:
                raise Refused(self.day.naming.refusal(refusal))
            lines = held_lines(self.day.network, self.day.reckoning.rows, decision)
            return self.put([*map(str, lines)], 'held')

    def put(self, lines: list[str], says: str = '', undoes: int = 0) -> int:
        """Appends lines to the feed, as one action if they are called so, and gives the number of the first."""
        with self.changed:
            if self.is_other_feed:
                raise Refused(self.faults[-1])
            first = self.feed.tell(lines)
            for number, line in enumerate(lines, first):
                self.pending[number] = (line, time.monotonic())
            if says:
                self.notebook.did(Action(first, first + len(lines) - 1, says, undoes))
        self.show()
        return first

    def window(self, begin: int, end: int, budget: int, held: list[int]) -> dict[str, Any]:
        """What a plan of a stretch of time would change; nothing of it is entered."""
        with self.changed:
            asking, entries = self.asking, self.day.entries[:]
        if asking is None:
            raise Refused('no server has begun a journal here')
        plan = asking.window(entries, begin, end, budget, held)
        return self.effect_of(plan, entries).found

    def rules(self) -> str:
        with self.changed:
            asking, entries = self.asking, self.day.entries[:]
        if asking is None:
            raise Refused('no server has begun a journal here')
        return asking.rules(entries)
