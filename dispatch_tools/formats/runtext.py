"""Reads texts of runs: their lines and records, in both versions, and a whole text as one value.

docs/FORMATS.md says how a text is written. This module judges only its form. dispatch-tools judge judges whether it is true, and
reads by the functions of this module.
"""
from __future__ import annotations

import re
from typing import Any, Callable, Mapping, NamedTuple, Optional, Sequence

from dispatch_tools.formats.lines import Bad, fits, Form, forms, ID, NUMBER, number_of, read_form, Text, Value, VALUE
from dispatch_tools.formats.plan_text import DECISIONS, read_decisions, read_plan, read_plan_head, read_solved, read_solved_head
from dispatch_tools.model.messages import (
    Adopt, AdoptLast, AskCost, AskEntries, AskPlan, AskSolve, AskTime, Cancel, CarryOver, DelayActivity, DelayEvent, Lock, Message, Nothing, Now,
    Pass, Recall, Refusal, Restore, Said, Statement, Unlock,
)
from dispatch_tools.model.network import Change, Pair
from dispatch_tools.model.parts import PlanByParts
from dispatch_tools.model.railway import MOST_ENTRIES, Plan

LONGEST_LINE = 1024
MOST_FEEDS = 64
MOST_BOARDS = 64
STANDARD_PLANS = 16
MOST_NODES = {1: 4096, 2: 16384}

# The answers that are plans. They have more lines than one.
PLANNED = ('plan', 'solved')


class Answer(NamedTuple):
    """An answer, the entry at which it was given, if it names one, and what else it says: a number, a refusal or a plan."""
    kind: str
    entry: Optional[int] = None
    value: Any = None


def refusal(reason: str, *numbers: int) -> Refusal:
    return Refusal(reason, numbers)


def answer(kind: str, *numbers: int) -> Answer:
    return Answer(kind, None, *numbers)


def of_choice(made: Callable[..., Value]) -> Form[Value]:
    """The form of what is said of a change, or of a pair, whose smaller id stands first."""
    def of_numbers(first: int, second: Optional[int] = None) -> Optional[Value]:
        if second is None:
            return made(Change(first))
        return made(Pair(first, second)) if first <= second else None
    return Form([ID, ID], of_numbers, 1)


def choice_refusal(reason: str) -> Form[Refusal]:
    return of_choice(lambda choice: Refusal(reason, choice.numbers))


# What stands behind the words of each kind.
STATEMENTS: Mapping[str, Form[Statement]] = {
    'delay event': Form([ID, VALUE], DelayEvent), 'delay activity': Form([ID, VALUE], DelayActivity), 'pass': Form([ID, VALUE], Pass),
    'recall': Form([ID], Recall), 'now': Form([VALUE], Now), 'cancel': Form([ID], Cancel), 'restore': Form([ID], Restore),
    'lock': of_choice(Lock), 'unlock': of_choice(Unlock), **DECISIONS,
}
LINES: Mapping[str, Form[Said]] = {
    **STATEMENTS, 'time': Form([ID], AskTime), 'cost': Form([], AskCost), 'read': Form([], AskEntries), 'plan': Form([VALUE], AskPlan),
    'solve': Form([VALUE], AskSolve), 'adopt': Form([], AdoptLast), 'carry': Form([], CarryOver),
}
REASONS: Mapping[str, Form[Refusal]] = {
    **forms(refusal, {
        'range': [NUMBER], 'unknown-event': [ID], 'unknown-activity': [ID], 'unknown-change': [ID], 'unknown-pair': [ID, ID],
        'passed': [ID, NUMBER], 'not-passed': [ID], 'back': [NUMBER], 'full': [], 'cancelled': [ID], 'not-cancelled': [ID],
    }),
    'locked': choice_refusal('locked'), 'not-locked': choice_refusal('not-locked'),
}
ANSWERS = forms(answer, {'ok': [], 'read': [], 'old': [], 'time': [NUMBER], 'cost': [NUMBER]})
ANSWERS_WITHOUT_ENTRY = forms(answer, {'noplan': [], 'plans': [], 'range': [NUMBER]})


class Item(NamedTuple):
    """A log item: what the line said and its answer, or neither where the line is malformed."""
    line: int
    said: Optional[Said]
    answer: Optional[Answer]


# ---- Words and lines


def read_message(words: Sequence[str]) -> Optional[Message]:
    """The message that words spell, or None."""
    if words[:1] != ['adopt']:
        return read_form(STATEMENTS, words)
    decisions = read_decisions(words[1:])
    return None if decisions is None else Adopt(decisions)


def read_reason(words: Sequence[str]) -> Optional[Refusal]:
    """The refusal that words spell, or None."""
    if words[:1] != ['cycle']:
        return read_form(REASONS, words)
    ids = fits(words[1:], [ID] * (len(words) - 1))
    return Refusal('cycle', ids) if ids else None


def read_answer(words: Sequence[str], version: int) -> Optional[Answer]:
    """The answer that words spell, or None; of a plan of either kind its first line alone."""
    found = read_form(ANSWERS_WITHOUT_ENTRY, words)
    if found is not None:
        return found
    entry = number_of(words[0], ID) if len(words) > 1 else None
    if entry is None:
        return None
    if words[1] == 'refused':
        reason = read_reason(words[2:])
        return None if reason is None else Answer('refused', entry, reason)
    if words[1] == 'plan':
        head = read_plan_head(words[1:], version)
        return None if head is None else Answer('plan', entry, head)
    if words[1] == 'solved' and version > 1:
        solved = read_solved_head(words[1:])
        return None if solved is None else Answer('solved', entry, solved)
    found = read_form(ANSWERS, words[1:])
    return None if found is None else found._replace(entry=entry)


def read_item(words: Sequence[str], version: int) -> Optional[Item]:
    """The log item that words spell, or None; of a plan of either kind its first line alone."""
    line = number_of(words[0], ID)
    if line is None:
        return None
    if words[1:] == ['malformed']:
        return Item(line, None, None)
    if '->' not in words:
        return None
    arrow = words.index('->')
    said, answer = read_form(LINES, words[1:arrow]), read_answer(words[arrow + 1:], version)
    if said is None or answer is None or (isinstance(said, AskSolve) and version == 1):
        return None
    return Item(line, said, answer)


def heard(line: str) -> Optional[Said]:
    """What a line of a feed says, or None if it is malformed."""
    if len(line) > LONGEST_LINE:
        return None
    words = [word for word in line.split(' ') if word]
    if not words or words[0].startswith('#'):
        return Nothing()
    words = [re.sub('^0+(?=[0-9])', '', word) if word.isdecimal() else word for word in words]
    if words[0] in (Lock.KIND, Unlock.KIND) and len(words) == 3:
        words[1:] = sorted(words[1:], key=lambda word: (len(word), word))
    return read_form(LINES, words)


def due_items(feed: str) -> list[tuple[int, Optional[Said]]]:
    """The due lines of a feed, each with its number and what it says."""
    *lines, rest = feed.split('\n')
    lines = [line.removesuffix('\r') for line in lines] + ([rest] if rest else [])
    return [(number, said) for number, line in enumerate(lines, 1) if not isinstance(said := heard(line), Nothing)]


# ---- Whole texts


class Entry(NamedTuple):
    """An entry of the journal: the feed and the line that it came from, and its message."""
    feed: int
    line: int
    message: Message


class FeedLog(NamedTuple):
    """The items of a feed, and how it ended: `end`, `fault` or `long`."""
    items: list[Item]
    stop: str


class BoardNote(NamedTuple):
    """A board that was dropped: its place from 1, its stop, and the entry at which."""
    place: int
    stop: int
    entry: int


class Run(NamedTuple):
    """What a whole text says. The times are by id of the event; the cost is that after all entries."""
    version: int
    penalty: int
    journal: list[Entry]
    logs: list[FeedLog]
    notes: list[BoardNote]
    times: dict[int, int]
    cost: int


def read_journal(text: Text) -> tuple[int, int, int, list[Entry]]:
    """The version, the penalty, the number of feeds and the entries at the front of a text."""
    version, = text.read('dm-run', 2)
    text.demand(version > 0, 'form')
    penalty, = text.read('penalty', NUMBER)
    feeds, = text.read('feeds', NUMBER)
    text.demand(1 <= feeds <= MOST_FEEDS, 'form')
    entries, = text.read('entries', MOST_ENTRIES)
    return version, penalty, feeds, [read_entry(text) for _ in range(entries)]


def read_entry(text: Text) -> Entry:
    words = text.words()
    _, feed, line = text.sure(fits(words[:6], ['entry', ID, 'feed', NUMBER, 'line', ID]))
    return Entry(feed, line, read_message(words[6:]) or text.refuse())


def read_items(text: Text, version: int, feed: int) -> list[Item]:
    """The items of a feed, behind the line that says how many they are."""
    number, count = text.read('feed', NUMBER, NUMBER)
    text.demand(number == feed, 'form')
    return [read_whole_item(text, version) for _ in range(count)]


def read_log(text: Text, version: int, feed: int) -> FeedLog:
    """The log of a feed."""
    items = read_items(text, version, feed)
    words = text.words()
    text.demand(words in (['end'], ['fault'], ['long']), 'form')
    return FeedLog(items, words[0])


def read_planned(text: Text, version: int, answer: Answer) -> Plan | PlanByParts:
    """The plan of either kind whose first line was read last, from its other lines."""
    entry = text.sure(answer.entry)
    if answer.kind == 'plan':
        return read_plan(text, version, entry, answer.value)
    return read_solved(text, entry, answer.value)


def read_whole_item(text: Text, version: int) -> Item:
    """An item of a log, with the other lines of the plan of either kind if it has one."""
    item = text.sure(read_item(text.words(), version))
    if item.answer is None or item.answer.kind not in PLANNED:
        return item
    return item._replace(answer=item.answer._replace(value=read_planned(text, version, item.answer)))


# The usual form of a time, tried before the words are taken apart: these lines are most of a text.
TIME = re.compile(b'(0|[1-9][0-9]{0,8}); (0|[1-9][0-9]{0,37})')


def read_time(text: Text) -> tuple[int, int]:
    if text.number < len(text.lines) and (found := TIME.fullmatch(text.lines[text.number])):
        text.number += 1
        return int(found[1]), int(found[2])
    words = text.words()
    text.demand(words[0].endswith(';'), 'form')
    event, time = text.sure(fits([words[0][:-1], *words[1:]], [ID, NUMBER]))
    return event, time


def read_run(data: bytes, events: int) -> Run:
    """The run that the bytes of a whole text have, over a network of so many events; Bad at the first line of another form."""
    text = Text(data)
    version, penalty, feeds, journal = read_journal(text)
    logs = [read_log(text, version, feed) for feed in range(1, feeds + 1)]
    boards, = text.read('boards', MOST_BOARDS)
    notes = [BoardNote(*text.read('board', NUMBER, 'stop', NUMBER, 'dropped', ID)) for _ in range(boards)]
    text.read('times', NUMBER)
    times = dict(read_time(text) for _ in range(events))
    cost, = text.read('cost', NUMBER)
    text.read('done')
    if text.has_more():
        raise Bad(text.number + 1, 'form')
    return Run(version, penalty, journal, logs, notes, times, cost)
