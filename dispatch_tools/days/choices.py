"""The choices of plans in texts, and those of a window that are worth keeping."""
from __future__ import annotations

import sys
from typing import Iterator

from dispatch_tools.formats.lines import fits, NUMBER, Text, VALUE
from dispatch_tools.formats.plan_text import read_decision
from dispatch_tools.formats.runtext import PLANNED, read_answer, read_journal, read_log, read_planned
from dispatch_tools.model.messages import Decision
from dispatch_tools.model.parts import PlanByParts
from dispatch_tools.model.railway import MOST_ENTRIES, Plan


class NoPlan(Exception):
    """The text has no plan whose choices could be said; the argument says why."""


def plans_of_run(text: Text, feed: int | None) -> Iterator[Plan | PlanByParts]:
    """The plans of both kinds in the logs of a run, of all feeds or of one."""
    version, _, feeds, _ = read_journal(text)
    for number in range(1, feeds + 1):
        for item in read_log(text, version, number).items:
            if item.answer is not None and item.answer.kind in PLANNED and feed in (None, number):
                yield item.answer.value


def choices_of_run(text: Text, feed: int | None) -> tuple[Decision, ...]:
    """The choices of the plan for the most entries, the last where several are for as many."""
    latest = None
    for plan in plans_of_run(text, feed):
        if latest is None or plan.entry >= latest.entry:
            latest = plan
    if latest is None:
        raise NoPlan('no plan was asked for' if feed is None else f'feed {feed} asked for no plan')
    return latest.choices


def read_choices(text: Text, many: int) -> list[list[str]]:
    """The words behind `choice` in so many lines."""
    said = [text.words() for _ in range(many)]
    for words in said:
        text.demand(words[0] == 'choice', 'form')
    return [words[1:] for words in said]


def choices_carried(text: Text, words: list[str]) -> tuple[Decision, ...]:
    """The choices of a plan that still differ from the rows at the last entry."""
    numbers = fits(words, ['rebased', MOST_ENTRIES, 'cost', NUMBER, 'choices', NUMBER])
    if numbers is None:
        text.demand(words[0] == 'rebased' and words[2:3] == ['refused'], 'form')
        raise NoPlan(f'the plan could not be carried over: {" ".join(words[3:])}')
    return tuple(read_decision(said) or text.refuse() for said in read_choices(text, numbers[2]))


def choices_left(text: Text, words: list[str]) -> tuple[Decision, ...]:
    """The choices of a plan that are left when others are given back."""
    _, many = text.sure(fits(words, ['minimal', 'cost', NUMBER, 'choices', NUMBER]))
    choices: list[Decision] = []
    for said in read_choices(text, many):
        is_needed = said[-1] == 'needed'
        text.demand(is_needed or fits(said[-2:], ['saves', NUMBER]) is not None, 'form')
        choices.append(read_decision(said[:-1] if is_needed else said[:-2]) or text.refuse())
    return tuple(choices)


def choices_of_window(text: Text) -> tuple[Decision, ...]:
    """The choices of the plan of a window, those that are left when others are given back, or what is left at the last entry."""
    entry, = text.read('window', VALUE, VALUE, 'entry', MOST_ENTRIES)[2:]
    words = text.words()
    if words[0] == 'held':
        words = text.words()
    answer = text.sure(read_answer([str(entry), *words], 2))
    text.demand(answer.kind in PLANNED, 'form')
    choices = read_planned(text, 2, answer).choices
    if not text.has_more():
        return choices
    words = text.words()
    if words[0] == 'minimal':
        choices = choices_left(text, words)
        if not text.has_more():
            return choices
        words = text.words()
    carried = choices_carried(text, words)
    return tuple(choice for choice in choices if choice in carried)


def choices_in(data: bytes, feed: int | None) -> tuple[Decision, ...]:
    """The choices that the bytes of a text have; Bad at the first line of another form."""
    text = Text(data)
    return choices_of_window(text) if data.startswith(b'window ') else choices_of_run(text, feed)


def lines_of(choices: tuple[Decision, ...]) -> str:
    return ''.join(f'{decision}\n' for decision in choices)


def bytes_of(name: str) -> bytes:
    if name == '-':
        return sys.stdin.buffer.read()
    with open(name, 'rb') as file:
        return file.read()
