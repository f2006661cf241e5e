"""What lines of feeds say, why it is refused, and the nodes of the trees of plans, as values.

They name events and activities by ids. Times and delays are in seconds, costs in thousandths of passenger seconds. `str` gives the
words of a text.
"""
from __future__ import annotations

from dataclasses import dataclass, fields
from typing import ClassVar, Iterable

from dispatch_tools.model.network import Choice


@dataclass(frozen=True, slots=True)
class Words:
    """What is written as a kind, and numbers behind it."""

    KIND: ClassVar[str] = ''

    def numbers(self) -> tuple[int, ...]:
        return tuple(getattr(self, field.name) for field in fields(self))

    def __str__(self) -> str:
        return ' '.join([self.KIND, *map(str, self.numbers())])


# ---- Decisions


@dataclass(frozen=True, slots=True)
class Keep(Words):
    """The train behind a change waits for the one before it."""

    KIND: ClassVar[str] = 'keep'
    activity: int


@dataclass(frozen=True, slots=True)
class Drop(Words):
    """The train behind a change does not wait."""

    KIND: ClassVar[str] = 'drop'
    activity: int


@dataclass(frozen=True, slots=True)
class First(Words):
    """An event of a pair goes before the other."""

    KIND: ClassVar[str] = 'first'
    event: int
    other: int


Decision = Keep | Drop | First
DECISIONS = (Keep, Drop, First)

# The decisions that lead from the root of a tree to a node.
Path = tuple[Decision, ...]


# ---- Messages


@dataclass(frozen=True, slots=True)
class DelayEvent(Words):
    """An event is late by itself."""

    KIND: ClassVar[str] = 'delay event'
    event: int
    seconds: int


@dataclass(frozen=True, slots=True)
class DelayActivity(Words):
    """An activity takes longer by itself."""

    KIND: ClassVar[str] = 'delay activity'
    activity: int
    seconds: int


@dataclass(frozen=True, slots=True)
class Pass(Words):
    """An event has passed."""

    KIND: ClassVar[str] = 'pass'
    event: int
    time: int


@dataclass(frozen=True, slots=True)
class Recall(Words):
    """An event has not passed after all."""

    KIND: ClassVar[str] = 'recall'
    event: int


@dataclass(frozen=True, slots=True)
class Now(Words):
    """The clock goes on."""

    KIND: ClassVar[str] = 'now'
    time: int


@dataclass(frozen=True, slots=True)
class Cancel(Words):
    """An event does not take place: its train, or this part of it, is cancelled."""

    KIND: ClassVar[str] = 'cancel'
    event: int


@dataclass(frozen=True, slots=True)
class Restore(Words):
    """An event takes place after all."""

    KIND: ClassVar[str] = 'restore'
    event: int


@dataclass(frozen=True, slots=True)
class OfChoice(Words):
    """What is said of a choice, by the ids that name it."""

    choice: Choice

    def numbers(self) -> tuple[int, ...]:
        return self.choice.numbers


@dataclass(frozen=True, slots=True)
class Lock(OfChoice):
    """A choice stays as it is: no decision may change it, and no plan has it."""

    KIND: ClassVar[str] = 'lock'


@dataclass(frozen=True, slots=True)
class Unlock(OfChoice):
    """A choice may be decided again."""

    KIND: ClassVar[str] = 'unlock'


# What a line says that becomes an entry of the journal as it stands.
Statement = Decision | DelayEvent | DelayActivity | Pass | Recall | Now | Cancel | Restore | Lock | Unlock
STATEMENTS = (Keep, Drop, First, DelayEvent, DelayActivity, Pass, Recall, Now, Cancel, Restore, Lock, Unlock)


@dataclass(frozen=True, slots=True)
class Adopt:
    """The choices of a plan are made all at once."""

    decisions: tuple[Decision, ...]

    def __str__(self) -> str:
        return ' '.join(['adopt', *map(str, self.decisions)])


# What an entry of the journal says.
Message = Statement | Adopt


def cancelled_after(messages: Iterable[Message], start: Iterable[int] = ()) -> set[int]:
    """The events that are cancelled after messages which were accepted, and those that are at the start. To pass one ends that."""
    found = set(start)
    for message in messages:
        if isinstance(message, Cancel):
            found.add(message.event)
        elif isinstance(message, (Restore, Pass)):
            found.discard(message.event)
    return found


# ---- Lines


@dataclass(frozen=True, slots=True)
class AskTime(Words):
    """When is an event?"""

    KIND: ClassVar[str] = 'time'
    event: int


@dataclass(frozen=True, slots=True)
class AskCost(Words):
    """What does the day cost?"""

    KIND: ClassVar[str] = 'cost'


@dataclass(frozen=True, slots=True)
class AskEntries(Words):
    """How many entries has the journal?"""

    KIND: ClassVar[str] = 'read'


@dataclass(frozen=True, slots=True)
class AskPlan(Words):
    """What plan is there with at most so many nodes?"""

    KIND: ClassVar[str] = 'plan'
    budget: int


@dataclass(frozen=True, slots=True)
class AskSolve(Words):
    """What plan by parts is there with at most so many nodes?"""

    KIND: ClassVar[str] = 'solve'
    budget: int


@dataclass(frozen=True, slots=True)
class AdoptLast(Words):
    """Adopts the last plan of the feed, of either kind."""

    KIND: ClassVar[str] = 'adopt'


@dataclass(frozen=True, slots=True)
class CarryOver(Words):
    """Adopts those choices of the last plan of the feed that are still free."""

    KIND: ClassVar[str] = 'carry'


@dataclass(frozen=True, slots=True)
class Nothing(Words):
    """A line that is blank or a comment."""

    def __str__(self) -> str:
        return ''


# What a line of a feed says.
Said = Statement | AskTime | AskCost | AskEntries | AskPlan | AskSolve | AdoptLast | CarryOver | Nothing


# ---- Refusals


@dataclass(frozen=True, slots=True)
class Refusal:
    """Why a message is refused: the reason, as it is written, and the numbers that it names. Those of a cycle are its activities."""

    reason: str
    numbers: tuple[int, ...] = ()

    def __str__(self) -> str:
        return ' '.join([self.reason, *map(str, self.numbers)])


# ---- Nodes


@dataclass(frozen=True, slots=True)
class Inner:
    """A node that branches on a choice."""

    choice: Choice

    def __str__(self) -> str:
        return f'inner {self.choice}'


@dataclass(frozen=True, slots=True)
class CycleLeaf(Words):
    """A leaf whose decisions close a cycle."""

    KIND: ClassVar[str] = 'cycle'


@dataclass(frozen=True, slots=True)
class BoundLeaf(Words):
    """A leaf whose least cost is not below the plan's."""

    KIND: ClassVar[str] = 'bound'
    cost: int


@dataclass(frozen=True, slots=True)
class OpenLeaf(Words):
    """A leaf whose least cost is below the plan's."""

    KIND: ClassVar[str] = 'open'
    cost: int


@dataclass(frozen=True, slots=True)
class PartLeaf(Words):
    """A leaf of a part, with what the part's terms cost at least below it."""

    KIND: ClassVar[str] = 'leaf'
    cost: int


Node = Inner | CycleLeaf | BoundLeaf | OpenLeaf
PartNode = Inner | CycleLeaf | PartLeaf
