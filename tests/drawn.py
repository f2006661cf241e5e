"""Small networks and rows that are drawn: trains that meet, changes, pairs with one or two headways either way, and what a day reports."""
from __future__ import annotations

from random import Random

from dispatch_tools.model.messages import DelayActivity, DelayEvent, Drop, First, Keep, Message, Now, Pass
from dispatch_tools.model.network import Activity, Event, Network
from dispatch_tools.model.railway import refusal_at_once, Rows, rows_after, times_of


def drawn_network(draws: Random, trains: int = 4, legs: int = 2) -> Network:
    """Trains over so many legs, some of which share a track or wait for each other."""
    events: list[Event] = []
    activities: list[Activity] = []

    def join(kind: str, tail: int, head: int, lower: int, weight: int = 0) -> None:
        activities.append(Activity(len(activities) + 1, kind, tail, head, lower, weight))

    for train in range(trains):
        start = draws.randrange(0, 60)
        for leg in range(legs):
            first = 2 * (legs * train + leg) + 1
            events.append(Event(first, 'departure', start + 100 * leg, 0, leg))
            events.append(Event(first + 1, 'arrival', start + 100 * leg + 80, draws.choice((0, 1000, 2500)), leg + 1))
            join('drive', first, first + 1, draws.randrange(70, 81))
            if leg:
                join(draws.choice(('wait', 'turnaround')), first - 1, first, draws.randrange(0, 20))
    for train in range(trains):
        for other in range(train + 1, trains):
            ends = 2 * legs * train + 1, 2 * legs * other + 1
            if draws.random() < 0.5:
                for _ in range(draws.choice((1, 1, 2))):
                    join('headway', *ends, draws.randrange(1, 30))
                    join('headway', *ends[::-1], draws.randrange(1, 30))
            elif draws.random() < 0.3:
                sooner, later = sorted(ends, key=lambda event: (events[event - 1].time, event))
                join('headway', sooner, later, 10)
            if legs > 1 and draws.random() < 0.5:
                join('change', ends[0] + 1, ends[1] + 2, draws.randrange(0, 40), draws.choice((0, 500, 3000)))
    return Network(events, activities)


def drawn_rows(draws: Random, network: Network, messages: int = 8) -> Rows:
    """Rows after messages of all kinds, of which those that are refused are left out."""
    rows = Rows(network)
    heads = [network.events[head] for place, head in enumerate(network.heads) if network.activities[place].kind == 'change']
    for _ in range(messages):
        event, activity = draws.choice(network.events), draws.choice(network.activities)
        messages_of: list[Message] = [
            DelayEvent(event.id, draws.randrange(0, 120)), DelayEvent(event.id, draws.randrange(0, 120)),
            DelayActivity(activity.id, draws.randrange(0, 40)), Pass(event.id, event.time + draws.randrange(-20, 90)),
            Now(draws.randrange(0, 120)), Drop(activity.id), Keep(activity.id),
            *(Pass(head.id, head.time + draws.randrange(-10, 60)) for head in heads[:1]),
            *(First(network.events[later].id, network.events[sooner].id) for sooner, later in network.pairs[:2]),
        ]
        message = draws.choice(messages_of)
        if isinstance(message, Pass) and message.time < 0:
            continue
        if refusal_at_once(network, rows, message) is None:
            after = rows_after(network, rows, message)
            rows = rows if times_of(network, after) is None else after
    return rows
