"""Where the tests find networks and texts of runs: among the cases of whole runs; and texts of runs that they write."""
from __future__ import annotations

import os
from typing import TYPE_CHECKING, Iterable, Optional

if TYPE_CHECKING:
    from dispatch_tools.model.messages import Message
    from dispatch_tools.model.network import Network

TOP = os.path.join(os.path.dirname(os.path.abspath(__file__)), '..')

CASES = os.path.join(TOP, 'crates', 'dm_runs', 'data')


# A program that begins a store as the built one does, and does nothing else.
STAND_IN = '''#!/bin/sh
[ "$1 $2" = 'serve --new' ] && [ -e "$4/stop" ] || exit 2
touch "$4/lock" "$4/reply-1.txt" "$4/reply-2.txt"
(cd "$3" && sha256sum Activities-expanded.giv Events-expanded.giv) > "$4/files" || exit 4
printf '+41\\ndm-store 1\\npenalty 3600\\nplans 16\\nfeeds 2\\n~' > "$4/journal"
'''


def stand_in(folder: str) -> str:
    """The name of a stand-in for the program, made in a folder."""
    name = os.path.join(folder, 'stand-in')
    with open(name, 'w') as file:
        file.write(STAND_IN)
    os.chmod(name, 0o755)
    return name


def network(name: str) -> str:
    """The folder of a network."""
    return os.path.join(CASES, 'networks', name, 'net')


def text(name: str) -> str:
    """The file of the text that is due of a run."""
    return os.path.join(CASES, 'runs', name, 'text')


def lines_of_run(net: Network, messages: Iterable[Message] = (), times: Optional[Iterable[int]] = None, cost: int = 0) -> list[str]:
    """The lines of the text of a run over a network, in which these messages were accepted; by default the day is on time."""
    entries = [f'entry {number} feed 1 line {number} {said}' for number, said in enumerate(messages, 1)]
    lines = ['dm-run 2', 'penalty 0', 'feeds 1', f'entries {len(entries)}', *entries, 'feed 1 0', 'end', 'boards 0', 'times 0']
    times = [event.time for event in net.events] if times is None else times
    return [*lines, *(f'{event.id}; {time}' for event, time in zip(net.events, times)), f'cost {cost}', 'done']
