"""Says whom a connection concerns, in people and minutes: dispatch-tools concerns NET TEXT [CHANGE ..] [--svg=FILE]

NET is the folder of a network, and TEXT the text of a run over it. CHANGE is the id of a change (dispatch-tools find finds it by
its trains). The script compares the times behind the last entry of TEXT with the change kept and with it dropped. For each train
that would be later or earlier it prints where, by how much, how many passengers leave it there, and the passenger minutes that
this comes to. Without CHANGE it compares what stands with the plan for the most entries in TEXT.

A line `cost` says what both cost, in passenger minutes. The difference is what the trains come to, and the penalty of the run for
those who miss their connection, or no longer do. A dropped change that is met all the same is said as such: its passengers count
as missing it, since nobody waits for them.

The times are those of a second reading of the rules. With --svg=FILE a picture shows the passenger minutes of each train, with
several changes that of the last. The status is 1 if there is nothing to compare, and 2 if a file or an id is not good.
"""
from __future__ import annotations

import os
import sys
from typing import Sequence

from dispatch_tools.days.choices import choices_of_run, NoPlan
from dispatch_tools.desk.concerns import change_place, lines_of, met_all_the_same, of_decisions, people, picture, say
from dispatch_tools.desk.naming import Naming
from dispatch_tools.formats.files import BadFile, speak_utf8, write_all
from dispatch_tools.formats.lines import Text
from dispatch_tools.formats.runtext import MOST_FEEDS
from dispatch_tools.model.messages import Drop, Keep
from dispatch_tools.pictures.scene import read_scene
from dispatch_tools.words import add_run, command_line, whole_between


def main(argv: Sequence[str] | None = None) -> int:
    words = command_line(__doc__)
    add_run(words)
    words.add_argument('changes', metavar='CHANGE', nargs='*', type=int, help='ids of changes; the latest plan if none is given')
    words.add_argument('--feed', type=whole_between(1, MOST_FEEDS), metavar='K', help='only the plans of this feed')
    words.add_argument('--svg', metavar='FILE', help='file that gets a picture')
    given = words.parse_args(argv)
    speak_utf8()
    try:
        scene = read_scene(given.net, given.text, given.event_delays, given.activity_delays, given.cancelled)
        naming = Naming(scene.network, scene.trains, scene.names, scene.labels)
        title = ''
        for number in given.changes:
            place = change_place(scene.network, scene.rows, number)
            compared = of_decisions(scene, [Keep(number)], [Drop(number)])
            title = f'{naming.activity(number)} ({number}): dropped, and not kept'
            print(f'change {number}: {naming.activity(number)}, {people(scene.network.activities[place].weight)}')
            say([*lines_of(naming, compared, ('kept', 'dropped')), *met_all_the_same(naming, compared.after, place)])
        if not given.changes:
            with open(given.text, 'rb') as file:
                decided = choices_of_run(Text(file.read()), given.feed)
            compared = of_decisions(scene, (), decided)
            title = 'the plan, and not what stands'
            say(lines_of(naming, compared, ('as it stands', 'with the plan')))
        if given.svg:
            folder, name = os.path.split(os.path.abspath(given.svg))
            write_all(folder, {name: picture(naming, compared, title)})
    except NoPlan as why:
        sys.exit(f'{given.text}: {why}')
    except (BadFile, OSError) as bad:
        print(f'concerns: {bad}', file=sys.stderr)
        return 2
    return 0
