"""Makes one page of a run for a browser: dispatch-tools view NET TEXT > day.html

NET is the folder of a network, and TEXT the text of a run over it. The page loads nothing from elsewhere, and runs no script but
its own, whatever stands in names. It shows

    the time-distance diagrams of the eight busiest lines, as diagram draws them; zoom and move them by mouse, touch or keys
    a box that finds a train, a trip, an event or a stop
    the run of a train, and the board of a stop: scheduled, now, late
    the journal, with each reply
    each plan: its choices, and its tree as a list that folds, with the bounds; of a plan by parts which trains decide together
    the cost: of late arrivals, of dropped changes and of missed ones

The page works by keyboard, in light and dark, and on a narrow screen. Names come from NET/Stops.csv and NET/Trains.csv, if these
files exist.
"""
from __future__ import annotations

import sys
from typing import Sequence

from dispatch_tools.formats.files import BadFile, speak_utf8
from dispatch_tools.pictures.scene import read_scene
from dispatch_tools.pictures.view import page
from dispatch_tools.words import add_run, command_line


def main(argv: Sequence[str] | None = None) -> int:
    words = command_line(__doc__)
    add_run(words)
    given = words.parse_args(argv)
    speak_utf8()
    try:
        scene = read_scene(given.net, given.text, given.event_delays, given.activity_delays, given.cancelled)
    except BadFile as fault:
        print(f'view: {fault}', file=sys.stderr)
        return 2
    print(page(scene))
    return 0
