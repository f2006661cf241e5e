"""Draws the time-distance diagram of a line (Bildfahrplan) as SVG: dispatch-tools diagram NET TEXT [--line S1,S2,..] > day.svg

NET is the folder of a network, and TEXT the text of a run over it, which `dispatcher run` prints. Time runs across. The stops of
the line stand below one another, as far apart as trains drive between them.

A thin line is a train's schedule. A thick line is the train in the timetable after all entries, and its colour says how late it
is. Dotted links are changes between trains: kept, dropped or missed. A short stub is a change to a train that runs elsewhere. The
diagram also marks pairs whose order was turned, events that have passed, and the clock.

Names of stops come from NET/Stops.csv (`id;name`), and names of trains from NET/Trains.csv (`first event;name`), if these files
exist. Without --line the diagram shows the line over whose stretches most trains run. Standard error then names the other lines.

With --part=N the diagram shows the trains that decide together in part N of the last plan by parts. All others are pale.
"""
from __future__ import annotations

import argparse
import sys
from typing import Sequence

from dispatch_tools.formats.files import BadFile, speak_utf8
from dispatch_tools.pictures.diagram import chosen_line, drawing, part_of
from dispatch_tools.pictures.scene import read_scene
from dispatch_tools.words import add_run, command_line, stops_of, whole_between


# ---- Words


def arguments(argv: Sequence[str] | None) -> argparse.ArgumentParser:
    words = command_line(__doc__)
    add_run(words)
    words.add_argument('--line', type=stops_of, metavar='S1,S2,..', help='ids of the stops of the line, in their order')
    words.add_argument('--from', dest='begin', type=int, metavar='T', help='first time of the picture, in seconds')
    words.add_argument('--to', dest='end', type=int, metavar='T', help='last time of the picture, in seconds')
    words.add_argument('--part', type=whole_between(1, 16_384), metavar='N', help='part of the last plan by parts whose trains are shown')
    return words


def main(argv: Sequence[str] | None = None) -> int:
    given = arguments(argv).parse_args(argv)
    speak_utf8()
    try:
        scene = read_scene(given.net, given.text, given.event_delays, given.activity_delays, given.cancelled)
        together = None if given.part is None else part_of(scene, given.part)
        line = chosen_line(scene, given.line, together)
    except BadFile as fault:
        print(f'diagram: {fault}', file=sys.stderr)
        return 2
    if not line:
        print(f'diagram: {given.net}: the network has no stops', file=sys.stderr)
        return 2
    print('\n'.join(drawing(scene, line, given.begin, given.end, together)))
    return 0
