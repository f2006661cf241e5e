"""Prints what networks of several shapes take: dispatch-tools shaped DISPATCHER [SHAPE[:SIZES] ..] [--number=S]

The shapes are those of dispatch-tools shapes in their usual sizes, all four and `gen` unless some are named. SIZES are its
options, separated by commas, such as mesh:lines=60,trains=8. `gen` is a day of dispatch-tools day with 2,000 trains. Each shape
has a row:

    load      the seconds of processor of a run of an empty feed
    a delay   those of a feed full of drawn delays, less the load, for each of its lines
    a plan    those of a plan of 16,384 nodes, and of one by parts, less those of the run without it

The plans are for a day that dispatch-tools scenarios draws from --number: mixed, with a delay for three trains of ten. The row also
has the cost and bound of each in millions, and its gap. `check` judges the texts. The last line says where the gap by parts is
largest.
"""
from __future__ import annotations

import os
import tempfile
from dataclasses import replace
from typing import Iterator, Sequence

from dispatch_tools.bench.against import Fault, Found, planned, Server
from dispatch_tools.days.delays import Drawing, drawn_day, Lines, size_of, told_lines
from dispatch_tools.days.from_gtfs import texts_of
from dispatch_tools.days.generated import Draws, FEED, write_day
from dispatch_tools.days.shapes import made, USUAL
from dispatch_tools.formats.files import write_all
from dispatch_tools.formats.giv import read_network
from dispatch_tools.model.network import Network
from dispatch_tools.model.railway import free_choices, Rows
from dispatch_tools.words import command_line


def written(shape: str, folder: str) -> tuple[str, Network]:
    """Writes the network of a shape, and gives its folder and itself."""
    net = os.path.join(folder, 'net')
    name, _, sizes = shape.partition(':')
    if name == 'gen':
        write_day(7, 2000, folder)
    elif name in USUAL:
        given = dict(size.split('=') for size in sizes.split(',') if size)
        write_all(net, texts_of(made(name, replace(USUAL[name], **{key: int(value) for key, value in given.items()}))))
    else:
        raise Fault(f'"{name}" is no shape')
    return net, read_network(net)


def many_delays(network: Network) -> Iterator[str]:
    """Drawn delays, as many as a feed holds."""
    draws, size = Draws(1), 0
    while True:
        line = f'delay event {network.events[draws.below(len(network.events))].id} {draws.below(900) + 1}'
        size += len(line) + 1
        if size > FEED:
            return
        yield line


def gap_of(plan: Found) -> float:
    """The gap of a plan, in per cent of its cost."""
    assert plan.cost is not None and plan.bound is not None
    return 100 * (plan.cost - plan.bound) / plan.cost if plan.cost else 0.0


def cells_of(plan: Found) -> str:
    """The seconds, the cost, the bound and the gap of a plan."""
    assert plan.cost is not None and plan.bound is not None
    return f'{plan.seconds:.2f} s | {plan.cost / 1e6:.2f} | {plan.bound / 1e6:.2f} | {gap_of(plan):.2f} %'


def line_of(program: str, shape: str, number: int) -> tuple[str, float]:
    """The line of a shape, and its gap by parts."""
    with tempfile.TemporaryDirectory() as folder:
        net, network = written(shape, folder)
        server = Server(program, net, folder)
        load = server.run([], 'empty').seconds
        delays = list(many_delays(network))
        delay = (server.run(delays, 'delays').seconds - load) / len(delays)
        told = drawn_day(Lines(network), Drawing('mixed', 0.3, size_of('exponential:300')), number, 1)
        plans = [planned(server, told_lines(told), word) for word in ('plan', 'solve')]
        sizes = f'{len(network.events)} | {len(network.activities)} | {len(free_choices(network, Rows(network)))}'
        cells = ' | '.join(map(cells_of, plans))
        return f'| {shape} | {sizes} | {load:.2f} s | {delay * 1e6:.0f} µs | {cells} |', gap_of(plans[-1])


def main(argv: Sequence[str] | None = None) -> int:
    words = command_line(__doc__)
    words.add_argument('dispatcher', metavar='DISPATCHER', help='the built program')
    words.add_argument('shapes', nargs='*', metavar='SHAPE', help='shapes, or gen (all four, and gen)')
    words.add_argument('--number', type=int, default=1, metavar='S', help='number from which the day is drawn (1)')
    given = words.parse_args(argv)
    columns = ['Shape', 'Events', 'Activities', 'Choices', 'Load', 'A delay', 'A plan', 'Cost', 'Bound', 'Gap', 'By parts', 'Cost', 'Bound', 'Gap']
    print(f'| {" | ".join(columns)} |\n' + '|---' * len(columns) + '|')
    gaps = {}
    for shape in given.shapes or [*USUAL, 'gen']:
        try:
            line, gaps[shape] = line_of(os.path.abspath(given.dispatcher), shape, given.number)
        except Fault as fault:
            print(f'{shape}: {fault}')
            return 1
        print(line, flush=True)
    print(f'\nThe gap by parts is worst at {max(gaps, key=lambda shape: gaps[shape])}.')
    return 0
