"""Measures the way from a timetable and back, and the converters of GTFS-Realtime: dispatch-tools converters DISPATCHER [--trips=2630]

It makes a zip file of so many trips with twenty calls each, and a day on which a hundred trains are late. The network has 38
events a trip, and may have 100,000. It prints the seconds of processor and the most memory of each step from the zip file to a
plan that is checked, a picture and a table of new times; and of both converters of GTFS-Realtime. gtfs_rt_out writes all trips.
gtfs_rt_in reads a message of 3,000 trips beside the feed of the day, and reports those that are not in the network. Then it prints
the seconds of their parts, as with --every: what a converter reads once, its first message, and one a minute later.
"""
from __future__ import annotations

import contextlib
import io
import os
import subprocess
import tempfile
import time
import zipfile
from typing import Callable, Sequence, TypeVar

from dispatch_tools.bench.measured import measured, Measured
from dispatch_tools.commands.gtfs_rt_out import words_of as asked
from dispatch_tools.dev.feeds import DATE, large_feed, write_feed
from dispatch_tools.formats.giv import read_network
from dispatch_tools.formats.protobuf import decode, encode, Message
from dispatch_tools.formats.realtime import read_named
from dispatch_tools.here import words_of
from dispatch_tools.live.gtfs_rt_in import Listener
from dispatch_tools.live.gtfs_rt_out import Writer
from dispatch_tools.live.known import Known
from dispatch_tools.live.trips import Said
from dispatch_tools.words import command_line, whole_between

Made = TypeVar('Made')

CALLS, LATE, NOW, IN_MESSAGE, BUDGET = 20, 100, 28_800, 3_000, 16_384


def tool(name: str, *words: str) -> Measured:
    """What a tool takes that is started from the command line."""
    return measured([*words_of(name), *words])


def shown(what: str, done: Measured) -> None:
    print(f'{what}: {done.seconds:.2f} s, {done.megabytes:.0f} MB, status {done.status}', flush=True)


def took(what: str, work: Callable[[], Made]) -> Made:
    """Prints the seconds of processor that some work in this process takes, and gives its result."""
    began = time.process_time()
    with contextlib.redirect_stderr(io.StringIO()):
        made = work()
    print(f'  {what}: {time.process_time() - began:.2f} s', flush=True)
    return made


def zipped(folder: str) -> str:
    """A zip file of the tables in a folder."""
    name = f'{folder}.zip'
    with zipfile.ZipFile(name, 'w', zipfile.ZIP_DEFLATED) as file:
        for table in sorted(os.listdir(folder)):
            file.write(os.path.join(folder, table), table)
    return name


def there_and_back(program: str, source: str, net: str, late: list[str], folder: str) -> None:
    """From a zip file to a network, a plan, its check, a picture and new times."""
    feed, text = os.path.join(folder, 'planned'), os.path.join(folder, 'planned.text')
    steps = [took_by('from_gtfs', tool('from_gtfs', source, DATE, net))]
    with open(feed, 'w', encoding='ascii') as file:
        file.writelines([*late, f'plan {BUDGET}\n', 'adopt\n'])
    steps.append(took_by('run, with a plan', measured([os.path.abspath(program), 'run', net, feed], folder=folder, output='planned.text')))
    steps.append(took_by('check', measured([program, 'check', net, text])))
    steps.append(took_by('view', tool('view', net, text)))
    steps.append(took_by('to_gtfs', tool('to_gtfs', net, text, os.path.join(folder, 'late'), f'--feed={source}')))
    print(f'from end to end: {sum(steps):.2f} s', flush=True)


def took_by(what: str, done: Measured) -> float:
    """Prints what a step took, and gives its seconds."""
    shown(what, done)
    return done.seconds


def parts_of_in(net: str, feed: str, message: Message) -> None:
    later = {**message, 'header': {**message['header'], 'timestamp': message['header']['timestamp'] + 60}}
    first, second = encode(message), encode(later)

    def begin() -> Listener:
        network = read_network(net)
        return Listener(network, read_named(net), Known(network, feed).now(), Said())
    listener = took('it reads the network and its names', begin)
    took('it reads the first message', lambda: listener.take(first, 'first'))
    took('it reads one a minute later', lambda: listener.take(second, 'second'))


def parts_of_out(net: str, text: str, out: str) -> None:
    writer = took('it reads the names', lambda: Writer(asked([net, text, out])))
    took('it writes the first message', writer.write)
    took('it writes it again', writer.write)


def main(argv: Sequence[str] | None = None) -> int:
    words = command_line(__doc__)
    words.add_argument('dispatcher', metavar='DISPATCHER', help='the built program')
    words.add_argument('--trips', type=whole_between(1, 2_631), default=2_630, metavar='N', help='number of trips (2630)')
    given = words.parse_args(argv)
    with tempfile.TemporaryDirectory() as folder:
        source, net, feed, text, out, more = (os.path.join(folder, name) for name in ('gtfs', 'net', 'feed', 'text', 'out.pb', 'more.pb'))
        agency = ['agency_name,agency_url,agency_timezone', 'X,https://example.org,Europe/Berlin']
        write_feed(source, {**large_feed(given.trips, CALLS), 'agency.txt': agency})
        late = [f'delay event {1 + 38 * (number * given.trips // LATE)} 300\n' for number in range(LATE)]
        there_and_back(given.dispatcher, zipped(source), net, late, folder)
        with open(feed, 'w', encoding='ascii') as file:
            file.writelines([*late, f'now {NOW}\n'])
        with open(text, 'wb') as file:
            subprocess.run([given.dispatcher, 'run', net, feed], stdout=file, stderr=subprocess.DEVNULL, check=True)
        shown('gtfs_rt_out', tool('gtfs_rt_out', net, text, out))
        parts_of_out(net, text, out)
        with open(out, 'rb') as file:
            message = decode(file.read())
        updates = message['entity']
        for number in range(given.trips, IN_MESSAGE):
            update = updates[number % given.trips]['trip_update']
            updates.append({'id': f'more-{number}', 'trip_update': {**update, 'trip': {'trip_id': f'T{number}', 'start_date': DATE}}})
        with open(more, 'wb') as file:
            file.write(encode(message))
        shown(f'gtfs_rt_in, {len(updates)} trips by {CALLS} calls in {os.path.getsize(more)} bytes', tool('gtfs_rt_in', net, feed, more, '--replay'))
        parts_of_in(net, feed, message)
    return 0
