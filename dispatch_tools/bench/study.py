"""Runs drawn days by several policies:

    dispatch-tools study DISPATCHER NET FOLDER [--days=100] [--policies=P,P..] [--policy=MODULE:FUNCTION ..] [--jobs=N] [OPTION..]

It draws days of source delays over NET as dispatch-tools scenarios does, with its options --seed, --days, --kind, --probability,
--size, --every and --ahead. A policy is one of

    never, always, a number     the waiting rule of that name, or of at most so many seconds, after all that the day reported
    order-NUMBER, fcfs-NUMBER   trains wait at most so many seconds, and go in their scheduled order, or first come, first served: each
                                --every minutes, by what is known then
    morning                     one plan of 16,384 nodes, --morning minutes after the first event, of what is known then
    windows                     each --every minutes a plan of 4,096 nodes of the next --ahead minutes, of what is known then
    hindsight                   a plan of 16,384 nodes of all that the day reported: no choices cost less than its bound
    MODULE:FUNCTION             a function of yours that is asked each --every minutes (dispatch_tools/days/policies.py); MODULE is looked for in
                                the folder where you are, too. MODULE:FUNCTION:NUMBER calls it with a number

So never, always, a number and hindsight know the whole day, and all others what is known at the time. A policy leaves what it does
not choose as it is scheduled. FOLDER gets study.csv, with a line for each day and policy: the cost
and the bound in thousandths of passenger seconds, the passengers who missed a change, the minutes by which a train ends late and
by which a passenger arrives late, on average, and the seconds of processor of the program. It also gets report.md, the means with
their intervals of 95 %, and two pictures, if Debian's python3-matplotlib is installed. `check` judges each text.

A study that was broken off goes on where it was, if the words are the same. It uses all processors, or as many as --jobs says.
--engine=dask gives the days to a cluster of Dask at --scheduler (Debian's python3-distributed). Each worker needs the repository,
DISPATCHER and NET under the same paths as where the study is started. Start one for each processor, in the folder of your policies:

    dask-scheduler --host HOST --port 8786 --no-dashboard
    PYTHONPATH=REPOSITORY dask-worker tcp://HOST:8786 --nthreads 1 --no-nanny --no-dashboard
    /usr/bin/python3 REPOSITORY/dispatch-tools study DISPATCHER NET FOLDER --days=100 --engine=dask --scheduler=HOST:8786

Anybody who reaches a scheduler can run code on its workers: keep its port within a network that you trust.
"""
from __future__ import annotations

import argparse
import csv
import json
import os
import statistics
import sys
from concurrent.futures import ProcessPoolExecutor, as_completed
from contextlib import contextmanager
from functools import partial
from typing import Any, Callable, Iterable, Iterator, Sequence

from dispatch_tools.bench.study_days import function_of, NUMBERS, Outcome, outcome_of, Settings, Task
from dispatch_tools.days.delays import Drawing
from dispatch_tools.days.policies import policy_of
from dispatch_tools.days.scenarios import add_drawing_words, drawing_of
from dispatch_tools.formats.files import BadFile, write_all
from dispatch_tools.pictures.figures import Curve, millions, picture, progress, Scale, table
from dispatch_tools.words import add_network, command_line, whole_between

USUAL = 'never,120,300,always,order-120,fcfs-120,morning,windows,hindsight'


# ---- All days


def read_outcomes(name: str) -> list[Outcome]:
    """The outcomes that a broken study left, but for a last line that is cut."""
    if not os.path.exists(name):
        return []
    with open(name, encoding='utf-8', newline='') as file:
        rows = [row for row in csv.reader(file) if len(row) == len(Outcome._fields)][1:]
    return [Outcome(int(row[0]), row[1], int(row[2]), int(row[3]), *map(float, row[4:])) for row in rows]


@contextmanager
def by_processes(settings: Settings, tasks: list[Task], jobs: int) -> Iterator[Iterator[Outcome]]:
    """The outcomes of tasks as they come, by so many processes of this machine."""
    with ProcessPoolExecutor(jobs) as pool:
        yield (future.result() for future in as_completed([pool.submit(outcome_of, settings, task) for task in tasks]))


@contextmanager
def by_dask(settings: Settings, tasks: list[Task], scheduler: str) -> Iterator[Iterator[Outcome]]:
    """So by the workers of a cluster. What a worker was at that ends is given to another one."""
    try:
        import distributed
    except ImportError as error:
        raise BadFile('--engine=dask', None, "this needs Dask's distributed: Debian's python3-distributed") from error
    try:
        client = distributed.Client(scheduler, timeout=30)
    except OSError as error:
        raise BadFile(scheduler, None, 'no scheduler of Dask answers there') from error
    with client:
        futures = client.map(outcome_of, [settings] * len(tasks), tasks, pure=False, retries=2)
        yield (Outcome(*future.result()) for future in distributed.as_completed(futures))


def studied(settings: Settings, tasks: list[Task], folder: str, engine: Any) -> list[Outcome]:
    """The outcomes of all tasks; each is written as soon as an engine gives it."""
    name, known = os.path.join(folder, 'study.csv'), os.path.join(folder, 'settings.json')
    said = vars(settings) | {'dispatcher': ''}
    if os.path.exists(known):
        with open(known, encoding='utf-8') as file:
            if json.load(file) != said:
                raise BadFile(known, None, 'this folder has a study by other words')
    write_all(folder, {'settings.json': json.dumps(said, indent=1) + '\n'})
    outcomes = read_outcomes(name)
    write_all(folder, {'study.csv': table([Outcome._fields, *outcomes])})
    done = {outcome[:2] for outcome in outcomes}
    left = [task for task in tasks if task not in done]
    with engine(settings, left) as found, open(name, 'a', encoding='utf-8') as file:
        for count, outcome in enumerate(found, 1):
            outcomes.append(outcome)
            file.write(table([outcome]))
            file.flush()
            progress(f'\r{count} of {len(left)} days by a policy')
    progress('\n')
    return [outcome for outcome in outcomes if outcome[:2] in set(tasks)]


# ---- The report


def half_interval(values: list[float]) -> float:
    """Half of the interval of 95 % for the mean of values, by Student's distribution (its expansion in the degrees of freedom)."""
    free = len(values) - 1
    if free < 1:
        return 0
    z = statistics.NormalDist().inv_cdf(0.975)
    t: float = z + (z ** 3 + z) / (4 * free) + (5 * z ** 5 + 16 * z ** 3 + 3 * z) / (96 * free ** 2)
    half: float = t * statistics.stdev(values) / len(values) ** 0.5
    return half


def mean_in_print(values: Iterable[float], scale: float = 1) -> str:
    numbers = [value / scale for value in values]
    return f'{statistics.fmean(numbers):.2f} ± {half_interval(numbers):.2f}'


def above_bound(outcomes: list[Outcome], bounds: dict[int, int]) -> str:
    """How far costs are above the bound of their day, in hundredths, on the average."""
    shares = [100 * (outcome.cost - bounds[outcome.day]) / bounds[outcome.day] for outcome in outcomes if bounds.get(outcome.day)]
    return mean_in_print(shares) if shares else ''


def report(policies: list[str], outcomes: list[Outcome]) -> str:
    bounds = {outcome.day: outcome.bound for outcome in outcomes if outcome.policy == 'hindsight'}
    lines = ['| Policy | Days | Cost (millions) | Above the bound (%) | Passengers who miss a change | Minutes by train '
             '| Minutes by passenger | Seconds |', '|' + '---|' * 8]
    for policy in policies:
        own = [outcome for outcome in outcomes if outcome.policy == policy]
        cells = [mean_in_print(map(float, (getattr(outcome, name) for outcome in own)), 1e6 if name == 'cost' else 1)
                 for name in NUMBERS if name != 'bound']
        lines.append('| ' + ' | '.join([policy, str(len(own)), cells[0], above_bound(own, bounds), *cells[1:]]) + ' |')
    return '\n'.join(lines) + '\n'


def curves_of(policies: list[str], outcomes: list[Outcome], name: str, units: int) -> list[Curve]:
    """For each policy its days from the least to the largest, in so many units of one."""
    curves = []
    for policy in policies:
        values = sorted(round(units * getattr(outcome, name)) for outcome in outcomes if outcome.policy == policy)
        curves.append(Curve(policy, list(enumerate(values, 1))))
    return curves


def seconds(units: int) -> str:
    return f'{units / 1000:g}'


def write_pictures(folder: str, policies: list[str], outcomes: list[Outcome]) -> None:
    for name, title, up, units, in_words in (
        ('cost', 'What days cost by policy', 'cost (millions)', 1, millions),
        ('minutes_by_passenger', 'How late passengers arrive by policy', 'seconds late (mean)', 60_000, seconds),
    ):
        curves = curves_of(policies, outcomes, name, units)
        path = os.path.join(folder, f'{name}.svg')
        if not drawn_by_matplotlib(path, title, up, curves, in_words):
            write_all(folder, {f'{name}.svg': picture(title, 'days, from the least', up, curves, y_scale=Scale(in_words))})


def drawn_by_matplotlib(path: str, title: str, up: str, curves: list[Curve], in_words: Callable[[int], str]) -> bool:
    """Whether matplotlib is there and has drawn a picture."""
    try:
        import matplotlib
        matplotlib.use('svg')
        from matplotlib import pyplot
    except ImportError:
        return False
    figure, axes = pyplot.subplots(figsize=(8, 4.5))
    for curve in curves:
        axes.plot(*zip(*curve.points), marker='.', label=curve.name)
    axes.set(title=title, xlabel='days, from the least', ylabel=up)
    axes.yaxis.set_major_formatter(lambda value, _: in_words(round(value)))
    axes.grid(alpha=0.3)
    axes.legend()
    figure.savefig(path)
    pyplot.close(figure)
    return True


def words_read(argv: Sequence[str] | None) -> tuple[argparse.Namespace, Drawing]:
    words = command_line(__doc__)
    words.add_argument('dispatcher', metavar='DISPATCHER', help='the built program')
    add_network(words)
    words.add_argument('folder', metavar='FOLDER', help='folder for the study')
    add_drawing_words(words)
    words.set_defaults(days=100)
    words.add_argument('--policies', default=USUAL, metavar='P,P..', help=f'({USUAL})')
    own = 'a policy of yours beside the others; may be given several times'
    words.add_argument('--policy', action='append', default=[], metavar='MODULE:FUNCTION', help=own)
    words.add_argument('--morning', type=whole_between(0, 1440), default=120, metavar='MINUTES', help='minutes to the plan (120)')
    words.add_argument('--penalty', type=whole_between(0, 1_000_000), default=3600, metavar='T', help='penalty in seconds (3600)')
    words.add_argument('--jobs', type=whole_between(1, 256), default=os.cpu_count() or 1, metavar='N', help='how many at once (all)')
    engines = 'processes of this machine, or a cluster of Dask (processes)'
    words.add_argument('--engine', choices=('processes', 'dask'), default='processes', help=engines)
    words.add_argument('--scheduler', metavar='HOST:PORT', help='where the scheduler of Dask is')
    given = words.parse_args(argv)
    if (given.engine == 'dask') != (given.scheduler is not None):
        words.error('--engine=dask and --scheduler go together')
    given.policies = list(dict.fromkeys([*filter(None, given.policies.split(',')), *given.policy]))
    for policy in given.policies:
        if ':' in policy:
            try:
                policy_of(policy)
            except BadFile as fault:
                words.error(str(fault))
        elif policy not in USUAL.split(',') and not policy.isdecimal() and function_of(policy) is None:
            words.error(f'"{policy}" is no policy')
    return given, drawing_of(words, given)


def main(argv: Sequence[str] | None = None) -> int:
    given, _ = words_read(argv)
    policies = given.policies
    settings = Settings(
        os.path.abspath(given.dispatcher), os.path.abspath(given.net), given.seed, given.kind, given.probability, given.size, given.every, given.ahead,
        given.morning, given.penalty,
    )
    tasks = [Task(day, policy) for day in range(1, given.days + 1) for policy in policies]
    try:
        engine = partial(by_dask, scheduler=given.scheduler) if given.engine == 'dask' else partial(by_processes, jobs=given.jobs)
        outcomes = studied(settings, tasks, given.folder, engine)
    except BadFile as fault:
        print(f'study: {fault}', file=sys.stderr)
        return 2
    told = report(policies, outcomes)
    write_all(given.folder, {'report.md': told})
    write_pictures(given.folder, policies, outcomes)
    print(told, end='')
    return 0
