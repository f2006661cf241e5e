"""Says what proving costs: dispatch-tools gate run [--anew] [CRATE..], or dispatch-tools gate functions [--most N] [CRATE..],
or dispatch-tools gate states [--most N] [CRATE..]

All three run at the top of a clone. `run` runs `rt ci` with these words, passes on what it prints, and ends with its status.
Meanwhile it looks at the prover's processes each second, and adds up the processor time of each crate: of its own proof, of its
tests and of its edits. What an earlier run on the machine has kept costs nothing, and has no row. With --anew all is proved.
Below stands the longest way: the crates that wait for each other, lowest first, whose proofs take most. No run from nothing ends
sooner.

`functions` says where the time of a first check went. A first check is `rt check` in the folder of a crate that has no out/, or
`rt all check --jobs 4` for all crates below one. It writes a file of out/incremental when each part of a proof ends. The step
from one file to the next is the time of the part, a little blurred if several jobs ran. A row has a crate's seconds, and those of
its dearest kinds of parts. `Lts` are the states in which a function can be: many owned values with a derived `Drop` make many.
`Proof`, `Goals` and `Tie` are what is proved of them. A later check writes the files anew, so that they say nothing.

`states` says which functions have the most states, by the thousands of bytes that the prover writes about them. It can be used on
a busy machine, with several jobs, and after later checks, too.
"""
import os
import subprocess
import sys
import time
from collections import defaultdict
from collections.abc import Iterable, Mapping, Sequence
from contextlib import suppress
from dataclasses import dataclass
from pathlib import Path

from dispatch_tools.dev.architecture import crates_of
from dispatch_tools.here import TOP
from dispatch_tools.words import command_line

# How often processes are looked at, in seconds.
PERIOD = 1.0

# What a crate's processor time goes to.
KINDS = ('proof', 'tests', 'edits')

# Seconds by kind.
Costs = defaultdict[str, float]

# Crates that wait one for the other, behind the seconds of all their proofs.
Way = tuple[float, list[str]]

NO_WAY: Way = (0.0, [])


@dataclass(frozen=True)
class Process:
    """A process of the prover, with the processor seconds that it and its ended children have had."""
    parent: int
    begun: int
    seconds: float
    crate: str
    kind: str


@dataclass(frozen=True)
class Part:
    """A part of a crate's proof, with the seconds that it took."""
    seconds: float
    crate: str
    name: str

    @property
    def kind(self) -> str:
        return self.name.rsplit('.', 1)[-1]


def kind_of(words: list[str], folder: str) -> str:
    """What a process of the prover works on, by its words and its folder."""
    if Path(folder).name.startswith('rt-edit'):
        return 'edits'
    return 'tests' if '--test' in words else 'proof'


def read_stat(folder: Path) -> list[str]:
    """What stands behind a process's name in its `stat`: its state, its parent and so on."""
    return folder.joinpath('stat').read_text(errors='replace').rpartition(')')[2].split()


def read_process(folder: Path, ticks: int) -> Process | None:
    """The process of a folder of /proc, if it is one of the prover that names a crate."""
    try:
        words = folder.joinpath('cmdline').read_bytes().decode(errors='replace').split('\0')
        if Path(words[0]).name != 'rattle' or '--crate-name' not in words:
            return None
        crate = words[words.index('--crate-name') + 1]
        kind = kind_of(words, os.readlink(folder / 'cwd'))
        numbers = read_stat(folder)
    except OSError:
        # It has ended.
        return None
    return Process(int(numbers[1]), int(numbers[19]), sum(map(int, numbers[11:15])) / ticks, crate, kind)


def read_below(proc: Path, top: int) -> Iterable[Path]:
    """The folders of the processes that this one has begun, and of those that they have."""
    children: dict[int, list[int]] = {}
    for folder in proc.iterdir():
        if folder.name.isdigit():
            with suppress(OSError):
                children.setdefault(int(read_stat(folder)[1]), []).append(int(folder.name))
    left = [top]
    while left:
        for pid in children.get(left.pop(), []):
            yield proc / str(pid)
            left.append(pid)


def read_processes(proc: Path, top: int, ticks: int) -> dict[int, Process]:
    """The prover's processes among those that this one has begun, by number."""
    found = {int(it.name): read_process(it, ticks) for it in read_below(proc, top)}
    return {pid: process for pid, process in found.items() if process}


class Meter:
    """The processor time of crates, from looks at the processes."""

    def __init__(self) -> None:
        self.seen: dict[tuple[int, int], tuple[Process, float]] = {}

    def look(self, processes: Mapping[int, Process]) -> None:
        """Notes what processes have cost so far; what a job costs that another one began counts as that one's."""
        sums: dict[int, float] = {}
        for pid, process in processes.items():
            top = pid
            while processes[top].parent in processes:
                top = processes[top].parent
            sums[top] = sums.get(top, 0.0) + process.seconds
        for top, seconds in sums.items():
            process = processes[top]
            before = self.seen.get((top, process.begun), (process, 0.0))[1]
            self.seen[top, process.begun] = process, max(before, seconds)

    def costs(self) -> dict[str, Costs]:
        """The seconds of each crate, by kind."""
        found: dict[str, Costs] = {}
        for process, seconds in self.seen.values():
            found.setdefault(process.crate, Costs(float))[process.kind] += seconds
        return found


def cost_rows(costs: Mapping[str, Mapping[str, float]]) -> list[str]:
    """The table of crates, the dearest first, with the sum in its last row."""
    rows = sorted(costs.items(), key=lambda it: (-sum(it[1].values()), it[0]))
    whole = {kind: sum(it.get(kind, 0) for it in costs.values()) for kind in KINDS}
    lines = [f'{"crate":22}{"seconds":>9}' + ''.join(f'{kind:>9}' for kind in KINDS)]
    for name, cost in [*rows, ('all', whole)]:
        lines.append(f'{name:22}{sum(cost.values()):9.0f}' + ''.join(f'{cost.get(kind, 0):9.0f}' for kind in KINDS))
    return lines


def longest_way(costs: Mapping[str, float], below: Mapping[str, Iterable[str]]) -> list[str]:
    """The crates, lowest first, that wait one for the other and cost most in all; `below` names what each crate stands on."""
    ways: dict[str, Way] = {}

    def way_to(crate: str) -> Way:
        if crate not in ways:
            seconds, way = max((way_to(it) for it in below.get(crate, ())), default=NO_WAY)
            own = costs.get(crate, 0.0)
            ways[crate] = (seconds + own, [*way, crate]) if own else (seconds, way)
        return ways[crate]

    return max(map(way_to, below), default=NO_WAY)[1]


def way_rows(costs: Mapping[str, Costs], below: Mapping[str, Iterable[str]]) -> list[str]:
    """The longest way, with the seconds of each proof on it and their sum."""
    proofs = {crate: seconds for crate, cost in costs.items() if (seconds := cost.get('proof', 0.0))}
    way = longest_way(proofs, below)
    return [f'the longest way: {sum(proofs[it] for it in way):.0f}', *(f'{it:22}{proofs[it]:9.0f}' for it in way)]


def run(words: list[str]) -> int:
    """Runs rt ci and prints what the crates have cost."""
    meter, ticks, begun = Meter(), os.sysconf('SC_CLK_TCK'), time.monotonic()
    with subprocess.Popen(['rt', 'ci', *words]) as gate:
        while gate.poll() is None:
            meter.look(read_processes(Path('/proc'), gate.pid, ticks))
            time.sleep(PERIOD)
    costs, below = meter.costs(), crates_of(Path(TOP, 'crates.txt').read_text())
    print(*cost_rows(costs), *way_rows(costs, below), f'minutes by the clock: {(time.monotonic() - begun) / 60:.1f}', sep='\n')
    return gate.returncode


def kept_folders(top: Path, names: Iterable[str]) -> Iterable[tuple[str, Path]]:
    """The folders of what checks of crates have kept, all if none is named, each with its crate."""
    wanted = set(names)
    for folder in sorted(top.glob('crates/*/out/incremental/*/')):
        crate = folder.parts[len(top.parts) + 1]
        if not wanted or crate in wanted:
            yield crate, folder


def read_parts(top: Path, names: Iterable[str]) -> list[Part]:
    """The parts of the proofs of crates, all if none is named, by the times at which their files were written."""
    parts = []
    for crate, folder in kept_folders(top, names):
        files = sorted((it.stat().st_mtime, it.stem) for it in folder.glob('*.oantt'))
        parts += [Part(now - before, crate, name) for (before, _), (now, name) in zip(files, files[1:])]
    return parts


def state_rows(top: Path, names: Iterable[str], most: int) -> list[str]:
    """The functions with the most states, and the thousands of bytes that are written of them."""
    sizes = [(file.stat().st_size, crate, file.name.removesuffix('.Lts.oantt'))
             for crate, folder in kept_folders(top, names) for file in folder.glob('*.Lts.oantt')]
    return [f'{size / 1000:9.0f} kB  {crate:22}{name}' for size, crate, name in sorted(sizes, key=lambda it: (-it[0], it[1:]))[:most]]


def most_costly(kinds: Costs, most: int) -> list[tuple[str, float]]:
    """The kinds that cost most, and what."""
    return sorted(kinds.items(), key=lambda it: -it[1])[:most]


def part_rows(parts: Iterable[Part], most: int) -> list[str]:
    """The table of crates, the dearest first, and of the dearest parts."""
    crates: dict[str, Costs] = {}
    for part in parts:
        crates.setdefault(part.crate, Costs(float))[part.kind] += part.seconds
    rows = sorted(crates.items(), key=lambda it: (-sum(it[1].values()), it[0]))
    lines = [f'{name:22}{sum(kinds.values()):7.0f} s  ' + '  '.join(f'{kind} {seconds:.0f}' for kind, seconds in most_costly(kinds, 4))
             for name, kinds in rows]
    dearest = sorted(parts, key=lambda it: (-it.seconds, it.crate, it.name))[:most]
    return [*lines, '', *(f'{it.seconds:7.1f} s  {it.crate:22}{it.name}' for it in dearest)]


def main(argv: Sequence[str] | None = None) -> int:
    parser = command_line(__doc__)
    verbs = parser.add_subparsers(dest='verb', required=True)
    whole = verbs.add_parser('run', help='run rt ci, and say what each crate costs')
    whole.add_argument('--anew', action='store_true', help='also prove what earlier runs have kept')
    whole.add_argument('crates', nargs='*', metavar='CRATE', help='only these crates')
    for verb, told in (('functions', 'which parts of first checks took long'), ('states', 'which functions have the most states')):
        kept = verbs.add_parser(verb, help=f'says {told}')
        kept.add_argument('--most', type=int, default=30, metavar='N', help='how many to print (30)')
        kept.add_argument('crates', nargs='*', metavar='CRATE', help='only these crates')
    asked = parser.parse_args(argv)
    if asked.verb == 'run':
        return run(['--anew'] * asked.anew + asked.crates)
    if asked.verb == 'states':
        rows = state_rows(Path('.'), asked.crates, asked.most)
    else:
        parts = read_parts(Path('.'), asked.crates)
        rows = part_rows(parts, asked.most) if parts else []
    if not rows:
        print('no crate here has kept the parts of a check', file=sys.stderr)
        return 1
    print(*rows, sep='\n')
    return 0
