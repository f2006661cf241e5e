"""What proving costs: of processes and of the times of files that are made here."""
from __future__ import annotations

import os
import tempfile
import unittest
from pathlib import Path
from typing import Any, Sequence

from dispatch_tools.dev.gate import (
    cost_rows, Costs, longest_way, Meter, part_rows, read_parts, read_processes, state_rows, way_rows,
)

# The ticks of a second.
TICKS = 100


def make_process(proc: str, pid: int, parent: int, ticks: Sequence[int], words: Sequence[str], folder: str) -> None:
    """A process as /proc shows it: `ticks` are those of the process and of its ended children, in user and in system mode."""
    at = Path(proc, str(pid))
    at.mkdir()
    at.joinpath('cmdline').write_bytes(b'\0'.join(it.encode() for it in words) + b'\0')
    numbers = [parent, *[0] * 9, *ticks, 20, 0, 1, 0, 77]
    at.joinpath('stat').write_text(f'{pid} (rattle (x) R) R ' + ' '.join(map(str, numbers)))
    at.joinpath('cwd').symlink_to(folder)


class Processes(unittest.TestCase):
    def look(self, meter: Meter, *processes: Any) -> None:
        with tempfile.TemporaryDirectory() as proc:
            Path(proc, 'self').mkdir()
            for it in processes:
                make_process(proc, *it)
            meter.look(read_processes(Path(proc), 1, TICKS))

    def test_own_proof_with_its_jobs_and_ended_children(self) -> None:
        meter, words = Meter(), ['/kit/bin/rattle', 'build', '--crate-name', 'low', 'src/lib.rt']
        self.look(meter, (5, 1, (300, 50, 40, 10), words, '/copy/crates/low'),
                  (6, 5, (100, 0, 0, 0), words, '/copy/crates/low'))
        self.assertEqual(meter.costs(), {'low': {'proof': 5.0}})
        # The job has ended, and its time is its parent's.
        self.look(meter, (5, 1, (300, 50, 150, 10), words, '/copy/crates/low'))
        self.assertEqual(meter.costs(), {'low': {'proof': 5.1}})

    def test_tests_and_edits_apart(self) -> None:
        meter, words = Meter(), ['rattle', 'check', '--crate-name', 'high', 'src/lib.rt']
        self.look(meter, (5, 1, (100, 0, 0, 0), [*words, '--test'], '/copy/crates/high'),
                  (6, 1, (200, 0, 0, 0), words, '/elsewhere/rt-edit-4-abc'), (7, 1, (300, 0, 0, 0), words, '/elsewhere/rt-edit-4-def'))
        self.assertEqual(meter.costs(), {'high': {'tests': 1.0, 'edits': 5.0}})

    def test_other_programs_and_other_runs_cost_nothing(self) -> None:
        meter, words = Meter(), ['rattle', 'build', '--crate-name', 'low', 'src/lib.rt']
        self.look(meter, (5, 1, (100, 0, 0, 0), ['/kit/bin/rattle', 'fmt'], '/copy'),
                  (6, 1, (9, 0, 0, 0), ['clang', '--crate-name', 'low'], '/copy'),
                  (7, 2, (9, 0, 0, 0), words, '/other/crates/low'))
        self.assertEqual(meter.costs(), {})

    def test_table_begins_with_the_dearest(self) -> None:
        rows = cost_rows({'low': {'proof': 12.4}, 'high': {'proof': 20, 'tests': 31, 'edits': 9}})
        self.assertEqual([row.split() for row in rows], [
            ['crate', 'seconds', 'proof', 'tests', 'edits'], ['high', '60', '20', '31', '9'], ['low', '12', '12', '0', '0'],
            ['all', '72', '32', '31', '9']])


class Ways(unittest.TestCase):
    # Two ways from bottom to top, and one crate beside them.
    BELOW: dict[str, list[str]] = {'bottom': [], 'left': ['bottom'], 'right': ['bottom'], 'top': ['left', 'right', 'bottom'], 'beside': ['bottom']}

    def test_the_dearer_of_two_ways(self) -> None:
        self.assertEqual(longest_way({'bottom': 1, 'left': 5, 'right': 7, 'top': 2}, self.BELOW), ['bottom', 'right', 'top'])
        self.assertEqual(longest_way({'bottom': 1, 'left': 8, 'right': 7, 'top': 2}, self.BELOW), ['bottom', 'left', 'top'])

    def test_one_dear_crate_that_nothing_stands_on(self) -> None:
        self.assertEqual(longest_way({'bottom': 1, 'left': 5, 'right': 7, 'top': 2, 'beside': 10}, self.BELOW), ['bottom', 'beside'])

    def test_what_was_kept_is_no_part_of_it(self) -> None:
        self.assertEqual(longest_way({'right': 7, 'top': 2}, self.BELOW), ['right', 'top'])
        self.assertEqual(longest_way({}, self.BELOW), [])

    def test_rows_have_proofs_alone(self) -> None:
        costs = {'bottom': Costs(float, proof=1.4, tests=90), 'right': Costs(float, proof=7), 'left': Costs(float, edits=50)}
        self.assertEqual([row.split() for row in way_rows(costs, self.BELOW)], [
            ['the', 'longest', 'way:', '8'], ['bottom', '1'], ['right', '7']])


class Parts(unittest.TestCase):
    def setUp(self) -> None:
        self.room = tempfile.TemporaryDirectory()
        self.addCleanup(self.room.cleanup)
        self.top = Path(self.room.name)

    def write(self, crate: str, **times: float) -> None:
        folder = self.top / 'crates' / crate / 'out' / 'incremental' / 'sum'
        folder.mkdir(parents=True)
        for name, seconds in times.items():
            file = folder / f'{name.replace("_", ".")}.oantt'
            file.touch()
            os.utime(file, (seconds, seconds))

    def test_steps_from_file_to_file(self) -> None:
        self.write('low', open_Lts=107, first=100, open_Proof=109)
        parts = read_parts(self.top, [])
        self.assertEqual([(it.seconds, it.crate, it.name, it.kind) for it in parts],
                         [(7, 'low', 'open.Lts', 'Lts'), (2, 'low', 'open.Proof', 'Proof')])

    def test_dearest_first_and_no_more_than_are_asked_for(self) -> None:
        self.write('low', a=100, open_Lts=103, shut_Lts=104)
        self.write('high', a=200, run_Lts=209, run_Tie=210)
        rows = part_rows(read_parts(self.top, []), 2)
        self.assertEqual([row.split() for row in rows], [
            ['high', '10', 's', 'Lts', '9', 'Tie', '1'], ['low', '4', 's', 'Lts', '4'], [],
            ['9.0', 's', 'high', 'run.Lts'], ['3.0', 's', 'low', 'open.Lts']])

    def test_states_by_what_is_written_of_them(self) -> None:
        self.write('low', open_Lts=100, open_Proof=101, shut_Lts=102)
        self.write('high', run_Lts=100)
        for crate, name, size in (('low', 'open.Lts', 4000), ('low', 'open.Proof', 90_000), ('low', 'shut.Lts', 1000), ('high', 'run.Lts', 9000)):
            self.top.joinpath('crates', crate, 'out', 'incremental', 'sum', f'{name}.oantt').write_bytes(bytes(size))
        self.assertEqual([row.split() for row in state_rows(self.top, [], 2)],
                         [['9', 'kB', 'high', 'run'], ['4', 'kB', 'low', 'open']])
        self.assertEqual([row.split()[2:] for row in state_rows(self.top, ['low'], 30)], [['low', 'open'], ['low', 'shut']])

    def test_crates_that_are_named(self) -> None:
        self.write('low', a=100, open_Lts=103)
        self.write('high', a=200, run_Lts=209)
        self.assertEqual([it.crate for it in read_parts(self.top, ['low'])], ['low'])


if __name__ == '__main__':
    unittest.main()
