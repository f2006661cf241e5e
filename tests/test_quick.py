"""The test without proofs: one wrong digit in a stored run, one broken script or one changed text makes it fail."""
from __future__ import annotations

import contextlib
import io
import os
import shutil
import subprocess
import sys
import tempfile
import unittest
import unittest.mock
from concurrent.futures import ThreadPoolExecutor
from pathlib import Path

from dispatch_tools.dev import quick
from dispatch_tools.dev.program import Repository
from tests.patience import comes_to_be, PATIENCE
from tests.samples import TOP

RUN = 'late_first_train'
VERDICT = 'late_time'

# Stands for the program: prints the text that the file `due` beside it has for a command's first word, with the status there.
PROGRAM = '''#!{python} -SE
import pathlib, sys
due = pathlib.Path(__file__).parent / 'due' / sys.argv[1]
sys.stdout.write(due.read_text())
sys.exit(1 if sys.argv[1] == 'check' else 0)
'''


def replace(path: Path, old: str, new: str) -> None:
    text = path.read_text(encoding='utf-8')
    assert old in text, f'{old} in {path}'
    path.write_text(text.replace(old, new, 1), encoding='utf-8')


def is_running(process: int) -> bool:
    """Whether a process is there, and is more than what its parent has not heard of."""
    try:
        return Path(f'/proc/{process}/stat').read_text(encoding='ascii').rpartition(') ')[2][0] != 'Z'
    except FileNotFoundError:
        return False


class Quick(unittest.TestCase):
    def setUp(self) -> None:
        """A repository with one stored run, one verdict, one example and one file of tests, and a program that does them right."""
        folder = tempfile.TemporaryDirectory()
        self.addCleanup(folder.cleanup)
        self.top = Path(folder.name)
        self.copy_cases('dm_runs', 'runs', RUN)
        self.copy_cases('dm_check_cases', 'texts', VERDICT)
        shutil.copytree(Path(TOP) / 'crates/dispatcher', self.top / 'crates/dispatcher', ignore=shutil.ignore_patterns('out', 'src'))
        self.program = self.top / 'program'
        self.program.write_text(PROGRAM.format(python=os.path.realpath(sys.executable)), encoding='utf-8')
        self.program.chmod(0o755)
        (self.top / 'due').mkdir()
        shutil.copy(self.top / 'crates/dm_runs/data/runs' / RUN / 'text', self.top / 'due/run')
        (self.top / 'due/check').write_text('bad 18 time\n', encoding='utf-8')
        self.write('tests/test_script.py', 'import unittest\nclass Script(unittest.TestCase):\n    def test(self):\n        from tests import script\n')
        self.write('tests/script.py', 'pass\n')
        self.write('tests/__init__.py', '')
        self.write('examples/small/README.md', '```sh\necho one\n```\n\n```\none\n```\n')
        for words in (['init', '-q'], ['add', '.']):
            subprocess.run(['git', *words], cwd=self.top, check=True)

    def copy_cases(self, crate: str, kind: str, name: str) -> None:
        """Copies one case of a crate with its network."""
        source, data = Path(TOP) / 'crates' / crate / 'data', self.top / 'crates' / crate / 'data'
        (data / kind).mkdir(parents=True)
        line = next(line for line in (source / 'cases').read_text(encoding='utf-8').splitlines() if line.startswith(f'{name} '))
        (data / 'cases').write_text(f'# what a line has\n{line}\n', encoding='utf-8')
        if (source / kind / name).is_dir():
            shutil.copytree(source / kind / name, data / kind / name)
        else:
            shutil.copy(source / kind / name, data / kind / name)
        shutil.copytree(source / 'networks/connection', data / 'networks/connection')

    def write(self, name: str, text: str) -> None:
        (self.top / name).parent.mkdir(parents=True, exist_ok=True)
        (self.top / name).write_text(text, encoding='utf-8')

    def tally(self, *parts: str) -> quick.Tally:
        """What comes of the parts."""
        with contextlib.redirect_stdout(io.StringIO()):
            return quick.all_of(self.top, list(parts), self.program)

    def tally_of_examples(self, program: quick.Program) -> quick.Tally:
        with ThreadPoolExecutor(1) as pool:
            return quick.in_all(quick.examples_of(self.top, program, pool))

    def assert_comes_to(self, passed: int, failed: list[str], *parts: str) -> None:
        tally = self.tally(*parts)
        self.assertEqual((tally.passed, [line.splitlines()[0] for line in tally.failed]), (passed, failed), tally)

    def test_all_is_right(self) -> None:
        self.assert_comes_to(6, [], 'tests', 'runs', 'verdicts', 'examples')

    def test_wrong_digit_in_a_stored_run(self) -> None:
        replace(self.top / 'crates/dm_runs/data/runs' / RUN / 'text', '2; 250', '2; 251')
        self.assert_comes_to(1, [f'run {RUN}: line 12 is not as stored'], 'runs')

    def test_wrong_status_of_a_stored_run(self) -> None:
        replace(self.top / 'crates/dm_runs/data/cases', 'connection 0', 'connection 3')
        self.assert_comes_to(1, [f'run {RUN}: status 0, and 3 is due: '], 'runs')

    def test_wrong_digit_in_a_stored_verdict(self) -> None:
        replace(self.top / 'crates/dm_check_cases/data/cases', 'bad 18', 'bad 19')
        self.assert_comes_to(0, [f'second reading of the stored verdicts: {VERDICT} 0: stored bad 19 time, judged bad 18 time',
                                 f"verdict {VERDICT}: 'bad 18 time' with status 1, and 'bad 19 time' is due"], 'verdicts')

    def test_broken_script(self) -> None:
        self.write('tests/script.py', 'pass pass\n')
        self.assert_comes_to(0, ['test_script.py: ERROR: test (tests.test_script.Script.test)'], 'tests')

    def test_script_that_fails_once(self) -> None:
        self.write('tests/script.py', 'import os\nif not os.path.exists("was_here"):\n    open("was_here", "w").close()\n    raise OSError\n')
        self.assertEqual(self.tally('tests'), quick.Tally(passed=1, noted=['test_script.py failed beside others, and runs by itself in the end']))

    def test_file_of_tests_that_ends_early(self) -> None:
        self.write('tests/test_script.py', 'import os\nos._exit(0)\n')
        self.assert_comes_to(0, ['test_script.py: ended with status 0: '], 'tests')

    def test_examples_that_play_a_day_are_named(self) -> None:
        for name in quick.PLAYS:
            self.assertIn('play.py', (Path(TOP) / 'examples' / name / 'README.md').read_text(encoding='utf-8'), name)
        self.write('examples/live/README.md', '```sh\nfalse\n```\n\n```\ntwo\n```\n')
        noted = ['left out: example live: it plays a day for minutes, which `night` does']
        self.assertEqual(self.tally('examples'), quick.Tally(passed=1, noted=noted))

    def test_long_commands_are_left_out_and_named_over_a_slow_program(self) -> None:
        page = Path(TOP) / 'examples/day/README.md'
        self.assertEqual(quick.long_commands_of(page), quick.LONG_COMMANDS)
        self.write('examples/small/README.md', '```sh\necho one\ndispatch-tools figures nothing\n```\n\n```\none\n```\n')
        noted = 'left out: example small: `dispatch-tools figures`, which takes minutes by a program without proofs; `night` does it'
        self.assertEqual(self.tally_of_examples(quick.Program(self.program, is_slow=True)), quick.Tally(passed=1, noted=[noted]))
        self.assertEqual(len(self.tally_of_examples(quick.Program(self.program)).failed), 1)

    def test_a_command_that_does_not_end_is_named(self) -> None:
        self.program.write_text('#!/bin/sh\nexec sleep 600\n', encoding='utf-8')
        with unittest.mock.patch.object(quick, 'SECONDS', 0.2):
            self.assert_comes_to(0, [f'run {RUN}: status -1, and 0 is due: did not end within 0.2 seconds', 'run of the crate dispatcher: not as stored'], 'runs')

    def test_what_does_not_end_in_time_is_ended_with_all_that_it_started(self) -> None:
        """A page's block is in a session of its own below that of the page."""
        started = self.top / 'started'
        self.write('examples/small/README.md', f'```sh\nsleep 600 & echo $! > {started}.new; mv {started}.new {started}; wait\n```\n')
        seconds = 2.0
        while not started.exists() and seconds < PATIENCE:
            with unittest.mock.patch.object(quick, 'SECONDS', seconds):
                self.assert_comes_to(0, [f'example small: did not end within {seconds} seconds'], 'examples')
            seconds *= 2
        self.assertTrue(comes_to_be(lambda: not is_running(int(started.read_text(encoding='utf-8')))))

    def test_changed_text_of_a_page(self) -> None:
        replace(self.top / 'examples/small/README.md', '```\none', '```\ntwo')
        self.assert_comes_to(0, ['example small: examples/small/README.md:6: no command printed or wrote these lines: two ..'], 'examples')

    def test_program_that_does_not_end_well(self) -> None:
        (self.top / 'due/check').unlink()
        self.assert_comes_to(1, [f"verdict {VERDICT}: '' with status 1, and 'bad 18 time' is due"], 'verdicts')

    def test_closing_line_and_status(self) -> None:
        for wrong, last in ((False, r'2 passed, 0 failed, \d+ s'), (True, r'1 passed, 1 failed, \d+ s')):
            if wrong:
                replace(self.top / 'due/check', '18', '17')
            said = io.StringIO()
            with contextlib.redirect_stdout(said):
                status = quick.main(['--program', str(self.program), '--only', 'verdicts'], self.top)
            self.assertRegex(said.getvalue().splitlines()[-1], f'^{last}$')
            self.assertEqual(status, int(wrong))

    def test_boards_in_files(self) -> None:
        run = quick.Run('some', 'connection', 0, ('run', 'net', '--boards=2'))
        self.write('net/board-2.txt', '2; 200\n3; 220\n2; 250\n')
        self.assertIsNone(quick.fault_of_boards(run, '2 2,3,5 - 2:250,3:220\n', self.top))
        self.assertEqual(quick.fault_of_boards(run, '2 2,3,5 - 2:200,3:220\n', self.top), "run some: board 2 shows {'2': '250', '3': '220'}")

    def test_every_line_of_the_lists_is_a_case(self) -> None:
        crates = Path(TOP) / 'crates'
        names = {'dm_runs': [run.name for run in quick.runs_in(crates / 'dm_runs/data')],
                 'dm_check_cases': [case.name for case in quick.verdicts_in(crates / 'dm_check_cases/data')]}
        for crate, found in names.items():
            stored = (crates / crate / 'stdout').read_text(encoding='utf-8').splitlines()
            self.assertEqual([f'{name} ok' for name in found], stored)


class Counted(unittest.TestCase):
    def test_skipped_and_failed_tests(self) -> None:
        told = 'FAIL: test_a (x.X.test_a)\n---\nRan 9 tests in 1.0s\n\nFAILED (failures=1, skipped=2)\n'
        tally = quick.counted('x', 1, told)
        self.assertEqual((tally.passed, tally.failed, tally.noted), (6, ['x: FAIL: test_a (x.X.test_a)'], ['left out: x: 2 of 9 tests']))


class Sources(unittest.TestCase):
    def test_crates_below_the_program(self) -> None:
        crates = Repository().crates()
        self.assertEqual(crates[0], 'dispatcher')
        self.assertIn('dm_base', crates)
        self.assertNotIn('dm_runs', crates)


if __name__ == '__main__':
    unittest.main()
