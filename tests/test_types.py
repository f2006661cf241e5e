"""The package is typed throughout, and a linter finds nothing in it; each command is listed, and no library stands on one."""
from __future__ import annotations

import ast
import os
import re
import shutil
import subprocess
import sys
import unittest
from typing import Iterator

from dispatch_tools.__main__ import PACKAGES, commands_in
from tests.samples import TOP

# Days that are played, of one name each, which one run of mypy cannot take together.
PLAYS = [os.path.join('examples', name, 'play.py') for name in ('day', 'live', 'midnight', 'replan')]

# The packages of libraries, and what each may stand on; and those of commands, which stand on libraries.
LIBRARIES: dict[str, list[str]] = {
    'model': [], 'formats': ['model'], 'live': ['model', 'formats', 'days'], 'pictures': ['model', 'formats'],
    'days': ['model', 'formats', 'pictures', 'live'], 'desk': ['model', 'formats', 'pictures', 'live', 'days'],
}
MOST_LINES = 500


def scripts(*folders: str) -> Iterator[str]:
    """The files of folders and of those below, from the top of the repository."""
    for folder in folders:
        for path, _, names in sorted(os.walk(os.path.join(TOP, folder))):
            yield from (os.path.relpath(os.path.join(path, name), TOP) for name in sorted(names) if name.endswith('.py'))


def text_of(script: str) -> str:
    with open(os.path.join(TOP, script), encoding='utf-8') as file:
        return file.read()


def imported(script: str) -> set[str]:
    """The packages of dispatch_tools and the tests that a file imports from."""
    modules = [node.module or '' for node in ast.walk(ast.parse(text_of(script))) if isinstance(node, ast.ImportFrom)]
    return {'tests' if module.startswith('tests') else module.split('.')[1] for module in modules if module.startswith(('dispatch_tools.', 'tests'))}


def said_by(*words: str) -> str:
    """What a command prints at the top of the repository; nothing where its status is 0."""
    done = subprocess.run(words, cwd=TOP, capture_output=True, text=True, check=False)
    return '' if done.returncode == 0 else done.stdout + done.stderr


class Checked(unittest.TestCase):
    @unittest.skipUnless(shutil.which('mypy'), 'mypy is not installed')
    def test_types_are_whole(self) -> None:
        self.assertEqual(said_by('mypy', '--config-file', 'pyproject.toml', '--no-error-summary'), '')
        for play in PLAYS:
            self.assertEqual(said_by('mypy', '--config-file', 'pyproject.toml', '--no-error-summary', play), '')

    @unittest.skipUnless(shutil.which('ruff') or shutil.which('pyflakes3'), 'neither ruff nor pyflakes3 is installed')
    def test_linter_finds_nothing(self) -> None:
        words = ['ruff', 'check', '--no-cache'] if shutil.which('ruff') else ['pyflakes3']
        self.assertEqual(said_by(*words, *sorted(scripts('dispatch_tools', 'tests', 'examples'))), '')


class Layers(unittest.TestCase):
    def test_libraries_stand_on_libraries(self) -> None:
        for package, below in LIBRARIES.items():
            for script in scripts(os.path.join('dispatch_tools', package)):
                self.assertLessEqual(imported(script), {package, 'here', 'words', *below}, script)

    def test_commands_stand_on_no_tests(self) -> None:
        for script in scripts('dispatch_tools'):
            self.assertNotIn('tests', imported(script), script)

    def test_package_is_found_without_help(self) -> None:
        for script in scripts('dispatch_tools'):
            self.assertNotIn('sys' + '.path', text_of(script), script)

    def test_no_file_is_long(self) -> None:
        for script in scripts('dispatch_tools'):
            self.assertLessEqual(text_of(script).count('\n'), MOST_LINES, script)


class Package(unittest.TestCase):
    def run_package(self, *words: str) -> subprocess.CompletedProcess[str]:
        return subprocess.run([sys.executable, '-B', '-m', 'dispatch_tools', *words], cwd=TOP, capture_output=True, text=True, check=False)

    def test_no_two_commands_have_one_name(self) -> None:
        names = [name for package in PACKAGES for name in commands_in(package)]
        self.assertEqual(len(names), len(set(names)))

    def test_lists_each_command(self) -> None:
        listed = [line.split()[0] for line in self.run_package().stdout.splitlines() if line.startswith('  ')]
        self.assertEqual(listed, [name for package in PACKAGES for name in commands_in(package)])
        for script in scripts(os.path.join('dispatch_tools', 'commands')):
            name = os.path.basename(script).removesuffix('.py')
            self.assertEqual(name in listed, name != '__init__', name)

    def test_page_shows_a_use_of_each(self) -> None:
        page = text_of(os.path.join('docs', 'TOOLS.md'))
        for name in (name for package in PACKAGES for name in commands_in(package)):
            self.assertEqual(len(re.findall(rf'`{name}[ `]', page)), 1, name)

    def test_runs_a_command_from_any_folder(self) -> None:
        for words in ['lint', '--help'], ['day'], ['relay', 'no such file', '--region', '1']:
            here = self.run_package(*words)
            done = subprocess.run([sys.executable, '-B', os.path.join('..', 'dispatch-tools'), *words], cwd=os.path.join(TOP, 'docs'),
                                  stdin=subprocess.DEVNULL, capture_output=True, text=True, check=False)
            self.assertEqual((done.returncode, done.stdout, done.stderr), (here.returncode, here.stdout, here.stderr))

    def test_refuses_what_is_no_command(self) -> None:
        for name in ('files', 'no/../lint', ''):
            done = self.run_package(name)
            self.assertEqual((done.returncode, done.stderr), (2, f'"{name}" is no command; dispatch-tools lists all\n'))

    def test_old_paths_say_where_to_go(self) -> None:
        for folder in ('tools', 'bench'):
            for script in scripts(folder):
                name = os.path.basename(script).removesuffix('.py')
                self.assertIn(f'sys.exit("{script} has moved: python3 -m dispatch_tools {name}, or dispatch-tools {name}")\n', text_of(script))
                self.assertTrue(any(name in commands_in(package) for package in PACKAGES), name)
        done = subprocess.run([sys.executable, '-B', 'tools/lint.py', 'net'], cwd=TOP, capture_output=True, text=True, check=False)
        self.assertEqual((done.returncode, done.stdout, done.stderr),
                         (1, '', 'tools/lint.py has moved: python3 -m dispatch_tools lint, or dispatch-tools lint\n'))


if __name__ == '__main__':
    unittest.main()
