"""Runs a command of the package by its name: dispatch-tools COMMAND [WORD ..]

At the top of the repository `python3 -m dispatch_tools COMMAND [WORD ..]` does the same. Without a command it lists all of them,
each with the first line of its help text. `dispatch-tools COMMAND --help` prints the whole help text of one.
"""
from __future__ import annotations

import ast
import importlib
import os
import sys
from typing import Optional, Sequence

HERE = os.path.dirname(os.path.abspath(__file__))

# The packages that hold commands, and for what these are.
PACKAGES = {
    'commands': 'for control rooms and planners',
    'oracle': 'judge the program by a second reading',
    'bench': 'measure the program, and try it hard',
    'dev': 'change the project',
}


def page_of(path: str) -> str:
    """The comment at the head of a file, or nothing if the file is no command."""
    with open(path, encoding='utf-8') as file:
        text = file.read()
    return (ast.get_docstring(ast.parse(text)) or '') if '\ndef main(argv' in text else ''


def commands_in(package: str) -> dict[str, str]:
    """The commands of a package, each with its page."""
    folder = os.path.join(HERE, package)
    names = sorted(name.removesuffix('.py') for name in os.listdir(folder) if name.endswith('.py') and not name.startswith('_'))
    pages = {name: page_of(os.path.join(folder, f'{name}.py')) for name in names}
    return {name: page for name, page in pages.items() if page}


def package_of(name: str) -> Optional[str]:
    """The package that has a command, or nothing."""
    paths = ((package, os.path.join(HERE, package, f'{name}.py')) for package in PACKAGES if name.isidentifier())
    return next((package for package, path in paths if os.path.isfile(path) and page_of(path)), None)


def listed() -> str:
    """All commands with what they do."""
    lines = ['dispatch-tools COMMAND [WORD ..]']
    for package, about in PACKAGES.items():
        commands = commands_in(package)
        widest = max(map(len, commands))
        lines += ['', f'{package}: {about}']
        lines += [f'  {name:{widest}}  {page.splitlines()[0].split(": ", 1)[0].rstrip(":.")}' for name, page in commands.items()]
    return '\n'.join(lines)


def main(argv: Optional[Sequence[str]] = None) -> int:
    name, *words = (sys.argv[1:] if argv is None else argv) or ['--help']
    if name in ('-h', '--help'):
        print(listed())
        return 0
    package = package_of(name)
    if package is None:
        print(f'"{name}" is no command; dispatch-tools lists all', file=sys.stderr)
        return 2
    # argparse names a command as it was called.
    sys.argv[0] = f'dispatch-tools {name}'
    status: int = importlib.import_module(f'dispatch_tools.{package}.{name}').main(words)
    return status


if __name__ == '__main__':
    sys.exit(main())
