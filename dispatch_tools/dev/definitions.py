"""Lists the definitions that contracts cite, each with what it says and where it stands: dispatch-tools definitions [WORD ..]

The definitions stand in the folders `specs/` of the crates, each below a comment that says what it means. The script prints one
below the other: name, crate and file, comment. WORD is the name of a crate, which lists its definitions in the order of its
files; or a name or a part of one, which lists those with it, whatever the case. Without a word it lists all. What stands in a
folder `Inside` describes loops and stages, and is left out unless --inside is given.

The status is 1 if nothing is found.
"""
from __future__ import annotations

import re
import textwrap
from pathlib import Path
from typing import Iterator, NamedTuple, Sequence

from dispatch_tools.words import command_line

CRATES = Path(__file__).resolve().parents[2] / 'crates'

# The first line of a definition.
DEFINES = re.compile(r'^(?:pub (?:record|data)|(?:abbrev|unfoldable) pub) (\w+)')
LISTED = re.compile(r'^pub mod (\w+)', re.MULTILINE)


class Definition(NamedTuple):
    """A name, what the comment above it says, and where it stands."""
    name: str
    says: str
    crate: str
    file: str


def definitions_of(text: str, crate: str, file: str) -> Iterator[Definition]:
    """The public definitions of a file, each with the comment right above it."""
    comment: list[str] = []
    for line in text.splitlines():
        found = DEFINES.match(line)
        if found:
            yield Definition(found[1], ' '.join(comment), crate, file)
        comment = [*comment, line.removeprefix('--').strip()] if line.startswith('-- ') and not line.startswith('-- ----') else []


def files_of(crate: Path, inside: bool) -> Iterator[Path]:
    """The files of a crate's definitions, in the order in which its list names them."""
    specs = crate / 'specs'
    listed = specs / 'Lib.antt'
    names = LISTED.findall(listed.read_text(encoding='utf-8')) if listed.exists() else []
    files = sorted(specs.rglob('*.antt'), key=lambda file: (names.index(file.stem) if file.stem in names else len(names), file.name))
    for file in files:
        if file != listed and (inside or 'Inside' not in file.relative_to(specs).parts):
            yield file


def all_definitions(crates: Path, inside: bool = False) -> Iterator[Definition]:
    for crate in sorted(path for path in crates.iterdir() if path.is_dir()):
        for file in files_of(crate, inside):
            yield from definitions_of(file.read_text(encoding='utf-8'), crate.name, str(file.relative_to(crate / 'specs').with_suffix('')))


def is_asked(definition: Definition, word: str) -> bool:
    return word == definition.crate if word.startswith('dm_') else word.casefold() in definition.name.casefold()


def main(argv: Sequence[str] | None = None) -> int:
    words = command_line(__doc__)
    words.add_argument('words', metavar='WORD', nargs='*', help='crates, names, or parts of names (all)')
    words.add_argument('--inside', action='store_true', help='also what describes loops and stages')
    words.add_argument('--crates', type=Path, default=CRATES, metavar='FOLDER', help='folder of the crates (that of this repository)')
    asked = words.parse_args(argv)
    found = [one for one in all_definitions(asked.crates, asked.inside)
             if not asked.words or any(is_asked(one, word) for word in asked.words)]
    for one in found:
        print(f'{one.name}  ({one.crate}, {one.file})')
        if one.says:
            print(textwrap.fill(one.says, 100, initial_indent='    ', subsequent_indent='    '))
    return 0 if found else 1
