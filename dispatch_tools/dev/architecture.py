"""Lists the crates, lowest first, or compares the pages with them: dispatch-tools architecture [--compare] [CRATE ..]

A row says what a crate is, by the first sentence of its root, and names its nearest crates: those of its line in crates.txt to
which no other crate of the line leads. With CRATE it lists these crates, and those that stand on them right away.

With --compare it prints what differs, and the status is 1 if anything does. The pages of docs/ must name each crate `dm_..`, and none
that crates.txt does not have; in a name two points stand for any letters: `dm_.._cases` is every crate of cases.
"""
from __future__ import annotations

import re
import textwrap
from pathlib import Path
from typing import Iterator, Optional, Sequence

from dispatch_tools.here import TOP
from dispatch_tools.words import command_line

REPOSITORY = Path(TOP)

NAMED = re.compile(r'\bdm_(?:\w|\.\.(?=\w))+')
WIDTH = 130


def crates_of(text: str) -> dict[str, set[str]]:
    """The crates of a crates.txt, each with the crates of its line."""
    crates: dict[str, set[str]] = {}
    for line in text.splitlines():
        head, colon, listed = line.partition(':')
        if colon and not line.startswith('#'):
            crates[head.split()[0]] = set(listed.split())
    return crates


def nearest(crate: str, crates: dict[str, set[str]]) -> set[str]:
    """The crates of a crate's line that no other crate of the line leads to."""
    left = [other for listed in crates[crate] for other in crates.get(listed, ())]
    beyond: set[str] = set()
    while left:
        other = left.pop()
        if other not in beyond:
            beyond.add(other)
            left += crates.get(other, ())
    return crates[crate] - beyond


def first_sentence(root: str) -> str:
    """The first sentence of the comment at a crate's root."""
    lines = []
    for line in root.splitlines():
        said = line.removeprefix('//!').strip()
        if not line.startswith('//!') or not said:
            break
        lines.append(said)
    return re.split(r'(?<=[.])(?:\s|$)', ' '.join(lines), maxsplit=1)[0].rstrip('.')


def root_of(folder: Path, crate: str) -> str:
    """The text of a crate's root."""
    for name in ('lib.rt', 'main.rt'):
        path = folder / crate / 'src' / name
        if path.exists():
            return path.read_text(encoding='utf-8')
    return ''


def row_of(crate: str, sentence: str, stands_on: set[str]) -> str:
    """The row of a crate, in lines that are not too wide."""
    on = f' On {", ".join(sorted(stands_on))}.' if stands_on else ''
    return textwrap.fill(f'{crate}: {sentence}.{on}', WIDTH, subsequent_indent='  ', break_long_words=False, break_on_hyphens=False)


def lowest_first(crates: dict[str, set[str]]) -> list[str]:
    """The crates in an order in which each stands behind those of its line."""
    order: list[str] = []
    while len(order) < len(crates):
        left = [crate for crate in crates if crate not in order]
        order += [crate for crate in left if not crates[crate] & set(left)] or left
    return order


def covers(written_name: str, crate: str) -> bool:
    """Whether the name, as a page writes it, is that of the crate or stands for it."""
    return re.fullmatch(r'\w+'.join(map(re.escape, written_name.split('..'))), crate) is not None


def differences(pages: Sequence[str], crates: dict[str, set[str]]) -> Iterator[str]:
    """What differs, a line each."""
    named = {name for page in pages for name in NAMED.findall(page)}
    yield from (f'no page names {crate}' for crate in crates if crate.startswith('dm_') and not any(covers(name, crate) for name in named))
    yield from (f'{name} is no crate' for name in sorted(named) if not any(covers(name, crate) for crate in crates))


def main(argv: Optional[Sequence[str]] = None) -> int:
    words = command_line(__doc__)
    words.add_argument('--compare', action='store_true', help='print what differs between the pages and crates.txt')
    words.add_argument('--repository', type=Path, default=REPOSITORY, metavar='FOLDER', help='folder with docs, crates and crates.txt (here)')
    words.add_argument('crates', nargs='*', metavar='CRATE', help='a crate, with those that stand on it (all)')
    asked = words.parse_args(argv)
    crates = crates_of((asked.repository / 'crates.txt').read_text(encoding='utf-8'))
    if asked.compare:
        told = list(differences([path.read_text(encoding='utf-8') for path in sorted((asked.repository / 'docs').rglob('*.md'))], crates))
        print(*told, sep='\n', end='\n' if told else '')
        return 1 if told else 0
    for name in asked.crates:
        if name not in crates:
            words.error(f'{name} is no crate of crates.txt')
    for crate in lowest_first(crates):
        on = nearest(crate, crates)
        if not asked.crates or crate in asked.crates or on & set(asked.crates):
            print(row_of(crate, first_sentence(root_of(asked.repository / 'crates', crate)), on))
    return 0
