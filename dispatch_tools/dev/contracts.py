"""Compares what two states of the crates promise, as text: dispatch-tools contracts OLD [NEW] [--renamed dm_old=dm_new ..]

OLD and NEW are revisions of git, or folders of a checkout; NEW is this checkout if it is not given. Of each public function the
head and its clauses are compared, and of each definition under `specs/` its text; layout and comments do not count. What stands
word for word in another crate has moved, and is no difference. The script prints a line for each other difference, those of
functions first:

    changed dm_rows Rows.admit         the head or a clause reads otherwise
    gone dm_rows Rows.admit            no crate has it any more
    new dm_rows Rows.admit             no crate had it before

With --texts, both texts stand below what changed. --renamed says that a crate has another name, or that parts of it have moved into
another one; it may be given several times. The status is 1 if anything has changed or is gone.
"""
from __future__ import annotations

import io
import re
import subprocess
import sys
import tarfile
import textwrap
from collections import defaultdict
from pathlib import Path
from typing import Iterable, Iterator, Mapping, NamedTuple, Sequence

from dispatch_tools.here import TOP
from dispatch_tools.words import command_line

# The line that a function's head begins with, and the one that says what a block of methods is for.
HEAD = re.compile(r'^(\s*)pub (?:const )?(?:unsafe )?fn (\w+)')
METHOD = re.compile(r'^(\s+)fn (\w+)')
BLOCK = re.compile(r'^(pub trait|impl)\b(?:<.*?>)?\s*(.*?)\s*\{$')

# The line that a definition begins with.
DEFINES = re.compile(r'^(?:pub (?:record|data)|(?:abbrev|unfoldable) pub|pub) (\w+)')

PLACE = re.compile(r'^(?:.*/)?crates/(\w+)/(src|specs)/(.+)\.(rt|antt)$')


class Promise(NamedTuple):
    """What a public function or a definition says, without layout."""
    kind: str
    name: str
    crate: str
    text: str


def plain(lines: Iterable[str]) -> str:
    """Lines as one, without comments and doubled spaces."""
    kept = (line.strip() for line in lines if not line.lstrip().startswith(('//', '--', '#[')))
    return ' '.join(' '.join(kept).split())


def head_at(lines: Sequence[str], at: int) -> list[str]:
    """The lines of a function from its head to the one that opens its body or ends it."""
    margin = len(lines[at]) - len(lines[at].lstrip())
    for end in range(at, len(lines)):
        line = lines[end].rstrip()
        is_own = len(line) - len(line.lstrip()) == margin
        if line.endswith(';') and (is_own or end > at):
            return list(lines[at:end + 1])
        if is_own and (line.endswith('{') or line.strip() == '{}'):
            return [*lines[at:end], line.rstrip('{} ')]
        if is_own and line.endswith('}') and '{' in line and end == at:
            return [line[:line.rindex('{')]]
    return list(lines[at:])


def functions_of(text: str, crate: str) -> Iterator[Promise]:
    """The public functions of a file, and the methods of its public traits."""
    block, is_trait = '', False
    lines = text.splitlines()
    for at, line in enumerate(lines):
        opened = BLOCK.match(line)
        if opened:
            is_trait, block = opened[1] == 'pub trait', re.sub(r'<.*>|:.*', '', opened[2]).strip() + '.'
        elif line == '}':
            block, is_trait = '', False
        found = HEAD.match(line) or (METHOD.match(line) if is_trait else None)
        if found and 'ghost fn' not in line:
            yield Promise('function', block + found[2], crate, plain(head_at(lines, at)))


def definitions_of(text: str, crate: str) -> Iterator[Promise]:
    """The definitions of a file, each up to the next one or the next empty line."""
    name, body = '', list[str]()
    for line in [*text.splitlines(), '']:
        found = DEFINES.match(line)
        is_end = not line.strip() or found
        if name and is_end:
            yield Promise('definition', name, crate, plain(body))
            name, body = '', []
        if found and not line.startswith('pub mod '):
            name = found[1]
        if name:
            body.append(line)


def promises_of(files: Iterable[tuple[str, str]]) -> Iterator[Promise]:
    """What the files promise that are no insides."""
    for path, text in files:
        place = PLACE.match(path)
        if place and place[2] == 'src' and place[4] == 'rt':
            yield from functions_of(text, place[1])
        elif place and place[2] == 'specs' and place[4] == 'antt' and not place[3].startswith('Inside'):
            yield from definitions_of(text, place[1])


def files_in(state: str) -> list[tuple[str, str]]:
    """The files of a folder or of a revision, by their paths."""
    if Path(state, 'crates').is_dir():
        paths = sorted(path for kind in ('rt', 'antt') for path in Path(state, 'crates').glob(f'*/s*/**/*.{kind}'))
        return [(path.as_posix(), path.read_text(encoding='utf-8')) for path in paths]
    packed = subprocess.run(['git', '-C', str(TOP), 'archive', '--format=tar', state, 'crates'], capture_output=True, check=True).stdout
    with tarfile.open(fileobj=io.BytesIO(packed)) as tar:
        found = ((member.name, tar.extractfile(member)) for member in tar.getmembers() if PLACE.match(member.name))
        return [(name, file.read().decode('utf-8')) for name, file in found if file is not None]


def told(promises: Iterable[Promise], renamed: Mapping[str, str]) -> dict[tuple[str, str], list[Promise]]:
    """Promises by kind and name, under the names that crates have now."""
    by_name: dict[tuple[str, str], list[Promise]] = defaultdict(list)
    for one in promises:
        text = re.sub(r'\bdm_\w+', lambda found: renamed.get(found[0], found[0]), one.text)
        by_name[one.kind, one.name].append(one._replace(text=text))
    return by_name


def differences(old: Iterable[Promise], new: Iterable[Promise], renamed: Mapping[str, str]) -> Iterator[tuple[str, Promise, str]]:
    """What differs: a word, the promise, and the text that stands there now."""
    before, now = told(old, renamed), told(new, {})
    for key in sorted({*before, *now}, key=lambda key: (key[0] != 'function', key[1])):
        texts = {one.text for one in now.get(key, ())}
        had = {one.text for one in before.get(key, ())}
        unmatched = [one for one in now.get(key, ()) if one.text not in had]
        for one in before.get(key, ()):
            if one.text in texts:
                continue
            crate = renamed.get(one.crate, one.crate)
            other = next((it for it in unmatched if it.crate == crate), unmatched[0] if unmatched else None)
            if other is not None:
                unmatched.remove(other)
            yield ('changed', one, other.text) if other else ('gone', one, '')
        yield from (('new', one, one.text) for one in unmatched)


def renaming(text: str) -> tuple[str, str]:
    """Reads OLD=NEW."""
    old, equals, new = text.partition('=')
    if not (old.isidentifier() and equals and new.isidentifier()):
        raise ValueError(text)
    return old, new


def main(argv: Sequence[str] | None = None) -> int:
    words = command_line(__doc__)
    words.add_argument('old', metavar='OLD', help='a revision, or the folder of a checkout')
    words.add_argument('new', metavar='NEW', nargs='?', default=str(TOP), help='the same (this checkout)')
    words.add_argument('--renamed', metavar='OLD=NEW', type=renaming, action='append', default=[], help='a crate that has another name')
    words.add_argument('--texts', action='store_true', help='print both texts of what changed')
    asked = words.parse_args(argv)
    try:
        old, new = files_in(asked.old), files_in(asked.new)
    except subprocess.CalledProcessError as fault:
        print(fault.stderr.decode('utf-8', 'replace').strip(), file=sys.stderr)
        return 2
    is_weaker = False
    for word, one, now in differences(promises_of(old), promises_of(new), dict(asked.renamed)):
        is_weaker |= word != 'new'
        print(word, one.crate, one.name)
        if asked.texts and word == 'changed':
            print(textwrap.indent(f'- {one.text}\n+ {now}', '    '))
    return 1 if is_weaker else 0
