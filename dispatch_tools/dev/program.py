"""The program of this repository: the proved one where it is built, else one of the same sources that `rt try` builds without proofs.

`rt try` removes what it builds. So it is given a folder for that, and the program is linked to a second name while it stands
there.
"""
from __future__ import annotations

import contextlib
import hashlib
import os
import shutil
import subprocess
import tempfile
import threading
import time
from pathlib import Path
from typing import Iterator, Protocol

from dispatch_tools import here

TOP = Path(here.TOP)
NAME = 'dispatcher'

# The words of a run of half a second, by which the sources are tried: the program stands there for no longer.
SHORT_RUN = ['gen', '1', '100']

# How often it is looked whether the program stands there, and after how many seconds more is said.
LOOK = 0.01
WORD = 15.0


class Say(Protocol):
    """Takes a line for people."""

    def __call__(self, line: str) -> None: ...


class NotBuilt(Exception):
    """There is no program, and why."""


class Repository:
    """A clone of the repository, and the programs that were built in it."""

    def __init__(self, top: Path = TOP) -> None:
        self.top = top
        self.out = top / 'crates' / NAME / 'out'
        self.proved = self.out / NAME
        self.unproved = self.out / 'unproved'
        self.stamp = self.out / 'unproved.stamp'

    def crates(self) -> list[str]:
        """The program's crate and all below it, as `crates.txt` lists them."""
        lines = (line.partition('#')[0] for line in (self.top / 'crates.txt').read_text(encoding='utf-8').splitlines())
        below = {head.split()[0]: tail.split() for head, found, tail in (line.partition(':') for line in lines) if found}
        found = [NAME]
        for name in found:
            found += [low for low in below.get(name, []) if low in below and low not in found]
        return found

    def sources(self) -> Iterator[Path]:
        """The files of code of the program's crates."""
        for name in sorted(self.crates()):
            yield from sorted((self.top / 'crates' / name / 'src').rglob('*.rt'))

    def is_proved(self) -> bool:
        return os.access(self.proved, os.X_OK)

    def is_proved_of_these_sources(self) -> bool:
        """Whether the proved program was built, and no source has changed since."""
        return self.is_proved() and all(path.stat().st_mtime <= self.proved.stat().st_mtime for path in self.sources())

    def sum_of_sources(self) -> str:
        total = hashlib.sha256()
        for path in self.sources():
            total.update(f'{path.relative_to(self.top)} {path.stat().st_size}\n'.encode())
            total.update(path.read_bytes())
        return total.hexdigest()

    def is_kept(self) -> bool:
        """Whether a program without proofs is kept that was built of the sources as they are."""
        return os.access(self.unproved, os.X_OK) and self.stamp.is_file() and self.stamp.read_text(encoding='utf-8') == self.sum_of_sources()

    def built_without_proofs(self, say: Say) -> Path:
        """The program of these sources without proofs, which is built if it is not there."""
        if self.is_kept():
            return self.unproved
        if shutil.which('rt') is None:
            raise NotBuilt('the program is not built here, and there is no `rt` to build or try it with. `rt` comes with the toolchain that '
                           'docs/GUARANTEES.md names; it is not in this repository, nor for download. docs/CHANGING.md says what works without it')
        say('the proved program is not built here; its sources are built once without proofs, in one to three minutes')
        total = self.sum_of_sources()
        self.out.mkdir(exist_ok=True)
        with tempfile.TemporaryDirectory(dir=self.out, prefix='trying-') as folder:
            self.try_sources(Path(folder), say)
        self.stamp.write_text(total, encoding='utf-8')
        say('built; it is kept until a source changes, and no part of it is proved')
        return self.unproved

    def try_sources(self, folder: Path, say: Say) -> None:
        """Has `rt try` build the sources in a folder, and links what it built to the name that stays."""
        new = folder / 'kept'
        ended = threading.Event()
        watcher = threading.Thread(target=watch, args=(folder, new, ended, say))
        watcher.start()
        try:
            ran = subprocess.run(['rt', 'try', '--', *SHORT_RUN], cwd=self.top / 'crates' / NAME, env=dict(os.environ, TMPDIR=str(folder)),
                                 stdin=subprocess.DEVNULL, capture_output=True, text=True, errors='replace', check=False)
        finally:
            ended.set()
            watcher.join()
        if ran.returncode != 0 or not new.exists():
            raise NotBuilt(f'`rt try` built no program (status {ran.returncode}): {ran.stderr.strip()[-600:]}')
        os.replace(new, self.unproved)


def watch(folder: Path, new: Path, ended: threading.Event, say: Say) -> None:
    """Links the program that `rt try` builds in a folder to its new name while it stands there, and says every while how long it took."""
    began = told = time.monotonic()
    while not ended.wait(LOOK):
        for found in [] if new.exists() else folder.glob('*/*/program'):
            # It may be removed between the two.
            with contextlib.suppress(OSError):
                os.link(found, new)
        if time.monotonic() - told >= WORD:
            told = time.monotonic()
            say(f'still building, {told - began:.0f} s')
