"""Tries the journal of dm_store over a real folder, and measures it:

    dispatch-tools store DM_STORE_CASES [--kills=N] [--folder=DIR]

DM_STORE_CASES is the built program of dm_store_cases. By words it opens a folder, recovers, commits blocks, and says what came of
it. First come ends that only a real folder has: a disk that is full (a limit on a file's size), `kill -9` at a random moment, the
lock of a second server, and a folder without rights for another user (only root tries this). Then comes each wrong file of the
second reading of dispatch-tools store_cases. Each has to be answered as it should. A refused journal has to stay as it was, and
what is left has to be blocks from the beginning. The order of its calls has to be that of dispatch-tools power (`strace`).

Then come figures: what a commit of 64 KB costs (calls by strace, instructions by callgrind, and its time beside that of the same
two writes and two syncs), and the seconds and the memory of a recovery of 128 MiB. The status is 1 if an end is wrong, or if a
recovery takes more memory than 1.1 times its size.
"""
from __future__ import annotations

import fcntl
import os
import random
import re
import resource
import shutil
import subprocess
import tempfile
import time
from collections.abc import Callable, Iterator, Sequence
from contextlib import contextmanager
from pathlib import Path
from typing import Any, NamedTuple

from dispatch_tools.bench.measured import measured
from dispatch_tools.bench.power import order_of, recorded_life, strace
from dispatch_tools.formats.journal import read_blocks, VERSION
from dispatch_tools.oracle.journals import answer, at_rest, block, FILES
from dispatch_tools.words import command_line

LARGEST = 134_217_728
BYTES = 65_536
COMMITS = 200

# What the program says if a journal is refused.
WORDS = {'n': 'no journal', 'o': 'other version', 'b': 'broken'}

# The other user.
USER = 'nobody'


class End(NamedTuple):
    """What an end is, and whether it is as it should be."""
    name: str
    is_right: bool
    said: str


def run(program: Path, folder: Path, blocks: int, size: int, **how: Any) -> str:
    """What the program says of a folder, its lines joined by commas."""
    words = [str(program), str(folder), str(blocks), str(size)]
    done = subprocess.run(words, stdout=subprocess.PIPE, text=True, timeout=600, check=False, **how)
    return ', '.join(done.stdout.splitlines())


def journal_of(blocks: int, size: int) -> bytes:
    """The journal of a head and so many blocks."""
    return at_rest([VERSION] + [b'x' * size] * blocks)


def is_front(file: bytes, size: int) -> bool:
    """Whether a journal is a head and blocks of this size, with an end that is repaired."""
    return answer(file) not in WORDS and read_blocks(file).contents[1:] == [b'x' * size] * (len(read_blocks(file).contents) - 1)


@contextmanager
def folder_with(journal: bytes | None, top: Path) -> Iterator[Path]:
    """A folder with this journal."""
    with tempfile.TemporaryDirectory(dir=top) as name:
        os.chmod(name, 0o755)
        if journal is not None:
            Path(name, 'journal').write_bytes(journal)
        yield Path(name)


def plain_ends(program: Path, top: Path) -> Iterator[End]:
    """A new folder, and the same again."""
    with folder_with(None, top) as folder:
        said = run(program, folder, 3, 100)
        whole = (folder / 'journal').read_bytes() == journal_of(3, 100)
        reply = (folder / 'reply-1.txt').read_bytes() == b'first\nsecond\n'
        yield End('a new folder', whole and reply and said == 'recovered 0, committed 3, shown', said)
        said = run(program, folder, 2, 100)
        whole = (folder / 'journal').read_bytes() == journal_of(5, 100)
        yield End('the same again', whole and said == f'recovered {len(journal_of(3, 100)) - 1}, committed 2, shown', said)


def wrong_ends(program: Path, top: Path) -> Iterator[End]:
    """Journals that are cut short, wrong or full."""
    for name, file in FILES.items():
        with folder_with(file, top) as folder:
            said = run(program, folder, 0, 0)
            left, letter = (folder / 'journal').read_bytes(), answer(file)
            if letter in WORDS:
                right = left == file and said == WORDS[letter]
            else:
                right = left == at_rest(read_blocks(file).contents or [VERSION]) and said.endswith('committed 0, shown')
            yield End(name, right, said)
    with folder_with(journal_of(0, 0)[:-1] + block(bytes(LARGEST - 40)) + b'~', top) as folder:
        file = (folder / 'journal').read_bytes()
        said = run(program, folder, 1, 100)
        yield End('no room for a block', (folder / 'journal').read_bytes() == file and 'full' in said, said)


def other_ends(program: Path, top: Path) -> Iterator[End]:
    """A second server, folders without rights, and none."""
    with folder_with(journal_of(1, 9), top) as folder, (folder / 'lock').open('w') as lock:
        fcntl.flock(lock, fcntl.LOCK_EX)
        said = run(program, folder, 1, 9)
        yield End('a second server', said == 'locked' and (folder / 'journal').read_bytes() == journal_of(1, 9), said)
    with folder_with(None, top) as folder:
        said = run(program, folder / 'none', 1, 9)
        yield End('no such folder', said == 'not opened', said)
    if os.geteuid() != 0:
        print('a folder without rights is tried by root alone')
        return
    with folder_with(journal_of(1, 9), top) as folder:
        said = run(program, folder, 1, 9, user=USER)
        yield End('a folder without rights', said == 'not opened' and os.listdir(folder) == ['journal'], said)


def limit_files(size: int) -> Callable[[], None]:
    """What sets the largest size of a file in a child."""
    return lambda: resource.setrlimit(resource.RLIMIT_FSIZE, (size, size))


def full_ends(program: Path, top: Path) -> Iterator[End]:
    """A disk that is full within a block: by an error of the system, and by the signal that ends the program."""
    for name, stays in (('a full disk', False), ('a full disk, by a signal', True)):
        with folder_with(None, top) as folder:
            said = run(program, folder, 9, 1000, preexec_fn=limit_files(3500), restore_signals=stays)
            left = (folder / 'journal').read_bytes()
            again = run(program, folder, 1, 1000)
            right = is_front(left, 1000) and len(read_blocks(left).contents) == 4 and (stays or 'failed' in said)
            right = right and (folder / 'journal').read_bytes() == journal_of(4, 1000)
            yield End(name, right, f'{said}; then {again}')


def killed_ends(program: Path, top: Path, kills: int) -> Iterator[End]:
    """What is left where the program is killed, over and over in one folder."""
    with folder_with(None, top) as folder:
        least, right = 0, True
        for _ in range(kills):
            child = subprocess.Popen([str(program), str(folder), '100', '1000'], stdout=subprocess.DEVNULL)
            time.sleep(random.uniform(0.001, 0.05))
            child.kill()
            child.wait()
            journal = folder / 'journal'
            left = journal.read_bytes() if journal.exists() else b''
            if left:
                right = right and is_front(left, 1000) and len(read_blocks(left).contents) >= least
                least = len(read_blocks(left).contents)
        yield End(f'killed {kills} times', right, f'{least} blocks')


def ordered_ends(program: Path, top: Path) -> Iterator[End]:
    """The order of the calls, in a new folder and in one that is opened again."""
    if not shutil.which('strace'):
        print('the order of the calls is judged where strace is')
        return
    files: dict[str, int] = {}
    with folder_with(None, top) as folder:
        # The first time the head is a block as well.
        for name, blocks, commits in (('the order of the calls', 3, 4), ('the order of the calls, again', 2, 2)):
            trace, words = top / 'trace', [str(program), str(folder), str(blocks), '100']
            life = recorded_life(folder, [], files, trace, lambda: subprocess.run(strace(trace, words), stdout=subprocess.DEVNULL, check=True))
            order, faults = order_of(life.events, life.before)
            right = not faults and (order.commits, order.put_anew) == (commits, 2)
            yield End(name, right, ', '.join(faults) or f'{order.commits} commits, {order.put_anew} files put anew')
            files = life.after


def bare_seconds(top: Path) -> float:
    """The seconds of two writes and two syncs a block, as a commit makes them, and nothing else."""
    whole = block(b'x' * BYTES)
    with tempfile.TemporaryFile(dir=top) as file:
        begun = time.perf_counter()
        at = 0
        for _ in range(COMMITS):
            os.pwrite(file.fileno(), whole[1:] + b'~', at + 1)
            os.fdatasync(file.fileno())
            os.pwrite(file.fileno(), b'+', at)
            os.fdatasync(file.fileno())
            at += len(whole)
        return time.perf_counter() - begun


def run_seconds(program: Path, top: Path, blocks: int) -> float:
    """The seconds of a run that commits so many blocks."""
    with folder_with(None, top) as folder:
        begun = time.perf_counter()
        run(program, folder, blocks, BYTES)
        return time.perf_counter() - begun


def calls_of_commits(program: Path, top: Path) -> dict[str, int]:
    """How many calls of the system of each name a run makes."""
    with folder_with(None, top) as folder:
        out = folder / 'calls'
        words = ['strace', '-c', '-U', 'name,calls', '-o', str(out), str(program), str(folder), str(COMMITS), str(BYTES)]
        subprocess.run(words, stdout=subprocess.DEVNULL, check=True)
        return {name: int(calls) for name, calls in re.findall(r'^(\w+) +(\d+)$', out.read_text(), re.MULTILINE)}


def instructions(program: Path, top: Path, blocks: int) -> int:
    """How many instructions a run takes."""
    with folder_with(None, top) as folder:
        out = folder / 'counts'
        words = ['valgrind', '--tool=callgrind', f'--callgrind-out-file={out}', str(program), str(folder), str(blocks), str(BYTES)]
        subprocess.run(words, stdout=subprocess.DEVNULL, stderr=subprocess.DEVNULL, check=True)
        found = re.search('^totals: ([0-9]+)$', out.read_text(), re.MULTILINE)
        assert found
        return int(found[1])


def print_commit(program: Path, top: Path) -> None:
    """Prints what a commit costs."""
    run_seconds(program, top, 1)
    seconds = run_seconds(program, top, COMMITS) - run_seconds(program, top, 0)
    print(f'a commit of 64 KB: {seconds / COMMITS * 1e3:.2f} ms, its writes and syncs alone {bare_seconds(top) / COMMITS * 1e3:.2f} ms')
    if shutil.which('strace'):
        calls = calls_of_commits(program, top)
        print('  calls of the system: ' + ', '.join(f'{calls.get(it, 0) / COMMITS:.2f} {it}' for it in ('lseek', 'write', 'fdatasync')))
    if shutil.which('valgrind'):
        print(f'  instructions: {(instructions(program, top, COMMITS) - instructions(program, top, 0)) / COMMITS:.0f}')


def print_recoveries(program: Path, top: Path) -> bool:
    """Prints what recoveries of 128 MiB cost, and gives whether each kept to its memory."""
    right = True
    for size in (BYTES, 64):
        count = (LARGEST - 16) // len(block(b'x' * size))
        with folder_with(journal_of(count, size), top) as folder:
            megabytes = (folder / 'journal').stat().st_size / (1 << 20)
            took = measured([str(program), str(folder), '0', '0'])
        print(f'a recovery of {megabytes:.0f} MiB, {count} blocks: {took.wall:.2f} s, {took.seconds:.2f} of processor, {took.megabytes:.0f} MB')
        right = right and took.status == 0 and 'recovered' in took.printed and took.megabytes <= 1.1 * megabytes
    return right


def main(argv: Sequence[str] | None = None) -> int:
    parser = command_line(__doc__)
    parser.add_argument('program', metavar='DM_STORE_CASES', type=Path, help='the built program of dm_store_cases')
    parser.add_argument('--kills', metavar='N', type=int, default=50, help='how often it is killed (50)')
    parser.add_argument('--folder', metavar='DIR', type=Path, help='folder in which the tries are made')
    words = parser.parse_args(argv)
    with tempfile.TemporaryDirectory(dir=words.folder) as name:
        top = Path(name)
        top.chmod(0o755)
        # The other user has to reach it.
        program = Path(shutil.copy(words.program, top / 'program'))
        program.chmod(0o755)
        ends = [*plain_ends(program, top), *wrong_ends(program, top), *other_ends(program, top), *full_ends(program, top),
                *killed_ends(program, top, words.kills), *ordered_ends(program, top)]
        for end in ends:
            print(f'{end.name}: {end.said}{"" if end.is_right else "  WRONG"}')
        print_commit(program, top)
        keeps = print_recoveries(program, top)
    return 0 if keeps and all(end.is_right for end in ends) else 1
