"""A second reading of the form of a journal."""
from __future__ import annotations

from collections.abc import Callable, Iterable
from typing import NamedTuple

from dispatch_tools.formats.journal import read_blocks, VERSION

CLOSED = b'~'

# A head and two rounds.
ROUNDS = (VERSION + b'penalty 3600\nplans 16\nfeeds 2\n', b'feed 1 1\n1 delay event 1 60 -> 1 ok\nfeed 2 1\n1 cost -> 1 cost 0\n',
          b'feed 1 0\nfeed 2 0\n')
OTHERS = b'+~7\0'

FILES = {
    'no-bytes': b'', 'closed-gate': b'~', 'open-gate': b'+', 'other-gate': b'x', 'text': b'hello', 'open-text': b'+hello',
    'other-version': b'+11\ndm-store 2\n~', 'no-version': b'+3\nabc~', 'no-number': b'+11\ndm-store 1\n+x\nabc~',
    'leading-zero': b'+11\ndm-store 1\n+03\nabc~', 'too-long': b'+11\ndm-store 1\n+9\nabc~',
    'far-too-long': b'+11\ndm-store 1\n+99999999999999999999999\nabc~', 'closed-block': b'+11\ndm-store 1\n~3\nabc~',
    'behind-closed': b'+11\ndm-store 1\n~3\nabc+3\nabc~',
}


class Call(NamedTuple):
    """A call on a disk: the bytes that it writes at an offset, the length that it cuts to, or neither."""
    at: int | None = None
    bytes: bytes = b''
    cut: int | None = None
    syncs: bool = False


# What a crash makes of the bytes of a write.
Tear = Callable[[bytes], bytes]

TEARS: tuple[Tear, ...] = (lambda _: b'', lambda it: it, lambda it: it[:1], lambda it: it[:7], lambda it: bytes(len(it)),
                           lambda it: b'+' * len(it), lambda it: b'5' * len(it))

# How many bytes more than were asked for such a crash makes a cut leave: all, or so many.
LONGER = (1 << 30, 0, 1, 7, 0, 0, 0)


def block(content: bytes) -> bytes:
    """A block with an open gate."""
    return b'+%d\n' % len(content) + content


def at_rest(contents: Iterable[bytes]) -> bytes:
    """A journal of these blocks."""
    return b''.join(map(block, contents)) + CLOSED


def is_crash_end(is_new: bool, end: bytes) -> bool:
    """Whether a crash may leave this end: in a new journal behind its own gate or a gate before a digit, else behind any that is shut."""
    if len(end) <= 1:
        return True
    if end.startswith(b'+'):
        return False
    return not is_new or end.startswith(CLOSED) or end[1:2].isdigit()


def answer(file: bytes) -> str:
    """What a recovery comes to: the number of blocks, or the letter of a refusal."""
    contents, end = read_blocks(file)
    if not contents:
        return '0' if is_crash_end(True, end) else 'n'
    if not contents[0].startswith(VERSION):
        return 'o'
    return str(len(contents)) if is_crash_end(False, end) else 'b'


def done(file: bytes, call: Call, tear: Tear, longer: int) -> bytes:
    """The file after a call that a crash cut short."""
    if call.cut is not None:
        return file[:min(call.cut + longer, len(file))]
    if call.at is not None:
        left = tear(call.bytes)
        return file[:call.at] + left + file[call.at + len(left):]
    return file


def left_by(file: bytes, calls: list[Call], failing: int, tear: Tear, longer: int) -> bytes:
    """What a crash leaves of a file after calls of which the one of this number, from 1, failed. A sync that fails syncs nothing."""
    disk, waiting = file, []
    for number, call in enumerate(calls[:failing], 1):
        if not call.syncs:
            waiting.append(call)
        elif number != failing:
            for one in waiting:
                disk = done(disk, one, TEARS[1], 0)
            waiting = []
    for one in waiting:
        disk = done(disk, one, tear, longer)
    return disk


def calls_of_commit(contents: list[bytes], content: bytes) -> list[Call]:
    """The calls that add a block."""
    gate = len(at_rest(contents)) - 1
    whole = block(content)
    return [Call(gate + 1, whole[1:] + CLOSED), Call(syncs=True), Call(gate, whole[:1]), Call(syncs=True)]


def calls_of_recovery(file: bytes) -> list[Call]:
    """The calls that repair the end of a file, the first of which reads it."""
    end = len(file) - len(read_blocks(file).end)
    return [Call(), Call(cut=end), Call(syncs=True), Call(end, CLOSED), Call(syncs=True)]


def left_for_tears(file: bytes, calls: list[Call], failing: int) -> list[bytes]:
    """What is left for each tear."""
    return [left_by(file, calls, failing, tear, longer) for tear, longer in zip(TEARS, LONGER)]


def shown(failing: int) -> str:
    """What two reply files show: one takes more, the other another text and then more. Where that call fails, half or nothing is."""
    first = 'a' + ('12' if failing == 1 else '1234')
    second = 'b' if failing == 2 else 'new'
    return f'{first}|{second}{"5" if failing == 3 else "56"}|'


def lines() -> list[str]:
    """All lines that are due."""
    journal = at_rest(ROUNDS)
    due = ['fronts ' + ''.join(answer(journal[:length]) for length in range(len(journal) + 1))]
    for byte in OTHERS:
        due.append('changed ' + ''.join(answer(journal[:at] + bytes([byte]) + journal[at + 1:]) for at in range(len(journal))))
    due += [f'{name} {answer(file)}' for name, file in FILES.items()]
    two = [VERSION, ROUNDS[2]]
    third = b'feed 1 1\n1 cost -> 1 cost 0\nfeed 2 0\n'
    for number in range(1, 6):
        due.append('commit ' + ''.join(map(answer, left_for_tears(at_rest(two), calls_of_commit(two, third), number))))
    blocks = at_rest(two)[:-1]
    torn = blocks + b'x3\nabc~'
    for number in range(1, 7):
        left = left_for_tears(torn, calls_of_recovery(torn), number)
        due.append('recover ' + ''.join(f'{answer(file)}{len(file) - len(blocks)}' for file in left))
    return due + ['shown ' + shown(number) for number in range(1, 5)]
