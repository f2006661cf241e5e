"""Appends whole lines to feeds. Whatever here writes to a feed does so by this module.

A live server reads a feed while it grows. It keeps what it has read of a line that has not ended, and joins to it what comes
next. So half a line is a danger: `delay event 12 60` may be all that a full disk takes of `delay event 12 600`, and a line feed
behind it would make a line of it that nobody meant. Therefore

- writers of a feed take turns by a lock (`flock`) on it;
- room for all lines is kept before the first byte is written, so that a full disk leaves the feed as it was;
- all lines go in one write. Should it fail all the same, the feed is cut back to its old size;
- half a line that another writer left is ended so that it is malformed, whatever it began with.
"""
from __future__ import annotations

import ctypes
import errno
import fcntl
import os
import resource
import stat
import time
from typing import Sequence

from dispatch_tools.formats.files import BadFile
from dispatch_tools.formats.runtext import LONGEST_LINE

# No form of a line has such a word.
BROKEN_OFF = b' (broken off)'

# How many seconds a writer waits until others have written.
PATIENCE = 10.0

# Of Linux's fallocate: blocks are kept for a file, and it is no longer for that (FALLOC_FL_KEEP_SIZE).
KEEP_SIZE = 1
LIBRARY = ctypes.CDLL(None, use_errno=True)
NOT_THERE = (errno.EOPNOTSUPP, errno.ENOSYS, errno.EINVAL)


def append(name: str, lines: Sequence[str]) -> int:
    """Puts lines behind those of a feed, and gives the byte at which the first begins. The feed is made if it is not there.

    BadFile if it cannot be written, and then it is as it was.
    """
    data = b''.join(line.encode('ascii') + b'\n' for line in lines)
    if data.count(b'\n') != len(lines):
        raise ValueError('a line feed within a line')
    try:
        file = os.open(name, os.O_RDWR | os.O_APPEND | os.O_CREAT | os.O_CLOEXEC | os.O_NONBLOCK, 0o666)
        try:
            if not stat.S_ISREG(os.fstat(file).st_mode):
                raise BadFile(name, None, 'this is no file, which its writers could read again')
            take_turn(file)
            return written(file, data)
        finally:
            os.close(file)
    except OSError as error:
        raise BadFile(name, None, error.strerror or 'cannot be written') from error


def take_turn(file: int) -> None:
    """Takes the lock of a file, which ends when the file is closed; OSError if others have it for too long."""
    end = time.monotonic() + PATIENCE
    while True:
        try:
            return fcntl.flock(file, fcntl.LOCK_EX | fcntl.LOCK_NB)
        except BlockingIOError as error:
            if time.monotonic() > end:
                raise OSError(errno.EAGAIN, f'another writer has had its lock for {PATIENCE:.0f} seconds') from error
            time.sleep(0.01)


def written(file: int, data: bytes) -> int:
    """Writes whole lines behind a file, all or none, and gives the byte at which they begin."""
    size = os.fstat(file).st_size
    if not data:
        return size
    whole = ending(half_of(file)) + data
    keep_room(file, size, len(whole))
    count = os.write(file, whole)
    # Others write there who know nothing of the lock: what was written ends here, and perhaps not at the end of the file.
    end = os.lseek(file, 0, os.SEEK_CUR)
    if count < len(whole):
        if os.fstat(file).st_size == end:
            os.ftruncate(file, end - count)
        raise OSError(errno.ENOSPC, 'not all lines could be written, and none was')
    return end - len(data)


def half_of(file: int) -> bytes:
    """What stands behind the last line that has ended; of a long one its last bytes."""
    size = os.fstat(file).st_size
    last = os.pread(file, LONGEST_LINE + 1, max(0, size - LONGEST_LINE - 1))
    return last[last.rfind(b'\n') + 1:]


def ending(half: bytes) -> bytes:
    """What makes a malformed line of half a line. A comment is malformed only if it is too long."""
    if not half:
        return b''
    is_comment = half.lstrip(b' ').startswith(b'#')
    return BROKEN_OFF + b'.' * (LONGEST_LINE if is_comment else 0) + b'\n'


def keep_room(file: int, size: int, more: int) -> None:
    """Keeps room for more bytes behind a file; OSError if there is none. Some kinds of disks cannot keep any, and then nothing is
    known."""
    largest = resource.getrlimit(resource.RLIMIT_FSIZE)[0]
    if largest != resource.RLIM_INFINITY and size + more > largest:
        raise OSError(errno.EFBIG, os.strerror(errno.EFBIG))
    keep = getattr(LIBRARY, 'fallocate', None)
    if keep is None:
        return
    if keep(file, KEEP_SIZE, ctypes.c_int64(size), ctypes.c_int64(more)) and ctypes.get_errno() not in NOT_THERE:
        raise OSError(ctypes.get_errno(), os.strerror(ctypes.get_errno()))
