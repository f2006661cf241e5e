"""Whether a server has the lock of its store, found out without touching it."""
from __future__ import annotations

import os
from typing import Optional


def is_held(path: str, table: str = '/proc/locks') -> Optional[bool]:
    """Whether somebody has the lock of a file, by the system's table of locks; None if the table does not say."""
    try:
        status = os.stat(path)
    except OSError:
        return False
    # The device of a file in a layered file system is not the one that the table names, so its number in it decides.
    try:
        with open(table, encoding='ascii') as file:
            return any(f':{status.st_ino} ' in line for line in file)
    except OSError:
        return None
