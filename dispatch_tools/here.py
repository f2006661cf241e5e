"""Where the repository is, and how a command of the package is called from any folder."""
from __future__ import annotations

import os
import sys

TOP = os.path.dirname(os.path.dirname(os.path.abspath(__file__)))


def words_of(name: str) -> list[str]:
    """The words that call a command, but for its own."""
    return [sys.executable, '-B', os.path.join(TOP, 'dispatch-tools'), name]
