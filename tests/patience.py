"""How long a test waits for what has to come, on a machine that is loaded many times over."""
from __future__ import annotations

import time
from collections.abc import Callable

# No test takes it, unless what it waits for does not come.
PATIENCE = 120.0


def comes_to_be(is_so: Callable[[], bool]) -> bool:
    """Waits until something is so, and says whether it came to be."""
    end = time.monotonic() + PATIENCE
    while not is_so():
        if time.monotonic() > end:
            return False
        time.sleep(0.02)
    return True
