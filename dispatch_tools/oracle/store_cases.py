"""Says what dm_store_cases should print, by a second reading of the form of a journal: dispatch-tools store_cases

A journal is blocks: a gate `+`, the length of the content in decimal digits, LF, and the content. Blocks count up to the first
whose gate is not open, or which is not whole. After the last one stands an end. It is repaired if a crash may have left it. A
tear is what a crash makes of a write that no sync followed. `tests` compares the lines with those in the crate.
"""
from __future__ import annotations

from collections.abc import Sequence

from dispatch_tools.oracle.journals import lines
from dispatch_tools.words import command_line


def main(argv: Sequence[str] | None = None) -> int:
    command_line(__doc__).parse_args(argv)
    print('\n'.join(lines()))
    return 0
