"""Reads tables with quotes around the fields that need them, a record at a time, with the line at which it begins."""
from __future__ import annotations

import csv
import io
from typing import IO, Iterator

from dispatch_tools.formats.files import BadFile

# The most characters of a record, so that no file is held in memory as one.
LONGEST_RECORD = 1_000_000


class Lines:
    """The lines of a file for a reader of records. It knows where the record begins that is read, and its lines so far."""

    def __init__(self, name: str, file: io.TextIOBase, comment: str | None):
        self.name, self.file, self.comment = name, file, comment
        self.number = 0
        self.has_ended = False
        self.begin()

    def begin(self) -> None:
        self.first, self.left = self.number + 1, LONGEST_RECORD
        self.record: list[str] = []

    def __iter__(self) -> Lines:
        return self

    def __next__(self) -> str:
        line = self.file.readline(self.left + 1)
        while self.comment and self.number + 1 == self.first and line.startswith(self.comment):
            self.number += 1
            self.begin()
            line = self.file.readline(self.left + 1)
        if len(line) > self.left:
            raise BadFile(self.name, self.first, f'a record of more than {LONGEST_RECORD} characters begins here')
        if not line:
            self.has_ended = True
            raise StopIteration
        self.number += 1
        self.left -= len(line)
        self.record.append(line)
        return line


def quoted_records(name: str, file: IO[bytes], delimiter: str = ',', comment: str | None = None) -> Iterator[tuple[int, list[str]]]:
    """The line and the fields of each record of a file in UTF-8; a byte that is none is a lone half of a pair.

    Lines that begin with the comment sign are none of a record. BadFile if a quote does not close, or a record is too long. In a
    record of one line a quote may close before its field ends; over several lines it would be one that was forgotten.
    """
    with io.TextIOWrapper(file, encoding='utf-8-sig', errors='surrogateescape', newline='') as text:
        lines = Lines(name, text, comment)
        reader = csv.reader(lines, delimiter=delimiter)
        try:
            while (fields := next(reader, None)) is not None:
                # A reader that is inside of quotes takes what there is when the lines end.
                if lines.has_ended:
                    raise BadFile(name, lines.first, 'a quote opens in this record and does not close')
                if len(lines.record) > 1:
                    next(csv.reader(lines.record, delimiter=delimiter, strict=True))
                yield lines.first, fields
                lines.begin()
        except csv.Error as error:
            raise BadFile(name, lines.first, f'this is no record, or a quote in it does not close ({error})') from error


def is_text(field: str) -> bool:
    """Whether all bytes of a field were UTF-8."""
    return field.isascii() or not any('\ud800' <= character <= '\udfff' for character in field)
