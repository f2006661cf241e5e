"""The files of a feed of GTFS and their rows, with the limits on both."""
from __future__ import annotations

import os
import re
import zipfile
import zlib
from collections import Counter
from contextlib import contextmanager
from datetime import date
from functools import lru_cache
from typing import IO, Iterable, Iterator, Optional

from dispatch_tools.formats.files import BadFile
from dispatch_tools.formats.quoted import is_text, quoted_records

# Above all times of a feed, so that no time between two of them is too long for a bound of an activity.
LATEST = 1_000_000

# The most digits of a number that is read.
LONGEST_NUMBER = 20

# A feed may come from anybody, and few bytes may be a long work: a file in a zip file is no larger than this, nor than so many times
# what it takes there unless it is small; so many rows may be empty, so many stops stand one in another, and so many trains be made
# of frequencies.
LARGEST_FILE = 1 << 32
MOST_UNPACKED, SMALL_FILE = 100, 1 << 24
MOST_EMPTY_ROWS = 1_000_000


# ---- Files and rows


class Row:
    """A row of a file: its fields by column, and where it stands."""

    __slots__ = ('file', 'line', 'fields')

    def __init__(self, file: str, line: int, fields: dict[str, str]):
        self.file, self.line, self.fields = file, line, fields

    def __getitem__(self, column: str) -> str:
        """The field of a column, which is empty if there is no such column."""
        return self.fields.get(column, '')

    def fault(self, column: str, what: str) -> BadFile:
        return BadFile(self.file, self.line, f'column {column}: {what}')

    def text(self, column: str) -> str:
        """The field of a column, which may not be empty."""
        text = self[column]
        if not text:
            raise self.fault(column, 'nothing stands here')
        return self.name(column)

    def name(self, column: str) -> str:
        """The field of a column, which has to be in UTF-8, in one line."""
        text = self[column]
        if not is_text(text):
            raise self.fault(column, 'this is not in UTF-8')
        return ' '.join(text.splitlines())

    def number(self, column: str, most: int, default: Optional[int] = None) -> int:
        """The whole number of a column, which has to be there where there is no default."""
        text = self[column]
        if not text and default is not None:
            return default
        if not (text.isascii() and text.isdecimal()):
            raise self.fault(column, f'"{text}" is no whole number')
        if len(text) > LONGEST_NUMBER or int(text) > most:
            raise self.fault(column, f'{text} is above {most}')
        return int(text)

    def time(self, column: str) -> Optional[int]:
        """The time of a column, or None if the field is empty."""
        text = self[column]
        if not text:
            return None
        seconds = seconds_of(text)
        if seconds is None:
            raise self.fault(column, f'"{text}" is no time, as 06:30:00')
        if seconds >= LATEST:
            raise self.fault(column, f'{text} is not before {clock(LATEST)}')
        return seconds

    def date(self, column: str) -> date:
        day = date_of(self[column])
        if day is None:
            raise self.fault(column, f'"{self[column]}" is no date, as 20261128')
        return day


def read_rows(name: str, file: IO[bytes], required: Iterable[str]) -> Iterator[Row]:
    """The rows of a file, whose first one names the columns."""
    records = quoted_records(name, file)
    _, heading = next(records, (1, []))
    columns = [column.strip() for column in heading]
    check_columns(name, columns, required)
    empty = 0
    for line, fields in records:
        if len(fields) > len(columns) and any(fields[len(columns):]):
            raise BadFile(name, line, f'{len(fields)} fields, and {len(columns)} columns')
        if any(fields):
            yield Row(name, line, dict(zip(columns, map(str.strip, fields))))
            continue
        empty += 1
        if empty > MOST_EMPTY_ROWS:
            raise BadFile(name, line, f'more than {MOST_EMPTY_ROWS} rows of the file are empty')


def check_columns(name: str, columns: list[str], required: Iterable[str]) -> None:
    for column in required:
        if column not in columns:
            raise BadFile(name, 1, f'there is no column {column}')
    for column, count in Counter(columns).items():
        if count > 1 and column:
            raise BadFile(name, 1, f'column {column} stands twice')


class Feed:
    """The files of a feed. In a zip file they may stand in one folder together."""

    def __init__(self, name: str):
        self.name = name
        self.zip = None
        self.inside = ''
        if os.path.isdir(name):
            return
        with told_as(name):
            self.zip = zipfile.ZipFile(name)
        tops = [member for member in self.zip.namelist() if os.path.basename(member) == 'stop_times.txt']
        if len(tops) == 1:
            self.inside = tops[0].removesuffix('stop_times.txt')

    def __enter__(self) -> Feed:
        return self

    def __exit__(self, *_: object) -> None:
        if self.zip is not None:
            self.zip.close()

    def has(self, file: str) -> bool:
        if self.zip is None:
            return os.path.isfile(os.path.join(self.name, file))
        return self.inside + file in self.zip.namelist()

    def rows(self, file: str, required: Iterable[str]) -> Iterator[Row]:
        """The rows of a file that has to be there."""
        name = os.path.join(self.name, file)
        if not self.has(file):
            raise BadFile(name, None, 'there is no such file')
        with told_as(name), self.opened(file) as opened:
            yield from read_rows(name, opened, required)

    def rows_if_any(self, file: str, required: Iterable[str]) -> Iterator[Row]:
        """The rows of a file that may be missing."""
        return self.rows(file, required) if self.has(file) else iter(())

    def fault(self, file: str, line: int, column: str, what: str) -> BadFile:
        return BadFile(os.path.join(self.name, file), line, f'column {column}: {what}')

    def opened(self, file: str) -> IO[bytes]:
        if self.zip is None:
            return open(os.path.join(self.name, file), 'rb')
        member = self.zip.getinfo(self.inside + file)
        if member.file_size > LARGEST_FILE or member.file_size > max(SMALL_FILE, MOST_UNPACKED * member.compress_size):
            what = f'{member.compress_size} bytes of the zip file would be {member.file_size} unpacked'
            raise BadFile(os.path.join(self.name, file), None, f'{what}, which is more than {MOST_UNPACKED} times as many, or than {LARGEST_FILE}')
        opened: IO[bytes] = self.zip.open(member)
        return opened


@contextmanager
def told_as(name: str) -> Iterator[None]:
    """Tells by BadFile what the system and the zip module raise."""
    try:
        yield
    except OSError as error:
        raise BadFile(name, None, error.strerror or 'cannot be read') from error
    except (zipfile.BadZipFile, zlib.error, EOFError, NotImplementedError, RuntimeError) as error:
        raise BadFile(name, None, f'no zip file that can be read ({error})') from error


# ---- Times and dates


@lru_cache(maxsize=100_000)
def seconds_of(text: str) -> Optional[int]:
    """The seconds of a time such as 6:30:00 or 25:10:00, or None if it is no time."""
    found = re.fullmatch('([0-9]{1,3}):([0-5][0-9]):([0-5][0-9])', text)
    if found is None:
        return None
    hours, minutes, seconds = map(int, found.groups())
    return hours * 3600 + minutes * 60 + seconds


def clock(seconds: int) -> str:
    """A time in print; one before midnight has a sign."""
    sign, seconds = '-' if seconds < 0 else '', abs(seconds)
    return f'{sign}{seconds // 3600:02}:{seconds // 60 % 60:02}:{seconds % 60:02}'


def date_of(text: str) -> Optional[date]:
    """The date of a text such as 20261128, or None if it is no date."""
    if not re.fullmatch('[0-9]{8}', text):
        return None
    try:
        return date(int(text[:4]), int(text[4:6]), int(text[6:]))
    except ValueError:
        return None
