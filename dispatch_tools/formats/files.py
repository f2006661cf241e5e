"""Reads files whole, writes them completely or not at all, says what is wrong with a bad one, and prints UTF-8."""
from __future__ import annotations

import io
import os
import re
import sys
from typing import Iterable, Mapping, Optional


def in_one_line(text: str, most: int = 300) -> str:
    """Text of a file as people get to see it: what cannot be printed as its number, and of a long text its ends."""
    if len(text) > most:
        text = f'{text[:most - 100]} .. {text[-90:]}'
    return ''.join(one if one.isprintable() else one.encode('unicode_escape').decode() for one in text)


class BadFile(Exception):
    """A file is not what it should be: its name, the number of the line, from 1, or None, and what is wrong there."""

    def __init__(self, name: str, line: Optional[int], what: str) -> None:
        super().__init__(name, line, what)
        self.name, self.line, self.what = name, line, what

    def __str__(self) -> str:
        where = self.name if self.line is None else f'{self.name}, line {self.line}'
        return f'{in_one_line(where)}: {in_one_line(self.what)}'

    def without_paths(self) -> str:
        """What is wrong, for people who need not know where files are: of a path it has the last name."""
        return in_one_line(re.sub('[^ ]*/', '', self.what))


def text_of(name: str) -> str:
    """The text of a file, a character a byte; BadFile if it cannot be read."""
    try:
        with open(name, encoding='latin-1', newline='') as file:
            return file.read()
    except OSError as error:
        raise BadFile(name, None, error.strerror or 'cannot be read') from error


def speak_utf8() -> None:
    """Lets standard output take UTF-8, whatever the locale says, and names of files as they are."""
    if isinstance(sys.stdout, io.TextIOWrapper):
        sys.stdout.reconfigure(encoding='utf-8', errors='surrogateescape', newline='\n')


def write_all(folder: str, texts: Mapping[str, str | bytes]) -> None:
    """Writes each text, or bytes, under its name in a folder, which is made where it is not there; BadFile if one cannot be written.

    A file that stood there before is replaced, but only where all could be written.
    """
    is_new = not os.path.isdir(folder)
    parts = {name: os.path.join(folder, f'.{name}.part') for name in texts}
    try:
        os.makedirs(folder, exist_ok=True)
        for name, text in texts.items():
            with open(parts[name], 'wb') as file:
                file.write(text if isinstance(text, bytes) else text.encode())
        for name, part in parts.items():
            os.replace(part, os.path.join(folder, name))
    except OSError as error:
        take_away(folder, parts.values(), is_new)
        raise BadFile(error.filename or folder, None, error.strerror or 'cannot be written') from error


def take_away(folder: str, parts: Iterable[str], is_new: bool) -> None:
    for part in parts:
        if os.path.exists(part):
            os.remove(part)
    if is_new and os.path.isdir(folder) and not os.listdir(folder):
        os.rmdir(folder)
