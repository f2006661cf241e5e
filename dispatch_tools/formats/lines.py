"""The lines of texts: their words and numbers, and the line at which a text is bad."""
from __future__ import annotations

import re
from dataclasses import dataclass
from functools import partial
from typing import Callable, Generic, Mapping, NoReturn, Optional, Sequence, TypeVar

# The largest ids (and lines and entries), values of feed lines, and other numbers in print.
ID = 2 ** 32 - 1
VALUE = 2 ** 64 - 1
NUMBER = 2 ** 128 - 1

# A word, or the largest number that may stand in its place.
Pattern = str | int

Value = TypeVar('Value')
Made = TypeVar('Made', covariant=True)


class Bad(Exception):
    """A record breaks its rule; the arguments are the line and the kind of the verdict."""


@dataclass(frozen=True)
class Form(Generic[Made]):
    """The largest numbers that may stand behind the words of a kind, how many are enough if not all are wanted, and what they make; None
    if they are in no order in which they may stand."""
    largest: Sequence[int]
    made: Callable[..., Optional[Made]]
    enough: Optional[int] = None

    def pattern(self, kind: str, count: int) -> list[Pattern]:
        """What fits the form in so many words."""
        words: list[Pattern] = [*kind.split()]
        wanted = len(self.largest) if self.enough is None else max(self.enough, count - len(words))
        return [*words, *self.largest[:wanted]]


def forms(made: Callable[..., Value], largest: Mapping[str, Sequence[int]]) -> Mapping[str, Form[Value]]:
    """The forms of kinds that all make the same of the kind and its numbers."""
    return {kind: Form(numbers, partial(made, kind)) for kind, numbers in largest.items()}


def number_of(word: str, largest: int) -> Optional[int]:
    """The number that a word spells, without zeros in front and not above the largest, or None."""
    if not re.fullmatch('0|[1-9][0-9]{0,38}', word) or int(word) > largest:
        return None
    return int(word)


def fits(words: Sequence[str], pattern: Sequence[Pattern]) -> Optional[tuple[int, ...]]:
    """The numbers in words that fit a pattern of words and of largest numbers, or None if they do not."""
    if len(words) != len(pattern):
        return None
    numbers = []
    for word, part in zip(words, pattern):
        if isinstance(part, int):
            number = number_of(word, part)
            if number is None:
                return None
            numbers.append(number)
        elif word != part:
            return None
    return tuple(numbers)


def read_form(forms: Mapping[str, Form[Value]], words: Sequence[str]) -> Optional[Value]:
    """What the words make, or None if they are of none of these forms."""
    for kind, form in forms.items():
        if not words or not kind.startswith(words[0]):
            continue
        numbers = fits(words, form.pattern(kind, len(words)))
        if numbers is not None:
            return form.made(*numbers)
    return None


class Text:
    """The lines of a text, read one after the other."""

    def __init__(self, text: bytes) -> None:
        *self.lines, self.rest = text.split(b'\n')
        self.number = 0

    def words(self) -> list[str]:
        """The words of the next line, with one space between; Bad if the line is cut or is no such words."""
        self.number += 1
        if self.number > len(self.lines):
            raise Bad(self.number, 'truncated')
        words = self.lines[self.number - 1].split(b' ')
        self.demand(all(re.fullmatch(b'[!-~]+', word) for word in words), 'form')
        return [word.decode() for word in words]

    def read(self, *pattern: Pattern) -> tuple[int, ...]:
        """The numbers in the next line, which has to fit the pattern."""
        return self.sure(fits(self.words(), pattern))

    def sure(self, value: Optional[Value], kind: str = 'form') -> Value:
        """A value that has been read, or Bad of this kind where there is none."""
        return self.refuse(kind) if value is None else value

    def refuse(self, kind: str = 'form') -> NoReturn:
        """Bad of this kind at the line read last."""
        raise Bad(self.number, kind)

    def demand(self, holds: bool, kind: str) -> None:
        """Bad of this kind at the line read last unless this holds."""
        if not holds:
            self.refuse(kind)

    def has_more(self) -> bool:
        """Whether anything stands behind the line read last."""
        return self.number < len(self.lines) or self.rest != b''
