"""Where the names of trains stand in a diagram: each beside a point of its train, none cut off, and none over another if there is room."""
from __future__ import annotations

import unicodedata
from itertools import chain, product
from typing import Iterable, Iterator, NamedTuple, Sequence

# About how wide a small letter is, a wide one, such as those of Chinese, and one of the names of stops; and how high a small one is.
LETTER, WIDE, LARGE, HIGH = 7, 12, 7, 13

# The longest name that is written whole.
LONGEST = 40

# So many points of a train are tried.
MOST_POINTS = 16

# So many rows away from its first point a name may stand, if there is no room at any.
FARTHEST = 24

# How wide the columns are by which a text is looked up.
COLUMN = 64

Point = tuple[int, int]


def short(name: str) -> str:
    """A name as it is written: whole, if it is not very long."""
    return name if len(name) <= LONGEST else f'{name[:LONGEST - 1]}…'


def length_of(text: str, letter: int = LETTER) -> int:
    """About how wide a text is."""
    return sum(WIDE if unicodedata.east_asian_width(one) in 'WF' else letter for one in text)


class Box(NamedTuple):
    """What a text covers."""
    left: int
    top: int
    right: int
    bottom: int

    def over(self, other: Box) -> int:
        """How much of another box lies under this one."""
        across = min(self.right, other.right) - max(self.left, other.left)
        down = min(self.bottom, other.bottom) - max(self.top, other.top)
        return across * down if across > 0 and down > 0 else 0


class Label(NamedTuple):
    """A text to the right of a point, or to the left of it: across and down, as SVG has them."""
    text: str
    x: int
    y: int
    is_left: bool

    def box(self, length: int) -> Box:
        """What it covers, if the text is so wide."""
        left = self.x - length if self.is_left else self.x
        return Box(left, self.y - HIGH + 3, left + length, self.y + 3)


def cells_of(box: Box) -> Iterator[tuple[int, int]]:
    """The rows and columns by which what stands under a box is looked up."""
    return product(range(box.top // HIGH, box.bottom // HIGH + 1), range(box.left // COLUMN, box.right // COLUMN + 1))


class Labels:
    """The texts of a picture, within its edges."""

    def __init__(self, edges: Box) -> None:
        self.edges = edges
        self.cells: dict[tuple[int, int], list[Box]] = {}

    def take(self, box: Box) -> None:
        """Lets no later text stand here, if there is room elsewhere."""
        for cell in cells_of(box):
            self.cells.setdefault(cell, []).append(box)

    def covered(self, box: Box) -> int:
        """How much of what stands there already a box would cover."""
        return sum(box.over(other) for other in {other for cell in cells_of(box) for other in self.cells.get(cell, ())})

    def spots(self, text: str, length: int, points: Iterable[Point]) -> Iterator[tuple[Label, Box]]:
        """Where a text that is so wide may stand beside some points, and what it covers there."""
        edges = self.edges
        for x, y in points:
            # Above the first stop the name stands on its right, where its train goes on; below the last one stand the hours.
            sides = (False, True) if y <= edges.top + HIGH + 4 else (True, False)
            for down, is_left in product((y + 14, y - 4), sides):
                label = Label(text, x - 5 if is_left else x + 3, down, is_left)
                box = label.box(length)
                if edges.left <= box.left and box.right <= edges.right and edges.top <= box.top and box.bottom <= edges.bottom:
                    yield label, box

    def farther(self, text: str, length: int, point: Point) -> Iterator[tuple[Label, Box]]:
        """Where a text may stand above or below a point, the nearest places first."""
        x, y = point
        return self.spots(text, length, [(x, y + sign * HIGH * rows) for rows in range(1, FARTHEST) for sign in (1, -1)])

    def pushed(self, text: str, length: int, point: Point) -> Label:
        """A text at a point, pushed to where it is not cut off."""
        edges, (x, y) = self.edges, point
        return Label(text, max(edges.left, min(x + 3, edges.right - length)), min(max(y - 4, edges.top + HIGH), edges.bottom - 3), False)

    def put(self, text: str, points: Sequence[Point]) -> Label:
        """Places a text beside one of some points, the first ones first: where it covers nothing, or else least."""
        length, least = length_of(text), None
        for label, box in chain(self.spots(text, length, points[:MOST_POINTS]), self.farther(text, length, points[0])):
            covered = self.covered(box)
            if least is None or covered < least[0]:
                least = covered, label
            if not covered:
                break
        found = least[1] if least else self.pushed(text, length, points[0])
        self.take(found.box(length))
        return found
