"""The time-distance diagrams of a day that goes on, drawn once for all pages that show the same."""
from __future__ import annotations

import threading
from typing import Callable, NamedTuple, Optional

from dispatch_tools.pictures.diagram import drawn, Frame, frame_at, Laid, laid, Marked, marked_on, Preview, title_of, TOP, Trains
from dispatch_tools.pictures.scene import Scene

# At most so many drawings are kept, and so many units the time of a drawing has at least.
KEPT, NARROW = 32, 560


class Asked(NamedTuple):
    """The number of a line, the times between which it is shown, and whether it shows what the plan would change."""
    line: int
    begin: Optional[int]
    end: Optional[int]
    is_planned: bool = False


class Shown(NamedTuple):
    """A day, and what a plan would make of it."""
    scene: Scene
    preview: Optional[Preview]


# The version of a day, and the line that asked for the plan that is shown, or 0.
Version = tuple[int, int]


class Picture(NamedTuple):
    """A drawing as the element of a page, and its frame: the first and the last time, where the first is, and how many units a second
    and the stops take."""
    svg: str
    frame: str


class Pictures:
    """The drawings of lines. Where the stops and the trains of a line are drawn, and what may be marked there, is worked out once."""

    def __init__(self, lines: list[list[int]]) -> None:
        self.lines = lines
        self.lock = threading.Lock()
        self.lying: dict[int, tuple[Laid, Marked]] = {}
        self.frames: dict[Asked, Frame] = {}
        self.kept: dict[Asked, tuple[Version, Picture]] = {}

    def lay(self, line: int, scene: Scene) -> tuple[Laid, Marked]:
        """How a line lies, and what may be marked on it."""
        if line not in self.lying:
            found = laid(scene, self.lines[line])
            self.lying[line] = found, marked_on(found.rows, scene)
        return self.lying[line]

    def draw(self, asked: Asked, version: Version, shown: Callable[[], Shown]) -> Picture:
        """The drawing of a line at a version of the day. If it has to be drawn anew, `shown` gives the day."""
        with self.lock:
            if asked not in self.kept or self.kept[asked][0] != version:
                if len(self.kept) >= KEPT:
                    self.kept.clear()
                    self.frames.clear()
                self.kept[asked] = (version, self.drawn_anew(asked, shown()))
            return self.kept[asked][1]

    def drawn_anew(self, asked: Asked, shown: Shown) -> Picture:
        scene, (line, marked) = shown.scene, self.lay(asked.line, shown.scene)
        if asked not in self.frames:
            self.frames[asked] = frame_at(scene, line, asked.begin, asked.end, NARROW)
        frame = self.frames[asked]
        title = title_of(scene, self.lines[asked.line])
        svg = '\n'.join(drawn(scene, frame, self.near(frame, line.trains, scene), marked, title, preview=shown.preview))
        return Picture(svg, f'{frame.begin} {frame.end} {frame.left} {frame.scale} {TOP} {frame.height}')

    def near(self, frame: Frame, trains: Trains, scene: Scene) -> Trains:
        """The trains that run within the frame's times, as scheduled or as they stand."""
        def spans(stretch: list[int]) -> bool:
            first, last = stretch[0], stretch[-1]
            return (min(scene.scheduled(first), scene.times[first]) <= frame.end
                    and max(scene.scheduled(last), scene.times[last]) >= frame.begin)
        return [(number, stretches) for number, stretches in trains if any(map(spans, stretches))]
