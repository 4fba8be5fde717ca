"""The history as a picture: layers as a tree, the newest at the top, each in a lane, with lines to their parents."""

from __future__ import annotations

from typing import NamedTuple, Optional

ROW = 72
_LANE = 18
_LEFT = 14
_COLOURS = 6


class Dot(NamedTuple):
    x: int
    y: int
    colour: int


class Line(NamedTuple):
    path: str
    colour: int


class Picture(NamedTuple):
    """Dots and lines in pixels, one dot to a row."""

    width: int
    height: int
    dots: list[Dot]
    lines: list[Line]


def lanes(rows: list[tuple[str, Optional[str]]]) -> list[int]:
    """A lane for each layer of rows that fall by number: a line of descent keeps its lane, and two that begin at one parent meet there."""
    wanted: list[Optional[str]] = []
    found = []
    for layer, parent in rows:
        mine = [at for at, it in enumerate(wanted) if it == layer]
        free = [at for at, it in enumerate(wanted) if it is None]
        lane = mine[0] if mine else free[0] if free else len(wanted)
        if lane == len(wanted):
            wanted.append(None)
        for at in mine:
            wanted[at] = None
        wanted[lane] = parent
        found.append(lane)
    return found


def picture(rows: list[tuple[str, Optional[str]]]) -> Picture:
    """The picture of layers and their parents, the newest first; a parent that isn't among them lies below."""
    lane_of = lanes(rows)
    place = {layer: at for at, (layer, _) in enumerate(rows)}
    height = len(rows) * ROW
    dots = [Dot(_LEFT + lane * _LANE, at * ROW + ROW // 2, lane % _COLOURS) for at, lane in enumerate(lane_of)]
    lines = []
    for at, (_, parent) in enumerate(rows):
        if parent is None:
            continue
        start = dots[at]
        if parent not in place:
            lines.append(Line(f"M{start.x} {start.y}V{height}", start.colour))
            continue
        end = dots[place[parent]]
        if end.x == start.x:
            lines.append(Line(f"M{start.x} {start.y}V{end.y}", start.colour))
        else:
            bend = end.y - ROW // 2
            lines.append(Line(f"M{start.x} {start.y}V{bend}C{start.x} {end.y} {end.x} {bend} {end.x} {end.y}", start.colour))
    width = _LEFT * 2 + max(lane_of, default=0) * _LANE
    return Picture(width, height, dots, lines)
