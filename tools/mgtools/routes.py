"""The ways of a picture's arrows, once its boxes stand in rows and columns.

Within a column an arrow goes down. From one column to the next it goes round: along a track below the column, up a lane between
the two, and along a track above the next. Back arrows go up on the right of a column.
"""
from __future__ import annotations

from typing import TYPE_CHECKING

if TYPE_CHECKING:
    from .layout import Arrow, Box

Point = tuple[float, float]

# Rows stand so far apart, lines that run side by side so far, and back arrows so far.
LAYER_GAP, LANE, BACK_LANE = 32.0, 7.0, 16.0
# The first track is so far from the boxes that a label has room before it.
FIRST_LANE = 19.0
# An arrow from one column to the next: its box and the place where it leaves. Arrows that leave at one place share their way.
Exit = tuple[int, float]


class Routes:
    """Places columns, and draws arrows between boxes, of which each has its column, its row and its place in the column."""

    def __init__(self, boxes: list[Box], every: list[Box], arrows: list[Arrow], columns: list[list[list[int]]]):
        self.boxes, self.every, self.arrows, self.columns = boxes, every, arrows, columns
        self.chains = [(arrow, [arrow.source, *arrow.bends, arrow.target]) for arrow in arrows if not arrow.is_back]
        self.backs = [arrow for arrow in arrows if arrow.is_back]
        # Of each column the exits to the next one and those past it, the outermost first; and the tracks of those that go past a column.
        self.exits: list[list[Exit]] = [[] for _ in columns]
        self.past: dict[Exit, int] = {}
        self.bottom = [0.0 for _ in columns]
        self.lanes = [0.0 for _ in columns]
        self.back_lanes: dict[int, float] = {}
        self.used: dict[float, int] = {}
        self.top = 0.0
        self.most = 0

    def draw(self) -> tuple[float, float]:
        """Gives boxes their places and arrows their points; the width and the height of the whole."""
        self.find_exits()
        self.stand()
        width = self.spread()
        for arrow, chain in self.chains:
            arrow.points = self.way(arrow, chain)
        for arrow in self.backs:
            arrow.points = self.way_back(arrow)
        return width, max([*self.bottom, *(y for arrow in self.arrows for _, y in arrow.points)])

    def find_exits(self) -> None:
        for column, exits in enumerate(self.exits):
            found: dict[Exit, float] = {}
            for arrow, chain in self.chains:
                for before, number in zip(chain, chain[1:]):
                    if self.every[before].column == column != self.every[number].column:
                        leaves = self.leaves(arrow, before)
                        found[before, leaves] = self.every[before].x + leaves
                        if self.every[number].column > column + 1:
                            self.past.setdefault((before, leaves), len(self.past))
            exits += sorted(found, key=found.get)

    def leaves(self, arrow: Arrow, number: int) -> float:
        """Where an arrow leaves a box, or one of its bends."""
        return arrow.leaves if number == arrow.source else 1.0

    def stand(self) -> None:
        """Places the rows of each column from top to bottom, with room above for what comes from the column before."""
        first = {number for column in self.columns for number in column[0]}
        across = sum(self.is_across(arrow) for arrow in self.backs)
        self.most = max(map(len, self.exits))
        self.top = FIRST_LANE + LANE * (self.most + len(self.past)) if self.most else 0.0
        if across or any(arrow.target in first for arrow in self.backs):
            self.top += 14 + LANE * (across + 1)
        for at, column in enumerate(self.columns):
            y = self.top
            for row in column:
                high = max((self.every[number].height for number in row), default=0.0)
                for number in row:
                    box = self.every[number]
                    box.y = y + (high - box.height) / 2
                    box.row = y, y + high
                y += high + LAYER_GAP
            self.bottom[at] = y - LAYER_GAP

    def is_across(self, arrow: Arrow) -> bool:
        return self.boxes[arrow.source].column != self.boxes[arrow.target].column

    def spread(self) -> float:
        """Places the columns from left to right, with lanes between them; the width of the whole."""
        x = 0.0
        for at, column in enumerate(self.columns):
            numbers = [number for row in column for number in row]
            left = min(self.every[number].x for number in numbers)
            for number in numbers:
                self.every[number].x += x - left
            x = max(self.every[number].x + self.every[number].width for number in numbers)
            if self.exits[at]:
                self.lanes[at] = x + 10
                x += 10 + LANE * len(self.exits[at])
            if at + 1 < len(self.columns):
                x += 14
            lane, right = x, x
            for arrow in self.going_up(at):
                # The label stands in the middle of the lane, or above all columns where the arrow goes there.
                half = 0.0 if self.is_across(arrow) else arrow.label / 2
                lane += max(BACK_LANE, half + 6) if lane == x else BACK_LANE
                self.back_lanes[id(arrow), at] = lane
                right = max(right, lane + half + 6)
            x = right + (14 if lane != x and at + 1 < len(self.columns) else 0)
        return x

    def going_up(self, column: int) -> list[Arrow]:
        """The back arrows that have a lane on the right of a column: those that begin or end in it."""
        return [arrow for arrow in self.backs if column in (self.boxes[arrow.source].column, self.boxes[arrow.target].column)]

    def way(self, arrow: Arrow, chain: list[int]) -> list[Point]:
        """The points of an arrow through its bends."""
        source, target = self.boxes[arrow.source], self.boxes[arrow.target]
        points = [(source.x + arrow.leaves, source.y + source.height), (source.x + arrow.leaves, source.row[1])]
        for before, number in zip(chain, chain[1:]):
            box = self.every[number]
            x = box.x + (arrow.enters if number == arrow.target else 1.0)
            if self.every[before].column != box.column:
                points += self.round(before, self.leaves(arrow, before), points[-1][0], x)
            points += [(x, box.row[0]), (x, box.row[1])] if number != arrow.target else [(x, box.row[0]), (x, target.y)]
        return points

    def round(self, before: int, leaves: float, x: float, to_x: float) -> list[Point]:
        """The way from the end of a column to the begin of the next. What leaves further on the right stays further inside, so
        that no two such ways cross."""
        column = self.every[before].column
        exits = self.exits[column]
        outside = exits.index((before, leaves))
        inside = len(exits) - 1 - outside
        below, lane = self.bottom[column] + FIRST_LANE + LANE * inside, self.lanes[column] + LANE * inside
        over = self.past.get((before, leaves))
        above = self.top - FIRST_LANE - LANE * (outside if over is None else self.most + over)
        return [(x, below), (lane, below), (lane, above), (to_x, above)]

    def way_back(self, arrow: Arrow) -> list[Point]:
        """The points of a back arrow: along the gap below its source, up, and along the gap above its target."""
        source, target = self.boxes[arrow.source], self.boxes[arrow.target]
        begin, end = (source.x + arrow.leaves, source.y + source.height), (target.x + arrow.enters, target.y)
        below, above = self.free(source.row[1] + 9, 5), self.free(target.row[0] - 12, -5)
        lane = self.back_lanes[id(arrow), source.column]
        points = [begin, (begin[0], below), (lane, below)]
        arrow.named_at = 3 if self.is_across(arrow) else 2
        if self.is_across(arrow):
            other, over = self.back_lanes[id(arrow), target.column], self.free(LANE, LANE)
            points += [(lane, over), (other, over), (other, above)]
        else:
            points.append((lane, above))
        return [*points, (end[0], above), end]

    def free(self, y: float, step: float) -> float:
        """A height near this one that no other back arrow has."""
        self.used[y] = self.used.get(y, -1) + 1
        return y + step * (self.used[y] % 4)


def path(points: list[Point]) -> str:
    """An arrow's line as the path of an SVG: corners are round, and what goes aslant is bent at both ends."""
    points = [point for at, point in enumerate(points) if at == 0 or point != points[at - 1]]
    said = f"M{points[0][0]:.1f},{points[0][1]:.1f}"
    for at, (before, here) in enumerate(zip(points, points[1:]), 1):
        behind = points[at + 1] if at + 1 < len(points) else here
        if before[0] != here[0] and before[1] != here[1]:
            half = (here[1] - before[1]) / 2
            said += f" C{before[0]:.1f},{before[1] + half:.1f} {here[0]:.1f},{here[1] - half:.1f} {here[0]:.1f},{here[1]:.1f}"
        elif is_corner(before, here, behind):
            said += f" L{toward(here, before)} Q{here[0]:.1f},{here[1]:.1f} {toward(here, behind)}"
        else:
            said += f" L{here[0]:.1f},{here[1]:.1f}"
    return said


def is_corner(before: Point, here: Point, behind: Point) -> bool:
    """Whether a straight part turns to another one."""
    flat, then_flat = before[1] == here[1], here[1] == behind[1]
    upright, then_upright = before[0] == here[0], here[0] == behind[0]
    return flat and then_upright and not then_flat or upright and then_flat and not then_upright


def toward(at: Point, other: Point, radius: float = 9.0) -> str:
    """The point a little before a bend."""
    length = max(abs(other[0] - at[0]), abs(other[1] - at[1]))
    share = min(radius / length, 0.5) if length else 0.0
    return f"{at[0] + (other[0] - at[0]) * share:.1f},{at[1] + (other[1] - at[1]) * share:.1f}"
