"""Lays out a picture of boxes that are joined by arrows, from the top to the bottom: in layers, with few crossings.

A box is as large as what is in it, and arrows leave and enter it at given places of its lower and upper edge. It is the layout
of Sugiyama, Tagawa and Toda (1981): layers by the longest way, an order in each layer by the mean place of the neighbours, and
places that draw long arrows straight. A picture that would be too tall goes on in a further column on its right, and a layer that
would be too wide is made of several rows.
"""
from __future__ import annotations

from dataclasses import dataclass, field
from math import ceil, inf

from .routes import LAYER_GAP, Routes

GAP, BEND_GAP = 20.0, 12.0


@dataclass
class Box:
    """A box: its size, its layer and its place, the upper left corner."""
    width: float
    height: float
    is_first: bool = False
    is_last: bool = False
    is_bend: bool = False
    layer: int = 0
    column: int = 0
    x: float = 0.0
    y: float = 0.0
    # Where its layer begins and ends, from top to bottom: in between arrows go straight down.
    row: tuple[float, float] = (0.0, 0.0)


@dataclass
class Arrow:
    """An arrow between two boxes by their numbers, from a place of the lower edge to one of the upper edge. A back arrow has no
    say in the layers. A label of this width stands on it, between the point that is named and the next one."""
    source: int
    target: int
    leaves: float
    enters: float
    is_back: bool = False
    label: float = 0.0
    points: list[tuple[float, float]] = field(default_factory=list)
    named_at: int = 1
    bends: list[int] = field(default_factory=list)


def layers_of(boxes: list[Box], arrows: list[Arrow]) -> None:
    """Gives each box its layer: one behind the deepest box before it. An arrow that would close a ring counts as a back arrow."""
    into: dict[int, list[Arrow]] = {}
    for arrow in arrows:
        into.setdefault(arrow.target, []).append(arrow)
    depths(boxes, into)
    last = max((box.layer for box in boxes if not box.is_last), default=-1) + 1
    out: dict[int, list[int]] = {}
    for arrow in arrows:
        if not arrow.is_back:
            out.setdefault(arrow.source, []).append(arrow.target)
    for number in sorted(range(len(boxes)), key=lambda one: -boxes[one].layer):
        box = boxes[number]
        if box.is_last:
            box.layer = max(box.layer, last)
        elif not into.get(number) and not box.is_first and out.get(number):
            # What nothing leads to stands next to what it leads to.
            box.layer = max(0, min(boxes[target].layer for target in out[number]) - 1)


def depths(boxes: list[Box], into: dict[int, list[Arrow]]) -> None:
    """Gives each box a layer behind those of all boxes before it. The way to a box is kept in a list, since graphs may be deep."""
    done: set[int] = set()
    for first in range(len(boxes)):
        way = [first]
        on_the_way = {first}
        while way:
            number = way[-1]
            waits = None
            for arrow in into.get(number, []) if number not in done else []:
                if arrow.source in on_the_way:
                    arrow.is_back = True
                elif not arrow.is_back and arrow.source not in done:
                    waits = arrow.source
                    break
            if waits is not None:
                way.append(waits)
                on_the_way.add(waits)
                continue
            if number not in done:
                boxes[number].layer = max((boxes[arrow.source].layer + 1 for arrow in into.get(number, []) if not arrow.is_back), default=0)
                done.add(number)
            on_the_way.discard(way.pop())


# An arrow, or a part of it, from one layer to the next: the boxes at its ends, and where it leaves and enters them.
Link = tuple[int, int, float, float]


def lay_out(boxes: list[Box], arrows: list[Arrow], tallest: float = inf, widest: float = inf) -> tuple[float, float]:
    """Places the boxes and draws the arrows; the width and the height of the whole. A column is about as tall as is said at most, and
    a row as wide."""
    if not boxes:
        return 0.0, 0.0
    layers_of(boxes, arrows)
    split_layers(boxes, widest)
    every = list(boxes)
    links = bent(every, boxes, arrows)
    rows: list[list[int]] = [[] for _ in range(max(box.layer for box in every) + 1)]
    for number, box in enumerate(every):
        rows[box.layer].append(number)
    rows = in_best_order(every, rows, links)
    columns = cut(every, rows, links, tallest)
    for here, column in enumerate(columns):
        for row in column:
            for number in row:
                every[number].column = here
    links = without_detours(boxes, every, arrows, columns, links)
    for here, column in enumerate(columns):
        place(every, column, [link for link in links if every[link[0]].column == here == every[link[1]].column])
    return Routes(boxes, every, arrows, columns).draw()


def split_layers(boxes: list[Box], widest: float) -> None:
    """Makes several layers of each that would be too wide."""
    by_layer: dict[int, list[Box]] = {}
    for box in boxes:
        by_layer.setdefault(box.layer, []).append(box)
    further = 0
    for layer in sorted(by_layer):
        wide = sum(box.width + GAP for box in by_layer[layer])
        count = min(ceil(wide / widest), len(by_layer[layer]))
        each = ceil(len(by_layer[layer]) / max(count, 1))
        for place_in, box in enumerate(by_layer[layer]):
            box.layer = layer + further + place_in // each
        further += (len(by_layer[layer]) - 1) // each


def bent(every: list[Box], boxes: list[Box], arrows: list[Arrow]) -> list[Link]:
    """The links of all arrows but back arrows. A long arrow gets a bend in each layer that it passes."""
    links: list[Link] = []
    for arrow in arrows:
        if arrow.is_back:
            continue
        before, leaves = arrow.source, arrow.leaves
        for layer in range(boxes[arrow.source].layer + 1, boxes[arrow.target].layer):
            every.append(Box(2.0, 0.0, is_bend=True, layer=layer))
            arrow.bends.append(len(every) - 1)
            links.append((before, len(every) - 1, leaves, 1.0))
            before, leaves = len(every) - 1, 1.0
        links.append((before, arrow.target, leaves, arrow.enters))
    return links


def cut(every: list[Box], rows: list[list[int]], links: list[Link], tallest: float) -> list[list[list[int]]]:
    """The rows in columns that are about equally tall: a column ends near its share where the fewest links go on."""
    heights = [max((every[number].height for number in row), default=0.0) + LAYER_GAP for row in rows]
    count = min(ceil(sum(heights) / tallest), len(rows))
    if count <= 1:
        return [rows]
    passing = [0] * (len(rows) + 1)
    for _, target, _, _ in links:
        passing[every[target].layer] += 1
    ends, height, above = [0], 0.0, []
    for high in heights:
        above.append(height)
        height += high
    for number in range(1, count):
        share = height * number / count
        near = [row for row in range(ends[-1] + 1, len(rows)) if abs(above[row] - share) < height / count / 4]
        nearest = min(range(ends[-1] + 1, len(rows)), key=lambda row: abs(above[row] - share), default=None)
        if nearest is None:
            break
        ends.append(min(near, key=lambda row: (passing[row], abs(above[row] - share))) if near else nearest)
    return [rows[begin:end] for begin, end in zip(ends, [*ends[1:], len(rows)])]


def without_detours(boxes: list[Box], every: list[Box], arrows: list[Arrow], columns: list[list[list[int]]], links: list[Link]) -> list[Link]:
    """Takes the bends away that an arrow has in columns between those of its ends: it goes past these above. The links that are left."""
    gone: set[int] = set()
    for arrow in arrows:
        ends = boxes[arrow.source].column, boxes[arrow.target].column
        gone.update(bend for bend in arrow.bends if every[bend].column not in ends)
        arrow.bends = [bend for bend in arrow.bends if bend not in gone]
    for column in columns:
        column[:] = [[number for number in row if number not in gone] for row in column]
    return [link for link in links if link[0] not in gone and link[1] not in gone]


def in_best_order(every: list[Box], rows: list[list[int]], links: list[tuple[int, int, float, float]]) -> list[list[int]]:
    """The order in each layer: by the mean place of the neighbours in the layer before, down and up again; of all tries the one
    with the fewest crossings."""
    above: dict[int, list[tuple[int, float]]] = {}
    below: dict[int, list[tuple[int, float]]] = {}
    for source, target, leaves, enters in links:
        above.setdefault(target, []).append((source, leaves / max(every[source].width, 1)))
        below.setdefault(source, []).append((target, enters / max(every[target].width, 1)))
    best, fewest = [list(row) for row in rows], crossings(every, rows, links)
    for turn in range(12):
        side = above if turn % 2 == 0 else below
        at = {number: place for row in rows for place, number in enumerate(row)}
        for row in rows if turn % 2 == 0 else reversed(rows):
            mean = {}
            for place, number in enumerate(row):
                near = [at[other] + share for other, share in side.get(number, [])]
                mean[number] = sum(near) / len(near) if near else float(place)
            row.sort(key=mean.get)
            at.update((number, place) for place, number in enumerate(row))
        count = crossings(every, rows, links)
        if count < fewest:
            best, fewest = [list(row) for row in rows], count
    return best


def crossings(every: list[Box], rows: list[list[int]], links: list[tuple[int, int, float, float]]) -> int:
    at = {number: place for row in rows for place, number in enumerate(row)}
    by_layer: dict[int, list[tuple[float, float]]] = {}
    for source, target, leaves, enters in links:
        ends = at[source] + leaves / max(every[source].width, 1), at[target] + enters / max(every[target].width, 1)
        by_layer.setdefault(every[source].layer, []).append(ends)
    if any(len(ends) > 400 for ends in by_layer.values()):
        return 0
    return sum((one[0] - other[0]) * (one[1] - other[1]) < 0 for ends in by_layer.values() for i, one in enumerate(ends) for other in ends[:i])


def place(every: list[Box], rows: list[list[int]], links: list[tuple[int, int, float, float]]) -> None:
    """Places from left to right: each box wants to stand so that its arrows are straight, and none lies on another."""
    wants: dict[int, list[tuple[int, float, float]]] = {}
    for source, target, leaves, enters in links:
        wants.setdefault(source, []).append((target, leaves, enters))
        wants.setdefault(target, []).append((source, enters, leaves))
    for row in rows:
        settle(every, row, dict.fromkeys(row, 0.0))
    for turn in range(24):
        for row in rows if turn % 2 == 0 else reversed(rows):
            wish = {}
            for number in row:
                near = [every[other].x + there - here for other, here, there in wants.get(number, [])]
                wish[number] = sum(near) / len(near) if near else every[number].x
            settle(every, row, wish)


def gap(one: Box, other: Box) -> float:
    """The room between two neighbours of a row."""
    return GAP - (GAP - BEND_GAP) * (one.is_bend + other.is_bend) / 2


def settle(every: list[Box], row: list[int], wish: dict[int, float]) -> None:
    """The places of a row that are nearest to the wishes, with room between: boxes that would meet move as one block."""
    blocks: list[list] = []  # each: its boxes with their offsets, its wish, its width
    for number in row:
        blocks.append([[(number, 0.0)], wish[number], every[number].width])
        while len(blocks) > 1:
            block, behind = blocks[-2:]
            offset = block[2] + gap(every[block[0][-1][0]], every[behind[0][0][0]])
            if block[1] + offset <= behind[1]:
                break
            count, more = len(block[0]), len(behind[0])
            block[1] = (block[1] * count + (behind[1] - offset) * more) / (count + more)
            block[0] += [(one, offset + further) for one, further in behind[0]]
            block[2] = offset + behind[2]
            blocks.pop()
    for boxes, begin, _ in blocks:
        for number, offset in boxes:
            every[number].x = begin + offset
