"""The picture of which tables are connected: a drawing in SVG, without anything from elsewhere."""

from __future__ import annotations

import math
from collections.abc import Iterable, Iterator, Mapping, Sequence
from dataclasses import dataclass

from .partners import Partner
from .text import escaped

#: The most lines of a picture; the weaker ones are not drawn.
MOST_LINES = 2_000

_LABEL = 24
_LABEL_WIDTH = 170
_STEP = 22
_WIDTH = 1_200
#: In a group of more tables than this their names are drawn along the rays of the circle, where they cannot overlap.
_LEVEL = 8


@dataclass(frozen=True)
class Line:
    """Two tables, ordered by name, that are connected by this pair of columns, the one with the greatest share between them."""

    first: str
    second: str
    partner: Partner


def lines(partners: Iterable[Partner], least_share: float, least_overlap: int) -> list[Line]:
    """The lines between tables. There is one if a column that is not of numbers has at least this share of its values, and at least this many, in a
    column of the other table that is not of numbers. The strongest come first, and no more than a picture has."""
    best: dict[tuple[str, str], Partner] = {}
    for partner in partners:
        if partner.numbers or partner.partner_numbers or partner.share < least_share or partner.overlap < least_overlap:
            continue
        first, second = sorted((partner.table, partner.partner_table))
        before = best.get((first, second))
        if before is None or (partner.share, partner.overlap) > (before.share, before.overlap):
            best[first, second] = partner
    all_lines = [Line(*tables, partner) for tables, partner in best.items()]
    return sorted(all_lines, key=lambda line: (-line.partner.share, -line.partner.overlap, line.first, line.second))[:MOST_LINES]


def groups(drawn: Sequence[Line]) -> list[list[str]]:
    """The groups of connected tables, the largest first; within a group neighbours are close to each other."""
    near: dict[str, list[str]] = {}
    for line in drawn:
        near.setdefault(line.first, []).append(line.second)
        near.setdefault(line.second, []).append(line.first)
    seen: set[str] = set()
    made = [_reached(table, near, seen) for table in sorted(near) if table not in seen]
    return sorted(made, key=lambda group: (-len(group), group[0]))


def _reached(start: str, near: Mapping[str, list[str]], seen: set[str]) -> list[str]:
    """All tables that are connected with this one, depth first."""
    group, stack = [], [start]
    while stack:
        table = stack.pop()
        if table not in seen:
            seen.add(table)
            group.append(table)
            stack.extend(sorted(near[table], reverse=True))
    return group


def svg(drawn: Sequence[Line]) -> str:
    """The picture: each group on a circle of its own, and a line between two tables that is wider for a greater share."""
    places, width, height = _placed(groups(drawn))
    head = f'<svg xmlns="http://www.w3.org/2000/svg" width="{width:.0f}" height="{height:.0f}" viewBox="0 0 {width:.0f} {height:.0f}" role="img">'
    return "\n".join([head, *map(lambda line: _line(line, places), drawn), *(_node(table, spot) for table, spot in places.items()), "</svg>"])


@dataclass(frozen=True)
class _Spot:
    """Where a table is drawn, and where on its circle, as an angle from the right, clockwise; and whether its name is level."""

    x: float
    y: float
    angle: float
    is_level: bool


def _placed(all_groups: Sequence[Sequence[str]]) -> tuple[dict[str, _Spot], float, float]:
    """The spot of each table, and the size of the picture. The circles are arranged in rows."""
    places: dict[str, _Spot] = {}
    left = top = row_height = width = 0.0
    for group in all_groups:
        radius = max(60.0, len(group) * _STEP / (2 * math.pi))
        size_x, size_y = 2 * (radius + _LABEL_WIDTH), 2 * (radius + (30 if len(group) <= _LEVEL else _LABEL_WIDTH))
        if left and left + size_x > _WIDTH:
            left, top, row_height = 0.0, top + row_height, 0.0
        places.update(_circle(group, left + size_x / 2, top + size_y / 2, radius))
        left += size_x
        row_height, width = max(row_height, size_y), max(width, left)
    return places, width, top + row_height


def _circle(group: Sequence[str], x: float, y: float, radius: float) -> Iterator[tuple[str, _Spot]]:
    for number, table in enumerate(group):
        angle = 2 * math.pi * number / len(group)
        yield table, _Spot(x + radius * math.cos(angle), y + radius * math.sin(angle), angle, len(group) <= _LEVEL)


def _line(line: Line, places: Mapping[str, _Spot]) -> str:
    start, end, by = places[line.first], places[line.second], line.partner
    told = f"{by.table} {by.place} {by.column} → {by.partner_table} {by.partner_place} {by.partner_column}: {by.overlap:,} of {by.values:,}"
    ends = f'x1="{start.x:.1f}" y1="{start.y:.1f}" x2="{end.x:.1f}" y2="{end.y:.1f}"'
    names = f'data-first="{escaped(line.first)}" data-second="{escaped(line.second)}"'
    return f'<line {ends} {names} stroke-width="{0.5 + 3 * by.share:.1f}"><title>{escaped(told)}</title></line>'


def _node(table: str, spot: _Spot) -> str:
    is_left = math.cos(spot.angle) < -1e-6
    label = table if len(table) <= _LABEL else table[: _LABEL - 1] + "…"
    anchor, shift = ("end", -9) if is_left else ("start", 9)
    degrees = math.degrees(spot.angle) + (180 if is_left else 0)
    turn = "" if spot.is_level else f' transform="rotate({degrees:.1f} {spot.x:.1f} {spot.y:.1f})"'
    text = f'<text x="{spot.x + shift:.1f}" y="{spot.y + 4:.1f}" text-anchor="{anchor}"{turn}>{escaped(label)}</text>'
    dot = f'<circle cx="{spot.x:.1f}" cy="{spot.y:.1f}" r="5"></circle>'
    return f'<g data-table="{escaped(table)}"><title>{escaped(table)}</title>{dot}{text}</g>'
