"""A report on a folder: one page that works without a network."""

from __future__ import annotations

import os
from collections.abc import Iterable, Iterator, Sequence
from importlib.resources import files

from .findings import MOST_ROWS
from .partners import Asked, Partner, Survey, survey
from .picture import MOST_LINES, lines, svg
from .text import escaped

#: Two tables are connected in the picture if a column has at least this share of its values, and at least this many, in a column of the other.
LEAST_SHARE = 0.5
LEAST_OVERLAP = 2


def report(folder: str | os.PathLike[str], k: int = 5, *, numbers: bool = True, program: str | None = None) -> str:
    """The page on a folder of CSV files: what `survey` finds. Raises as `survey` does."""
    return page(survey(folder, k, numbers=numbers, program=program), os.path.basename(os.path.abspath(folder)))


def page(made: Survey, title: str) -> str:
    """The page that shows a survey: the partners, a picture of which tables are connected, the tables with what looks wrong with them, and the files that
    were refused. All text from the files is escaped, and nothing is fetched from elsewhere."""
    template = files("josie").joinpath("report.html").read_text(encoding="utf-8")
    partners = made.partners
    parts = {
        "title": escaped(title),
        "summary": _summary(made, partners),
        "partners": "\n".join(map(_partner_row, partners)),
        "picture": _picture(made, partners),
        "tables": "\n".join(_table_rows(made)),
        "columns": "\n".join(_column_rows(made)),
        "refused": _refused(made),
    }
    pieces = template.split("<!--")
    return pieces[0] + "".join(_filled(piece, parts) for piece in pieces[1:])


def _filled(piece: str, parts: dict[str, str]) -> str:
    """A piece of the template, which begins with the name of a part and the end of a comment, with that part in place of both."""
    name, rest = piece.split("-->", 1)
    return parts[name.strip()] + rest


def _counted(count: int, one: str, more: str) -> str:
    return f"{count:,} {one if count == 1 else more}"


def _summary(made: Survey, partners: Sequence[Partner]) -> str:
    warned, refused = len(made.load.warnings), len(made.load.refused)
    words = [
        _counted(len(made.load.loaded), "table", "tables"),
        _counted(len(made.columns), "column", "columns"),
        _counted(len(partners), "pair", "pairs"),
        f'<a href="#tables">{_counted(warned, "table with a warning", "tables with warnings")}</a>',
        f'<a href="#refused">{_counted(refused, "file refused", "files refused")}</a>',
    ]
    return ", ".join(words)


def _cells(cells: Iterable[object]) -> str:
    """Cells of a row. A number is aligned to the right, with the value that it is sorted by."""
    made = []
    for cell in cells:
        if isinstance(cell, bool) or cell is None:
            made.append(f"<td>{ {True: 'numbers', False: '', None: '?'}[cell] }</td>")
        elif isinstance(cell, float):
            made.append(f'<td class="n" data-value="{cell:.4f}">{cell:.1%}</td>')
        elif isinstance(cell, int):
            made.append(f'<td class="n" data-value="{cell}">{cell:,}</td>')
        else:
            made.append(f"<td>{escaped(str(cell))}</td>")
    return "".join(made)


def _partner_row(partner: Partner) -> str:
    left = (partner.table, partner.place, partner.column, partner.values, partner.numbers)
    right = (partner.partner_table, partner.partner_place, partner.partner_column, partner.partner_values, partner.partner_numbers)
    more = "" if partner.complete else " or more"
    ties = f'<td class="n" data-value="{partner.ties}">{partner.ties:,}{more}</td>'
    mark = ' data-numbers=""' if partner.numbers or partner.partner_numbers else ""
    return f"<tr{mark}>{_cells((*left, *right, partner.overlap, partner.share, partner.jaccard))}{ties}</tr>"


def _picture(made: Survey, partners: Sequence[Partner]) -> str:
    drawn = lines(partners, LEAST_SHARE, LEAST_OVERLAP)
    together = {table for line in drawn for table in (line.first, line.second)}
    alone = len(made.load.loaded) - len(together)
    cut = f" Only the {MOST_LINES:,} strongest lines are drawn." if len(drawn) == MOST_LINES else ""
    words = (
        f"A line joins two tables where one has a column with at least {LEAST_SHARE:.0%} of its values, and at least {LEAST_OVERLAP}, in a column of the other; "
        f"columns of numbers do not count."
        f"{cut} {_counted(alone, 'table hangs', 'tables hang')} together with no other."
    )
    return f"<p>{words}</p>" + (f'<div class="wide">{svg(drawn)}</div>' if drawn else "")


def _table_rows(made: Survey) -> Iterator[str]:
    for table in made.load.loaded:
        path = made.load.paths[table.name]
        warnings = "; ".join(made.load.warnings.get(path, ()))
        yield f"<tr>{_cells((table.name, os.path.basename(path), table.columns, table.members, warnings))}</tr>"


def _column_rows(made: Survey) -> Iterator[str]:
    for column in made.columns:
        count = len(column.findings) if column.findings is not None else 0
        ties = column.findings.ties if column.findings is not None else 0
        yield f"<tr>{_cells((column.table, column.place, column.column, column.values, column.numbers, count, ties, _remark(column)))}</tr>"


def _remark(column: Asked) -> str:
    if column.findings is None:
        return "left out"
    return "" if column.findings.complete else f"{MOST_ROWS:,} rows did not tell all"


def _refused(made: Survey) -> str:
    if not made.load.refused:
        return "<p>No file was refused.</p>"
    rows = "\n".join(f"<tr>{_cells((os.path.basename(path), str(why)))}</tr>" for path, why in made.load.refused.items())
    return f'<table id="refused-table"><thead><tr><th>file</th><th>why</th></tr></thead><tbody>\n{rows}\n</tbody></table>'
