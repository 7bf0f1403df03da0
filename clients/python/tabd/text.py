"""Cells as text."""
from __future__ import annotations

from .data import Cell, TextCell
from .errors import NotText


def text_of(cell: Cell) -> TextCell:
    """The cell with its bytes read as UTF-8, or NotText."""
    try:
        row, family, qualifier = cell.row.decode(), cell.family.decode(), cell.qualifier.decode()
        return TextCell(row, family, qualifier, cell.label.decode(), cell.timestamp, cell.value.decode())
    except UnicodeDecodeError as error:
        raise NotText(cell, _first_bad(cell)) from error


def _first_bad(cell: Cell) -> str:
    """The first part that isn't UTF-8."""
    for part in ("row", "family", "qualifier", "label"):
        try:
            getattr(cell, part).decode()
        except UnicodeDecodeError:
            return part
    return "value"
