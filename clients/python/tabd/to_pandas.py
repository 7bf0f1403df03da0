"""Cells as a data frame of pandas, where that is installed."""
from __future__ import annotations

import dataclasses
import importlib
from typing import Any, Iterable, Union

from .data import Cell, TextCell


def library() -> Any:
    """pandas, or an ImportError that says what it is wanted for."""
    try:
        return importlib.import_module("pandas")
    except ImportError as error:
        raise ImportError('scan(.., to="pandas") wants pandas, which is not installed (pip install pandas)') from error


def data_frame(cells: Iterable[Union[Cell, TextCell]]) -> Any:
    """A row for each cell, in their order, and a column for each of their parts; the parts are bytes or str, the timestamps int64."""
    pandas, listed = library(), list(cells)
    columns = {part.name: [getattr(cell, part.name) for cell in listed] for part in dataclasses.fields(Cell)}
    return pandas.DataFrame(columns).astype({"timestamp": "int64"})
