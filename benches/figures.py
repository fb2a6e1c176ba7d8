"""The file of figures, figures.json, which the benchmarks fill; plots.py and tables.py make pictures and tables of it."""
import datetime
import json
import os
import pathlib

FILE = pathlib.Path(__file__).resolve().parent / "figures.json"


def all_figures():
    """By kind its rows; under `measured` when each kind was measured, and how busy the machine was. A value is a number, or a
    median with the least and the greatest."""
    return json.loads(FILE.read_text()) if FILE.exists() else {}


def keep(kind, rows):
    """Puts rows of a kind into the file; what a row had before by other names stays."""
    kept = all_figures()
    for name, row in rows.items():
        kept.setdefault(kind, {}).setdefault(name, {}).update(row)
    measured = kept.pop("measured", {})
    measured[kind] = f"{datetime.date.today()}, load {os.getloadavg()[0]:.0f}"
    FILE.write_text(json.dumps({**kept, "measured": measured}, indent=1) + "\n")


def spread(values, median, digits=2):
    """A median, with the least and the greatest of its values."""
    return [round(value, digits) for value in (median, min(values), max(values))]


def middle(value):
    """The median of a value, or None."""
    return value[0] if isinstance(value, list) else value
