"""The tables of losses of a run, by their names (docs/OUTPUTS.md): which columns tell one row from another, and which are amounts.

No program: the scripts beside this one import it.

    from run_tables import TableError, kind_of, read_rows
    kind = kind_of("gul_S1_elt.csv")                      None where that is no name of a table
    for line, row in read_rows(path, kind): ..            each row as a dict: counts, and amounts in cents
"""
import os
import re
import sys
from typing import NamedTuple

COUNT = re.compile(r"[0-9]{1,10}")
AMOUNT = re.compile(r"[0-9]{1,18}\.[0-9]{2}")
NAME = re.compile(r"(?:(gul|il|ri)_S([0-9]+)_)?([a-z_]+)\.csv")


class TableError(Exception):
    """Why a table is not read: `name: file: what`, with the name of the script that asks."""

    def __init__(self, file, what):
        super().__init__(f"{os.path.basename(sys.argv[0])}: {file}: {what}")


class Kind(NamedTuple):
    """A kind of table."""
    columns: list    # in their order
    amounts: list    # those of them that are amounts; the first is the one that a row is about

    @property
    def keys(self):
        """The columns that tell one row from another."""
        return [column for column in self.columns if column not in self.amounts]


MEANS = ["mean", "standard_deviation", "exposure_value"]
CURVE = Kind(["summary_id", "type", "return_period", "loss"], ["loss"])
WHEAT = Kind(["summary_id", "sidx", "return_period", "loss"], ["loss"])
KINDS = {
    "elt": Kind(["summary_id", "type", "event_id"] + MEANS, MEANS),
    "plt": Kind(["summary_id", "type", "event_id", "period_no"] + MEANS + ["occ_year", "occ_month", "occ_day"], MEANS),
    "aal": Kind(["summary_id", "type", "mean", "standard_deviation"], MEANS[:2]),
    **{f"lec_{curve}_{by}": WHEAT if curve == "wheat" else CURVE
       for curve in ("full", "sample", "wheat", "wheatmean") for by in ("aep", "oep")},
}
LAYERS = Kind(["event_id", "agg_id", "layer_id", "policy_loss", "allocated_loss"], ["policy_loss", "allocated_loss"])


def kind_of(file):
    """The kind of a table by the name of its file, or None."""
    if file == "il_layers.csv":
        return LAYERS
    name = NAME.fullmatch(file)
    return KINDS.get(name[3]) if name and name[1] else None


def read_rows(path, kind):
    """The rows of a table of ours, each with the number of its line, as a dict: counts, and amounts in cents."""
    for line, fields in read_lines(path):
        if line == 1:
            if fields != kind.columns:
                raise TableError(path, f"line 1: has the columns {','.join(fields)[:200]}, and not {','.join(kind.columns)}")
        else:
            yield line, row_of(path, line, fields, kind)


def row_of(path, line, fields, kind):
    """A row as a dict."""
    if len(fields) != len(kind.columns):
        raise TableError(path, f"line {line}: has {len(fields)} fields, and not {len(kind.columns)}")
    row = {}
    for column, field in zip(kind.columns, fields):
        is_amount = column in kind.amounts
        if not (AMOUNT if is_amount else COUNT).fullmatch(field):
            raise TableError(path, f"line {line}: {column}: {field[:60]!r} is no {'amount with two decimals' if is_amount else 'count'}")
        row[column] = int(field.replace(".", ""))
    return row


def read_lines(path):
    """The fields of each line of a table, with the number of the line; a table has a heading at least."""
    try:
        with open(path, encoding="ascii", newline="\n") as file:
            line = 0
            for line, text in enumerate(file, 1):
                yield line, text.rstrip("\r\n").split(",")
    except OSError as error:
        raise TableError(path, error.strerror) from None
    except UnicodeDecodeError:
        raise TableError(path, "is no plain text") from None
    if line == 0:
        raise TableError(path, "is empty: it has no names of columns")


def text_of_cents(cents):
    """An amount as the tables have it."""
    return f"{'-' if cents < 0 else ''}{abs(cents) // 100}.{abs(cents) % 100:02d}"
