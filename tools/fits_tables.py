"""The tables of a run as tools/fits reads them: where their files lie, how many rows they have, and their columns (docs/TABLES.md)."""
import os
import struct
from array import array
from typing import NamedTuple

import ktools_tables

HEADER_BYTES = 16
FILE_LIMIT = 2**30


class Wrong(Exception):
    """Why nothing can be said: a name, and what is wrong with it."""


class Table(NamedTuple):
    """A table: its file, the number in its header where it has one, the form of a record, and how many rows it may have."""
    file: str
    number: int | None
    record: struct.Struct
    limit: int | None


# the base's tables by name, in the order of loading
TABLES = {name: Table(one.file, ktools_tables.number_of(name) if one.header else None, ktools_tables.record_of(name), one.most_rows)
          for name, one in ktools_tables.TABLES.items()}


def needed(last, stages):
    """The tables that a run up to these losses loads, as names below its folder: the base's, then those of the reinsurance stages."""
    base = [(name, TABLES[name]) for name in TABLES if last != "gul" or name not in ktools_tables.INSURED]
    of_stages = [(f"RI_{stage}/{name}", TABLES[name]._replace(file=ktools_tables.file_of(name, stage)))
                 for stage in range(1, stages + 1) for name in ktools_tables.STAGE]
    return base + of_stages


class Folder:
    """The tables of an input folder."""

    def __init__(self, path):
        if not os.path.isdir(path):
            raise Wrong(f"{path}: is no folder")
        self.path = path

    def where(self, file):
        return os.path.join(self.path, file)

    def size(self, file):
        try:
            return os.path.getsize(self.where(file))
        except OSError as error:
            raise Wrong(f"{self.where(file)}: {error.strerror}") from None

    def count(self, of):
        """How many rows a table has."""
        size = self.size(of.file) - self._front(of)
        if size < 0 or size % of.record.size != 0:
            raise Wrong(f"{self.where(of.file)}: ends inside a record")
        return size // of.record.size

    def _front(self, of):
        """How many bytes stand before the records: the header, which has to be that of the table."""
        if of.number is None:
            return 0
        with self.opened(of.file) as file:
            header = file.read(HEADER_BYTES)
        if len(header) != HEADER_BYTES or header[:4] != b"KTWC" or struct.unpack_from("<II", header, 4) != (of.number, 1):
            raise Wrong(f"{self.where(of.file)}: does not begin as the file of this table")
        return HEADER_BYTES

    def opened(self, file):
        try:
            return open(self.where(file), "rb")
        except OSError as error:
            raise Wrong(f"{self.where(file)}: {error.strerror}") from None

    def content(self, of):
        """The bytes of a table's records."""
        count, front = self.count(of), self._front(of)
        try:
            with self.opened(of.file) as file:
                file.seek(front)
                return file.read(count * of.record.size)
        except OSError as error:
            raise Wrong(f"{self.where(of.file)}: {error.strerror}") from None

    def rows(self, of):
        """The rows of a table, each a tuple of its columns."""
        return of.record.iter_unpack(self.content(of))

    def column(self, of):
        """The one column of a table of numbers."""
        return [row[0] for row in self.rows(of)]

    def periods(self):
        """How many periods the header of `occurrence` says."""
        with self.opened(TABLES["occurrence"].file) as file:
            header = file.read(HEADER_BYTES)
        return struct.unpack_from("<I", header, 12)[0] if len(header) == HEADER_BYTES else 0


class Footprint:
    """The rows of the footprint, event by event. An event that the index lacks has none."""

    def __init__(self, folder):
        self.places = {event: (offset, size) for event, offset, size in folder.rows(TABLES["footprint_idx"])}
        self.file = folder.opened(TABLES["footprint"].file)
        self.name = folder.where(TABLES["footprint"].file)

    def __enter__(self):
        return self

    def __exit__(self, *_):
        self.file.close()

    def row_count(self, event):
        return self.places.get(event, (0, 0))[1] // TABLES["footprint"].record.size

    def columns(self, event):
        """The columns of an event's rows: areaperils, intensities and probabilities in parts per million."""
        offset, size = self.places.get(event, (0, 0))
        self.file.seek(offset)
        data = self.file.read(size)
        if len(data) != size or size % TABLES["footprint"].record.size != 0:
            raise Wrong(f"{self.name}: has not the rows of event {event} where the index says")
        numbers = array("I", data)
        return numbers[0::3], numbers[1::3], numbers[2::3]
