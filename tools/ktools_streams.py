"""Reads the streams of ktools (docs/STREAMS.md): as records, or as a numpy array.

    from ktools_streams import Stream
    with open("all.gul", "rb") as file:
        stream = Stream(file)                   # a file object, or the bytes of a stream
        print(stream.header)                    # Header(kind='gul', samples=4, set=None)
        for record in stream:                   # Losses(event=1, id=1, pairs=[(-2, 6103482), (-1, 7150000), ..])
            ...
    losses = Stream(data).array()               # a structured array, a row a pair; needs python3-numpy
    losses["loss"][losses["sidx"] == -1].sum()  # in cents

Amounts are whole cents, the means of damage bins parts per million, their chances units of 10^-12. A stream that is cut, or is none
of this program, ends with StreamError, which names the byte, counted from 0, behind all records before it. A stream is read once.
No program: it is imported.
"""
import io
import struct
from typing import NamedTuple, Optional

KINDS = ("cdf", "gul", "loss", "summary")
TYPE = 101
MOST_SAMPLES, MOST_SETS, MOST_BINS = 1_000, 9, 1_000
MOST_ID, MOST_EXPOSURE, MOST_LOSS = 2**31 - 1, 10**14, 10**16
MOST_CHANCE, MOST_MEAN = 1_002_001_000_000, 1_000_000
BLOCK = 1 << 20

U32, U64 = struct.Struct("<I"), struct.Struct("<Q")
SIDX = struct.Struct("<i")
PAIR = struct.Struct("<iQ")
# the fields of a row of `rows` and `array`, and their numpy types
_PAIR = (("sidx", "<i4"), ("loss", "<i8"))
FIELDS = {
    "cdf": (("event", "<i4"), ("areaperil", "<i4"), ("vulnerability", "<i4"), ("bin", "<i4"), ("prob_to", "<i8"), ("mean", "<i4")),
    "gul": (("event", "<i4"), ("id", "<i4"), *_PAIR),
    "loss": (("event", "<i4"), ("id", "<i4"), *_PAIR),
    "summary": (("event", "<i4"), ("id", "<i4"), ("exposure", "<i8"), *_PAIR),
}


class StreamError(Exception):
    """A stream that is cut, or is none: the byte at which the fault begins, and what it is."""

    def __init__(self, byte, what):
        super().__init__(f"byte {byte}: {what}")
        self.byte = byte


class Header(NamedTuple):
    kind: str
    samples: Optional[int]      # of all but cdf
    set: Optional[int]          # of summary


class Losses(NamedTuple):
    """A record of ground-up losses, whose id is an item, or of insured or net ones."""
    event: int
    id: int
    pairs: list                 # of sidx and loss in cents


class Summary(NamedTuple):
    event: int
    id: int
    exposure: int
    pairs: list


class Distribution(NamedTuple):
    event: int
    areaperil: int
    vulnerability: int
    bins: list                  # of prob_to and mean


class _Bytes:
    """The bytes of a file object, or of a bytes object, one field after the other."""

    def __init__(self, source):
        self.file = io.BytesIO(source) if isinstance(source, (bytes, bytearray, memoryview)) else source
        self.block, self.at, self.before = b"", 0, 0

    def byte(self):
        """The number of the next byte."""
        return self.before + self.at

    def has(self, size):
        """Whether so many bytes follow."""
        while len(self.block) - self.at < size:
            more = self.file.read(BLOCK)
            if not more:
                return False
            self.before += self.at
            self.block, self.at = self.block[self.at:] + more, 0
        return True

    def cut(self):
        return StreamError(self.before + len(self.block), "the stream is cut here")

    def next(self, form):
        """The next number."""
        if not self.has(form.size):
            raise self.cut()
        value, = form.unpack_from(self.block, self.at)
        self.at += form.size
        return value

    def within(self, form, lowest, highest, what):
        """The next number, which has these bounds."""
        byte, value = self.byte(), self.next(form)
        if not lowest <= value <= highest:
            raise StreamError(byte, f"{what} is {value:,}, and not {lowest:,} to {highest:,}")
        return value


class Stream:
    """A stream: its header, and its records, which are read as they are asked for."""

    def __init__(self, source):
        self._bytes = _Bytes(source)
        self.header = self._read_header()

    def _read_header(self):
        if not self._bytes.has(4):
            raise self._bytes.cut()
        number = self._bytes.next(struct.Struct("B"))
        kind_of_stream = int.from_bytes(bytes(self._bytes.next(struct.Struct("B")) for _ in range(3)), "big")
        if kind_of_stream != TYPE:
            raise StreamError(1, f"the type is {kind_of_stream}, and not {TYPE}: this is no stream of this program")
        if number >= len(KINDS):
            raise StreamError(0, f"the kind is {number}, and not 0 to 3, {', '.join(KINDS)}")
        kind = KINDS[number]
        samples = None if kind == "cdf" else self._bytes.within(U32, 1, MOST_SAMPLES, "the number of samples")
        number = self._bytes.within(U32, 1, MOST_SETS, "the summary set") if kind == "summary" else None
        return Header(kind, samples, number)

    def __iter__(self):
        read = {"cdf": self._distribution, "gul": self._losses, "loss": self._losses, "summary": self._summary}[self.header.kind]
        while self._bytes.has(1):
            yield read()

    def _id(self, what):
        return self._bytes.within(U32, 1, MOST_ID, what)

    def _losses(self):
        return Losses(self._id("event"), self._id("id"), self._pairs())

    def _summary(self):
        event, summary = self._id("event"), self._id("summary id")
        return Summary(event, summary, self._bytes.within(U64, 0, MOST_EXPOSURE, "exposure"), self._pairs())

    def _pairs(self):
        """The pairs up to the end pair: one at least, whose sidx rise."""
        source, pairs, last = self._bytes, [], -3
        while source.has(PAIR.size):
            sidx, loss = PAIR.unpack_from(source.block, source.at)
            if sidx == 0 or sidx <= last or sidx > self.header.samples or not 0 < loss <= MOST_LOSS:
                break
            source.at += PAIR.size
            pairs.append((sidx, loss))
            last = sidx
        self._end_pair(pairs, last)
        return pairs

    def _end_pair(self, pairs, last):
        """Takes the end pair; what else stands there, or nothing, is a fault of the sidx or of the loss."""
        source = self._bytes
        byte, sidx = source.byte(), source.next(SIDX)
        if sidx == 0:
            if not pairs:
                raise StreamError(byte, "the record has no pair")
            source.within(U64, 0, 0, "the loss of the end pair")
            return
        if not -2 <= sidx <= self.header.samples:
            raise StreamError(byte, f"sidx is {sidx:,}, and not -2, -1 or 1 to {self.header.samples:,}")
        if sidx <= last:
            raise StreamError(byte, f"sidx is {sidx:,} behind {last:,}")
        source.within(U64, 1, MOST_LOSS, "the loss")

    def _distribution(self):
        event, areaperil, vulnerability = self._id("event"), self._id("areaperil"), self._id("vulnerability")
        bins, last = [], 0
        count = self._bytes.within(U32, 1, MOST_BINS, "the number of bins")
        for number in range(1, count + 1):
            lowest = last + 1 if number == count else last
            last = self._bytes.within(U64, lowest, MOST_CHANCE, f"prob_to of bin {number}")
            bins.append((last, self._bytes.within(U32, 0, MOST_MEAN, f"mean of bin {number}")))
        return Distribution(event, areaperil, vulnerability, bins)

    def rows(self):
        """A row of numbers for each pair, or each bin, in the order of FIELDS."""
        for record in self:
            *front, parts = record
            if self.header.kind == "cdf":
                yield from ((*front, number, *part) for number, part in enumerate(parts, 1))
            else:
                yield from ((*front, *part) for part in parts)

    def array(self):
        """The rows as a numpy array, with the names and types of FIELDS."""
        try:
            import numpy
        except ImportError:
            raise ImportError("ktools_streams: numpy: is not installed (python3-numpy); `rows` gives the same without it") from None
        return numpy.fromiter(self.rows(), dtype=list(FIELDS[self.header.kind]))


def event_ids(source):
    """The event ids that `eve` writes, which have no header."""
    ids = _Bytes(source)
    while ids.has(1):
        yield ids.within(U32, 1, MOST_ID, "event")
