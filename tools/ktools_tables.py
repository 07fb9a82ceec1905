"""The tables of docs/TABLES.md: their names, files and columns, and what may stand in a cell of their texts.

All scripts go by this one list; .ci/import-tests compares it with the program's own answers. No program: it is imported.
"""
import re
import struct
from typing import NamedTuple


class Kind(NamedTuple):
    """What a column has: counts, or numbers with decimals, in whole units of the last decimal."""
    lowest: int
    highest: int
    decimals: int = 0


class Column(NamedTuple):
    name: str
    kind: object


class Table(NamedTuple):
    name: str
    file: str           # below the folder of a run
    columns: tuple
    most_rows: int      # docs/LIMITS.md, "Rows of tables"; None where the size of the file is the limit
    header: bool = False


ID = Kind(1, 2**31 - 1)
COUNT = Kind(0, 2**31 - 1)
INTENSITY_BIN = Kind(1, 10_000)
DAMAGE_BIN = Kind(1, 1_000)
LEVEL = Kind(1, 12)
LAYER = Kind(1, 50)
SUMMARY_SET = Kind(1, 9)
OFFSET = Kind(0, 2**40)
TIV = Kind(0, 10**14, 2)
AMOUNT = Kind(0, 10**17, 2)
PPM = Kind(0, 10**6, 6)
RULE = "a calculation rule"
TERM = "an amount or a factor, by the rule of the row"
# the kinds whose numbers take eight bytes in a file; all others take four
EIGHT_BYTES = (OFFSET, TIV, AMOUNT, TERM)

RULES = frozenset([*range(1, 27), 100])
# the rules under which a term is a factor; under all others it is an amount
FACTOR_UNDER = {"deductible1": frozenset([4, 5, 6, 9, 16, 17, 18, 19, 21, 26]), "limit1": frozenset([5, 15])}


def _columns(**kinds):
    return tuple(Column(name, kind) for name, kind in kinds.items())


# in the order of loading
TABLES = {table.name: table for table in (
    Table("events", "input/events.bin", _columns(event_id=ID), 1_000_000),
    Table("items", "input/items.bin", _columns(item_id=ID, coverage_id=ID, areaperil_id=ID, vulnerability_id=ID, group_id=ID), 100_000),
    Table("coverages", "input/coverages.bin", _columns(coverage_id=ID, tiv=TIV), 100_000, header=True),
    Table("footprint", "static/footprint.bin", _columns(event_id=ID, areaperil_id=ID, intensity_bin_id=INTENSITY_BIN, prob=PPM), None, header=True),
    Table("footprint_idx", "static/footprint.idx", _columns(event_id=ID, offset=OFFSET, size=OFFSET), 1_000_000),
    Table("vulnerability", "static/vulnerability.bin",
          _columns(vulnerability_id=ID, intensity_bin_id=INTENSITY_BIN, damage_bin_id=DAMAGE_BIN, prob=PPM), 10_000_000, header=True),
    Table("damage_bin_dict", "static/damage_bin_dict.bin",
          _columns(bin_index=DAMAGE_BIN, bin_from=PPM, bin_to=PPM, interpolation=PPM, interval_type=COUNT), 1_000, header=True),
    Table("random", "static/random.bin", _columns(random=PPM), 10_000_000, header=True),
    Table("fm_programme", "input/fm_programme.bin", _columns(from_agg_id=ID, level_id=LEVEL, to_agg_id=ID), 1_200_000),
    Table("fm_policytc", "input/fm_policytc.bin", _columns(layer_id=LAYER, level_id=LEVEL, agg_id=ID, policytc_id=ID), 1_200_000),
    Table("fm_profile", "input/fm_profile.bin",
          _columns(policytc_id=ID, calcrule_id=RULE, deductible1=TERM, deductible2=AMOUNT, deductible3=AMOUNT, attachment1=AMOUNT,
                   limit1=TERM, share1=PPM, share2=PPM, share3=PPM), 1_000_000, header=True),
    Table("fm_xref", "input/fm_xref.bin", _columns(output_id=ID, agg_id=ID, layer_id=LAYER), 100_000),
    Table("gulsummaryxref", "input/gulsummaryxref.bin", _columns(item_id=ID, summary_id=ID, summaryset_id=SUMMARY_SET), 900_000),
    Table("fmsummaryxref", "input/fmsummaryxref.bin", _columns(output_id=ID, summary_id=ID, summaryset_id=SUMMARY_SET), 900_000),
    Table("occurrence", "input/occurrence.bin",
          _columns(event_id=ID, period_no=ID, occ_year=COUNT, occ_month=COUNT, occ_day=COUNT), 1_000_000, header=True),
    Table("returnperiods", "input/returnperiods.bin", _columns(return_period=ID), 1_000),
)}
# the index is made of the text of the footprint, and has none of its own to be read
TEXTS = tuple(name for name in TABLES if name != "footprint_idx")
# of losses before a programme, behind it, and of a reinsurance stage, which stands in RI_1 to RI_9
GROUND_UP = ("events", "items", "coverages", "footprint", "vulnerability", "damage_bin_dict", "random", "gulsummaryxref",
             "occurrence", "returnperiods")
INSURED = ("fm_programme", "fm_policytc", "fm_profile", "fm_xref", "fmsummaryxref")
STAGE = ("fm_programme", "fm_policytc", "fm_profile")
STAGES = 9
# other names that columns have elsewhere, taken where the own name is not there
KNOWN_AS = {"prob": "probability", "policytc_id": "profile_id", "output_id": "output", "interval_type": "damage_type"}


def column_names(table):
    return [column.name for column in TABLES[table].columns]


def number_of(table):
    """The number of a table, counted from 1."""
    return list(TABLES).index(table) + 1


def record_of(table):
    """The form of a record in the file of a table, which of the footprint leaves the event out."""
    columns = TABLES[table].columns[1:] if table == "footprint" else TABLES[table].columns
    return struct.Struct("<" + "".join("Q" if column.kind in EIGHT_BYTES else "I" for column in columns))


def file_of(table, stage=0):
    """The file of a table below the folder of a run; that of the base, or of a reinsurance stage."""
    return f"RI_{stage}/{table}.bin" if stage else TABLES[table].file


def text_of(table, stage=0):
    """Where the text of a table stands in a folder of texts."""
    return f"RI_{stage}/{table}.csv" if stage else f"{table}.csv"


# --- cells

DECIMAL = re.compile(r"\+?(?:([0-9]+)(?:\.([0-9]*))?|\.([0-9]+))(?:[eE]([+-]?)([0-9]+))?")
DIGITS = re.compile(r"[0-9]+")
MOST_DIGITS = 18
MOST_EXPONENT = 30
MOST_UNITS = 10**17


def is_number(text):
    return DECIMAL.fullmatch(text.strip(" \t")) is not None


def count_of(text):
    """The number of digits alone, or the cause why there is none."""
    if not DIGITS.fullmatch(text):
        return None, "NotANumber"
    if len(text.lstrip("0")) > MOST_DIGITS:
        return None, "TooManyDigits"
    return int(text), ""


def units_of(text, decimals):
    """The number in units of its last decimal, rounded half up, or the cause why there is none."""
    found = DECIMAL.fullmatch(text)
    if not found:
        return None, "NotANumber"
    whole, fraction = found[1] or "", (found[2] or found[3] or "").rstrip("0")
    digits = (whole + fraction).lstrip("0")
    if len(digits) > MOST_DIGITS:
        return None, "TooManyDigits"
    exponent = (found[5] or "").lstrip("0")
    if len(exponent) > 2 or int(exponent or "0") > MOST_EXPONENT:
        return None, "ExponentRange"
    places = int(f"{found[4] or ''}{exponent or '0'}") + decimals - len(fraction)
    units = int(digits or "0") * 10**places if places >= 0 else rounded(int(digits or "0"), -places)
    return (None, "TooLarge") if units > MOST_UNITS else (units, "")


def rounded(number, places):
    """The number without its last decimal places, halves up."""
    if places > MOST_DIGITS:
        return 0
    return (2 * number + 10**places) // (2 * 10**places)


def cause_of(kind, cell):
    """The cause for which a cell is refused (docs/TABLES.md, "Numbers in a text"); nothing where it is good."""
    text = cell.strip(" \t")
    if kind == RULE:
        rule, cause = count_of(text)
        return cause or ("" if rule in RULES else "Rule")
    value, cause = units_of(text, kind.decimals) if kind.decimals else count_of(text)
    if cause:
        return cause
    if value < kind.lowest:
        return "Zero"
    return "TooLarge" if value > kind.highest else ""


def kind_under(column, rule):
    """The kind of a column in a row with this calculation rule."""
    if column.kind != TERM:
        return column.kind
    return PPM if rule in FACTOR_UNDER[column.name] else AMOUNT


def bound_text(kind, units):
    """A bound of a kind in units of the text: it is a whole number."""
    return f"{units // 10**kind.decimals:,}"


def why(kind, cause):
    """What is wrong with a cell, in words."""
    if cause == "NotANumber":
        return "no number" if kind != RULE and kind.decimals else "no count, which has digits alone"
    if cause == "TooManyDigits":
        return f"more than {MOST_DIGITS} digits"
    if cause == "ExponentRange":
        return f"an exponent that is not from -{MOST_EXPONENT} to {MOST_EXPONENT}"
    if cause == "Rule":
        return "no calculation rule, 1 to 26 or 100"
    if cause == "Zero":
        return f"below {bound_text(kind, kind.lowest)}"
    return f"above {bound_text(kind, kind.highest)}"
