"""Calls over the example portfolio, and what may stand of their outputs where a call ends early.

bench/refused-memory, bench/fuzz and .ci/fault-tests make their inputs and judge fronts by what stands here. Which tables a
tool loads is from docs/COMMANDS.md, the names and the order of the output files from docs/OUTPUTS.md.
"""
import os
import shutil
import subprocess
import sys
from typing import NamedTuple

TOP = os.path.dirname(os.path.dirname(os.path.abspath(__file__)))
sys.path.insert(0, os.path.join(TOP, "tools"))
import ktools_tables  # noqa: E402
from ktools_tables import file_of  # noqa: E402

PORTFOLIO = os.path.join(TOP, "examples", "portfolio")
RECORD = os.path.join(TOP, "examples", "one-record.summary")

TABLES = list(ktools_tables.TABLES)
STAGE = [file_of(table, 1) for table in ktools_tables.STAGE]


def files_of_tables(names):
    """The files of tables whose names stand in a text, with blanks between."""
    return [file_of(name) for name in names.split()]


class Call(NamedTuple):
    """A call of the program."""
    name: str
    words: list
    source: bytes = b""     # what stands on standard input
    loads: list = []        # the files that it opens, below the folder in which it runs
    reads: bool = False     # whether it reads standard input
    losses: str = ""        # of `chain`: the last losses of the run


class Ended(NamedTuple):
    """How a call ended; a status below 0 is a signal, and None a call that went on past its time."""
    status: int
    out: bytes
    err: bytes
    files: dict


CURVES = [f"lec_{kind}_{by}" for kind in ("full", "sample", "wheat", "wheatmean") for by in ("aep", "oep")]


def output_names(losses, sets=(1, 2)):
    """The names of the output files of a run up to these losses, in the order in which they are made."""
    perspectives = ["gul", "il", "ri"][:["gul", "il", "ri"].index(losses) + 1]
    names = [f"{perspective}_S{number}_{table}.csv" for perspective in perspectives for number in sets
             for table in ["elt", "plt", "aal"] + CURVES]
    return names + (["il_layers.csv"] if losses != "gul" else [])


def output_files(folder):
    """What stands in the folder `output` of a run's folder, where it may be looked into: the bytes by name."""
    found = {}
    output = os.path.join(folder, "output")
    if os.path.isdir(output) and os.access(output, os.R_OK | os.X_OK):
        for name in os.listdir(output):
            path = os.path.join(output, name)
            if os.path.isfile(path):
                with open(path, "rb") as file:
                    found[name] = file.read()
    return found


def not_a_front(files, whole, names):
    """What is wrong with the files of a run that ended early, or nothing: they are the first of those names, and each has a
    front of what stands in the whole run's file."""
    strange = sorted(set(files) - set(names))
    if strange:
        return f"there is a file {strange[0]}"
    missing = [name for name in names if name not in files]
    if missing and names.index(missing[0]) < len(files):
        return f"there is no {missing[0]}, but there are {len(files)} files"
    for name in names:
        found = files.get(name, b"")
        if not whole[name].startswith(found):
            at = len(os.path.commonprefix([whole[name], found]))
            return f"{name} is no front of its text: at byte {at} it goes on with {found[at:at + 80]!r}"
    return ""


def run(program, call, folder, seconds=60, **how):
    """Runs a call in a folder, over an `output` that is not there."""
    shutil.rmtree(os.path.join(folder, "output"), ignore_errors=True)
    try:
        done = subprocess.run([program] + call.words, input=call.source, capture_output=True, cwd=folder, timeout=seconds, **how)
    except subprocess.TimeoutExpired:
        return Ended(None, b"", b"", {})
    return Ended(done.returncode, done.stdout, done.stderr, output_files(folder) if call.losses else {})


def must(program, words, source, folder):
    """What a call writes that has to succeed."""
    done = subprocess.run([program] + words, input=source, capture_output=True, cwd=folder)
    if done.returncode != 0:
        sys.exit(f"{os.path.basename(sys.argv[0])}: {program} {' '.join(words)} ended with {done.returncode}: {done.stderr!r}")
    return done.stdout


def text_of(table):
    """The text of a table of the example."""
    with open(os.path.join(PORTFOLIO, f"{'footprint' if table == 'footprint_idx' else table}.csv"), "rb") as file:
        return file.read()


def periods(table, number):
    """The words that `tobin` wants for a table beside its name."""
    return ["-P", str(number)] if table == "occurrence" else []


def make_portfolio(program, folder):
    """The example portfolio as files in a folder."""
    for part in ("input", "static", "RI_1"):
        os.makedirs(os.path.join(folder, part))
    for table in TABLES:
        write(folder, file_of(table), must(program, ["tobin", table] + periods(table, 3), text_of(table), folder))
    for file in STAGE:
        table = os.path.basename(file)[:-len(".bin")]
        with open(os.path.join(PORTFOLIO, "RI_1", f"{table}.csv"), "rb") as text:
            write(folder, file, must(program, ["tobin", table], text.read(), folder))


# One item of 1,000.00, hit for certain in one event (docs/EXAMPLES.md, "All stages"): the rows of its tables.
ONE_ITEM = {
    "events": "1", "items": "1,1,1,1,1", "coverages": "1,1000", "footprint": "1,1,1,1", "footprint_idx": "1,1,1,1",
    "vulnerability": "1,1,1,0.5\n1,1,2,0.3\n1,1,3,0.2", "damage_bin_dict": "1,0,0,0,1\n2,0,0.5,0.25,1\n3,0.5,1,0.75,1",
    "random": "0.65", "gulsummaryxref": "1,1,1", "occurrence": "1,1,2001,1,1", "returnperiods": "2\n1"}


def make_one_item(program, folder):
    """One item as files in a folder."""
    for part in ("input", "static"):
        os.makedirs(os.path.join(folder, part))
    for table, rows in ONE_ITEM.items():
        text = f"heading\n{rows}\n".encode()
        write(folder, file_of(table), must(program, ["tobin", table] + periods(table, 2), text, folder))


def write(folder, name, content):
    """A file in a folder."""
    with open(os.path.join(folder, name), "wb") as file:
        file.write(content)


def read(folder, name):
    """The bytes of a file in a folder."""
    with open(os.path.join(folder, name), "rb") as file:
        return file.read()


GROUND_UP = "events items coverages footprint footprint_idx vulnerability damage_bin_dict random"
PROGRAMME = "fm_programme fm_policytc fm_profile fm_xref"
ALL = f"{GROUND_UP} {PROGRAMME} gulsummaryxref fmsummaryxref occurrence returnperiods"


def calls_of_portfolio(program, folder):
    """A call of each tool over a portfolio in a folder, with what the tool before it writes; and of `chain`. Writes the files
    `first` and `second` there, which `kat` joins."""
    sampled = ["gulcalc", "-S", "4", "-a", "1", "-r", "-i", "-"]
    ids = must(program, ["eve", "1", "1"], b"", folder)
    cdf = must(program, ["getmodel"], ids, folder)
    gul = must(program, sampled, cdf, folder)
    il = must(program, ["fmcalc", "-a", "2"], gul, folder)
    summary = must(program, ["summarycalc", "-f", "-2", "-"], il, folder)
    for part, name in ((1, "first"), (2, "second")):
        some = must(program, ["eve", str(part), "2"], b"", folder)
        write(folder, name, must(program, sampled, must(program, ["getmodel"], some, folder), folder))
    return [
        Call("eve", ["eve", "1", "1"], loads=files_of_tables("events")),
        Call("getmodel", ["getmodel"], ids, files_of_tables("items footprint footprint_idx vulnerability damage_bin_dict"), True),
        Call("gulcalc", sampled, cdf, files_of_tables("items coverages damage_bin_dict random"), True),
        Call("fmcalc", ["fmcalc", "-a", "2"], gul, files_of_tables(f"items coverages {PROGRAMME}"), True),
        Call("fmcalc -n", ["fmcalc", "-a", "1", "-n"], gul, files_of_tables(f"items coverages {PROGRAMME}"), True),
        Call("fmcalc -n -p", ["fmcalc", "-a", "2", "-n", "-p", "RI_1"], il, files_of_tables("items coverages fm_xref") + STAGE, True),
        Call("summarycalc -i", ["summarycalc", "-i", "-1", "-"], gul, files_of_tables("items coverages gulsummaryxref"), True),
        Call("summarycalc -f", ["summarycalc", "-f", "-2", "-"], il,
             files_of_tables("items coverages fm_programme fm_xref fmsummaryxref"), True),
        Call("eltcalc", ["eltcalc"], summary, [], True),
        Call("pltcalc", ["pltcalc"], summary, files_of_tables("occurrence"), True),
        Call("aalcalc", ["aalcalc"], summary, files_of_tables("occurrence"), True),
        Call("leccalc", ["leccalc", "-r", "-F", "-"], summary, files_of_tables("occurrence returnperiods"), True),
        Call("kat", ["kat", "first", "second"], loads=["first", "second"]),
    ] + [chain("chain", ["-S", "4", "-l", "ri", "-a", "2", "-r", "1"])]


def chain(name, words):
    """A run of all stages over a portfolio, with one reinsurance stage at most."""
    losses = words[words.index("-l") + 1]
    loads = files_of_tables(ALL if losses != "gul" else f"{GROUND_UP} gulsummaryxref occurrence returnperiods")
    return Call(name, ["chain"] + words, loads=loads + (STAGE if losses == "ri" else []), losses=losses)


def conversions(folder):
    """`tobin` and `tocsv` of each table of the portfolio in a folder."""
    there = [Call(f"tobin {table}", ["tobin", table] + periods(table, 3), text_of(table), [], True) for table in TABLES]
    back = [Call(f"tocsv {table}", ["tocsv", table], read(folder, file_of(table)),
                 files_of_tables("footprint_idx") if table == "footprint" else [], True)
            for table in TABLES if table != "footprint_idx"]
    return there + back
