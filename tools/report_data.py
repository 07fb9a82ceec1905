"""What a report takes from the tables of a run (docs/OUTPUTS.md), in cents.

No program: tools/report imports it. Large tables are read line by line: of events only the greatest are kept.
"""
import csv
import heapq
import math
import re
from typing import NamedTuple

from run_folder import RunFolderError

PERSPECTIVES = ("gul", "il", "ri")
CURVES = ("full_aep", "full_oep", "wheatmean_aep", "wheatmean_oep")
LEC = ["summary_id", "type", "return_period", "loss"]
HEADINGS = {
    "elt": ["summary_id", "type", "event_id", "mean", "standard_deviation", "exposure_value"],
    "plt": ["summary_id", "type", "event_id", "period_no", "mean", "standard_deviation", "exposure_value",
            "occ_year", "occ_month", "occ_day"],
    "aal": ["summary_id", "type", "mean", "standard_deviation"],
    **{f"lec_{curve}": LEC for curve in CURVES},
}
AMOUNTS = {"mean", "standard_deviation", "exposure_value", "loss"}
COUNT = r"[0-9]{1,10}"
AMOUNT = r"[0-9]{1,18}\.[0-9]{2}"
ANALYTICAL, SAMPLED = 1, 2          # the types of rows
MOST_PERIODS = 100_000              # so many periods an occurrence table may have
EVENTS = 30                         # so many events of a set are kept
OCCURRENCES = 5                     # so many occurrences of an event are named


class Average(NamedTuple):
    """A row of a table of average annual losses."""
    mean: int = 0
    deviation: int = 0


class Event(NamedTuple):
    """An event of a set: its losses, of all summaries together."""
    event: int
    mean: int           # of the samples
    analytical: int     # of the distributions
    deviation: int      # of the samples; of one summary alone, since deviations do not add
    summaries: int      # how many have a loss
    count: int          # of its occurrences
    occurrences: list   # the first of them: period, year, month, day


class SetTables(NamedTuple):
    """What is told of a perspective and a summary set."""
    perspective: str
    number: int
    averages: dict      # summary -> type -> Average
    exposures: dict     # summary -> exposure
    curves: dict        # CURVES -> (summary, type) -> [(return period, loss), ..], the shortest return period first
    events: list        # the greatest, the greatest first
    event_count: int
    totals: dict        # summary -> what all periods together have of type 1
    last_period: int    # the greatest period with a loss

    @property
    def start(self):
        return f"{self.perspective}_S{self.number}"

    def average(self, summary, kind=SAMPLED):
        return self.averages.get(summary, {}).get(kind, Average())

    @property
    def by_loss(self):
        """The summaries, that with the greatest average annual loss first."""
        return sorted(self.averages, key=lambda summary: (-self.average(summary).mean, summary))

    def curve(self, kind, summary, row_type=SAMPLED):
        return self.curves[kind].get((summary, row_type), [])


def rows_of(run, start, kind):
    """The rows of a table of the run: counts, and amounts in cents."""
    path, columns = run.path(f"{start}_{kind}.csv"), HEADINGS[kind]
    row = re.compile(",".join(f"({AMOUNT if column in AMOUNTS else COUNT})" for column in columns) + "\n")
    try:
        with open(path, encoding="ascii", newline="") as lines:
            if lines.readline() != ",".join(columns) + "\n":
                raise RunFolderError(path, f"line 1: is not the heading {','.join(columns)}")
            for number, line in enumerate(lines, 2):
                found = row.fullmatch(line)
                if not found:
                    raise RunFolderError(path, f"line {number}: is no row of {','.join(columns)}: {line.rstrip()!r:.60}")
                yield [int(field.replace(".", "")) for field in found.groups()]
    except UnicodeDecodeError as error:
        raise RunFolderError(path, f"is no text of a table: {error.reason}") from None
    except OSError as error:
        raise RunFolderError(path, error.strerror) from None


def sets_of(run):
    """The perspectives and sets of a run, in the order of a report."""
    found = {(name[1], int(name[2])) for name in (re.fullmatch(r"(gul|il|ri)_S([0-9])_[a-z_]+\.csv", output["file"]) for output in run.outputs)
             if name}
    return sorted(found, key=lambda of: (PERSPECTIVES.index(of[0]), of[1]))


def read_tables(run):
    """What is told of each perspective and set."""
    return [read_set(run, perspective, number) for perspective, number in sets_of(run)]


def read_set(run, perspective, number):
    start = f"{perspective}_S{number}"
    averages = {}
    for summary, kind, mean, deviation in rows_of(run, start, "aal"):
        averages.setdefault(summary, {})[kind] = Average(mean, deviation)
    curves = {}
    for name in CURVES:
        lines = curves[name] = {}
        for summary, kind, period, loss in rows_of(run, start, f"lec_{name}"):
            lines.setdefault((summary, kind), []).append((period, loss))
        for points in lines.values():
            points.sort()
    exposures, greatest, event_count = read_events(run, start)
    totals, occurrences, last_period = read_periods(run, start, set(greatest))
    events = [Event(event, *greatest[event], len(occurrences.get(event, [])), occurrences.get(event, [])[:OCCURRENCES])
              for event in sorted(greatest, key=lambda event: (-greatest[event][0], event))]
    return SetTables(perspective, number, averages, exposures, curves, events, event_count, totals, last_period)


def read_events(run, start):
    """Of the event losses: the exposures of the summaries; of the greatest events the means, the deviation and the number of summaries;
    and how many events there are."""
    exposures, losses = {}, {}
    for summary, kind, event, mean, deviation, exposure in rows_of(run, start, "elt"):
        exposures[summary] = exposure
        of_event = losses.setdefault(event, [0, 0, 0, 0])
        if kind == SAMPLED:
            of_event[0] += mean
            of_event[2] = deviation
            of_event[3] += 1
        else:
            of_event[1] += mean
    greatest = heapq.nsmallest(EVENTS, losses, key=lambda event: (-losses[event][0], event))
    return exposures, {event: losses[event] for event in greatest}, len(losses)


def read_periods(run, start, wanted):
    """Of the period losses: what all periods together have of type 1, by summary; the occurrences of the events that are wanted, and
    the last period with a loss."""
    totals, occurrences, of_summary, last_period = {}, {}, {}, 0
    for summary, kind, event, period, mean, _, _, year, month, day in rows_of(run, start, "plt"):
        last_period = max(last_period, period)
        if kind == ANALYTICAL:
            totals[summary] = totals.get(summary, 0) + mean
        elif event in wanted and of_summary.setdefault(event, summary) == summary:     # each summary has the same occurrences
            occurrences.setdefault(event, []).append((period, year, month, day))
    return totals, occurrences, last_period


def periods_of(tables):
    """The number of periods N, which no table names. An average of type 1 is what all periods have together over N, rounded to a cent:
    the one N for which that holds of each average; nothing where there are several."""
    least, most = 1, MOST_PERIODS
    for table in tables:
        least = max(least, table.last_period)
        for summary in table.averages:
            mean, total = table.average(summary, ANALYTICAL).mean, table.totals.get(summary, 0)
            if total:
                least = max(least, 2 * total // (2 * mean + 1) + 1)
                most = min(most, 2 * total // (2 * mean - 1)) if mean else most
    return least if least == most else None


def standard_error(deviation, draws):
    """Of the mean of so many independent draws, rounded down to a cent."""
    return math.isqrt(deviation * deviation // draws)


def read_labels(file):
    """The labels of a CSV with the columns set, summary_id and label, by set and summary, each with its line."""
    labels = {}
    try:
        with open(file, encoding="utf-8-sig", newline="") as lines:
            rows = csv.reader(lines, strict=True)
            if next(rows, None) != ["set", "summary_id", "label"]:
                raise RunFolderError(file, "line 1: is not the heading set,summary_id,label")
            for row in rows:
                add_label(labels, file, rows.line_num, row)
    except UnicodeDecodeError as error:
        raise RunFolderError(file, f"is no UTF-8: {error.reason}") from None
    except csv.Error as error:
        raise RunFolderError(file, f"is no CSV: {error}") from None
    except OSError as error:
        raise RunFolderError(file, error.strerror) from None
    return labels


def add_label(labels, file, line, row):
    where = f"line {line}: "
    if len(row) != 3:
        raise RunFolderError(file, f"{where}has {len(row)} fields, and not 3")
    if not re.fullmatch("[0-9]", row[0]) or not re.fullmatch(COUNT, row[1]):
        raise RunFolderError(file, f"{where}set {row[0]!r:.30} and summary_id {row[1]!r:.30} are not both numbers of a run")
    key = int(row[0]), int(row[1])
    label = " ".join(row[2].split())
    if not label or not label.isprintable():
        raise RunFolderError(file, f"{where}the label {row[2]!r:.60} is empty, or has signs that cannot be shown")
    if key in labels:
        raise RunFolderError(file, f"{where}set {key[0]} summary {key[1]} has a label already, in line {labels[key][1]}")
    labels[key] = label, line


def unused_labels(labels, tables):
    """The labels whose summary is in no table: line, set, summary."""
    there = {(table.number, summary) for table in tables for summary in table.averages}
    return sorted((line, *key) for key, (_, line) in labels.items() if key not in there)

