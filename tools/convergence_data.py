"""How far the average annual loss and the curves of a run are off by sampling (docs/CONVERGENCE.md), from its tables and its inputs.

No program: tools/convergence imports it. Amounts are cents; errors are cents with a fraction.
"""
import itertools
import math
import os
import struct
from array import array
from collections import defaultdict
from typing import NamedTuple

from run_folder import RunFolderError, difference
from run_tables import kind_of, read_rows

HEADER = 16                                         # bytes
EVENT_FACTOR, GROUP_FACTOR = 1_543_270_363, 1_943_272_559       # docs/CALCULATION.md, "Random numbers"
PPM = 1_000_000
FEW = 100               # fewer draws than that have no interval: a rare great loss may not be among them (docs/CONVERGENCE.md, "Few draws")
LEVEL = 1.96            # so many standard errors lie on each side of a mean in an interval of 95 %
STRANGE = 4.5           # so many standard errors off, a list of random numbers is none: by chance one in 150,000 is
MOST_SAMPLES, MOST_NUMBERS = 1_000, 10_000_000      # what a run takes (docs/LIMITS.md)
GROWTH = 1.1            # from a number that is not enough to the next that is tried
SAMPLED = 2             # the type of rows
STEPS = (1, 2, 5)

# the inputs that an error is worked out from; those of insured and net losses behind
GROUND_UP = ["input/items.bin", "input/coverages.bin", "static/footprint.bin", "static/footprint.idx", "static/random.bin",
             "input/gulsummaryxref.bin", "input/occurrence.bin"]
INSURED = ["input/fm_programme.bin", "input/fm_xref.bin", "input/fmsummaryxref.bin"]


class Item(NamedTuple):
    """An item: where it is struck, whose random numbers it has, and its insured value."""
    areaperil: int
    group: int
    tiv: int


class Exposure(NamedTuple):
    """What the inputs of a run say of its losses."""
    members: dict       # (whether the losses are insured or net ones, set, summary) -> its items
    struck: dict        # event -> the areaperils that it strikes
    rates: dict         # event -> how often it occurs, in a period
    numbers: array      # the random numbers, in ppm
    groups: int         # how many groups there are


class Strikes(NamedTuple):
    """What a summary's losses hang on: the groups that its events strike. The weight of a strike is the rate of the event times the
    deviation of what it costs the group, in cents a year."""
    weights: dict       # the number whose rest by that of the random numbers is the place of sample 1 -> weight
    apart: float        # the sum of the squares of all weights: the variance, if each strike had a list of its own
    together: float     # the sum of all weights: the deviation, if one number served all strikes
    even: float         # so many strikes of the same weight differ as much: 1 where one is all of the loss, 0 where none is uncertain
    count: int          # of the random numbers

    def draws(self, samples):
        """How many draws of the same weight so many samples come to."""
        return samples * self.even

    @property
    def least_samples(self):
        """The least number of samples that has draws enough for an interval."""
        return math.ceil(FEW / self.even) if self.even else 1

    def variance(self, samples):
        """The square of the standard error of the average annual loss by so many samples.

        A random number at some place serves each strike that begins there or less than `samples` places before, so what it adds to the
        mean moves with the sum of their weights; the variance is the sum of the squares of these sums, over the square of `samples`."""
        rounds, rest = divmod(samples, self.count)
        now = rounds * self.together
        changes = defaultdict(float)
        for begin, weight in self.weights.items():
            place = begin % self.count
            if rest:
                changes[place] += weight
                end = place + rest
                if end >= self.count:
                    now += weight
                changes[end % self.count] -= weight
        total, last = 0.0, 0
        for place in sorted(changes):
            total += (place - last) * now * now
            now, last = now + changes[place], place
        total += (self.count - last) * now * now
        return total / samples ** 2

    def shared(self, samples):
        """The part of the variance that comes of numbers that serve several strikes."""
        return max(0.0, self.variance(samples) - self.apart / samples)

    def samples_for(self, variance):
        """So many samples have no greater variance, none where the list is too short for that; by halving, so that fewer may do."""
        least, most = self.least_samples, min(self.count, MOST_SAMPLES)
        if least > most or self.variance(most) > variance:
            return None
        while least < most:
            middle = (least + most) // 2
            if self.variance(middle) <= variance:
                most = middle
            else:
                least = middle + 1
        return most

    def list_for(self, variance):
        """How many samples and how many random numbers have no greater variance, or nothing where no run has. Half of it is for the samples
        and half for the list, where so many samples can be had; then both grow until the places in a list of that length allow it."""
        samples, part = max(2 * self.apart / variance, self.least_samples), variance / 2
        if self.least_samples > MOST_SAMPLES:
            return None
        if samples > MOST_SAMPLES:
            samples, part = MOST_SAMPLES, variance - self.apart / MOST_SAMPLES
        if part <= 0:
            return None
        numbers = (self.together ** 2 - self.apart) / part
        while numbers <= MOST_NUMBERS:
            count = min(MOST_SAMPLES, math.ceil(samples))
            other = self._replace(count=rounded_up(max(count, numbers)))
            if other.count <= MOST_NUMBERS and other.variance(count) <= variance:
                return count, other.count
            samples, numbers = samples * GROWTH, numbers * GROWTH
        return None


def rounded_up(number):
    """A number of two digits and noughts, not below this one."""
    step = 10 ** max(0, len(str(math.ceil(number))) - 2)
    return math.ceil(number / step) * step


# --- the inputs

def input_paths(run, folder):
    """Where the inputs are that the error is worked out from, each with the bytes that the run read."""
    entries = {entry["file"]: entry for entry in run.manifest["inputs"]}
    paths = {}
    for file in GROUND_UP + (INSURED if run.terms["last"] != "gul" else []):
        path = os.path.join(folder, file)
        if file not in entries:
            raise RunFolderError(os.path.join(run.folder, "manifest.json"), f"inputs: has no {file}, and the error hangs on it")
        what = difference(path, entries[file])
        if what:
            raise RunFolderError(path, f"{what}; the error hangs on this input of the run: name the folder that has it with --from")
        paths[file] = path
    return paths


def records(path, form, header=0):
    """The records of an input."""
    size = struct.calcsize("<" + form)
    try:
        with open(path, "rb") as file:
            data = file.read()
    except OSError as error:
        raise RunFolderError(path, error.strerror) from None
    if len(data) < header or (len(data) - header) % size:
        raise RunFolderError(path, f"has {len(data)} bytes, which are no records of {size}")
    return struct.iter_unpack("<" + form, memoryview(data)[header:])


def periods_of(path):
    """The number of periods, from the header of the occurrences."""
    with open(path, "rb") as file:
        periods = struct.unpack("<IIII", file.read(HEADER).ljust(HEADER, b"\0"))[3]
    if periods == 0:
        raise RunFolderError(path, "has no number of periods")
    return periods


def read_exposure(run, folder):
    """What the inputs of a run say of its losses."""
    paths = input_paths(run, folder)
    values = dict(records(paths["input/coverages.bin"], "IQ", HEADER))
    items = {item: Item(area, group, values.get(coverage, 0)) for item, coverage, area, _, group in records(paths["input/items.bin"], "IIIII")}
    members = defaultdict(set)
    for item, summary, number in records(paths["input/gulsummaryxref.bin"], "III"):
        members[False, number, summary].add(item)
    if run.terms["last"] != "gul":
        outputs = items_of_outputs(paths, run.terms["rule"], items)
        for output, summary, number in records(paths["input/fmsummaryxref.bin"], "III"):
            members[True, number, summary].update(outputs.get(output, ()))
    periods = periods_of(paths["input/occurrence.bin"])
    rates = defaultdict(float)
    for event, *_ in records(paths["input/occurrence.bin"], "IIIII", HEADER):
        rates[event] += 1 / periods
    numbers = array("I", (number for number, in records(paths["static/random.bin"], "I", HEADER)))
    if not numbers:
        raise RunFolderError(paths["static/random.bin"], "has no random number")
    struck = struck_areas(paths["static/footprint.bin"], paths["static/footprint.idx"], rates)
    return Exposure({key: [items[item] for item in those if item in items] for key, those in members.items()}, struck, rates, numbers,
                    len({item.group for item in items.values()}))


def items_of_outputs(paths, rule, items):
    """The items of each output: one, or by allocation rule 0 all whose losses come to its unit of the top level."""
    of_unit = {item: [item] for item in items}
    if rule == 0:
        levels = defaultdict(lambda: defaultdict(list))
        for source, level, unit in records(paths["input/fm_programme.bin"], "III"):
            levels[level][unit].append(source)
        for level in sorted(levels):
            of_unit = {unit: [item for source in sources for item in of_unit.get(source, ())] for unit, sources in levels[level].items()}
    return {output: of_unit.get(unit, ()) for output, unit, _ in records(paths["input/fm_xref.bin"], "III")}


def struck_areas(footprint, index, rates):
    """The areaperils that each event strikes, of those events that occur."""
    struck = {}
    size = os.path.getsize(footprint)
    with open(footprint, "rb") as file:
        for event, offset, length in records(index, "IQQ"):
            if event in rates:
                if length % 12 or offset + length > size:
                    raise RunFolderError(index, f"event {event}: has no whole records in the footprint")
                file.seek(offset)
                struck[event] = {area for area, _, chance in struct.iter_unpack("<III", file.read(length)) if chance}
    return struck


# --- the list of random numbers

def faults_of_list(numbers):
    """Why the numbers are none that were drawn independently of one another: repeated ones, or others than random ones; nothing where they may be."""
    count = len(numbers)
    period = period_of(numbers)
    if period < count:
        yield f"repeats itself behind {period:,} of its {count:,} numbers, so samples are copies of others"
        return
    values = PPM // (math.gcd(*numbers) or PPM) + 1        # so many there are with as few decimals
    distinct, wanted = len(set(numbers)), values * -math.expm1(count * math.log1p(-1 / values)) if values > 1 else 1
    if distinct < wanted - STRANGE * math.sqrt(count * min(1.0, count / values)) - 1:
        yield f"has {distinct:,} different numbers, and {count:,} random ones have about {wanted:,.0f}: numbers are repeated"
    mean = sum(numbers) / count / PPM
    if abs(mean - 0.5) > STRANGE / math.sqrt(12 * count):
        yield f"has the mean {mean:.4f}, and random numbers one near 0.5"
    products = sum((one / PPM - 0.5) * (next_ / PPM - 0.5) for one, next_ in itertools.pairwise(numbers))
    if count > 2 and abs(products) > STRANGE * math.sqrt(count) / 12:
        yield "has numbers that go with the ones before them, and random ones do not"


def period_of(numbers):
    """Behind how many numbers the list begins again, to its end; all of them where it does not."""
    borders, border = array("I", bytes(4 * len(numbers))), 0
    for at in range(1, len(numbers)):
        while border and numbers[at] != numbers[border]:
            border = borders[border - 1]
        border += numbers[at] == numbers[border]
        borders[at] = border
    # a last number that happens to be the first one is no repetition: half of the list has to come again
    period = len(numbers) - borders[-1]
    return period if 2 * period <= len(numbers) else len(numbers)


# --- a set

class Losses(NamedTuple):
    """The tables of a perspective and a set."""
    perspective: str
    number: int
    averages: dict      # summary -> average annual loss by the samples
    deviations: dict    # summary -> event -> deviation of the samples
    curves: dict        # aep or oep -> summary -> return period -> sample -> loss


def table(run, start, kind):
    file = f"{start}_{kind}.csv"
    if not any(output["file"] == file for output in run.outputs):
        raise RunFolderError(os.path.join(run.folder, file), "is no table of the run: the errors of this set cannot be told without it")
    return (row for _, row in read_rows(run.path(file), kind_of(file)))


def read_losses(run, perspective, number):
    start = f"{perspective}_S{number}"
    averages = {row["summary_id"]: row["mean"] for row in table(run, start, "aal") if row["type"] == SAMPLED}
    deviations, curves = defaultdict(dict), {}
    for row in table(run, start, "elt"):
        if row["type"] == SAMPLED:
            deviations[row["summary_id"]][row["event_id"]] = row["standard_deviation"]
    for by in ("aep", "oep"):
        of_summary = curves[by] = defaultdict(lambda: defaultdict(dict))
        for row in table(run, start, f"lec_wheat_{by}"):
            if not 1 <= row["sidx"] <= run.terms["samples"]:
                raise RunFolderError(run.path(f"{start}_lec_wheat_{by}.csv"), f"has the sample {row['sidx']}, and the run has {run.terms['samples']}")
            of_summary[row["summary_id"]][row["return_period"]][row["sidx"]] = row["loss"]
    return Losses(perspective, number, averages, deviations, curves)


def strikes_of(losses, exposure, summary):
    """What the losses of a summary hang on. The deviation of an event is shared out to the groups that it strikes, so that their
    variances are as the squares of their insured values and add to its own."""
    of_area = defaultdict(lambda: defaultdict(int))
    everywhere = defaultdict(int)
    for item in exposure.members.get((losses.perspective != "gul", losses.number, summary), ()):
        of_area[item.areaperil][item.group] += item.tiv
        everywhere[item.group] += item.tiv
    weights, apart, together, squares = defaultdict(float), 0.0, 0.0, 0.0
    for event, deviation in losses.deviations.get(summary, {}).items():
        rate = exposure.rates.get(event, 0.0)
        values = defaultdict(int)
        for area in exposure.struck.get(event, ()):
            for group, tiv in of_area.get(area, {}).items():
                values[group] += tiv
        values = values if any(values.values()) else everywhere
        whole = math.sqrt(sum(value * value for value in values.values()))
        for group, value in values.items() if whole and rate else ():
            weight = rate * deviation * value / whole
            weights[event * EVENT_FACTOR + group * GROUP_FACTOR] += weight
            apart += weight * weight
            together += weight
            squares += weight ** 4
    return Strikes(weights, apart, together, apart ** 2 / squares if squares else 0.0, len(exposure.numbers))


# --- what is told

class Point(NamedTuple):
    """A mean by a number of samples."""
    measure: str        # aal, aep or oep
    period: int         # the return period; 0 of an average annual loss
    samples: int
    mean: float         # in cents; None where the tables have none
    error: float        # one standard error; None where none can be told
    least: int          # the least and the greatest of the samples' curves; None of an average annual loss
    greatest: int
    few: bool           # whether there are too few draws for an interval

    @property
    def interval(self):
        """The interval of 95 %, or nothing where there is none."""
        if self.mean is None or self.error is None or self.few:
            return None
        return max(0.0, self.mean - LEVEL * self.error), self.mean + LEVEL * self.error


def steps_to(samples):
    """10, 20, 50, 100 and so on, up to the samples of the run and with them."""
    return [step * 10 ** power for power in range(1, 4) for step in STEPS if step * 10 ** power < samples] + [samples]


def points_of(losses, strikes, summary, samples, usable, means):
    """The means and errors of a summary, by numbers of samples. No error stands where the samples are more than the random
    numbers, or these are not usable. `means` has average annual losses by fewer samples, of other runs."""
    average = losses.averages[summary]
    counts = sorted({*steps_to(samples), *means})

    def is_few(count):
        return 0 < strikes.draws(count) < FEW

    variances = {count: strikes.variance(count) for count in counts if usable and count <= strikes.count}
    for count in counts:
        error = math.sqrt(variances[count]) if count in variances else None
        yield Point("aal", 0, count, average if count == samples else means.get(count), error, None, None, is_few(count))
    for by, of_summary in losses.curves.items():
        for period, of_sample in sorted(of_summary.get(summary, {}).items()):
            ranked = [of_sample.get(sample, 0) for sample in range(1, samples + 1)]
            for count in counts:
                first = ranked[:count]
                error = curve_error(first, strikes, average) if count in variances else None
                yield Point(by, period, count, sum(first) / count, error, min(first), max(first), is_few(count))


def curve_error(first, strikes, average):
    """The standard error of the mean of so many samples' curves at a return period: what the samples differ by, and what the list moves all
    of them by, which is taken for the same part of the loss as of the average annual loss."""
    count = len(first)
    mean = sum(first) / count
    spread = sum((loss - mean) ** 2 for loss in first) / (count - 1) / count
    moved = strikes.shared(count) * (mean / average) ** 2 if average else 0.0
    return math.sqrt(spread + moved)
