"""Forecasts how many cells the events of a run make, and behind which event there are too many (docs/FITS.md).

A cell is a summary of a set, a sidx and a period with a loss. Which summaries an event can touch the tables say: its areaperils in the
footprint, the items there, and their summaries. How likely a sample of a touched summary has no loss is taken from the damage
distributions, and set right by what a trial run saw of each perspective and summary.
"""
import bisect
import functools
from typing import NamedTuple

from fits_tables import TABLES

PERSPECTIVES = ("gul", "il", "ri")
MOST_CELLS = 20_000_000
PPM = 1_000_000
ENOUGH_TOUCHED = 20     # so often a summary is touched in a trial before its own share is believed
MOST_NUMBERS = 100_000  # so many random numbers tell how they are spread
MOST_KEPT = 200_000     # so many places with their intensities are kept


class Share(NamedTuple):
    """What a trial saw of a summary, beside what the damage distributions alone say."""
    samples: float  # samples with a loss, of those that may have one
    mean: float     # events with a mean loss, of those that touch it


class Touched(NamedTuple):
    """What an event touches: footprint rows and items, and for each summary the chance that a sample has no loss. `gul` has the
    summaries of items, `out` those of outputs, each by its place in the list of keys."""
    rows: int
    items: int
    gul: dict
    out: dict


class Portfolio:
    """Which summaries the events of a run touch."""

    def __init__(self, folder, last, rule):
        self.rows = folder.rows
        self.keys = {"gul": [], "out": []}
        self.of_item = {"gul": self._summaries("gul", ((item, item) for item, *_ in folder.rows(TABLES["items"])), "gulsummaryxref"),
                        "out": {}}
        if last != "gul":
            self.of_item["out"] = self._summaries("out", self._outputs(rule), "fmsummaryxref")
        worth = {coverage for coverage, tiv in folder.rows(TABLES["coverages"]) if tiv > 0}
        self.items_at = {}
        for item, coverage, areaperil, vulnerability, group in folder.rows(TABLES["items"]):
            if coverage in worth:
                self.items_at.setdefault(areaperil, []).append((item, vulnerability, group))
        self.areaperils = frozenset(self.items_at)
        self.none, self.any = self._damages()
        numbers = folder.column(TABLES["random"])
        self.numbers = sorted(numbers[:: 1 + len(numbers) // MOST_NUMBERS])
        self.at = functools.lru_cache(MOST_KEPT)(self._at)
        self.no_loss = functools.lru_cache(MOST_KEPT)(self._no_loss)
        self.groups = functools.cache(self._groups)

    def _summaries(self, kind, ids_of_items, xref):
        """The places of the summaries of each item, through the ids of it that a table of summaries has."""
        places, of_id = {}, {}
        for identity, summary, number in self.rows(TABLES[xref]):
            place = places.setdefault((number, summary), len(places))
            of_id.setdefault(identity, []).append(place)
        self.keys[kind] = list(places)
        found = {}
        for item, identity in ids_of_items:
            found.setdefault(item, set()).update(of_id.get(identity, ()))
        return found

    def _outputs(self, rule):
        """Items beside their outputs: by rules 1 and 2 an output is for an item, by rule 0 for all items beneath a unit of the top."""
        level_up, top = {}, 0
        for source, level, target in self.rows(TABLES["fm_programme"]):
            level_up.setdefault(level, {})[source] = target
            top = max(top, level)
        beneath = {}
        for item in level_up.get(1, {}):
            unit = item
            for level in range(1, top + 1):
                unit = level_up.get(level, {}).get(unit)
            beneath.setdefault(item if rule else unit, []).append(item)
        return [(item, output) for output, unit, _ in self.rows(TABLES["fm_xref"]) for item in beneath.get(unit, ())]

    def _damages(self):
        """Of each vulnerability at an intensity the probability, in parts per million, of no damage, and of any damage bin."""
        no_damage = 0
        for _, _, end, _, _ in self.rows(TABLES["damage_bin_dict"]):
            if end > 0:
                break
            no_damage += 1
        wanted = {vulnerability for items in self.items_at.values() for _, vulnerability, _ in items}
        none, some = {}, {}
        for vulnerability, intensity, damage, probability in self.rows(TABLES["vulnerability"]):
            if vulnerability in wanted:
                key = vulnerability, intensity
                some[key] = some.get(key, 0) + probability
                if damage <= no_damage:
                    none[key] = none.get(key, 0) + probability
        return none, some

    def _no_loss(self, vulnerability, intensities):
        """The chance that a sample has no loss: its random number is not above the chance of no damage."""
        some = sum(chance * self.any.get((vulnerability, intensity), 0) for intensity, chance in intensities)
        none = sum(chance * self.none.get((vulnerability, intensity), 0) for intensity, chance in intensities)
        if some == none:
            return 1.0
        return bisect.bisect_right(self.numbers, none / PPM) / len(self.numbers) if none else 0.0

    def _groups(self, areaperil):
        """For each summary at a place the groups of items there, as the vulnerabilities of a group and how many groups have these. The items
        of a group share their random number, and so have no loss together."""
        found = {}
        for kind in ("gul", "out"):
            members = {}
            for item, vulnerability, group in self.items_at[areaperil]:
                for place in self.of_item[kind].get(item, ()):
                    members.setdefault((place, group), set()).add(vulnerability)
            counts = {}
            for (place, _), vulnerabilities in members.items():
                of_place = counts.setdefault(place, {})
                of_group = tuple(sorted(vulnerabilities))
                of_place[of_group] = of_place.get(of_group, 0) + 1
            found[kind] = counts
        return found

    def _at(self, areaperil, intensities):
        """For each summary at a place the chance that a sample has no loss there."""
        chances = {}
        for kind, counts in self.groups(areaperil).items():
            chances[kind] = []
            for place, of_place in counts.items():
                chance = 1.0
                for vulnerabilities, count in of_place.items():
                    chance *= min(self.no_loss(vulnerability, intensities) for vulnerability in vulnerabilities) ** count
                if chance < 1.0:
                    chances[kind].append((place, chance))
        return chances["gul"], chances["out"]

    def touched(self, footprint, event):
        areaperils, intensities, chances = footprint.columns(event)
        struck = self.areaperils.intersection(areaperils)
        hits = {}
        if struck:
            for areaperil, intensity, chance in zip(areaperils, intensities, chances):
                if areaperil in struck:
                    hits.setdefault(areaperil, []).append((intensity, chance))
        gul, out, items = {}, {}, 0
        for areaperil, rows in hits.items():
            items += len(self.items_at[areaperil])
            for found, chances in zip((gul, out), self.at(areaperil, tuple(rows))):
                for place, chance in chances:
                    found[place] = found.get(place, 1.0) * chance
        return Touched(len(areaperils), items, gul, out)

    def key_places(self, perspective):
        """The list of keys of a perspective, and which part of what an event touches goes with it."""
        return "gul" if perspective == "gul" else "out"


def shares(portfolio, touched, seen, perspectives, samples):
    """What a trial saw beside what was to be expected: for each perspective and summary a share. `touched` has what each event of the
    trial touches, `seen` for each perspective the records as (event, set, summary, samples with a loss, whether it has a mean)."""
    found = {}
    for perspective in perspectives:
        kind = portfolio.key_places(perspective)
        places = {key: place for place, key in enumerate(portfolio.keys[kind])}
        expected, times = [0.0] * len(places), [0] * len(places)
        for of_event in touched.values():
            for place, chance in getattr(of_event, kind).items():
                expected[place] += samples * (1.0 - chance)
                times[place] += 1
        with_loss, with_mean = [0] * len(places), [0] * len(places)
        for _, number, summary, losses, has_mean in seen[perspective]:
            place = places[number, summary]
            with_loss[place] += losses
            with_mean[place] += has_mean
        found[perspective] = _shares_of_sets(portfolio.keys[kind], expected, times, with_loss, with_mean)
    return found


def _shares_of_sets(keys, expected, times, with_loss, with_mean):
    """The share of each summary; of one that was touched seldom that of its whole set."""
    sums = {}
    for place, (number, _) in enumerate(keys):
        sums.setdefault(number, []).append(place)
    found = [Share(1.0, 1.0)] * len(keys)
    for places in sums.values():
        whole = _share(*(sum(column[place] for place in places) for column in (expected, times, with_loss, with_mean)))
        for place in places:
            own = times[place] >= ENOUGH_TOUCHED
            found[place] = _share(expected[place], times[place], with_loss[place], with_mean[place]) if own else whole
    return found


def _share(expected, times, with_loss, with_mean):
    return Share(with_loss / expected if expected else 1.0, min(1.0, with_mean / times) if times else 1.0)


class Forecast(NamedTuple):
    """What is to be expected of the cells of a run."""
    by_set: dict    # cells of each perspective and set
    rows: float     # rows of cells: a summary and a period, of each perspective
    bytes: float    # what the rows take in memory
    full_at: int | None  # behind how many events, the refused one among them, there would be too many; none where there never are

    @property
    def cells(self):
        return sum(self.by_set.values())


def forecast(portfolio, touched_by, events, occurrences, every, perspectives, samples, share_of):
    """The cells that events make, one after the other. `occurrences` has the periods of each event that are looked at: one of `every` periods;
    `touched_by` gives what an event touches."""
    kept = {}
    by_set = {}
    full_at, cells = None, 0.0
    keys = {perspective: portfolio.keys[portfolio.key_places(perspective)] for perspective in perspectives}
    most = MOST_CELLS / every
    for number, event in enumerate(events, 1):
        periods = occurrences.get(event)
        if not periods:
            continue
        touched = touched_by(event)
        for perspective in perspectives:
            for place, chance in getattr(touched, portfolio.key_places(perspective)).items():
                share = share_of[perspective][place]
                has_loss = min(1.0, share.samples * (1.0 - chance))
                made = 0.0
                for period in periods:
                    row = period, perspective, place
                    no_loss, no_mean = kept.get(row, (1.0, 1.0))
                    made += samples * no_loss * has_loss + no_mean * share.mean
                    kept[row] = no_loss * (1.0 - has_loss), no_mean * (1.0 - share.mean)
                of = perspective, keys[perspective][place][0]
                by_set[of] = by_set.get(of, 0.0) + made
                cells += made
        if full_at is None and cells > most:
            full_at = number
    rows, size = _rows(kept, samples)
    return Forecast({of: every * count for of, count in by_set.items()}, every * rows, every * size, full_at)


ROW_BYTES = 200     # a row of cells beside its cells
CELL_BYTES = 16     # a cell that has a place of its own
LISTED_BYTES = 36   # one that is listed, with room for more behind it


def _rows(kept, samples):
    """How many rows of cells there are, and their bytes: with a quarter of the samples a row has a place for each sample."""
    count, size = 0.0, 0.0
    for no_loss, no_mean in kept.values():
        there = 1.0 - no_mean * no_loss**samples
        cells = samples * (1.0 - no_loss) + 1.0 - no_mean
        count += there
        size += there * (ROW_BYTES + (CELL_BYTES * (samples + 1) if 4 * cells >= samples else LISTED_BYTES * cells))
    return count, size
