"""The page of a report, as one HTML text that needs no other file. No program; tools/report imports it.

`page` gives the text. What stands in it comes from SetTables (report_data) and the manifest, and each text that a user gave is escaped.
"""
from html import escape
from typing import NamedTuple

import report_picture as picture
from report_data import ANALYTICAL, SAMPLED, periods_of, standard_error
from report_style import SCRIPT, STYLE

NAMES = {"gul": "Ground-up losses (gross)", "il": "Insured losses", "ri": "Losses net of reinsurance"}
SHORT = {"gul": "gross", "il": "insured", "ri": "net"}
COLUMNS = {"full": "full, of all samples together", "wheatmean": "mean of the samples' own curves (wheatmean)"}
MEASURES = {"aep": "aggregate (aep): all losses of a period", "oep": "occurrence (oep): the greatest loss of a period"}
MOST_BYTES = 4_800_000
LIMITS = (1000, 500, 240, 120, 60, 24, 12)      # so many rows a table has at most; the greatest that leaves the page small enough
BAR_EVENTS = 12


class Subject(NamedTuple):
    """What a report is of."""
    run: object
    tables: list
    labels: dict        # (set, summary) -> (label, line)
    currency: str
    title: str


class Limited(NamedTuple):
    """A subject, with what is made of it for all parts of the page."""
    subject: Subject
    limit: int          # of rows
    periods: int        # or nothing, where it is not known

    def name(self, number, summary):
        label = self.subject.labels.get((number, summary))
        return f"{summary}: {label[0]}" if label else f"Summary {summary}"

    def has_labels(self, number):
        return any(of == number for of, _ in self.subject.labels)

    def money(self, cents):
        return picture.money(cents, self.subject.currency)


def page(subject):
    """The page with as many rows as leave it small enough."""
    periods = periods_of(subject.tables)
    limits = LIMITS
    while True:
        text = document(Limited(subject, limits[0], periods))
        size = len(text.encode("utf-8"))
        if size <= MOST_BYTES or len(limits) == 1:
            return text
        # a page is not quite as long as its rows are many: those limits are left out that are too great even so
        limits = tuple(limit for limit in limits[1:] if limit * size <= 2 * limits[0] * MOST_BYTES) or LIMITS[-1:]


def document(of):
    title, tables = of.subject.title, of.subject.tables
    numbers = sorted({table.number for table in tables})
    parts = [("run", "The run", run_section(of))]
    parts += [(f"set{number}", f"Set {number}: gross, insured and net", together(of, number)) for number in numbers]
    parts += [(table.start, f"{NAMES[table.perspective]}, set {table.number}", set_section(of, table)) for table in tables]
    parts += [("reading", "How to read this", reading_section(of)), ("files", "Tables and inputs", files_section(of))]
    contents = "".join(f'<li><a href="#{ident}">{escape(heading)}</a></li>' for ident, heading, _ in parts)
    sections = "".join(f'<section id="{ident}" aria-labelledby="{ident}-h"><h2 id="{ident}-h">{escape(heading)}</h2>{body}</section>\n'
                       for ident, heading, body in parts)
    none = "" if tables else "<p>The run has no summary set, so there are no losses to show.</p>"
    return (f'<!DOCTYPE html>\n<html lang="en">\n<head>\n<meta charset="utf-8">\n'
            f'<meta name="viewport" content="width=device-width, initial-scale=1">\n'
            f'<meta http-equiv="Content-Security-Policy" content="default-src \'none\'; style-src \'unsafe-inline\'; script-src \'unsafe-inline\'">\n'
            f'<title>{escape(title)}</title>\n<style>{STYLE}{picture.style_rules()}</style>\n</head>\n<body>\n'
            f'<a class="skip" href="#main">To the results</a>\n<header><h1>{escape(title)}</h1>{lead(of)}</header>\n'
            f'<nav aria-label="Contents"><ol>{contents}</ol></nav>\n<main id="main" tabindex="-1">{none}{sections}</main>\n'
            f'<p id="said" role="status" class="hidden"></p>\n<script>{SCRIPT}</script>\n</body>\n</html>\n')


def lead(of):
    terms, manifest = of.subject.run.terms, of.subject.run.manifest
    periods = f"{of.periods:,} periods" if of.periods else "periods whose number the tables leave open"
    unit = of.subject.currency or "the currency of the input"
    return f"<p>{terms['samples']:,} samples, {periods}, of {escape(manifest['started'][:10])}. Amounts are in {escape(unit)}.</p>"


# --- parts of a page

def table(caption, heads, rows, left_out="", kind="sortable"):
    """A table: heads are (name, whether its column has numbers); each row begins with what it is of."""
    head = "".join(f'<th scope="col"{" class=n" if numbers else ""}>{escape(name)}</th>' for name, numbers in heads)
    body = "".join("<tr>" + "".join(cell(at, text, numbers) for at, (text, (_, numbers)) in enumerate(zip(row, heads))) + "</tr>\n"
                   for row in rows)
    more = f'<p class="more">{escape(left_out)}</p>' if left_out else ""
    return (f'<div class="scroll" tabindex="0" role="region" aria-label="{escape(caption)}"><table class="{kind}">'
            f'<caption><span>{escape(caption)}</span></caption><thead><tr>{head}</tr></thead><tbody>{body}</tbody></table></div>{more}')


def cell(at, content, numbers):
    kind = " class=n" if numbers else ""
    return f'<th scope="row"{kind}>{escape(content)}</th>' if at == 0 else f"<td{kind}>{escape(content)}</td>"


def and_more(count, file, by="by their average annual loss"):
    return f"And {count:,} more in {file}: these are the greatest {by}." if count > 0 else ""


def figure(content, caption, legend=""):
    return f"<figure>{content}{legend}<figcaption>{escape(caption)}</figcaption></figure>"


def legend(names):
    """What the colours and marks of lines stand for."""
    return '<ul class="legend">' + "".join(f"<li>{picture.key(style)} {escape(name)}</li>" for name, style in names) + "</ul>"


def amount(cents):
    return picture.money(cents)


def summary_cells(of, number, summary):
    """The first cells of a row of a summary: its number, and its label where the set has labels."""
    label = of.subject.labels.get((number, summary), ("", 0))[0]
    return [str(summary)] + ([label] if of.has_labels(number) else [])


def summary_heads(of, number):
    return [("Summary", True)] + ([("Label", False)] if of.has_labels(number) else [])


# --- the run

def run_section(of):
    manifest, terms = of.subject.run.manifest, of.subject.run.terms
    program = manifest["program"]
    last = {"gul": "ground-up losses", "il": "insured losses", "ri": f"losses net of {terms['stages']} reinsurance stage{'s' if terms['stages'] != 1 else ''}"}
    rows = [
        ("Program", f"ktools {program['version'] or '(version not known)'}, {program['bytes']:,} bytes, SHA-256 {program['sha256']}"),
        ("Words", " ".join(manifest["words"])),
        ("Samples", f"{terms['samples']:,}"),
        ("Periods", f"{of.periods:,}, from the averages of type 1" if of.periods else "the tables leave it open"),
        ("Up to", last.get(terms["last"], terms["last"])),
        ("Coverage cut", "losses of a coverage are cut to its insured value" if terms["cut"] else "none"),
        ("Allocation rule", str(terms["rule"])),
        ("Workers, events a part", f"{terms['workers']}, {terms['batch']}"),
        ("Input folder", manifest["from"]),
        ("Started, ended", f"{manifest['started']}, {manifest['ended']}, {manifest['seconds']:,.3f} s"),
    ]
    return "<dl>" + "".join(f"<div><dt>{escape(name)}</dt><dd>{escape(value)}</dd></div>" for name, value in rows) + "</dl>"


# --- gross, insured and net over each other

def together(of, number):
    tables = [table for table in of.subject.tables if table.number == number]
    summaries = sorted({summary for table in tables for summary in table.averages},
                       key=lambda summary: ([-table.average(summary).mean for table in tables], summary))
    heads = summary_heads(of, number) + [(SHORT[table.perspective].capitalize(), True) for table in tables]
    rows = [summary_cells(of, number, summary) + [amount(table.average(summary).mean) for table in tables] for summary in summaries[:of.limit]]
    files = ", ".join(f"{table.start}_aal.csv" for table in tables)
    shown = summaries[:max(of.limit // 5, 1)]
    choices = "".join(one_summary(of, tables, number, summary, at == 0) for at, summary in enumerate(shown))
    rest = len(summaries) - len(shown)
    more = f'<p class="more">{rest:,} more summaries have no picture here; the tables below have their losses.</p>' if rest else ""
    return (table_of_averages(of, number, heads, rows, len(summaries), files) +
            f'<h3>Exceedance curves of one summary</h3><div class="choice" data-name="Summary of set {number}">{choices}</div>{more}')


def table_of_averages(of, number, heads, rows, count, files):
    unit = f", in {of.subject.currency}" if of.subject.currency else ""
    return table(f"Average annual losses of set {number}, of the samples (type 2){unit}", heads, rows, and_more(count - len(rows), files))


def one_summary(of, tables, number, summary, first):
    name = of.name(number, summary)
    pictures = ""
    for measure, said in MEASURES.items():
        lines = [picture.Line(SHORT[table.perspective], at, table.curve(f"full_{measure}", summary)) for at, table in enumerate(tables)]
        ident = f"one-{number}-{summary}-{measure}"
        title = f"{name}, set {number}: {', '.join(line.name for line in lines)}; {said}"
        pictures += figure(picture.curves(ident, title, lines, of.subject.currency), said.capitalize())
    names = legend([(NAMES[table.perspective], at) for at, table in enumerate(tables)])
    return (f'<details{" open" if first else ""}><summary>{escape(name)}</summary>{names}<div class="pictures">{pictures}</div></details>')


# --- a perspective and a set

def set_section(of, table_):
    if not table_.averages:
        return f"<p>No summary of this set has a loss in any period. Events with a loss: {table_.event_count:,}.</p>" + events(of, table_)
    return averages(of, table_) + exceedance(of, table_) + events(of, table_)


def averages(of, table_):
    number, currency = table_.number, of.subject.currency
    draws = of.periods * of.subject.run.terms["samples"] if of.periods else 0
    shown = table_.by_loss[:of.limit]
    heads = summary_heads(of, number) + [("Mean (type\N{NO-BREAK SPACE}2)", True), ("Standard error", True), ("Deviation (type\N{NO-BREAK SPACE}2)", True),
                                         ("Mean (type\N{NO-BREAK SPACE}1)", True), ("Deviation (type\N{NO-BREAK SPACE}1)", True), ("Exposure", True)]
    rows = []
    for summary in shown:
        sampled, analytical = table_.average(summary), table_.average(summary, ANALYTICAL)
        error = amount(standard_error(sampled.deviation, draws)) if draws else "not known"
        rows.append(summary_cells(of, number, summary) + [amount(sampled.mean), error, amount(sampled.deviation), amount(analytical.mean),
                                                          amount(analytical.deviation), amount(table_.exposures.get(summary, 0))])
    named = table_.by_loss[:picture.LINES]
    bars = ""
    if len(named) > 1:
        title = f"{NAMES[table_.perspective]}, set {number}: average annual loss of the samples (type 2)"
        rows_of_bars = [picture.Bar(of.name(number, summary), at, table_.average(summary).mean) for at, summary in enumerate(named)]
        bars = figure(picture.bars(f"{table_.start}-aal", title, rows_of_bars, currency), caption_of("Average annual loss", table_, len(named)))
    said = f"Average annual losses, {SHORT[table_.perspective]}, set {number}{in_currency(of)}"
    return f"<h3>Average annual loss</h3>{bars}" + table(said, heads, rows, and_more(len(table_.averages) - len(rows), f"{table_.start}_aal.csv"))


def in_currency(of):
    return f", in {of.subject.currency}" if of.subject.currency else ""


def caption_of(what, table_, count):
    all_of = len(table_.averages)
    return f"{what}: {f'the {count} greatest of {all_of:,} summaries' if count < all_of else 'all summaries' if all_of > 1 else 'the one summary'}."


def exceedance(of, table_):
    number = table_.number
    named = table_.by_loss[:picture.LINES]
    pictures = ""
    for kind, columns in COLUMNS.items():
        for measure, said in MEASURES.items():
            lines = [picture.Line(of.name(number, summary), at, table_.curve(f"{kind}_{measure}", summary)) for at, summary in enumerate(named)]
            title = f"{NAMES[table_.perspective]}, set {number}: {said}; {columns}"
            pictures += figure(picture.curves(f"{table_.start}-{kind}-{measure}", title, lines, of.subject.currency),
                               f"{said.capitalize()}; {columns}.")
    names = legend([(of.name(number, summary), at) for at, summary in enumerate(named)])
    some = caption_of("Lines", table_, len(named))
    return (f'<h3>Exceedance curves</h3><p>{escape(some)} A point is a loss that the tables have; between two points it is at least '
            f'that of the left one and at most that of the right one, and nothing more is known.</p>{names}<div class="pictures">{pictures}</div>' +
            exceedance_table(of, table_))


def exceedance_table(of, table_):
    number = table_.number
    columns = [("Aggregate, full", "full_aep", SAMPLED), ("Occurrence, full", "full_oep", SAMPLED), ("Aggregate, wheatmean", "wheatmean_aep", SAMPLED),
               ("Occurrence, wheatmean", "wheatmean_oep", SAMPLED), ("Aggregate, type 1", "full_aep", ANALYTICAL),
               ("Occurrence, type 1", "full_oep", ANALYTICAL)]
    rows, summaries, cut = [], 0, 0
    for summary in table_.by_loss:
        points = [dict(table_.curve(kind, summary, row_type)) for _, kind, row_type in columns]
        periods = sorted(set().union(*points), reverse=True)
        if rows and len(rows) + len(periods) > of.limit:
            break
        summaries += 1
        cut += max(len(periods) - of.limit, 0)
        rows += [summary_cells(of, number, summary) + [f"{period:,}"] + [amount(at[period]) if period in at else "–" for at in points]
                 for period in periods[:of.limit]]
    heads = summary_heads(of, number) + [("Return period", True)] + [(name, True) for name, _, _ in columns]
    rest = len(table_.averages) - summaries
    left_out = (f"The return periods of {rest:,} more summaries are in {table_.start}_lec_full_aep.csv and the tables beside it: these are the "
                "greatest by their average annual loss.") if rest else ""
    if cut:
        left_out = f"{cut:,} lesser return periods of summary {rows[0][0]} are in {table_.start}_lec_full_aep.csv and the tables beside it. {left_out}"
    said = f"Losses by return period, {SHORT[table_.perspective]}, set {number}{in_currency(of)}; – where the curve is not that long"
    return table(said, heads, rows, left_out)


def events(of, table_):
    if not table_.events:
        return ""
    number, one = table_.number, len(table_.exposures) == 1
    title = f"{NAMES[table_.perspective]}, set {number}: mean losses of the events that cost most, of the samples (type 2)"
    shown = table_.events[:BAR_EVENTS]
    bars = figure(picture.bars(f"{table_.start}-events", title, [picture.Bar(f"event {event.event}", 0, event.mean) for event in shown],
                               of.subject.currency),
                  f"The mean loss of an event, all summaries of the set together: {count_of(len(shown), table_.event_count)}.")
    second = ("Deviation (type\N{NO-BREAK SPACE}2)" if one else "Summaries", True)
    heads = [("Event", True), ("Mean (type\N{NO-BREAK SPACE}2)", True), second, ("Mean (type\N{NO-BREAK SPACE}1)", True), ("Occurrences", True),
             ("When it occurs", False)]
    rows = [[str(event.event), amount(event.mean), amount(event.deviation) if one else f"{event.summaries:,}", amount(event.analytical),
             f"{event.count:,}", occurrences(event)] for event in table_.events[:of.limit]]
    rest = table_.event_count - len(rows)
    return (f"<h3>Events that cost most</h3>{bars}" +
            table(f"Events that cost most, {SHORT[table_.perspective]}, set {number}{in_currency(of)}", heads, rows,
                  and_more(rest, f"{table_.start}_elt.csv", "by their mean of type 2")))


def count_of(shown, count):
    return f"the {shown} greatest of {count:,}" if shown < count else f"all {count}" if count > 1 else "the only one"


def occurrences(event):
    named = "; ".join(f"period {period:,} ({year:04}-{month:02}-{day:02})".replace(" ", "\N{NO-BREAK SPACE}") for period, year, month, day in event.occurrences)
    rest = event.count - len(event.occurrences)
    return (named or "in no period") + (f"; and {rest:,} more" if rest else "")


# --- how to read it, and the files

def reading_section(of):
    samples = of.subject.run.terms["samples"]
    error = (f"deviation over the root of {of.periods * samples:,}, which is {of.periods:,} periods times {samples:,} samples, rounded down to a cent"
             if of.periods else "not told, since the tables leave the number of periods open")
    return "<ul>" + "".join(f"<li>{text}</li>" for text in [
        f"<b>Type 2</b> is of the losses of the {samples:,} samples. <b>Type 1</b> is of the mean loss that the damage distributions give for "
        "each item (sidx -1). For ground-up losses its mean is what the samples come near to. Insured and net losses of type 1 are "
        "what the terms leave of that mean loss, and not the mean of what they leave: where a deductible or a limit is reached in some samples alone "
        "the two differ, and type 2 is the estimate.",
        f"<b>Standard error</b>: {error}. It is the error of a mean of independent draws. The totals here are not that: the samples of a "
        "period have the same events, an event has the same samples in each of its periods, and items of a group share their random numbers. So it is "
        "the least that the error may be taken for, and no bound; it says nothing of the model, the exposure or the rates of events.",
        "<b>Return period</b>: the loss is reached or exceeded once in so many periods on average. Full curves rank the totals of "
        "all samples together, so they go beyond the number of periods; what lies there rests on the samples of the worst "
        "periods, and on no more events. <b>Wheatmean</b> curves are the mean of the samples' own curves, and end at the number of periods.",
        "<b>Aggregate</b> (aep) is the sum of a period's losses, <b>occurrence</b> (oep) the greatest of them. Losses of a return period do not add: those of "
        "two summaries are not those of both together.",
        "<b>Gross, insured, net</b>: ground-up losses; what the policies pay of them; what is left of that to the insurer behind the reinsurance.",
        "An <b>event</b> stands here with the mean of its losses where it happens, all summaries of the set added. How often it happens stands "
        "beside it.",
        "A click or the Enter key on the head of a column sorts a table by it, once more the other way round. Without scripts tables stay in "
        "their first order, and all summaries can be opened."]) + "</ul>"


def files_section(of):
    run = of.subject.run
    outputs = [[output["file"], f"{output['lines']:,}", f"{output['bytes']:,}", output["sha256"]] for output in run.outputs]
    inputs = [[read["file"], f"{read['bytes']:,}", read["sha256"]] for read in run.manifest["inputs"]]
    return ("<p>The tables have these sums, as the manifest of the run says; they were compared when this report was made.</p>" +
            table("Tables of the run", [("File", False), ("Lines", True), ("Bytes", True), ("SHA-256", False)], outputs, kind="sortable sums") +
            table("Inputs that the run read", [("File", False), ("Bytes", True), ("SHA-256", False)], inputs, kind="sortable sums"))
