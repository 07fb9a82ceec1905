"""The words of all tools, read from the program's own table of words (crates/kt_words/src/table.rt and tool.rt).

What an option means, and how a plain word is called, stands here beside it: the table says only which words there are. An option of the
table that has no meaning here, or a meaning without an option, is an error of whoever reads the table.
"""
import os
import re
from typing import NamedTuple

TOP = os.path.dirname(os.path.dirname(os.path.abspath(__file__)))
SOURCES = os.path.join(TOP, "crates", "kt_words", "src")


class Form(NamedTuple):
    """What a value or a plain word may be: the kind of kt_words, and of a number its first and last value."""
    kind: str
    first: int = 0
    last: int = 0

    @property
    def name(self):
        """What stands in its place where a call is shown."""
        return {"Flag": "", "Number": "N", "Dash": "-", "Losses": "gul|il|ri", "Stage": "RI_K", "TableName": "TABLE", "FileName": "FILE"}[self.kind]

    @property
    def said(self):
        """In words."""
        if self.kind == "Number":
            return f"{self.first} or {self.last}" if self.last == self.first + 1 else f"{self.first:,} to {self.last:,}"
        return {"Flag": "", "Dash": "`-`", "Losses": "`gul`, `il` or `ri`", "Stage": "`RI_1` to `RI_9`",
                "TableName": "the name of a table", "FileName": "the name of a file"}[self.kind]

    @property
    def values(self):
        """The values to choose from, where they are few."""
        if self.kind == "Number" and self.last - self.first < 16:
            return [str(value) for value in range(self.first, self.last + 1)]
        return {"Dash": ["-"], "Losses": ["gul", "il", "ri"], "Stage": [f"RI_{stage}" for stage in range(1, 10)]}.get(self.kind, [])


class Option(NamedTuple):
    """An option: its letter, the form of its value, and whether it is `Free`, `Needed`, or one of a choice (`OneOf`), named by a letter."""
    letter: str
    form: Form
    need: str
    choice: str
    meaning: str


class Tool(NamedTuple):
    """What a tool takes: its options, the forms and names of its plain words, and whether the last of them may come again."""
    name: str
    what: str
    options: list
    plain: list
    plain_names: list
    is_many: bool

    @property
    def usage(self):
        """A call, as `eve P N`."""
        words, seen = [self.name], set()
        for option in self.options:
            if option.need == "OneOf":
                if option.choice not in seen:
                    seen.add(option.choice)
                    words.append(" | ".join(shown(one) for one in self.options if one.choice == option.choice).join("()"))
            else:
                words.append(shown(option) if option.need == "Needed" else f"[{shown(option)}]")
        return " ".join(words + self.plain_names + ["..."] * self.is_many)


def shown(option):
    """An option with its value, as `-S N`."""
    return f"-{option.letter} {option.form.name}".rstrip() if option.form.name else f"-{option.letter}"


CURVES = {"F": "full, aep", "f": "full, oep", "S": "of the means of the samples, aep", "s": "of the means of the samples, oep",
          "W": "one of each sample, aep", "w": "one of each sample, oep", "M": "the mean of those of the samples, aep",
          "m": "the mean of those of the samples, oep"}
RULE = "the allocation rule: by 0 outputs are of units of the top level, by 1 and 2 of items"
WORKERS = "the number of workers; 1 where it is left out"
MEANINGS = {
    "gulcalc": {"S": "the number of samples", "a": "1: the losses of a coverage are cut to its insured value; 0: they are not",
                "r": "the random numbers are those of the table random", "i": "the losses of items go to standard output"},
    "fmcalc": {"a": RULE, "n": "net losses: what is left behind the layers", "p": "the folder of a reinsurance stage, over insured or net losses"},
    "summarycalc": {"i": "the stream has ground-up losses, of items", "f": "the stream has insured or net losses, of outputs",
                    "a": "the allocation rule by which the losses were made; 2 where it is left out",
                    **{str(number): f"the summaries of set {number} go to standard output" for number in range(1, 10)}},
    "eltcalc": {"s": "no heading"},
    "pltcalc": {"s": "no heading"},
    "leccalc": {"r": "the return periods are those of the table returnperiods",
                **{letter: f"the curve that is {curve}" for letter, curve in CURVES.items()}},
    "tobin": {"P": "the number of periods: for the table occurrence, and for no other"},
    "chain": {"S": "the number of samples", "l": "the last losses: ground-up; insured ones too; net ones too",
              "g": "1: the losses of a coverage are cut to its insured value; 0: they are not; 1 where it is left out",
              "a": f"{RULE}; 2 where it is left out; with -l ri 1 or 2", "r": "the number of reinsurance stages: with -l ri, and with no other",
              "w": WORKERS, "b": "how many events a part of a round has; 4 where it is left out"},
    "gen": {"w": WORKERS},
}
PLAIN_NAMES = {"eve": ["P", "N"], "kat": ["FILE"], "tobin": ["TABLE"], "tocsv": ["TABLE"], "gen": ["SEED", "ITEMS", "EVENTS"]}
ROW = re.compile(r"(Free|Needed|OneOf)\(((?:b'.', )+)(\w+(?:\([^)]*\))?)\)")
FORM = re.compile(r"(\w+)(?:\(([\d_]+), ([\d_]+)\))?")


def form_of(text):
    found = FORM.fullmatch(text.strip())
    return Form(found[1], *(int(number.replace("_", "")) for number in found.groups()[1:] if number))


def source(name):
    with open(os.path.join(SOURCES, name), encoding="utf-8") as file:
        return file.read()


def arms_of(text, function):
    """The arms of the match of a function: of each tool its name in the code what stands behind the arrow."""
    body = re.search(rf"fn {function}\(.*?\n\}}\n", text, re.S)[0]
    found = {}
    for tools, target in re.findall(r"((?:Tool::\w+\s*\|?\s*)+)=>\s*(.+?),?\n(?=\s*(?:Tool::|_ =>|\}))", body, re.S):
        for tool in re.findall(r"Tool::(\w+)", tools):
            found[tool] = " ".join(target.split())
    return found


def options_of(text, constant, tool):
    """The options that a constant has."""
    rows = re.search(rf"const {constant}: \[OptionRow; (\d+)\] = \[(.*?)\];", text, re.S)
    found = []
    for need, letters, form in ROW.findall(rows[2]):
        letters = re.findall(r"b'(.)'", letters)
        meaning = MEANINGS.get(tool, {}).get(letters[-1])
        if meaning is None:
            raise ValueError(f"{tool}: its option -{letters[-1]} has no meaning in tools/words.py")
        found.append(Option(letters[-1], form_of(form), need, letters[0] if need == "OneOf" else "", meaning))
    if len(found) != int(rows[1]) or len(found) != len(MEANINGS.get(tool, {})):
        raise ValueError(f"{tool}: has {rows[1]} options, of which {len(found)} are read, and tools/words.py has {len(MEANINGS.get(tool, {}))}")
    return found


def tools():
    """All tools, in the order of the program."""
    table, names = source("table.rt"), source("tool.rt")
    constants, plain = arms_of(table, "options"), arms_of(table, "plain_words")
    found = []
    for code, name in re.findall(r'Tool::(\w+) => b"(\w+)"', names):
        what = re.search(rf"/// `{name}`: (.*?)\.\n", names)[1]
        row = re.fullmatch(r"PlainRow::(\w+)\((.*)\)", plain.get(code, "PlainRow::Nothing()"))
        forms = [form_of(form) for form in re.findall(r"\w+(?:\([\d_, ]+\))?", row[2])]
        plain_names = PLAIN_NAMES.get(name, [])
        if len(forms) != len(plain_names):
            raise ValueError(f"{name}: has {len(forms)} plain words, and {len(plain_names)} names for them")
        found.append(Tool(name, what, options_of(table, constants[code].lstrip("&"), name), forms, plain_names, row[1] == "Many"))
    return found


def tables():
    """The names of the tables, in the order of their numbers."""
    with open(os.path.join(TOP, "crates", "kt_rec", "src", "descriptions.rt"), encoding="utf-8") as file:
        return re.findall(r'(?m)^ +name: b"(\w+)"', file.read())
