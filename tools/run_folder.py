"""Reads and checks the folder of a run, as tools/run makes it (docs/RUNS.md): tables of losses, and manifest.json beside them.

No program: the scripts beside this one import it.

    from run_folder import RunFolderError, read_run
    try:
        run = read_run(folder)
    except RunFolderError as error:
        sys.exit(str(error))            the whole line: `name: file: what`, with the name of the script
    run.terms["samples"]                what the words of the run came to
    run.outputs[0]["file"]              the tables by name, each with its bytes, lines and sum
    run.path("gul_S1_elt.csv")          where one of them is
"""
import hashlib
import json
import os
import re
import sys
from typing import NamedTuple

FORMAT = "ktools-run 1"
MANIFEST = "manifest.json"
DONE, REFUSED = 0, 3
BLOCK = 1 << 20

# what stands in a manifest, in this order
KEYS = {"format": str, "program": dict, "words": list, "terms": dict, "from": str, "started": str, "ended": str,
        "seconds": (int, float), "status": int, "line": str, "inputs": list, "outputs": list}
PROGRAM = {"version": (str, type(None)), "sha256": str, "bytes": int}
TERMS = {"samples": int, "last": str, "cut": int, "rule": int, "stages": int, "workers": int, "batch": int}
INPUT = {"file": str, "bytes": int, "sha256": str}
OUTPUT = {"file": str, "bytes": int, "lines": int, "sha256": str}
OUTPUT_NAME = re.compile(r"[A-Za-z0-9_]+\.csv")


class RunFolderError(Exception):
    """Why a folder is not taken for that of a run: `name: file: what`, with the name of the script that asks."""

    def __init__(self, file, what):
        super().__init__(f"{os.path.basename(sys.argv[0])}: {file}: {what}")
        self.file, self.what = file, what


class Run(NamedTuple):
    """A folder whose manifest was read."""
    folder: str
    manifest: dict

    @property
    def terms(self):
        """What the words came to: samples, last, cut, rule, stages, workers, batch."""
        return self.manifest["terms"]

    @property
    def outputs(self):
        """The tables by name, each with file, bytes, lines and sha256."""
        return self.manifest["outputs"]

    def path(self, file):
        """Where a table of the run is."""
        if not any(output["file"] == file for output in self.outputs):
            raise RunFolderError(os.path.join(self.folder, file), f"is no table of the run, which has {len(self.outputs)} others")
        return os.path.join(self.folder, file)


class Sums(NamedTuple):
    """What is said of a file."""
    bytes: int
    lines: int
    sha256: str


def sums_of(path, pause=lambda: None):
    """The bytes, lines and sum of a file; `pause` is called between blocks."""
    size, lines, digest = 0, 0, hashlib.sha256()
    with open(path, "rb") as file:
        for block in iter(lambda: file.read(BLOCK), b""):
            size += len(block)
            lines += block.count(b"\n")
            digest.update(block)
            pause()
    return Sums(size, lines, digest.hexdigest())


def read_run(folder, also_refused=False):
    """The run of a folder, each of whose tables is there with its bytes. A refused run, whose tables end before the event that was
    refused, is taken where that is asked for alone. The sums are looked at by `differences`, since that takes its time."""
    run = read_manifest(folder)
    if run.manifest["status"] != DONE and not also_refused:
        raise RunFolderError(os.path.join(folder, MANIFEST),
                             f"is of a run that ended with status {run.manifest['status']} ({run.manifest['line']}): it is not whole")
    for output in run.outputs:
        path = os.path.join(folder, output["file"])
        if not os.path.isfile(path):
            raise RunFolderError(path, "is missing")
        if os.path.getsize(path) != output["bytes"]:
            raise RunFolderError(path, f"has {os.path.getsize(path)} bytes, and not {output['bytes']} as the run wrote")
    return run


def read_manifest(folder):
    """The run of a folder, by its manifest alone."""
    path = os.path.join(folder, MANIFEST)
    if not os.path.isdir(folder):
        raise RunFolderError(folder, "is no folder")
    try:
        with open(path, encoding="utf-8") as file:
            manifest = json.load(file)
    except FileNotFoundError:
        raise RunFolderError(path, "is missing: the folder is not one that tools/run has made whole") from None
    except OSError as error:
        raise RunFolderError(path, error.strerror) from None
    except (ValueError, RecursionError) as error:
        raise RunFolderError(path, f"is no JSON: {error}") from None
    wrong = what_is_wrong(manifest)
    if wrong:
        raise RunFolderError(path, wrong)
    return Run(folder, manifest)


def what_is_wrong(manifest):
    """What keeps something from being a manifest, or nothing."""
    if not isinstance(manifest, dict):
        return "is no manifest of a run"
    if manifest.get("format") != FORMAT:
        return f"has the format {manifest.get('format')!r}, and not {FORMAT!r}"
    wrong = wrong_keys("", manifest, KEYS) or wrong_keys("program", manifest["program"], PROGRAM)
    wrong = wrong or wrong_keys("terms", manifest["terms"], TERMS)
    for key, kinds in (("inputs", INPUT), ("outputs", OUTPUT)):
        for number, entry in enumerate([] if wrong else manifest[key], 1):
            wrong = wrong or wrong_keys(f"{key} {number}", entry, kinds)
    if wrong:
        return wrong
    names = [output["file"] for output in manifest["outputs"]]
    strange = [name for name in names if not OUTPUT_NAME.fullmatch(name)]
    if strange:
        return f"outputs: {strange[0]!r} is no name of a table"
    if names != sorted(set(names)):
        return "outputs: are not sorted by name, each once"
    if not all(isinstance(word, str) for word in manifest["words"]):
        return "words: are not all texts"
    if manifest["status"] not in (DONE, REFUSED):
        return f"status: is {manifest['status']}, and a run that is kept has {DONE} or {REFUSED}"
    return ""


def wrong_keys(where, entry, kinds):
    """What is wrong with the keys of a part of the manifest and the kinds of their values, or nothing."""
    where = f"{where}: " if where else ""
    if not isinstance(entry, dict):
        return f"{where}has no keys"
    for key, kind in kinds.items():
        if key not in entry:
            return f"{where}has no {key}"
        if not isinstance(entry[key], kind) or isinstance(entry[key], bool):
            return f"{where}{key} is {entry[key]!r:.60}"
    return ""


def differences(run, pause=lambda: None):
    """Of each table that is not as the run wrote it, and of each other file of the folder, where it is and what is wrong."""
    wanted = {output["file"]: output for output in run.outputs}
    for file, output in wanted.items():
        what = difference(os.path.join(run.folder, file), output, pause)
        if what:
            yield os.path.join(run.folder, file), what
    for file in sorted(os.listdir(run.folder)):
        if file not in wanted and file != MANIFEST:
            yield os.path.join(run.folder, file), "is no file of the run"


def difference(path, entry, pause=lambda: None):
    """What is wrong with a file that a manifest has an entry of, or nothing."""
    try:
        found = sums_of(path, pause)
    except FileNotFoundError:
        return "is missing"
    except OSError as error:
        return error.strerror
    if found.bytes != entry["bytes"]:
        return f"has {found.bytes} bytes, and not {entry['bytes']}"
    if found.sha256 != entry["sha256"]:
        return "has another sum than in the manifest: its bytes were changed"
    return ""
