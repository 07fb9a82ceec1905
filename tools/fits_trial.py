"""Tries a run over some of its events, and measures: time, memory, the bytes of tables and streams, and which samples have a loss."""
import contextlib
import os
import resource
import struct
import subprocess
import tempfile
import time
from typing import NamedTuple

from fits_tables import Wrong

REFUSED = 3
NO_MEMORY = 6
EVENT_TABLES = ("_elt.csv", "_plt.csv", "il_layers.csv")  # the tables that grow event by event
SUMMARY = struct.Struct("<IIQ")  # event, summary id, exposure
PAIR = struct.Struct("<iQ")
HEAD_BYTES = 12
SHORT = 0.5  # seconds: a trial that takes less is made three times, else twice


class Terms(NamedTuple):
    """The words of a run."""
    samples: int
    last: str
    cut: int
    rule: int
    stages: int
    workers: int
    batch: int

    @property
    def perspectives(self):
        return ["gul", "il", "ri"][: ["gul", "il", "ri"].index(self.last) + 1]

    @property
    def words(self):
        net = ["-r", str(self.stages)] if self.last == "ri" else []
        return ["chain", "-S", str(self.samples), "-l", self.last, "-g", str(self.cut), "-a", str(self.rule), *net,
                "-w", str(self.workers), "-b", str(self.batch)]


class Refused(Exception):
    """The program refused a trial: its line."""


class Whole(NamedTuple):
    """A trial of all stages."""
    seconds: float     # the least of its runs: what else the machine does makes a run longer, never shorter
    bytes: int         # the greatest memory of its runs
    event_bytes: int   # of the tables that grow event by event
    end_bytes: int     # of the tables over all periods


@contextlib.contextmanager
def room(folder, events):
    """A folder with the tables of an input folder, but for the events, which are these."""
    with tempfile.TemporaryDirectory(prefix="fits.") as made:
        os.mkdir(os.path.join(made, "input"))
        with os.scandir(os.path.join(folder, "input")) as entries:
            for entry in entries:
                if entry.name != "events.bin":
                    os.symlink(os.path.abspath(entry.path), os.path.join(made, "input", entry.name))
        for name in ["static"] + [f"RI_{stage}" for stage in range(1, 10)]:
            if os.path.isdir(os.path.join(folder, name)):
                os.symlink(os.path.abspath(os.path.join(folder, name)), os.path.join(made, name))
        with open(os.path.join(made, "input", "events.bin"), "wb") as file:
            file.write(struct.pack(f"<{len(events)}I", *events))
        yield made


def peak_of(pid):
    """The greatest memory of a process so far, where the system tells it."""
    try:
        with open(f"/proc/{pid}/status", encoding="ascii", errors="replace") as lines:
            return next((1024 * int(line.split()[1]) for line in lines if line.startswith("VmHWM:")), 0)
    except OSError:
        return 0


def measured(command, folder):
    """Runs a command: its status, what it said on standard error, the seconds, and the greatest memory.

    The system's count of a process that has ended begins with the memory of the process that started it, which is this one. Where it is not
    above that, the last look at the process while it ran is taken."""
    with tempfile.TemporaryFile() as said:
        start = time.perf_counter()
        process = subprocess.Popen(command, cwd=folder, stdin=subprocess.DEVNULL, stdout=subprocess.DEVNULL, stderr=said)
        peak = 0
        while True:
            pid, status, usage = os.wait4(process.pid, os.WNOHANG)
            if pid:
                break
            peak = max(peak, peak_of(process.pid))
            time.sleep(0.002)
        seconds = time.perf_counter() - start
        process.returncode = os.waitstatus_to_exitcode(status)
        said.seek(0)
        line = said.read().decode("utf-8", "replace").strip()
    ended = 1024 * usage.ru_maxrss
    own = 1024 * resource.getrusage(resource.RUSAGE_SELF).ru_maxrss
    return process.returncode, line, seconds, ended if ended > own else max(peak, 1)


def whole(program, folder, terms, events):
    """All stages over some events, run twice, or three times where the first takes less than half a second."""
    first = _run(program, folder, terms, events)
    runs = [first] + [_run(program, folder, terms, events) for _ in range(2 if first.seconds < SHORT else 1)]
    return first._replace(seconds=min(run.seconds for run in runs), bytes=max(run.bytes for run in runs))


def _run(program, folder, terms, events):
    """All stages over some events, run once."""
    with room(folder, events) as made:
        status, line, seconds, memory = measured([program, *terms.words], made)
        if status == REFUSED:
            raise Refused(line)
        if status == NO_MEMORY:
            raise Refused("no memory was left for a trial over a few events")
        if status != 0:
            raise Wrong(f"{program}: ended with status {status} {line}")
        output = os.path.join(made, "output")
        sizes = {name: os.path.getsize(os.path.join(output, name)) for name in os.listdir(output)}
    by_event = sum(size for name, size in sizes.items() if name.endswith(EVENT_TABLES))
    return Whole(seconds, memory, by_event, sum(sizes.values()) - by_event)


class Streams(NamedTuple):
    """The streams of some events."""
    seen: dict    # of each perspective the records: event, set, summary, samples with a loss, whether it has a mean
    bytes: dict   # the bytes of each stream by its name, as gul or il_S1


def streams(program, folder, terms, events, sets):
    """The streams that a part of a split run has, over some events. `sets` has the summary sets of `gul` and of `out`."""
    seen, sizes = {perspective: [] for perspective in terms.perspectives}, {}
    with room(folder, events) as made:
        losses = _piped(program, made, [["eve", "1", "1"], ["getmodel"],
                                        ["gulcalc", "-S", str(terms.samples), "-a", str(terms.cut), "-r", "-i", "-"]], None, "gul")
        for perspective in terms.perspectives:
            if perspective == "il":
                losses = _piped(program, made, [["fmcalc", "-a", str(terms.rule)]], losses, "il")
            if perspective == "ri":
                stages = [["fmcalc", "-a", "2", "-n", "-p", f"RI_{stage}"] for stage in range(1, terms.stages + 1)]
                losses = _piped(program, made, stages, losses, "ri")
            sizes[perspective] = os.path.getsize(losses)
            kind = ["-i"] if perspective == "gul" else ["-f", "-a", str(terms.rule if perspective == "il" else 2)]
            for number in sets["gul" if perspective == "gul" else "out"]:
                made_of = _piped(program, made, [["summarycalc", *kind, f"-{number}", "-"]], losses, "summary")
                sizes[f"{perspective}_S{number}"] = os.path.getsize(made_of)
                with open(made_of, "rb") as file:
                    seen[perspective] += [(event, number, *of_event) for event, *of_event in _records(file.read())]
    return Streams(seen, sizes)


def _piped(program, folder, calls, source, name):
    """Runs calls of the program one behind the other, over a file or nothing: the path of the file that they make."""
    path = os.path.join(folder, name)
    processes = []
    with contextlib.ExitStack() as files:
        target = files.enter_context(open(path, "wb"))
        said = files.enter_context(tempfile.TemporaryFile())
        before = files.enter_context(open(source, "rb")) if source else subprocess.DEVNULL
        for words in calls:
            out = target if words is calls[-1] else subprocess.PIPE
            process = subprocess.Popen([program, *words], cwd=folder, stdin=before, stdout=out, stderr=said)
            if processes:
                before.close()  # the pipe is the new process's alone
            before = process.stdout
            processes.append(process)
        statuses = [process.wait() for process in processes]
        said.seek(0)
        line = said.read().decode("utf-8", "replace").strip()
    if REFUSED in statuses:
        raise Refused(line)
    if any(statuses):
        raise Wrong(f"{program}: {calls[-1][0]} ended with status {statuses[-1]} {line}")
    return path


def _records(stream):
    """The records of a summary stream: event, summary id, how many samples have a loss, and whether there is a mean."""
    at = HEAD_BYTES
    while at < len(stream):
        event, summary, _ = SUMMARY.unpack_from(stream, at)
        at += SUMMARY.size
        losses, has_mean = 0, False
        while True:
            sidx, _ = PAIR.unpack_from(stream, at)
            at += PAIR.size
            if sidx == 0:
                break
            losses += sidx > 0
            has_mean = has_mean or sidx == -1
        yield event, summary, losses, has_mean
