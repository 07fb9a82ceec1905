"""What tools/import and tools/export share: calls of the program, a folder that appears once it is whole, and how a script ends.

No program: it is imported.
"""
import contextlib
import errno
import os
import signal
import subprocess
import sys
import tempfile
from typing import NamedTuple

TOP = os.path.dirname(os.path.dirname(os.path.abspath(__file__)))
# what the statuses that have no line of their own say (docs/REFUSALS.md)
WITHOUT_LINE = {4: "a read failed", 5: "a write failed: is the disk full?", 6: "memory was wanting"}


class Failed(Exception):
    """Why a script ends without what it was to make: lines `file: what`."""


class Ended(NamedTuple):
    """How a call of the program ended."""
    status: int
    line: str     # its line on standard error, without `ktools: `

    def why(self):
        """Why a call that failed did so."""
        if self.line:
            return self.line
        if self.status < 0:
            return f"was ended by signal {-self.status}"
        return WITHOUT_LINE.get(self.status, f"ended with status {self.status}")


def program_of(given):
    """The program: the given one, or the one that KTOOLS names, or that of the release. In a clone of the repository it is where the
    gate has built it; the script ktools at the top, which would build it first, is left to a call by hand."""
    built = os.path.join(TOP, "crates", "ktools", "out", "ktools")
    program = given or os.environ.get("KTOOLS") or (built if os.path.isdir(os.path.join(TOP, "crates")) else os.path.join(TOP, "ktools"))
    if not os.path.isfile(program) or not os.access(program, os.X_OK):
        raise Failed(f"{program}: is {'not built: call ./ktools at the top once' if program == built else 'no program'}")
    return os.path.abspath(program)


def call(program, words, folder, source, out):
    """A call with these words in a folder, from one open file to another."""
    done = subprocess.run([program, *words], cwd=folder, stdin=source, stdout=out, stderr=subprocess.PIPE, check=False)
    lines = done.stderr.decode(errors="replace").splitlines()
    return Ended(done.returncode, lines[-1].removeprefix("ktools: ") if lines else "")


@contextlib.contextmanager
def new_folder(name):
    """A folder to be filled, and one to work in. The first gets its name once the block has ended well, and not before; one of this
    name must not be there. Else nothing is left."""
    to = os.path.abspath(name)
    parent = os.path.dirname(to)
    if os.path.lexists(to):
        raise Failed(f"{name}: is there already")
    if not os.path.isdir(parent):
        raise Failed(f"{parent}: is no folder")
    with tempfile.TemporaryDirectory(prefix=f".{os.path.basename(to)}.partial-", dir=parent) as room:
        made, work = os.path.join(room, "made"), os.path.join(room, "work")
        os.mkdir(made)
        os.mkdir(work)
        yield made, work
        try:
            os.rename(made, to)
        except OSError as error:
            if error.errno in (errno.ENOTEMPTY, errno.EEXIST, errno.ENOTDIR):
                raise Failed(f"{name}: is there already") from None
            raise


def stopped(number, _):
    raise Failed(f"signal {number}: nothing was made")


def carry_out(script, target, work, notes=list):
    """Does the work of a script, and says on standard error what was noted, and why it failed. Gives the exit status."""
    failed = []
    before = {number: signal.signal(number, stopped) for number in (signal.SIGINT, signal.SIGTERM, signal.SIGHUP)}
    try:
        work()
    except Failed as error:
        failed = str(error).splitlines()
    except OSError as error:
        failed = [f"{error.filename or target}: {error.strerror}"]
    for number, handler in before.items():
        signal.signal(number, handler)
    for line in [*notes(), *failed]:
        print(f"{script}: {line}", file=sys.stderr)
    return 1 if failed else 0
