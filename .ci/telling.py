"""What the tests in Python say of what was not run."""
import os


def not_run(line):
    """A line of what was not tried; the last lines of the gate say it too."""
    print(f"not run: {line}")
    if os.environ.get("NOT_RUN"):
        with open(os.environ["NOT_RUN"], "a", encoding="utf-8") as told:
            told.write(f"not run: {line}\n")
