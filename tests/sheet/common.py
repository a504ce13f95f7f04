"""What the tests of the sheet share: how it is run, and how what is not so is said."""

import pathlib
import subprocess
import sys

TOP = pathlib.Path(__file__).resolve().parent.parent.parent
SHEET = TOP / "bin" / "sheet"
NIGHTS = TOP / "nights"
# document 01's limit on N
MOST_SITES = 16
FAILED = []


def check(what, holds):
    if not holds:
        FAILED.append(what)
        print(f"  not so: {what}")


def sheet(*words, **how):
    return subprocess.run([SHEET, *words], capture_output=True, **how)


def look(what, *looks):
    """Runs these looks, and ends the program."""
    for each in looks:
        each()
    print(f"{what}: as it must be" if not FAILED else f"{what}: {len(FAILED)} not as it must be")
    sys.exit(1 if FAILED else 0)
