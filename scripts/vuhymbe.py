"""Runs models and reads what comes out as numbers, for scripts and notebooks.

    import vuhymbe
    numbers = vuhymbe.stats("model.pd", horizon=1000)
    numbers["phase", "server", "busy", "share"]

Options of the program are named as there, with `_` for `-`: `inputs="inputs.txt"`, `processes=2`, `only="server"`, `quantiles=True`. The
first and the last tick that count are `begin=100` and `end=500`, since Python keeps the word `from` for itself. The program is ./pdevs of
this repository, or the one that the environment variable PDEVS names.
"""

import csv
import io
import json
import os
import re
import subprocess
import tempfile
from pathlib import Path

PROGRAM = os.environ.get("PDEVS") or str(Path(__file__).resolve().parent.parent / "pdevs")
# Options that have names of their own here.
RENAMED = {"begin": "from", "end": "to"}


class NotRun(Exception):
    """The program refused what it was given, or did not finish. The text is what it told."""


def call(*words, text=None):
    """What the program prints for these words. A run with faults of components is a whole run."""
    ended = subprocess.run([PROGRAM, *map(str, words)], input=text, capture_output=True, check=False, text=True)
    if ended.returncode not in (0, 3):
        raise NotRun(ended.stderr.strip() or f"status {ended.returncode}: the trace is partial")
    return ended.stdout


def words_of(options):
    """Options as words of a command line."""
    for name, value in options.items():
        word = f"--{RENAMED.get(name, name).replace('_', '-')}"
        if value is True:
            yield word
        elif value is not None and value is not False:
            yield from (word, value)


def run(model, horizon, **options):
    """The trace of a run, as a text."""
    return call("run", model, "--horizon", horizon, *words_of(options))


def cell(measure, text):
    """What a cell says: None if it is empty, else a number, or a text if it is a word such as `overflow`. A time is a text, too: as numbers
    the times 2.1 and 2.10 would be the same."""
    if text == "":
        return None
    if measure == "fault_time" or not re.fullmatch(r"-?[0-9]+(\.[0-9]+)?", text):
        return text
    return float(text) if "." in text else int(text)


def stats(model, horizon, **options):
    """The numbers of a run by (kind, component, name, measure), as `run --stats --csv` prints them. A measure that is not there, such as
    the mean of no values, is None; the name of a fault, the time of it and `overflow` are texts."""
    rows = csv.DictReader(io.StringIO(run(model, horizon, stats=True, csv=True, **options)))
    return {(row["kind"], row["component"], row["name"], row["measure"]): cell(row["measure"], row["value"]) for row in rows}


def table(model, horizon, inputs=None, begin=None, end=None, only=None, **options):
    """The rows of a run, as `table --json` prints them: one dictionary for each transition, value that was sent and value that came."""
    shown = words_of({"inputs": inputs, "begin": begin, "end": end, "only": only})
    with tempfile.NamedTemporaryFile("w", suffix=".trace", encoding="utf-8") as trace:
        trace.write(run(model, horizon, inputs=inputs, **options))
        trace.flush()
        return [json.loads(line) for line in call("table", model, trace.name, "--json", *shown).splitlines()]
