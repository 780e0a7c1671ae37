"""Trials: what is tested, side by side on all processors, and what came of it."""

import difflib
import multiprocessing
import os
import tempfile
from collections.abc import Callable
from concurrent.futures import ProcessPoolExecutor
from dataclasses import dataclass
from pathlib import Path

from testing.bench import Bench

# Of each group so many failures are shown, and of each so many lines, which are cut to so many characters.
MOST_SHOWN = 10
MOST_LINES = 12
LONGEST_LINE = 200
# So many trials are given to a process at a time.
AT_A_TIME = 4


@dataclass(frozen=True)
class Trial:
    """One thing that is tested: its place, as a file and a line, and what tries it, which answers what is wrong, or nothing."""

    place: str
    hold: Callable[[Bench], str]


@dataclass(frozen=True)
class Group:
    """Trials of one sort."""

    name: str
    trials: list[Trial]


def difference(wanted, came):
    """How what came differs from what was wanted, in a few lines; nothing where both are the same."""
    if wanted == came:
        return ""
    lines = difflib.unified_diff(wanted.splitlines(), came.splitlines(), "wanted", "came", lineterm="", n=1)
    shown = list(lines) or [f"wanted {wanted[-60:]!r}", f"came {came[-60:]!r}"]
    if len(shown) > MOST_LINES:
        shown = [*shown[:MOST_LINES], f"and {len(shown) - MOST_LINES} lines more"]
    return "\n".join(line if len(line) <= LONGEST_LINE else f"{line[:LONGEST_LINE]}.." for line in shown)


class Trying:
    """What a process that tries things keeps: the trials, which it has from its parent, and its bench."""

    trials: list[Trial] = []
    bench: Bench


def begin(program, folder, stand_in):
    """Gives this process a bench."""
    own = Path(tempfile.mkdtemp(dir=folder))
    Trying.bench = Bench(program, own, stand_in)


def try_one(index):
    """Tries one thing. What is wrong with it, where something is."""
    try:
        return Trying.trials[index].hold(Trying.bench)
    except Exception as error:  # A trial that can't be made is one that fails, and the others go on.
        return f"{type(error).__name__}: {error}"


def tell(group, wrong):
    """Prints how many trials of a group hold, and what is wrong with the others."""
    failed = len(wrong)
    note = f", {failed} failed" if failed else ""
    if not group.trials:
        note = ": nothing to test"
    print(f"{group.name}: {len(group.trials) - failed} passed{note}", flush=True)
    for place, what in wrong[:MOST_SHOWN]:
        print(f"  {place}")
        for line in what.splitlines():
            print(f"    {line}")
    if failed > MOST_SHOWN:
        print(f"  and {failed - MOST_SHOWN} more", flush=True)


def try_groups(groups, program, stand_in):
    """Tries all trials of groups, and tells of each group as it is done. How many passed, and how many failed; a group without
    trials counts as one that failed."""
    # The processes have the trials from this one, as they begin as copies of it.
    Trying.trials = [trial for group in groups for trial in group.trials]
    passed = failed = 0
    with tempfile.TemporaryDirectory() as folder:
        fork = multiprocessing.get_context("fork")
        with ProcessPoolExecutor(len(os.sched_getaffinity(0)), fork, begin, (program, folder, stand_in)) as pool:
            answers = pool.map(try_one, range(len(Trying.trials)), chunksize=AT_A_TIME)
            for group in groups:
                found = [(trial.place, next(answers)) for trial in group.trials]
                wrong = [(place, what) for place, what in found if what]
                tell(group, wrong)
                passed += len(found) - len(wrong)
                failed += len(wrong) if found else 1
    return passed, failed
