#!/usr/bin/env python3
"""Runs a model once for each seed, in parallel, and prints means with their 95 % confidence intervals.

    python3 scripts/replicate.py MODEL --horizon H --measure KIND,COMPONENT,NAME,MEASURE .. [--seeds N] [--with WORD=A,B,..]
        [--inputs COMMAND] [--from T] [--to T] [--flow FROM:TO [--by-value]] [--quantiles]

A measure is named as in the first four columns of `run --stats --csv`, such as `phase,server,busy,share`; the options from --from on are
those of `stats`. In the text of the model and in COMMAND the letters SEED stand for the seed, 1 to N, also within a longer word: two
streams of inputs can have the seeds jobsSEED and breaksSEED. If they stand nowhere, all runs would be the same, and that is refused. The
whole word WORD stands for each of the values of --with in turn; a table line is printed for each of them. COMMAND prints the inputs of a
run, for example "python3 scripts/arrivals.py job --gap exponential:5 --until 10000 --seed SEED". The interval is that of Student's t over
the runs that have the measure.
"""

import argparse
import difflib
import os
import re
import shlex
import statistics
import subprocess
import sys
import tempfile
from concurrent.futures import ThreadPoolExecutor
from pathlib import Path

import vuhymbe

# The 97.5 % quantiles of Student's t, by degrees of freedom from 1 on. Behind the last, that of the normal distribution is taken.
STUDENT = [
    12.706, 4.303, 3.182, 2.776, 2.571, 2.447, 2.365, 2.306, 2.262, 2.228, 2.201, 2.179, 2.160, 2.145, 2.131,
    2.120, 2.110, 2.101, 2.093, 2.086, 2.080, 2.074, 2.069, 2.064, 2.060, 2.056, 2.052, 2.048, 2.045, 2.042,
]  # fmt: skip
SEED = "SEED"
# What is handed on to the program, by the names that vuhymbe has.
HANDED = ("begin", "end", "flow", "by_value", "quantiles")


def pattern(word):
    """How a word is found: the seed anywhere, and another word where it stands alone, since it may be as short as `n`."""
    return word if word == SEED else rf"\b{re.escape(word)}\b"


def placed(text, words):
    """A text with values in the place of words."""
    for word, value in words.items():
        text = re.sub(pattern(word), str(value), text)
    return text


def numbers_of(options, words):
    """The numbers of one run."""
    with tempfile.TemporaryDirectory() as folder:
        model, inputs = Path(folder) / "model.pd", None
        model.write_text(placed(options.model.read_text(encoding="utf-8"), words), encoding="utf-8")
        if options.inputs:
            inputs = Path(folder) / "inputs.txt"
            ended = subprocess.run(shlex.split(placed(options.inputs, words)), capture_output=True, check=False, text=True)
            if ended.returncode != 0:
                raise vuhymbe.NotRun(f"the command of --inputs ended with the status {ended.returncode}\n{ended.stderr.strip()}")
            inputs.write_text(ended.stdout, encoding="utf-8")
        choices = {name: getattr(options, name) for name in HANDED}
        return vuhymbe.stats(model, options.horizon, inputs=inputs, **choices)


def column(measure, runs):
    """The numbers that the runs have of a measure. A name that none of them has is refused, and so is what is no number."""
    key = tuple(measure.split(","))
    if not any(key in numbers for numbers in runs):
        names = {",".join(name) for numbers in runs for name in numbers}
        near = " or ".join(f"`{name}`" for name in difflib.get_close_matches(measure, names))
        near = f", but {near}" if near else ""
        raise vuhymbe.NotRun(f"no run has `{measure}`{near}; run --stats --csv prints all measures, with the same options")
    found = [numbers.get(key) for numbers in runs]
    for text in found:
        if isinstance(text, str):
            raise vuhymbe.NotRun(f"`{measure}` has no mean: it is {text} in a run")
    return found


def interval(numbers):
    """The mean of numbers and half of its 95 % interval, which one number does not have."""
    if len(numbers) < 2:
        return statistics.fmean(numbers), None
    freedom = len(numbers) - 1
    student = STUDENT[freedom - 1] if freedom <= len(STUDENT) else 1.960
    return statistics.fmean(numbers), student * statistics.stdev(numbers) / len(numbers) ** 0.5


def cell(numbers):
    """A mean with its interval as a text, and of how many runs it is, if some have no number."""
    there = [number for number in numbers if number is not None]
    if not there:
        return "-"
    mean, half = interval(there)
    text = f"{mean:.4f}" if half is None else f"{mean:.4f} +- {half:.4f}"
    return text if len(there) == len(numbers) else f"{text} of {len(there)} runs"


def read():
    """The words of the command line, and the word of --with with its values. Where SEED or WORD stand nowhere, that is refused."""
    told = "The letters SEED in the model and in COMMAND stand for the seed, also within a longer word."
    parser = argparse.ArgumentParser(description="Runs a model once for each seed and prints means with their intervals.", epilog=told)
    parser.add_argument("model", type=Path)
    parser.add_argument("--horizon", type=int, required=True)
    parser.add_argument("--measure", nargs="+", required=True, help="as in the first four columns of run --stats --csv")
    parser.add_argument("--seeds", type=int, default=10, help="how many runs each line has (10)")
    parser.add_argument("--with", dest="settings", help="a whole word of the model or of COMMAND and its values, as WORD=A,B,..")
    parser.add_argument("--inputs", metavar="COMMAND", help="a command that prints the inputs of a run")
    parser.add_argument("--from", dest="begin", type=int, metavar="T", help="the first tick that counts, behind a time to warm up (0)")
    parser.add_argument("--to", dest="end", type=int, metavar="T", help="the last tick that counts (the horizon)")
    parser.add_argument("--flow", metavar="FROM:TO", help="has measures of the times from one port to another one, as flow,,FROM:TO,mean")
    parser.add_argument("--by-value", action="store_true", help="with --flow, pairs equal values")
    parser.add_argument("--quantiles", action="store_true", help="has measures of quantiles, too")
    options = parser.parse_args()
    word, _, values = (options.settings or "=").partition("=")
    searched = options.model.read_text(encoding="utf-8") + " " + (options.inputs or "")
    if word and not re.search(pattern(word), searched):
        parser.error(f"{word} is a whole word neither of the model nor of the command of --inputs")
    if options.seeds > 1 and not re.search(SEED, searched):
        parser.error("SEED is neither in the model nor in the command of --inputs: all runs would be the same; --seeds 1 runs once")
    return options, word, values.split(",")


def study(options, word, values):
    """Runs the model and prints the table. How many runs had faults goes to standard error."""
    lines = [{word: value} if word else {} for value in values]
    runs = [line | {SEED: seed} for line in lines for seed in range(1, options.seeds + 1)]
    with ThreadPoolExecutor(os.cpu_count()) as pool:
        found = list(pool.map(lambda words: numbers_of(options, words), runs))
    columns = [column(measure, found) for measure in options.measure]
    faults = sum(any(key[3] == "fault" and fault for key, fault in numbers.items()) for numbers in found)
    if faults:
        print(f"replicate.py: components had faults in {faults} of {len(runs)} runs", file=sys.stderr)
    print("\t".join([word or "runs", *options.measure]))
    for number, line in enumerate(lines):
        part = slice(number * options.seeds, (number + 1) * options.seeds)
        print("\t".join([line.get(word, str(options.seeds)), *(cell(numbers[part]) for numbers in columns)]))


def main():
    """Reads the words and makes the study. What was refused is told in a line or some."""
    try:
        study(*read())
    except (OSError, vuhymbe.NotRun) as told:
        sys.exit(f"replicate.py: {told}")


if __name__ == "__main__":
    main()
