#!/usr/bin/env python3
"""Prints inputs at random times for a seed, as `pdevs run --inputs` takes them.

    python3 scripts/arrivals.py PORT --gap LAW [--value LAW] [--until TICK] [--count N] [--seed SEED]

A law is `fixed:N`, `uniform:LEAST,GREATEST`, `exponential:MEAN`, `erlang:STAGES,MEAN`, or `from:FILE`: each number of the file is as
likely as any other. Gaps are drawn as real numbers and added up, and each sum is rounded to a tick, so that the mean of the gaps is
that of the law. Several values may come at one tick. Values are whole numbers: of `uniform:1,6` each of 1 to 6 is as likely as any other,
and what another law draws is rounded. Gaps and values have generators of their own: another law of values leaves the times as they are.
"""

import argparse
import itertools
import math
import random
from pathlib import Path

LAWS = "fixed:N, uniform:LEAST,GREATEST, exponential:MEAN, erlang:STAGES,MEAN or from:FILE"


def parts_of(word):
    """The name of a law and its numbers. What is no law is refused with those that there are."""
    name, _, rest = word.partition(":")
    try:
        cells = Path(rest).read_text(encoding="utf-8").split() if name == "from" else rest.split(",")
        return name, [float(number) for number in cells]
    except OSError as told:
        raise argparse.ArgumentTypeError(f"{rest} can't be read: {told.strerror}") from told
    except ValueError as told:
        raise argparse.ArgumentTypeError(f"`{word}` is no law with its numbers; there are {LAWS}") from told


def real(word):
    """A function that draws a real number by a law, with a generator of random numbers."""
    name, numbers = parts_of(word)
    if name == "from" and numbers:
        return lambda generator: generator.choice(numbers)
    if name == "fixed" and len(numbers) == 1:
        return lambda _generator: numbers[0]
    if name == "uniform" and len(numbers) == 2 and numbers[0] <= numbers[1]:
        return lambda generator: generator.uniform(*numbers)
    if name == "exponential" and len(numbers) == 1 and numbers[0] > 0:
        return lambda generator: generator.expovariate(1 / numbers[0])
    if name == "erlang" and len(numbers) == 2 and numbers[0] >= 1 and numbers[1] > 0:
        return lambda generator: generator.gammavariate(int(numbers[0]), numbers[1] / int(numbers[0]))
    raise argparse.ArgumentTypeError(f"`{word}` is no law with its numbers; there are {LAWS}")


def gap_law(word):
    """A function that draws a gap, a real number that is not below 0, since time does not go back; and whether time goes on by some."""
    draw, numbers = real(word), parts_of(word)[1]
    if min(numbers) < 0:
        raise argparse.ArgumentTypeError(f"`{word}` has gaps below 0")
    return draw, max(numbers) > 0


def value_law(word):
    """A function that draws a value. Real numbers between two ends, when rounded, would be the ends half as often as what is between them;
    so a uniform law draws whole numbers."""
    draw, (name, numbers) = real(word), parts_of(word)
    if name != "uniform":
        return lambda generator: round(draw(generator))
    least, greatest = math.ceil(numbers[0]), math.floor(numbers[1])
    if least > greatest:
        raise argparse.ArgumentTypeError(f"`{word}` has no whole number")
    return lambda generator: generator.randint(least, greatest)


def arrivals(gap, value, seed):
    """Pairs of a tick and a value, without end."""
    times, values = random.Random(f"gaps {seed}"), random.Random(f"values {seed}")
    time = 0.0
    while True:
        time += gap(times)
        yield round(time), value(values)


def main():
    """Reads the words and prints the inputs."""
    parser = argparse.ArgumentParser(description="Prints inputs at random times for a seed.", epilog=f"LAW is {LAWS}.")
    parser.add_argument("port", help="the input port of the root")
    gaps = "the ticks between two arrivals: real numbers, which are added up; each sum is rounded to a tick"
    parser.add_argument("--gap", type=gap_law, metavar="LAW", required=True, help=gaps)
    values = "the values (fixed:1): of uniform, whole numbers that are equally likely; what another law draws is rounded"
    parser.add_argument("--value", type=value_law, metavar="LAW", default="fixed:1", help=values)
    parser.add_argument("--until", type=int, default=10**15, help="the last tick at which a value may come")
    parser.add_argument("--count", type=int, help="how many values come, at most")
    parser.add_argument("--seed", default="1", help="any word; the same word gives the same inputs (1)")
    words = parser.parse_args()
    gap, goes_on = words.gap
    if words.count is None and (words.until == 10**15 or not goes_on):
        parser.error("--count or --until says where the inputs end; where all gaps are 0, --count does")
    coming = itertools.takewhile(lambda arrival: arrival[0] <= words.until, arrivals(gap, words.value, words.seed))
    for tick, value in itertools.islice(coming, words.count):
        print(tick, words.port, value)


if __name__ == "__main__":
    main()
