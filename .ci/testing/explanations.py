"""The examples that `pdevs explain` shows: each has to be answered as it says."""

import re
from functools import partial

from testing.model_rows import outcome
from testing.trial import Group, Trial, difference

# The codes whose explanation has an example: all refusals of models but those of no text and of no memory, which no example
# shows, all of inputs, and the faults but the one for which too many values have to come. Partitions have none.
MODELS = [f"E{number}" for number in range(2, 18)]
INPUTS = [f"I{number}" for number in range(1, 6)]
FAULTS = ["range", "overflow", "divide", "empty", "full", "negative", "microsteps"]
ALONE = ["E1", "E18", "Q1", "Q2", "Q3", "Q4", "flood"]
# The last tick of a run with inputs, behind all of those in the examples.
HORIZON = "9"
LINES = r"(?:    [^\n]*\n)+"
SHOWN = re.compile(
    r"(?P<code>\S+): [^\n]+\n"
    rf"\n(?P<model>{LINES})(?:\nwith the inputs\n\n(?P<inputs>{LINES}))?\nis answered\n\n(?P<answer>{LINES})"
)


def unindented(text):
    """Lines without the blanks before them."""
    return re.sub("^    ", "", text or "", flags=re.MULTILINE)


def words_of(code, answer):
    """The words of the run of an example. One of a fault runs to the horizon that its answer tells; of the fault of microsteps
    the example has three."""
    if code in MODELS:
        return ["--horizon", "0"]
    if code in INPUTS:
        return ["--horizon", HORIZON]
    limit = ["--microsteps", "3"] if code == "microsteps" else []
    return ["--horizon", answer.rsplit("whole ", 1)[-1].strip(), *limit]


def hold(code, bench):
    """What is wrong with the example of a code."""
    shown = bench.call(["explain", code])
    found = SHOWN.fullmatch(shown.printed.decode())
    if shown.status != 0 or found is None or found["code"] != code:
        return f"no example: {shown.text()}"
    answer = unindented(found["answer"])
    bench.put("model.pd", unindented(found["model"]).encode())
    bench.put("inputs.txt", unindented(found["inputs"]).encode())
    inputs = ["--inputs", "inputs.txt"] if found["inputs"] else []
    came = bench.call(["run", "model.pd", *inputs, *words_of(code, answer)])
    wanted = f"{answer}status 3" if code in FAULTS else answer.rstrip("\n")
    return difference(wanted, outcome(came, False))


def hold_alone(code, bench):
    """What is wrong with the explanation of a code that has no example."""
    shown = bench.call(["explain", code])
    is_right = shown.status == 0 and re.fullmatch(rf"{code}: [^\n]+\n", shown.printed.decode())
    return "" if is_right else f"no words alone: {shown.text()}"


def hold_codes(bench):
    """What is wrong with the codes that are told where another one is asked for: they have to be those known here."""
    told = bench.call(["explain", "none"]).told.decode()
    _, _, codes = told.partition("\n")[0].partition("the codes are ")
    return difference("\n".join(sorted(MODELS + INPUTS + FAULTS + ALONE)), "\n".join(sorted(codes.split())))


def group_of(_root):
    """The explanations of all codes."""
    shown = [Trial(f"explain {code}", partial(hold, code)) for code in MODELS + INPUTS + FAULTS]
    alone = [Trial(f"explain {code}", partial(hold_alone, code)) for code in ALONE]
    return Group("explanations", [*shown, *alone, Trial("explain none", hold_codes)])
