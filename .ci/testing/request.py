"""What a row of command lines says is asked for, as the words of another command line that asks for the same.

These words are written from what the row says alone: each option once, in one order, as `--name=value`, and the files behind
`--`."""

import re
from dataclasses import dataclass

PARTITION = r"(?: by (?P<file>\S+)| in (?P<processes>\d+))?"
EXCERPT = r"(?: from (?P<from>\d+))?(?: to (?P<to>\d+))?(?: only (?P<only>\S+))?"
CHOICE = rf"{EXCERPT}(?: through (?P<flow>\S+)(?P<value> by value)?)?(?P<quantiles> with quantiles)?"
TRACE = r"(?P<trace>\S+) of (?P<model>\S+)(?P<partial> in part)?"
INPUTS = r"(?: with (?P<inputs>(?!quantiles|progress)\S+))?"
FORMS = {
    "check": r"check (?P<model>\S+)(?P<warn> with warnings)?",
    "code": r"code (?P<model>\S+)",
    "plan": rf"plan (?P<model>\S+){PARTITION}",
    "graph": rf"graph (?P<model>\S+)(?: to depth (?P<depth>\d+)| of (?P<phased>\S+))?{PARTITION}",
    "vcd": rf"vcd {TRACE}{INPUTS}{EXCERPT}(?P<hold> held)?(?: at (?P<timescale>\S+))?",
    "plot": rf"plot {TRACE}(?: from (?P<from>\d+))?(?: to (?P<to>\d+))?: (?P<names>.+)",
    "stats": rf"stats(?P<csv> in csv)? {TRACE}{INPUTS}{CHOICE}",
    "table": rf"table(?P<json> in json)? {TRACE}{INPUTS}{EXCERPT}",
    "run": rf"(?P<model>\S+) (?P<horizon>\d+) (?P<microsteps>\d+){PARTITION}(?: for (?P<rounds>\d+))?(?: on (?P<workers>\d+))?"
    rf"{INPUTS}(?P<stats> counted(?P<csv> in csv)?{CHOICE})?(?P<progress> with progress)?",
}
# The options, by the names that the forms give to what they set.
OPTIONS = {
    "horizon": "--horizon",
    "microsteps": "--microsteps",
    "file": "--partition",
    "processes": "--processes",
    "rounds": "--rounds",
    "workers": "--workers",
    "inputs": "--inputs",
    "stats": "--stats",
    "from": "--from",
    "to": "--to",
    "only": "--only",
    "flow": "--flow",
    "value": "--by-value",
    "quantiles": "--quantiles",
    "csv": "--csv",
    "json": "--json",
    "progress": "--progress",
    "depth": "--depth",
    "phased": "--model",
    "warn": "--warn",
    "hold": "--hold-ports",
    "timescale": "--timescale",
    "partial": "--partial",
    "explained": "--explain",
}
FLAGS = {"stats", "value", "quantiles", "csv", "json", "progress", "warn", "hold", "partial", "explained"}
# The options that go with the numbers of a run.
COUNTED = ("stats", "from", "to", "only", "flow", "value", "quantiles", "csv")
# So many rounds end before the horizon, and so many processes are refused.
FEW_ROUNDS = 10
MOST_PROCESSES = 256
NO_TIMESCALES = ("3ns", "ps")
NO_PATH = "-x"


@dataclass(frozen=True)
class Request:
    """What is asked for: the subcommand, the files of the model and of the trace, and the options with their values."""

    command: str
    model: str
    trace: str | None
    options: dict[str, str]
    # What is shown of the trace.
    names: tuple[str, ...] = ()

    def words(self):
        """The words that ask for it."""
        given = [name for name in OPTIONS if name in self.options]
        written = [OPTIONS[name] if name in FLAGS else f"{OPTIONS[name]}={self.options[name]}" for name in given]
        return [self.command, *written, "--", self.model, *([self.trace] if self.trace else []), *self.names]

    def parts(self):
        """The names of what can be asked for otherwise, each with a request that differs from this one in it alone: without an
        option, or with another horizon or another microstep where the program has one in any case."""
        for name in self.options:
            if name == "horizon":
                yield name, self.other(horizon=str(int(self.options[name]) - 1 if int(self.options[name]) > 0 else 1))
            elif name == "microsteps":
                yield name, self.other(microsteps=str(int(self.options[name]) + (-1 if int(self.options[name]) > 1 else 1)))
            elif name == "stats":
                yield name, self.without(*COUNTED)
            elif name == "flow":
                yield name, self.without("flow", "value")
            else:
                yield name, self.without(name)

    def hidden(self):
        """The names of what makes no difference beside the rest of what is asked for."""
        options, hidden = self.options, set()
        rounds = int(options.get("rounds", FEW_ROUNDS))
        if int(options.get("processes", 1)) > MOST_PROCESSES or rounds == 0:
            # The run is refused, or ends at once.
            hidden |= {"horizon", "microsteps"}
        if rounds < FEW_ROUNDS:
            # The run ends before the limit.
            hidden.add("microsteps")
        if rounds > FEW_ROUNDS:
            # The run is whole after fewer.
            hidden.add("rounds")
        if options.get("only") == NO_PATH:
            # Nothing is run.
            hidden.add("microsteps")
        if options.get("only") == NO_PATH or int(options.get("to", 10**15)) < int(options.get("horizon", 0)):
            hidden.add("horizon")
        if options.get("timescale") in NO_TIMESCALES:
            hidden |= {"inputs", "partial", "hold"}
        return hidden & options.keys()

    def other(self, **values):
        """The same with other values."""
        return Request(self.command, self.model, self.trace, {**self.options, **values}, self.names)

    def without(self, *names):
        """The same without some options."""
        kept = {name: value for name, value in self.options.items() if name not in names}
        return Request(self.command, self.model, self.trace, kept, self.names)


def request_in(text):
    """The request that a text tells; nothing where it tells none."""
    told = text.removeprefix("explained ")
    for command, form in FORMS.items():
        found = re.fullmatch(form, told)
        if found and (command != "run" or found["model"] not in FORMS):
            named = {name: value for name, value in found.groupdict().items() if value is not None}
            model, trace, names = named.pop("model"), named.pop("trace", None), tuple(named.pop("names", "").split())
            return Request(command, model, trace, named | ({"explained": ""} if told != text else {}), names)
    return None
