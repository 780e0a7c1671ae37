"""The views of models and traces, each compared with the file of its name. `tests/views/README.md` says where the files are
from.

A folder has a model, a trace and perhaps inputs, or they are those of the example of the same name. What reads a trace piece by
piece reads each trace once more from a stand-in for the system, which gives it a few bytes at a time and interrupts every other
read."""

from dataclasses import dataclass
from functools import partial

from testing.trial import Group, Trial, difference


@dataclass(frozen=True)
class View:
    """A view: the file that it is compared with, and the words that ask for it, in which a word may stand for a file's line."""

    file: str
    words: tuple[str, ...]
    # Whether the trace is read piece by piece.
    reads_pieces: bool = False


GRAPH = ("graph", "model.pd")
DUMP = ("vcd", "model.pd", "trace.txt")
NUMBERS = ("stats", "model.pd", "trace.txt")
TABLE = ("table", "model.pd", "trace.txt")
# Of the inputs where the folder has some.
INPUTS = "INPUTS"
# The lines of files that say what is asked for.
LINES = {"ONLY": "only.txt", "PHASED": "phases.txt", "FLOW": "flow.txt"}

VIEWS = (
    View("graph.dot", GRAPH),
    View("two_processes.dot", (*GRAPH, "--processes", "2")),
    View("whole.dot", (*GRAPH, "--depth", "0")),
    View("parts.dot", (*GRAPH, "--depth", "1")),
    View("two_processes_parts.dot", (*GRAPH, "--processes", "2", "--depth", "1")),
    View("two_levels.dot", (*GRAPH, "--depth", "2")),
    View("phases.dot", (*GRAPH, "--model", "PHASED")),
    View("warnings.txt", ("check", "model.pd", "--warn")),
    View("trace.vcd", DUMP, True),
    View("held.vcd", (*DUMP, "--hold-ports", INPUTS), True),
    View("inputs.vcd", (*DUMP, "--timescale", "1ns", INPUTS), True),
    View("partial.vcd", (*DUMP, "--partial"), True),
    View("span.vcd", (*DUMP, "--from", "5", "--to", "11", INPUTS), True),
    View("only.vcd", (*DUMP, "--only", "ONLY", INPUTS), True),
    View("stats.txt", NUMBERS, True),
    View("stats.csv", (*NUMBERS, "--csv"), True),
    View("quantiles.csv", (*NUMBERS, "--csv", "--quantiles"), True),
    View("span.csv", (*NUMBERS, "--csv", "--from", "5", "--to", "11"), True),
    View("only.csv", (*NUMBERS, "--csv", "--only", "ONLY"), True),
    View("partial.csv", (*NUMBERS, "--csv", "--partial"), True),
    View("flow.csv", (*NUMBERS, "--csv", "--flow", "FLOW", INPUTS), True),
    View("by_value.csv", (*NUMBERS, "--csv", "--flow", "FLOW", "--by-value", INPUTS), True),
    View("table.csv", (*TABLE, INPUTS)),
    View("partial_table.csv", (*TABLE, "--partial", INPUTS)),
    View("only_table.csv", (*TABLE, "--only", "ONLY", INPUTS)),
    View("table.json", (*TABLE, "--json", INPUTS)),
)
# What lies in a folder beside its views.
OTHERS = {"model.pd", "trace.txt", "inputs.txt", *LINES.values()}


def words_of(view, folder, source):
    """The words that ask for a view in the folder that has the model."""
    words = []
    for word in view.words:
        if word in LINES:
            words.append((folder / LINES[word]).read_text(encoding="utf-8").rstrip())
        elif word != INPUTS:
            words.append(word)
        elif (source / "inputs.txt").exists():
            words += ["--inputs", "inputs.txt"]
    return words


def shown(answer, view):
    """What an answer shows: the view, or the line of its error; of the warnings without the line that the model is accepted.
    That a trace has no end, where one need not have one, is told beside the view."""
    printed, told = answer.printed.decode(), answer.told.decode()
    if view.file == "warnings.txt" and answer.status == 0:
        accepted, _, printed = printed.partition("\n")
        if not accepted.startswith("accepted "):
            return f"{accepted}\n{printed}"
    if answer.status == 0 and "--partial" in view.words and told.startswith("pdevs: the trace has no end"):
        return printed
    is_refused = answer.status == 1 and not printed and told
    return printed + told if answer.status == 0 or is_refused else answer.text()


def hold(view, folder, source, bench):
    """What is wrong with a view."""
    wanted = (folder / view.file).read_text(encoding="utf-8")
    words = words_of(view, folder, source)
    wrong = difference(wanted, shown(bench.call(words, where=source), view))
    if wrong or not view.reads_pieces:
        return wrong and f"pdevs {' '.join(words)}\n{wrong}"
    by_pieces = bench.call(words, where=source, stood_in={"TRACE": str(source / "trace.txt")})
    wrong = difference(wanted, shown(by_pieces, view))
    return wrong and f"pdevs {' '.join(words)}, read by pieces\n{wrong}"


def trials_of(root, folder):
    """The views of a folder as trials."""
    source = folder if (folder / "model.pd").exists() else root / "examples" / folder.name
    place = folder.relative_to(root)
    files = {path.name for path in folder.iterdir()}
    for name in sorted(files - OTHERS - {view.file for view in VIEWS}):
        yield Trial(f"{place}/{name}", lambda bench: "no view has this name")
    views = [view for view in VIEWS if view.file in files]
    if not views:
        yield Trial(str(place), lambda bench: "no view")
    for view in views:
        yield Trial(f"{place}/{view.file}", partial(hold, view, folder, source))


def group_of(root):
    """The views of all folders."""
    folders = sorted(path.parent for path in (root / "tests/views").rglob("*") if path.suffix in (".pd", ".dot", ".vcd", ".csv"))
    return Group("views", [trial for folder in dict.fromkeys(folders) for trial in trials_of(root, folder)])
