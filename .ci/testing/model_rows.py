"""Rows of models: a text, a command, and what comes of it. `tests/rows/README.md` says how they are written."""

import re
from dataclasses import dataclass, replace
from functools import partial

from testing.row_text import sections, text_bytes
from testing.trial import Group, Trial, difference

# The numbers of workers by which each run of one process has to print the same.
WORKERS = (1, 2, 3, 8)
# The most processes in which a run of one process is made again.
MOST_PROCESSES = 64
# The packets that a link between processes may hold, which a row may say. No option of the program sets it.
CAPACITIES = range(1, 1025)
COMMANDS = ("check", "code", "plan", "plain", "run", "explain")


@dataclass(frozen=True)
class Texts:
    """What a command reads. The model is what stands before, in and behind a row's own piece."""

    before: bytes = b""
    piece: bytes = b""
    after: bytes = b""
    partition: bytes = b""
    inputs: bytes = b""

    def put(self, bench):
        """Puts the texts into the folder of the bench."""
        bench.put("model.pd", self.before + self.piece + self.after)
        bench.put("partition.json", self.partition)
        bench.put("inputs.txt", self.inputs)


@dataclass(frozen=True)
class Row:
    """A command, what it reads, and what has to come of it, which ends without a line feed."""

    place: str
    command: str
    texts: Texts
    wanted: str


def value_behind(words, option):
    """The word behind an option."""
    return words[words.index(option) + 1] if option in words else None


def words_of(row):
    """The words with which the program is called for a row. The plain run, which no word asks for, prints what a run prints."""
    name, *options = row.command.split()
    if name == "explain":
        return [name, *options]
    words = ["run" if name == "plain" else name, "model.pd"]
    while options:
        option = options.pop(0)
        if option == "--capacity":
            options.pop(0)
        elif option == "--partition":
            words += [option, "partition.json"]
        else:
            words.append(option)
    if words[0] == "run":
        if "--horizon" not in words:
            words += ["--horizon", "0"]
        if row.texts.inputs:
            words += ["--inputs", "inputs.txt"]
    return words


def first_sentence(told):
    """What is told of an error, with the first sentence alone of its last line, which is the meaning of the number."""
    before, feed, meaning = told.rpartition("\n")
    sentence, dot, _ = meaning.partition(". ")
    return f"{before}{feed}{sentence}{'.' if dot else ''}"


def outcome(answer, is_explained):
    """An answer as rows say it: what was printed, and then the status, or the error and what is told of it."""
    printed = answer.printed.decode("utf-8", "backslashreplace")
    told = answer.told.decode("utf-8", "backslashreplace")
    if answer.status == 2 and not printed and told.startswith("error: "):
        return "no options"
    if answer.status != 1 or not told.startswith("pdevs: "):
        return f"{printed}{told}status {answer.status}"
    told = told.removeprefix("pdevs: ").rstrip("\n")
    return printed + (first_sentence(told) if is_explained else told)


def ways(bench, row, words):
    """The words of the same run with a process for each component, in rounds and by workers, if it is a run in one process."""
    if not row.command.startswith("run") or "--p" in row.command or "--rounds" in row.command:
        return
    counted = re.fullmatch(rb"accepted (\d+)\n", bench.call(["check", "model.pd"]).printed)
    count = min(int(counted[1]), MOST_PROCESSES) if counted else 1
    in_processes = [*words, "--processes", str(count)]
    yield in_processes
    if "--workers" not in words:
        for workers in WORKERS:
            yield [*in_processes, "--workers", str(workers)]


def hold(row, bench):
    """What is wrong with the answers to a row."""
    row.texts.put(bench)
    words = words_of(row)
    is_explained = "--explain" in words
    wrong = difference(row.wanted, outcome(bench.call(words), is_explained))
    if wrong:
        return f"pdevs {' '.join(words)}\n{wrong}"
    for other in ways(bench, row, words):
        wrong = difference(row.wanted, outcome(bench.call(other), is_explained))
        if wrong:
            return f"pdevs {' '.join(other)}\n{wrong}"
    return ""


def rows_in(path, place):
    """The rows of a file, in their order."""
    texts = Texts()
    for heading, line, lines in sections(path):
        kind, _, rest = heading.partition(" ")
        text = text_bytes(lines)
        here = f"{place}:{line}"
        match kind:
            case "note":
                pass
            case "model":
                texts = Texts(before=text)
            case "after" | "piece" | "partition" | "inputs":
                texts = replace(texts, **{kind: text})
            case "taken":
                texts = replace(texts, piece=text)
                yield Row(here, "run", texts, "whole 0\nstatus 0")
            case "refused":
                texts = replace(texts, piece=text)
                yield Row(here, "run", texts, rest)
            case _ if kind in COMMANDS:
                yield Row(here, heading, texts, text.decode("utf-8").rstrip("\n"))
            case _:
                yield Row(here, heading, texts, "a heading that is known")


def is_for_program(row):
    """Whether the program can be asked for a row. What is answered to a capacity out of its range no words ask for."""
    capacity = value_behind(row.command.split(), "--capacity")
    return capacity is None or int(capacity) in CAPACITIES


def trial_of(row):
    """A row as a trial."""
    return Trial(row.place, partial(hold, row))


def nothing_in(name):
    """A trial that fails, as a file has no row."""
    return Trial(name, lambda bench: "no row")


def group_of(root, name, folder):
    """The rows of all files of a folder."""
    trials = []
    for path in sorted((root / folder).iterdir()):
        if path.name == "README.md":
            continue
        place = str(path.relative_to(root))
        rows = [trial_of(row) for row in rows_in(path, place) if is_for_program(row)]
        trials += rows or [nothing_in(place)]
    return Group(name, trials)


def worked_of(root):
    """The rows that test_rows runs, too."""
    return group_of(root, "worked", "crates/test_rows/data")


def rows_of(root):
    """All other rows."""
    return group_of(root, "rows", "tests/rows")
