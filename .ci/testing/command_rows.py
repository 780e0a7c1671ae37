"""Rows of command lines and what they ask for. `tests/commands/README.md` says how they are written.

The words of a row that asks for nothing are answered by a text on how the program is used. Those of a row that asks for
something have to come to the same as the words that are written from what the row says: on a model with a trace, inputs and a
partition; on one that is refused; and on one of a single component, which no partition divides. So that an option that is not
looked at is seen, on one of the three each option has to make a difference, and so has another horizon and another limit of
microsteps. Where lines are told while a run goes on, the clock hurries; of the threads of a run their number is compared. What
the rest of a row hides `hidden` names."""

import re
from dataclasses import dataclass
from functools import partial

from testing.request import request_in
from testing.trial import Group, Trial, difference

FOLDER = "tests/commands"
# The models that each request is tried on. Of the first there is a trace.
MODELS = ("shown.pd", "refused.pd", "undivided.pd")
# The files that rows name, beside models and traces, and those that lie there for them.
NAMED = {"i.txt": "inputs.txt", "j.txt": "inputs.txt", "p.json": "partition.json"}
# The models and traces that rows name which ask for nothing.
IDLE_MODELS = ("m.pd", "n.pd", "-m")
IDLE_TRACES = ("t.txt", "u.txt", "-t")
TOLD = re.compile(r"pdevs: \d+\.\d s: tick \d+, [\d,]+ lines\n")
STANDARD_INPUT = "-"


@dataclass(frozen=True)
class Files:
    """The files that rows are tried on, by their names."""

    contents: dict[str, bytes]

    def trace(self, is_cut):
        """The trace, or the same without its end."""
        whole = self.contents["shown.trace"]
        return whole[: whole.rindex(b"whole")] if is_cut else whole

    def put(self, bench, model, request):
        """Puts the files of a request into the folder of the bench, and answers what is on standard input."""
        for name, file in NAMED.items():
            bench.put(name, self.contents[file])
        texts = {request.model: self.contents[model]}
        if request.trace:
            texts[request.trace] = self.trace("partial" in request.options)
        for name, text in texts.items():
            if name != STANDARD_INPUT:
                bench.put(name, text)
        return texts.get(STANDARD_INPUT, b"")


def come_to(bench, words, given):
    """What words come to, as a text: the answer, in which lines that tell how far a run is are one, and how many threads it
    had."""
    threads = bench.folder / "threads"
    threads.unlink(missing_ok=True)
    answer = bench.call(words, given, stood_in={"HURRY": "", "THREADS": str(threads)})
    text = TOLD.sub("", answer.text())
    told = "progress is told\n" if text != answer.text() else ""
    return f"{text}{told}{threads_in(threads)} threads\n"


def threads_in(file):
    """How many threads were started, of which each left a byte in a file."""
    return file.stat().st_size if file.exists() else 0


def hold_workers(request, bench):
    """What is wrong with the threads of a run by workers that has just ended: each worker has one of its own."""
    wanted = int(request.options.get("workers", 0))
    started = threads_in(bench.folder / "threads")
    return "" if started >= wanted else f"{started} threads for {wanted} workers\n"


def hold_request(files, words, request, bench):
    """What is wrong with what the words of a row come to."""
    seen = set()
    for model in MODELS:
        given = files.put(bench, model, request)
        wanted = come_to(bench, request.words(), given)
        if wanted.startswith("error: "):
            return f"{' '.join(request.words())}\n{wanted}"
        wrong = difference(wanted, come_to(bench, words, given))
        if wrong:
            return f"{model}, and not as {' '.join(request.words())}\n{wrong}"
        if model == MODELS[0] and (wrong := hold_workers(request, bench)):
            return wrong
        for name, other in request.parts():
            if name not in seen and come_to(bench, other.words(), given) != wanted:
                seen.add(name)
    # What is said to be hidden is so, and nothing else is.
    return difference(f"seen: {sorted(request.options.keys() - request.hidden())}", f"seen: {sorted(seen)}")


def hold_idle(files, words, is_right, bench):
    """What is wrong with the answer to the words of a row that asks for nothing. The files that it may name are there."""
    lying = {name: "shown.pd" for name in IDLE_MODELS} | {name: "shown.trace" for name in IDLE_TRACES} | NAMED
    for name, file in lying.items():
        bench.put(name, files.contents[file])
    answer = bench.call(words)
    is_so = answer.status == 2 and not answer.printed and is_right(answer.told.decode())
    return "" if is_so else answer.text()


def hold_text(words, is_right, bench):
    """What is wrong with the answer to the words of a row that asks for a text of the program."""
    answer = bench.call(words)
    is_so = answer.status == 0 and not answer.told and is_right(answer.printed.decode())
    return "" if is_so else answer.text()


def is_help(told):
    """Whether a text is help."""
    return not told.startswith("error: ") and "\nUsage: pdevs " in told


def is_usage(told):
    """Whether a text says how the program is used: it is help, or refuses the words."""
    return is_help(told) or told.startswith("error: ")


def words_of(row):
    """The words of a row, in which two quotes are the empty word."""
    return ["" if word == '""' else word for word in row.split()]


def trial_of(files, place, line):
    """A row as a trial."""
    row, _, wanted = line.partition("=>")
    words, wanted = words_of(row), wanted.strip()
    if wanted == "usage":
        hold = partial(hold_idle, files, words, is_usage)
    elif wanted == "help":
        hold = partial(hold_idle, files, words, is_help)
    elif wanted.startswith("refused: "):
        reason = f"error: {wanted.removeprefix('refused: ')}\n"
        hold = partial(hold_idle, files, words, lambda told: told.startswith(reason))
    elif wanted.startswith("version "):
        version = wanted.removeprefix("version ").replace("\\n", "\n")
        hold = partial(hold_text, words, lambda printed: printed.startswith(version))
    elif wanted.startswith("explain "):
        code = wanted.removeprefix("explain ")
        hold = partial(hold_text, words, lambda printed: printed.startswith(f"{code}: "))
    else:
        request = request_in(wanted)
        if request is None:
            return Trial(place, lambda bench: f"nothing that is known is asked for: {wanted}")
        hold = partial(hold_request, files, words, request)
    return Trial(place, lambda bench: (wrong := hold(bench)) and f"{line}\n{wrong}")


def group_of(root):
    """The rows of all files of command lines."""
    files = Files({path.name: path.read_bytes() for path in (root / FOLDER / "files").iterdir()})
    trials = []
    for path in sorted((root / FOLDER).iterdir()):
        if path.name in ("README.md", "files"):
            continue
        place = str(path.relative_to(root))
        lines = enumerate(path.read_text(encoding="utf-8").splitlines(), 1)
        rows = [trial_of(files, f"{place}:{number}", line) for number, line in lines if line and not line.startswith("#")]
        trials += rows or [Trial(place, lambda bench: "no row")]
    return Group("commands", trials)
