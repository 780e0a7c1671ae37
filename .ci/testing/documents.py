"""The examples, and the commands that documents show with what they print.

An example has a model, inputs and a trace, and its page the command that prints that trace.

In a document a fenced block with a root is a model, and one that is marked `inputs` its inputs. An indented line that begins
with `$ ` is a command of a shell, and the indented lines behind it are all that it prints. It has the model and the inputs that
were shown last, under the names that it gives. Where it names files of the repository, those have to give the same. A line of
its own as `E7 line 3` between backquotes is the answer to the model and the inputs that were shown last. Of a command whose
output goes on to a program that may be missing, only the status is looked at, and one that begins with such a program is left
out."""

import os
import re
import shutil
import subprocess
import tempfile
from dataclasses import dataclass
from functools import partial
from pathlib import Path

from testing.trial import Group, Trial, difference

DOCUMENTS = ("README.md", "docs/TUTORIAL.md", "docs/ERRORS.md", "docs/PARALLEL.md", "docs/LOOKING.md", "docs/STUDY.md", "parts/README.md")
# A document that shows no models calls those of another one by these names.
BORROWED = {"docs/LOOKING.md": ("README.md", ("plant.pd", "model.pd"), ("rain.txt",))}
# What is there where a command is run, beside what it names itself.
LINKED = ("examples", "parts", "scripts", "tick.pd")
# Programs that may be missing, whose output is a picture or is shown on a screen.
FOREIGN = ("dot", "jq", "sqlite3", "gtkwave")
CUT = re.compile(rf" \| ({'|'.join(FOREIGN)})\b.*")
ANSWER = re.compile(r"`([EIQ]\d+ line \d+)`")
SECONDS = 600


@dataclass(frozen=True)
class Shown:
    """The model and the inputs that a document has shown last."""

    model: str = ""
    inputs: str = ""


@dataclass(frozen=True)
class Command:
    """A command of a document, with what was shown before, and what it prints."""

    place: str
    line: str
    shown: Shown
    printed: str


def kept_block(shown, mark, block):
    """What is shown last, after a fenced block."""
    if mark == "inputs":
        return Shown(shown.model, block)
    if mark == "" and "root " in block:
        return Shown(block)
    return shown


def commands_in(root, name):
    """The commands of a document, and the answers, each as the command that gives it; and what was shown last."""
    lines = (root / name).read_text(encoding="utf-8").split("\n")
    shown, found = Shown(), []
    number = 0
    while number < len(lines):
        line, place = lines[number], f"{name}:{number + 1}"
        number += 1
        if line.startswith("```"):
            end = lines.index("```", number)
            shown = kept_block(shown, line[3:], "".join(f"{text}\n" for text in lines[number:end]))
            number = end + 1
        elif line.startswith("    $ "):
            first = number
            while is_printed(lines, number):
                number += 1
            printed = "".join(f"{text[4:]}\n" for text in lines[first:number])
            found.append(Command(place, line[6:], shown, printed))
        elif answer := ANSWER.fullmatch(line):
            command = "./pdevs run model.pd --horizon 0" + (" --inputs inputs.txt" if shown.inputs else "")
            found.append(Command(place, command, shown, f"pdevs: {answer[1]}\n"))
    return found, shown


def is_printed(lines, number):
    """Whether a line is one that a command prints: it is indented, or stands empty before one that is."""
    while number < len(lines) and lines[number] == "":
        number += 1
    return number < len(lines) and lines[number].startswith("    ") and not lines[number].startswith("    $ ")


def named(line):
    """The files of models and of inputs that a command names."""
    model = re.search(r"(?:\./pdevs \w+(?: --warn)?|scripts/replicate\.py) (\S+\.pd)", line)
    inputs = re.search(r"--inputs (\S+)", line)
    return (model[1] if model else None), (inputs[1] if inputs else None)


def make_folder(root, bench, files):
    """A folder in which a command of a document can be run."""
    folder = Path(tempfile.mkdtemp(dir=bench.folder))
    (folder / "pdevs").symlink_to(bench.program)
    for name in LINKED:
        (folder / name).symlink_to(root / name)
    for name, text in files.items():
        (folder / name).write_text(text, encoding="utf-8")
    return folder


def run(folder, line):
    """Runs a command in a folder: its status, and all that it prints, in both orders in which that can come. Scripts run the program of
    the folder."""
    words = {"cwd": folder, "env": {**os.environ, "PDEVS": str(folder / "pdevs")}, "timeout": SECONDS}
    ended = subprocess.run(["bash", "-c", line], capture_output=True, check=False, text=True, **words)
    return ended.returncode, {ended.stderr + ended.stdout, ended.stdout + ended.stderr}


def wrong_in(folder, line, wanted):
    """What is wrong with what a command prints in a folder."""
    cut = CUT.sub("", line)
    status, printed = run(folder, cut)
    if cut != line:
        return "" if status == 0 else f"{cut}\nends with the status {status}"
    return "" if wanted in printed else f"{line}\n{difference(wanted, max(printed))}"


def hold(root, command, earlier, files, bench):
    """What is wrong with a command. The earlier ones have written files that it may read."""
    model, inputs = named(command.line)
    is_of_repository = model is not None and (root / model).exists()
    wanted = command.printed
    if not is_of_repository or not command.shown.model:
        # What was shown has the names that the command gives.
        given = dict(files)
        if command.shown.model and model:
            given[model] = command.shown.model
        if command.shown.inputs and inputs:
            given[inputs] = command.shown.inputs
        folder = make_folder(root, bench, given)
        for line in earlier:
            run(folder, line)
        wrong = wrong_in(folder, command.line, wanted)
    else:
        folder = make_folder(root, bench, {"shown.pd": command.shown.model, "shown.txt": command.shown.inputs})
        words = {model: "shown.pd", inputs: "shown.txt"}
        line = " ".join(words.get(word, word) for word in command.line.split(" "))
        wrong = wrong_in(folder, line, wanted) or wrong_in(folder, command.line, wanted)
    shutil.rmtree(folder)
    return wrong


def document_trials(root, name):
    """The commands of a document as trials."""
    commands, _ = commands_in(root, name)
    files = {}
    if name in BORROWED:
        lender, models, inputs = BORROWED[name]
        _, last = commands_in(root, lender)
        files = {**dict.fromkeys(models, last.model), **dict.fromkeys(inputs, last.inputs)}
    earlier = []
    for command in commands:
        if command.line.split()[0] not in FOREIGN:
            yield Trial(command.place, partial(hold, root, command, tuple(earlier), files))
        if " > " in CUT.sub("", command.line):
            earlier.append(command.line)


def documents_of(root):
    """The commands of all documents."""
    return Group("documents", [trial for name in DOCUMENTS for trial in document_trials(root, name)])


def hold_example(root, folder, bench):
    """What is wrong with the command on the page of an example, which has to print the trace beside it."""
    page = (folder / "README.md").read_text(encoding="utf-8")
    command = re.search(r"^    \./pdevs (run \S+ --inputs \S+ --horizon (\d+))$", page, re.MULTILINE)
    trace = (folder / "trace.txt").read_text(encoding="utf-8")
    if command is None:
        return "its page has no command"
    words = command[1].split()
    place = folder.relative_to(root)
    if words[1] != f"{place}/model.pd" or words[3] != f"{place}/inputs.txt" or not trace.endswith(f"\nwhole {command[2]}\n"):
        return f"the command of its page is not of its files: {command[0]}"
    came = bench.call(words, where=root)
    wanted = f"{trace}status {3 if ' fault ' in trace else 0}\n"
    return f"pdevs {command[1]}\n{difference(wanted, came.text())}" if wanted != came.text() else ""


def examples_of(root):
    """All examples."""
    folders = sorted(path.parent for path in (root / "examples").glob("*/model.pd"))
    return Group("examples", [Trial(str(folder.relative_to(root)), partial(hold_example, root, folder)) for folder in folders])
