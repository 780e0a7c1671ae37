"""Rows of models with what is told of them: warnings, where faults came from, and traces that are refused or can't be read.

`tests/views/README.md` says how these files are written."""

from dataclasses import dataclass, field
from functools import partial

from testing.trial import Group, Trial, difference

# How the numbers, the dumps and the table of a trace are asked for, and whether the trace is read piece by piece.
ASKED = (
    (("stats", "--csv"), True),
    (("vcd",), True),
    (("vcd", "--hold-ports"), True),
    (("table",), False),
)


@dataclass
class Row:
    """A row: where it begins, and its lines by the signs that they begin with."""

    place: str
    lines: dict[str, list[str]] = field(default_factory=dict)

    def text(self, sign):
        """The lines with a sign, without it."""
        return "".join(f"{line}\n" for line in self.lines.get(sign, []))


def lines_of(root, name):
    """The lines of a file, each with its place."""
    text = (root / name).read_text(encoding="utf-8").removesuffix("\n")
    return [(f"{name}:{number}", line) for number, line in enumerate(text.split("\n"), 1)]


def sign_of(line, signs):
    """The sign that a line begins with, and what is behind it. An equals sign alone is an empty line of what is told."""
    if line == "=" and "= " in signs:
        return "= ", ""
    for sign in signs:
        if line.startswith(sign):
            return sign, line[len(sign) :]
    return "", line


def rows_of(root, name, signs):
    """The lines before the first title, and the rows of a file, each of which has a title behind `== `."""
    before, rows = [], []
    for place, line in lines_of(root, name):
        if line.startswith("== "):
            rows.append(Row(place))
        elif rows:
            sign, rest = sign_of(line, signs)
            rows[-1].lines.setdefault(sign, []).append(rest)
        else:
            before.append(line)
    return "".join(f"{line}\n" for line in before), rows


def hold_warned(row, bench):
    """What is wrong with the warnings of a row."""
    bench.put("model.pd", row.text("").encode())
    answer = bench.call(["check", "--warn", "model.pd"])
    accepted, _, warned = answer.printed.decode().partition("\n")
    if answer.status != 0 or answer.told or not accepted.startswith("accepted "):
        return answer.text()
    return difference(row.text("= "), warned)


def hold_faulted(row, bench):
    """What is wrong with what is told of the faults of a row."""
    horizon, limit = row.lines["@ "][0].split(" ")
    bench.put("model.pd", row.text("").encode())
    bench.put("inputs.txt", row.text("< ").encode())
    words = ["run", "model.pd", "--inputs", "inputs.txt", "--horizon", horizon, "--microsteps", limit]
    quiet, told = bench.call(words), bench.call([*words, "--explain"])
    wanted = row.text("= ")
    # Where the model or the inputs are refused, nothing was run.
    if wanted.startswith("pdevs: "):
        return difference(f"{wanted}status 1\n", quiet.text())
    if quiet.told or (told.status, told.printed) != (quiet.status, quiet.printed):
        return f"without --explain\n{quiet.text()}and with it\n{told.text()}"
    if quiet.status != (3 if wanted else 0):
        return quiet.text()
    return difference(wanted, told.told.decode()) or hold_faulted_once(row, words, wanted, bench)


def hold_faulted_once(row, words, wanted, bench):
    """What is wrong with what is told of the faults of a row where the model, or its inputs, can be read only once."""
    piped = bench.call([word.replace("model.pd", "-") for word in (*words, "--explain")], row.text("").encode())
    told = piped.told.decode().replace("<stdin>:", "model.pd:")
    given = bench.call([word.replace("inputs.txt", "-") for word in (*words, "--explain")], row.text("< ").encode())
    return difference(wanted, told) or difference(wanted, given.told.decode())


def hold_read(model, row, bench):
    """What is wrong with the dump of a trace that fails, or is another one when it is read again."""
    bench.put("model.pd", model.encode())
    bench.put("trace.txt", row.text("1 ").encode())
    bench.put("again.txt", row.text("2 ").encode())
    fails = "".join(number for number in "12" if f"{number}!" in row.lines)
    words = ["vcd", "model.pd", "trace.txt"]
    names = {"TRACE": str(bench.folder / "trace.txt"), "AGAIN": str(bench.folder / "again.txt"), "FAILS": fails}
    came = bench.call(words, stood_in=names)
    wanted = row.lines["= "][0]
    if wanted != "as the first":
        return difference(f"pdevs: {wanted}\nstatus 1\n", came.text())
    first = bench.call(words)
    if first.status != 0 or first.told or not first.printed:
        return f"the first alone: {first.text()}"
    return difference(first.text(), came.text())


def hold_refused(model, wanted, trace, bench):
    """What is wrong with what is answered to a trace, of which nothing is shown where it is refused."""
    bench.put("model.pd", model.encode())
    bench.put("trace.txt", trace.encode())
    for (command, *options), reads_pieces in ASKED:
        words = [command, "model.pd", "trace.txt", *options]
        answers = [bench.call(words)]
        if reads_pieces:
            answers.append(bench.call(words, stood_in={"TRACE": str(bench.folder / "trace.txt")}))
        for answer in answers:
            is_taken = answer.status == 0 and answer.printed and not answer.told
            came = "taken" if is_taken else answer.text()
            wrong = difference("taken" if wanted == "taken" else f"pdevs: {wanted}\nstatus 1\n", came)
            if wrong:
                return f"pdevs {' '.join(words)}\n{wrong}"
    return ""


def refused_in(root, name):
    """The traces of a file as trials. A line that begins with `= ` tells what is answered to the trace behind it; what stands
    before the first one is the model."""
    model, rows = "", []
    for place, line in lines_of(root, name):
        if line.startswith("= "):
            rows.append((place, line[2:], []))
        elif rows:
            rows[-1][2].append(line)
        else:
            model += f"{line}\n"
    return [
        Trial(place, partial(hold_refused, model, wanted, "".join(f"{line}\n" for line in lines)))
        for place, wanted, lines in rows
    ]


def hold_timescale(text, wanted, bench):
    """What is wrong with what a text of a time scale is answered. Where it is one, the dump names it."""
    bench.put("model.pd", b"atomic A { phases z; start z; hold z: forever; } coupled Top { part a: A; } root Top;")
    bench.put("trace.txt", b"whole 0\n")
    answer = bench.call(["vcd", "model.pd", "trace.txt", f"--timescale={text}"])
    if wanted == "refused":
        return difference(f"pdevs: no timescale: {text}\nstatus 2\n", answer.text())
    named = [line for line in answer.printed.decode().split("\n") if line.startswith("$timescale ")]
    return difference(f"$timescale {wanted} $end", "\n".join(named)) if answer.status == 0 else answer.text()


def timescales_of(root):
    """Texts of time scales. A line has a text, ` = `, and the time scale as a dump has it, or `refused`."""
    trials = []
    for place, line in lines_of(root, "tests/views/timescales.txt"):
        text, _, wanted = line.partition(" = ")
        trials.append(Trial(place, partial(hold_timescale, text, wanted)))
    return Group("timescales", trials)


def warnings_of(root):
    """Models that are accepted, with their warnings, whose lines begin with `= `."""
    _, rows = rows_of(root, "tests/views/warned.txt", ("= ",))
    return Group("warnings", [Trial(row.place, partial(hold_warned, row)) for row in rows])


def faults_of(root):
    """Models with faults. `@ HORIZON LIMIT` begins the line of the run, `< ` those of the inputs, `= ` those of what is
    told."""
    _, rows = rows_of(root, "tests/views/faulted.txt", ("@ ", "< ", "= "))
    return Group("faults", [Trial(row.place, partial(hold_faulted, row)) for row in rows])


def readings_of(root):
    """Traces that fail or are changed while a dump reads them twice. Lines that begin with `1 ` are the trace at its first
    reading, and those with `2 ` at the second one; `1!` and `2!` say that the read behind these fails; `= ` gives what is
    answered."""
    model, rows = rows_of(root, "tests/views/twice.txt", ("= ", "1 ", "2 ", "1!", "2!"))
    return Group("readings", [Trial(row.place, partial(hold_read, model, row)) for row in rows])


def traces_of(root):
    """Traces that are refused, or taken."""
    names = ("tests/views/refused.txt", "tests/views/refused_queues.txt")
    return Group("traces", [trial for name in names for trial in refused_in(root, name)])
