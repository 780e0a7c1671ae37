"""Damaged texts. Each has to be answered: it is accepted, or refused by one line. `tests/damage/README.md` says how texts are
damaged."""

import re
from dataclasses import dataclass
from functools import partial

from testing.random_damage import Source, damaged
from testing.trial import Group, Trial

FOLDER = "tests/damage"
# The model of which it is known what each damaged text is answered. It ends with a `;` and a line end.
KNOWN = "tick.pd"
# How the damaged texts are run; and one run of so many is by workers, too.
RUN = ("--horizon", "30", "--microsteps", "5", "--partition", "partition.json", "--inputs", "inputs.txt")
ROUNDS = ("--rounds", "40")
WORKERS = ("--workers", "2")
WORKED = 20
# The line of a refusal of a model, of inputs or of a partition. E18 says that memory ran out, which is no answer here.
REFUSAL = re.compile(rb"pdevs: ((?:E(?:[1-9]|1[0-7])|I[1-5]) line [1-9]\d*|Q[1-4])\n")
# The statuses of a run that is accepted: whole, with a fault, or partial.
RAN = (0, 3, 4)


@dataclass(frozen=True)
class Texts:
    """A model with its inputs and its partition."""

    model: bytes
    inputs: bytes
    partition: bytes


def answer_in(answer, is_accepted):
    """`accepted`, or the line of a refusal; nothing where an answer is neither."""
    if is_accepted and not answer.told:
        return "accepted"
    refused = REFUSAL.fullmatch(answer.told)
    return refused[1].decode() if refused and answer.status == 1 and not answer.printed else ""


def checked(bench, model):
    """What the check of a model is answered, and the whole answer."""
    answer = bench.call(["check", "-"], model)
    return answer_in(answer, answer.status == 0 and re.fullmatch(rb"accepted [1-9]\d*\n", answer.printed)), answer


def hold_cut(text, length, wanted, bench):
    """What is wrong with what the beginning of a text is answered: an answer, `accepted`, or the number of a refusal is
    wanted."""
    return wrong_with(text[:length], wanted, bench)


def hold_replaced(text, offset, byte, wanted, bench):
    """The same of a text in which a byte is replaced."""
    return wrong_with(text[:offset] + bytes([byte]) + text[offset + 1 :], wanted, bench)


def wrong_with(text, wanted, bench):
    """What is wrong with what a damaged model is answered."""
    came, answer = checked(bench, text)
    is_wanted = came if wanted is None else came.split(" ")[0] == wanted
    return "" if is_wanted else f"wanted {wanted or 'an answer'}\n{answer.text()}"


def cut_trials(name, text, wanted_of, byte, wanted):
    """The beginnings of a model, and the model with each byte replaced by another one, as trials."""
    for length in range(len(text) + 1):
        yield Trial(f"{name}, the first {length} bytes", partial(hold_cut, text, length, wanted_of(length)))
    for offset in range(len(text)):
        yield Trial(f"{name}, with the byte {byte} at {offset}", partial(hold_replaced, text, offset, byte, wanted))


def cut_of(root):
    """Models that are cut and of which each byte is replaced. Of one it is known that a beginning without the last `;` is E4,
    that the others are accepted, and that a byte 255, which stands in no text of UTF-8, is E1; of all others, that there is an
    answer."""
    text = (root / KNOWN).read_bytes()
    ended = text.rindex(b";") + 1
    trials = list(cut_trials(KNOWN, text, lambda length: "E4" if length < ended else "accepted", 255, "E1"))
    for path in sorted((root / FOLDER / "models").glob("*.pd")):
        trials += cut_trials(str(path.relative_to(root)), path.read_bytes(), lambda length: None, 0, None)
    return Group("cut", trials)


def damaged_texts(source, texts):
    """Texts of which the first, the second, the third or all are damaged."""
    which = source.below(6)
    return Texts(
        damaged(source, texts.model) if which <= 3 else texts.model,
        damaged(source, texts.inputs) if which in (3, 4) else texts.inputs,
        damaged(source, texts.partition) if which in (3, 5) else texts.partition,
    )


def hold_thrown(texts, is_worked, bench):
    """What is wrong with the answers to damaged texts. Where the model is refused, a run gives the same line as the check."""
    bench.put("inputs.txt", texts.inputs)
    bench.put("partition.json", texts.partition)
    check, answer = checked(bench, texts.model)
    if not check:
        return answer.text()
    for way in (ROUNDS, WORKERS) if is_worked else (ROUNDS,):
        ran = bench.call(["run", "-", *RUN, *way], texts.model)
        came = answer_in(ran, ran.status in RAN)
        if not came or check not in ("accepted", came):
            return f"the check is answered {check}, and the run {way[0]}\n{ran.text()}"
    return ""


def thrown_of(root):
    """Texts with random damage, as the file of throws says: a line `SEED TIMES MODEL INPUTS PARTITION` for each model."""
    trials = []
    name = f"{FOLDER}/throws"
    for number, line in enumerate((root / name).read_text(encoding="utf-8").splitlines(), 1):
        seed, times, *files = line.split(" ")
        texts = Texts(*((root / FOLDER / file).read_bytes() for file in files))
        source = Source(int(seed))
        for throw in range(1, int(times) + 1):
            thrown = damaged_texts(source, texts)
            is_worked = source.below(WORKED) == 0
            trials.append(Trial(f"{name}:{number}, throw {throw}", partial(hold_thrown, thrown, is_worked)))
    return Group("thrown", trials)
