"""What a run tells beside its trace, worked out of its lines and its inputs."""

WHERE = b"; --explain says where"


def value_of(words, option):
    """The value of an option among words, behind it or behind `=`."""
    for number, word in enumerate(words):
        if word == option:
            return words[number + 1]
        if word.startswith(f"{option}="):
            return word.partition("=")[2]
    return None


def counted(count, one, many, first):
    """A line of one that is at a time, or of many of which the first is."""
    return b"pdevs: %s, at %s" % (one, first) if count == 1 else b"pdevs: %d %s, the first at %s" % (count, many, first)


def on_faults(trace, status):
    """The line on the faults of a trace, if it has some."""
    times = [words[0] for words in (line.split(b" ") for line in trace.split(b"\n")) if words[2:3] == [b"fault"]]
    if times:
        line = counted(len(times), b"1 component had a fault", b"components had faults", times[0])
        yield line + (WHERE if status == 3 else b"") + b"\n"


def times_in(inputs):
    """The number of each line that has an input, with its tick and its microstep."""
    for number, line in enumerate(inputs.split(b"\n"), 1):
        if line.strip(b" \t\r") and not line.startswith(b"#"):
            tick, _, micro = line.split()[0].partition(b".")
            yield number, int(tick), int(micro or b"0")


def on_inputs(inputs, horizon):
    """The lines on inputs after the horizon, and on the first one at a microstep with none before it at its tick."""
    times = list(times_in(inputs))
    late = [b"%d.%d" % (tick, micro) for _, tick, micro in times if tick > horizon]
    if late:
        yield counted(len(late), b"1 input is after the horizon", b"inputs are after the horizon", late[0]) + b"\n"
    ticks = [None, *(tick for _, tick, _ in times)]
    for (number, tick, micro), before in zip(times, ticks):
        if micro > 0 and tick != before:
            where = b"%d.%d is the microstep %d of the tick %d" % (tick, micro, micro, tick)
            yield b"pdevs: line %d of the inputs: %s, and no input is before it at that tick\n" % (number, where)
            return


def without_notices(words, status, trace, told, inputs):
    """What is told by a run apart from the lines that have to stand at its end. Where these lack, a line says so."""
    faults = [] if status == 3 and "--explain" in words else on_faults(trace, status)
    wanted = b"".join((*faults, *on_inputs(inputs, int(value_of(words, "--horizon")))))
    if told.endswith(wanted):
        return told[: len(told) - len(wanted)]
    return told + b"and this is wanted at its end: " + wanted


def without_warnings(told, count):
    """What is told by an explained run without the line on its warnings, of which there are so many. Where it lacks, a line says
    so."""
    one, many = b"pdevs: 1 warning; check --warn shows it\n", b"pdevs: %d warnings; check --warn shows them\n" % count
    wanted = b"" if count == 0 else one if count == 1 else many
    if told.endswith(wanted):
        return told[: len(told) - len(wanted)]
    return told + b"and this is wanted at its end: " + wanted
