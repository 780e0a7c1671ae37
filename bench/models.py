#!/usr/bin/env python3
"""Prints a model of the benchmarks: large models of few kinds of components, as the field uses them.

    bench/models.py NAME     prints the text of the model
    bench/models.py          lists the names, each with what the model is like
"""

import sys

GREATEST = 10**12

SOURCE = """atomic Source {{
    out y;
    var n: 0..{greatest} = 0;
    phases run;
    start run;
    hold run: {period};
    output run {{ send y n; }}
    internal run {{ n := n + 1; }}
}}
"""

# The component of DEVStone: what arrives makes it busy for a tick, and then it sends one value.
STAGE = f"""atomic Stage {{
    in x;
    out y;
    var n: 0..{GREATEST} = 0;
    phases idle, busy;
    start idle;
    hold idle: forever;
    hold busy: 1;
    external idle {{ n := n + size(x); goto busy; }}
    external busy {{ n := n + size(x); }}
    output busy {{ send y 1; }}
    internal busy {{ goto idle; }}
}}
"""

NEXT = "s := (s * 1103515245 + {more}) % 2147483648;"


def source(period):
    return SOURCE.format(greatest=GREATEST, period=period)


def coupled(name, ports, items):
    """The text of a coupled model with these ports and items, an item a line."""
    return f"coupled {name} {{ {ports}\n    " + "\n    ".join(items) + "\n}\n"


def devstone(width, depth, period, is_chained):
    """DEVStone LI: at each level an input goes to all components and to the level inside, whose output alone goes up.
    HI: besides, each component of a level sends to the next one."""
    parts = [STAGE, source(period)]
    parts.append(coupled("Level1", "in x; out y;", ["part a: Stage;", "link self.x -> a.x;", "link a.y -> self.y;"]))
    for level in range(2, depth + 1):
        items = [f"part inner: Level{level - 1};", "link self.x -> inner.x;", "link inner.y -> self.y;"]
        for at in range(width - 1):
            items.append(f"part a{at}: Stage; link self.x -> a{at}.x;")
        if is_chained:
            items += [f"link a{at}.y -> a{at + 1}.x;" for at in range(width - 2)]
        parts.append(coupled(f"Level{level}", "in x; out y;", items))
    parts.append(
        coupled("Top", "out o;", ["part s: Source;", f"part d: Level{depth};", "link s.y -> d.x;", "link d.y -> self.o;"])
    )
    return "".join(parts) + "root Top;\n"


def pick(low, high, least_shown):
    """Statements that send a value by one of the ports from low to high, by the upper bits of s."""
    if high - low == 1:
        return f"send y{low} s % 1000;"
    middle = (low + high) // 2
    return f"if s / 65536 % {least_shown} < {middle} {{ {pick(low, middle, least_shown)} }} else {{ {pick(middle, high, least_shown)} }}"


def numbers(seed):
    """Numbers below 2^31, the same for each seed."""
    state = seed
    while True:
        state = (state * 6364136223846793005 + 1442695040888963407) % 2**64
        yield state >> 33


def phold(count, degree, spread):
    """PHOLD: each component waits for a time of its own, sends to one of its targets, and mixes what arrives into its state."""
    kinds = 16
    outs = " ".join(f"out y{at};" for at in range(degree))
    parts = []
    for kind in range(kinds):
        parts.append(
            f"atomic Node{kind} {{\n    in x; {outs}\n    var s: 0..2147483647 = {(332598 + kind * 104729) % 2**31};\n"
            f"    phases w;\n    start w;\n    hold w: 1 + s / 256 % {spread};\n"
            f"    output w {{ {pick(0, degree, degree)} }}\n"
            f"    internal w {{ {NEXT.format(more='12345')} }}\n"
            f"    external w {{ {NEXT.format(more='12345 + sum(x)')} }}\n}}\n"
        )
    items = [f"part n{at}: Node{at * 7 % kinds};" for at in range(count)]
    random = numbers(42)
    for at in range(count):
        items.append(f"link n{at}.y0 -> n{(at + 1) % count}.x;")
        for port in range(1, degree):
            to = next(it % count for it in random if it % count != at)
            items.append(f"link n{at}.y{port} -> n{to}.x;")
    return "".join(parts) + coupled("Top", "", items) + "root Top;\n"


def queues(lanes, stages, capacity):
    """Lanes of a source, servers whose least job comes first, and a sink; after the first server a job changes to the next lane."""
    kinds = 8
    take = f"for v in x {{ if size(q) < {capacity} {{ add v to q; }} else {{ lost := lost + 1; }} }}"
    parts = []
    for kind in range(kinds):
        parts.append(
            f"atomic Arrivals{kind} {{\n    out y;\n    var s: 0..2147483647 = {kind * 104729 + 12345};\n    phases g;\n    start g;\n"
            f"    hold g: 2 + s / 65536 % 7;\n    output g {{ send y s / 1024 % 1000; }}\n    internal g {{ {NEXT.format(more='12345')} }}\n}}\n"
        )
    parts.append(
        f"atomic Server {{\n    in x;\n    out y;\n    bag q {capacity};\n    var done: 0..{GREATEST} = 0;\n    var lost: 0..{GREATEST} = 0;\n"
        f"    phases idle, busy;\n    start idle;\n    hold idle: forever;\n    hold busy: 2 + least(q) % 5;\n"
        f"    external idle {{ {take} goto busy; }}\n    external busy {{ {take} }}\n    output busy {{ send y least(q); }}\n"
        f"    internal busy {{ drop least(q) from q; done := done + 1; if size(q) = 0 {{ goto idle; }} }}\n}}\n"
    )
    parts.append(
        f"atomic Sink {{\n    in x;\n    var n: 0..{GREATEST} = 0;\n    var total: 0..{1000 * GREATEST} = 0;\n    phases w;\n    start w;\n"
        f"    hold w: forever;\n    external w {{ n := n + size(x); total := total + sum(x); }}\n}}\n"
    )
    for kind in range(kinds):
        items = [f"part g: Arrivals{kind};", "part e: Sink;"] + [f"part s{at}: Server;" for at in range(stages)]
        items += ["link g.y -> s0.x;", "link s0.y -> self.y;", "link self.x -> s1.x;", f"link s{stages - 1}.y -> e.x;"]
        items += [f"link s{at}.y -> s{at + 1}.x;" for at in range(1, stages - 1)]
        parts.append(coupled(f"Lane{kind}", "in x; out y;", items))
    items = [f"part l{at}: Lane{at % kinds};" for at in range(lanes)]
    items += [f"link l{at}.y -> l{(at + 1) % lanes}.x;" for at in range(lanes)]
    return "".join(parts) + coupled("Top", "", items) + "root Top;\n"


def clocks(count, least, greatest):
    """Clocks with different long periods and no links: at most instants one of them ticks."""
    parts, random = [], numbers(12345)
    for at in range(count):
        period = least + next(random) % (greatest - least)
        parts.append(
            f"atomic Clock{at} {{ var n: 0..{GREATEST} = 0; phases w; start w; hold w: {period}; internal w {{ n := n + 1; }} }}\n"
        )
    return "".join(parts) + coupled("Top", "", [f"part c{at}: Clock{at};" for at in range(count)]) + "root Top;\n"


def token(count, active, period):
    """One token that goes round among a few components, while all others do nothing."""
    passing = (
        f"in x; out y; var n: 0..{GREATEST} = 0; phases idle, go; start {{start}}; hold idle: forever; hold go: {period};"
        " external idle {{ n := n + 1; goto go; }} output go {{ send y n; }} internal go {{ goto idle; }} }}\n"
    )
    parts = [
        "atomic First { " + passing.format(start="go"),
        "atomic Pass { " + passing.format(start="idle"),
        "atomic Alarm { in x; phases w; start w; hold w: 500000000000; external w { } }\n",
        "atomic Never { in x; phases w; start w; hold w: forever; external w { } }\n",
    ]
    step = count // active

    def kind(at):
        if at % step == 0 and at // step < active:
            return "Pass" if at else "First"
        return "Alarm" if at % 2 else "Never"

    items = [f"part p{at}: {kind(at)};" for at in range(count)]
    items += [f"link p{at * step}.y -> p{(at + 1) % active * step}.x;" for at in range(active)]
    return "".join(parts) + coupled("Top", "", items) + "root Top;\n"


# Of each model what it is like, its text, and the last tick of a run of about a million lines.
MODELS = {
    "li": ("DEVStone LI, 15 levels", lambda: devstone(290, 15, 4, False), 500),
    "hi": ("DEVStone HI, 15 levels: mostly confluent transitions", lambda: devstone(100, 15, 150, True), 2_600),
    "phold": ("PHOLD, 32,768 links to random targets", lambda: phold(4096, 8, 2000), 122_000),
    "queues": ("queues in 256 lanes, whose contents are printed", lambda: queues(256, 4, 64), 2_200),
    "clocks": ("clocks with different long periods", lambda: clocks(4096, 1000, 1_000_000), 38_000_000),
    "token": ("one token that goes from component to component", lambda: token(4096, 16, 3), 1_500_000),
}


def main():
    if len(sys.argv) != 2 or sys.argv[1] not in MODELS:
        for name, (words, _, _) in MODELS.items():
            print(f"{name:8} {words}")
        return len(sys.argv) > 1
    sys.stdout.write(MODELS[sys.argv[1]][1]())
    return 0


if __name__ == "__main__":
    sys.exit(main())
