"""A program, and where it is called."""

import os
import subprocess
from dataclasses import dataclass, field
from pathlib import Path

from testing.notices import value_of, without_notices, without_warnings

# Seconds that one call may take.
LONGEST_CALL = 600
# With these words a run prints no trace.
STATS = ("--stats",)


@dataclass(frozen=True)
class Answer:
    """What a call came to: its status, what it printed, and what it wrote to standard error. A call that does not end has no
    status."""

    status: int | None
    printed: bytes
    told: bytes

    def text(self):
        """The answer as lines, to be compared with others and shown."""
        printed = self.printed.decode("utf-8", "backslashreplace")
        told = self.told.decode("utf-8", "backslashreplace")
        return f"{printed}{told}status {self.status}\n"


@dataclass
class Bench:
    """A program with a folder of its own, in which files for it are put."""

    program: str
    folder: Path
    # The library that stands between the program and the system, where there is one.
    stand_in: Path | None = None
    kept: dict = field(default_factory=dict)

    def put(self, name, content):
        """Puts a file into the folder, unless the one that is there has this content."""
        if self.kept.get(name) != content:
            (self.folder / name).write_bytes(content)
            self.kept[name] = content

    def call(self, words, given=b"", where=None, stood_in=None):
        """Calls the program with words, in its folder or where it is said. With `stood_in`, which has variables of the
        environment, the library stands between it and the system. What a run has to tell beside its trace is looked at here, and is
        not in the answer."""
        environment = None
        if stood_in is not None:
            if self.stand_in is None:
                raise FileNotFoundError("no stand-in for the system, for which a C compiler is needed: cc, or what CC names")
            environment = dict(os.environ, LD_PRELOAD=str(self.stand_in), **stood_in)
        try:
            ended = subprocess.run(
                [self.program, *words],
                input=given,
                capture_output=True,
                check=False,
                cwd=where or self.folder,
                env=environment,
                timeout=LONGEST_CALL,
            )
        except subprocess.TimeoutExpired as late:
            return Answer(None, late.stdout or b"", late.stderr or b"")
        told = ended.stderr
        if words[:1] == ["run"] and ended.returncode in (0, 3, 4) and not any(word in words for word in STATS):
            name = value_of(words, "--inputs")
            inputs = given if name == "-" else (Path(where or self.folder) / name).read_bytes() if name else b""
            if "--explain" in words and stood_in is None:
                told = without_warnings(told, self.warnings(words[1], given, where))
            told = without_notices(words, ended.returncode, ended.stdout, told, inputs)
        return Answer(ended.returncode, ended.stdout, told)

    def warnings(self, model, given, where):
        """How many warnings a model has, which is given if its name is `-`."""
        printed = subprocess.run(
            [self.program, "check", model, "--warn"],
            input=given,
            capture_output=True,
            check=True,
            cwd=where or self.folder,
            timeout=LONGEST_CALL,
        ).stdout
        return printed.count(b": warning: ")
