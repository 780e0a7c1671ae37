"""The crates of this checkout: what each stands on, a sum of their sources, and copies of some of them, in which rt ci runs."""

import hashlib
import os
import shutil
import signal
import subprocess
import sys
import tempfile
from pathlib import Path

TOP = Path(__file__).resolve().parent.parent
# What a check of a crate reads.
SOURCES = ("src", "specs", "proofs")
# What rt ci runs a program on.
RUN_FILES = ("data", "args", "stdin", "stdout", "status")
# What one check takes of memory, in bytes, but for a few that take up to twice as much.
CHECK_MEMORY = 2 * 2**30


def read_lines():
    """The line of each crate in crates.txt, by the crate's name, in the order of the file."""
    lines = [line for line in (TOP / "crates.txt").read_text().splitlines() if line.strip() and not line.startswith("#")]
    return {line.split(":")[0].split()[0]: line for line in lines}


def with_those_below(names):
    """These crates and all crates of this checkout that they stand on, in the order of crates.txt."""
    lines, found, left = read_lines(), set(), list(names)
    while left:
        name = left.pop()
        if name in lines and name not in found:
            found.add(name)
            left += lines[name].partition(":")[2].split()
    return [name for name in lines if name in found]


def files_of(name):
    """The files that a check of the crate reads, in an order that doesn't change."""
    folders = [TOP / "crates" / name / part for part in SOURCES]
    return sorted(path for folder in folders for path in folder.rglob("*") if path.is_file())


def sum_of(names):
    """A checksum of the sources of these crates and of their lines in crates.txt."""
    lines, found = read_lines(), hashlib.sha256()
    for name in names:
        parts = [(lines[name], b"")] + [(str(path.relative_to(TOP)), path.read_bytes()) for path in files_of(name)]
        for text, read in parts:
            found.update(f"{len(text)} {text} {len(read)} ".encode() + read)
    return found.hexdigest()


def copy_crates(names, folder):
    """Copies these crates to a folder as the top of a repository, without their edits and without what was built of them."""
    lines, folder = read_lines(), Path(folder)
    (folder / ".git").mkdir(parents=True)
    (folder / "crates.txt").write_text("".join(f"{lines[name]}\n" for name in names))
    shutil.copy(TOP / "HANDLES", folder)
    for name in names:
        copied = folder / "crates" / name
        copied.mkdir(parents=True)
        for part in (TOP / "crates" / name / word for word in SOURCES + RUN_FILES):
            if part.is_dir():
                shutil.copytree(part, copied / part.name)
            elif part.exists():
                shutil.copy(part, copied)


def place_of_copies():
    """Where copies are made: the place that TMPDIR names, or one on a disk. /tmp may be in memory, and libraries take some GB in all."""
    is_there = "TMPDIR" not in os.environ and os.access("/var/tmp", os.W_OK)
    return "/var/tmp" if is_there else tempfile.gettempdir()


def count_jobs():
    """How many checks run side by side: one for each processor, and no more than memory holds."""
    for line in Path("/proc/meminfo").read_text().splitlines():
        if line.startswith("MemAvailable:"):
            room = int(line.split()[1]) * 1024 // CHECK_MEMORY
            return max(1, min(room, len(os.sched_getaffinity(0))))
    return 1


def run_rt_ci(folder, take):
    """Runs rt ci in a folder, gives each line that it prints to `take`, and returns its status. It ends where this script is ended."""
    signal.signal(signal.SIGTERM, lambda number, _: sys.exit(128 + number))
    # By itself rt sets aside more memory for a check than it takes, and leaves processors idle.
    environment = {"RT_JOBS": str(count_jobs()), **os.environ}
    how = {"stdin": subprocess.DEVNULL, "stdout": subprocess.PIPE, "stderr": subprocess.STDOUT, "text": True, "errors": "replace"}
    with subprocess.Popen(["rt", "ci"], cwd=folder, env=environment, **how) as run:
        try:
            for line in run.stdout:
                take(line.rstrip("\n"))
        except BaseException:
            run.terminate()
            raise
    return run.returncode
