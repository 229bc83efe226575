"""A suite, its top-level classes, and how these are dealt to shards."""
import subprocess
import sys
from itertools import zip_longest
from pathlib import Path
from statistics import median
from typing import NamedTuple

# How the line ends by which a plan is refused that is too large.
TOO_LARGE = b"jtap: plan: TooManyNodes\n", b"jtap: plan: TooManyKeys\n"


class Suite(NamedTuple):
    """A program, the folder in which it runs, the words of its options, which of these name files, and its scripts."""

    program: Path
    folder: Path
    options: list
    named: list
    scripts: list

    def words(self, kept=()):
        """The words of a plan or a run of the suite, or of what is kept of it by these words."""
        return [*self.options, *kept, "--", *self.scripts]

    def files(self):
        """The names of all that is read."""
        return [*self.named, *self.scripts]

    def ask(self, *words, **how):
        """Runs the program, without standard input."""
        return subprocess.run([str(self.program), *words], cwd=self.folder, stdin=subprocess.DEVNULL, **how)

    def writes_junit(self):
        """Whether the program has the option."""
        return b"--junit" in self.ask("run", "--help", capture_output=True).stdout


class Shard(NamedTuple):
    """A part of a suite: its number, from 1, and the paths of its top-level classes, in the order in which they are written."""

    number: int
    paths: list

    def listed(self):
        """The file that keeps them, for `--only-from`."""
        return "".join(f"{path}\n" for path in self.paths)


def refuse(why, status=2):
    """Tells why nothing is run, and ends."""
    print(f"shards: {why}", file=sys.stderr)
    sys.exit(status)


def paths_of(plan):
    """The paths of the top-level classes of a plan: the last word of a node's line, and theirs have two names."""
    if plan.returncode:
        sys.stderr.buffer.write(plan.stderr)
        sys.exit(plan.returncode)
    lines = [line.split(" ") for line in plan.stdout.decode().splitlines()[1:]]
    return [line[-1] for line in lines if line[1] == "class" and line[-1].count(".") == 1]


def classes_of(suite, parts):
    """The paths of a suite's top-level classes. One that is too large for a plan is planned in so many parts."""
    plan = suite.ask("plan", *suite.words(), capture_output=True)
    if parts == 1 or not plan.stderr.endswith(TOO_LARGE):
        return paths_of(plan)
    plans = [suite.ask("plan", *suite.words(["--shard", f"{part}/{parts}"]), capture_output=True) for part in range(1, parts + 1)]
    return [path for turn in zip_longest(*map(paths_of, plans)) for path in turn if path is not None]


def numbered(parts):
    """The shards of these parts that aren't empty."""
    return [Shard(number, paths) for number, paths in enumerate(filter(None, parts), 1)]


def dealt(paths, count):
    """Every class by turns to so many shards, as `jtap run --shard` has them."""
    return numbered([paths[first::count] for first in range(count)])


def times_in(paths, times):
    """The time of each class: the one that is known, or else the middle one of these."""
    known = [times[path] for path in paths if path in times]
    middle = median(known) if known else 1
    return {path: times.get(path, middle) for path in paths}


def balanced(paths, times, count):
    """The longest class first, each to the shard that has the least to do: of equal classes the one that is written first, of equal shards
    the one with the fewest classes, and of these the first."""
    taking = times_in(paths, times)
    loads, parts = [(0, 0, number) for number in range(count)], [[] for _ in range(count)]
    for path in sorted(paths, key=lambda path: -taking[path]):
        load, classes, number = min(loads)
        loads[number] = load + taking[path], classes + 1, number
        parts[number].append(path)
    return numbered(sorted(part, key=paths.index) for part in parts)
