"""What `examples/shards/run --check` looks at: that the report of shards, however they are cut, is that of the whole run, byte for byte."""
import subprocess
import sys
from pathlib import Path

from typing import NamedTuple

from junit import class_of, joined_junit, testsuites, without_times
from suite import balanced, dealt, refuse, times_in


class Cut(NamedTuple):
    """A way to cut a suite: what is told of it, its shards, and the times by which they are balanced."""

    told: str
    shards: list
    times: dict = {}


def cut_as_asked(paths, count, times):
    """The shards that words ask for."""
    shards = balanced(paths, times, count or len(paths)) if times else dealt(paths, count or len(paths))
    if len(shards) == len(paths):
        return Cut(f"{len(paths)} classes, each in a process of its own", shards)
    return Cut(f"{len(paths)} classes in {len(shards)} shards{', by their times' if times else ''}", shards, times)


def whole_run(suite, folder, with_junit):
    """The status, the report and, where it is asked for, the document of the whole run."""
    file = Path(folder, "whole.xml")
    words = suite.words(["--junit", file] if with_junit else [])
    whole = suite.ask("run", *map(str, words), stdout=subprocess.PIPE)
    if whole.returncode not in (0, 1):
        sys.exit(whole.returncode)
    return whole.returncode, whole.stdout, file.read_bytes() if with_junit else None


def compare(how, whole, joined):
    """Tells whether shards are the whole run, and ends where they aren't. Times are other ones in each run."""
    for what, one, other in zip(("statuses", "reports"), whole, joined):
        if one != other:
            refuse(f"{how}: the {what} differ: {shown(one)} of the whole run, {shown(other)} of the shards", 1)
    if None not in (whole[2], joined[2]) and without_times(whole[2]) != without_times(joined[2]):
        refuse(f"{how}: the documents differ: {shown(whole[2])} of the whole run, {shown(joined[2])} of the shards", 1)
    print(f"{how}: every point is that of the whole run")


def shown(value):
    return f"{len(value)} bytes" if isinstance(value, bytes) else value


def look_at(paths, cut):
    """Each class has to be in just one shard; and by times no shard may have more to do than another one by more than the longest class."""
    if sorted(path for shard in cut.shards for path in shard.paths) != sorted(paths):
        refuse(f"{cut.told}: a class is in no shard, or in two", 1)
    taking = times_in(paths, cut.times)
    loads = [sum(taking[path] for path in shard.paths) for shard in cut.shards]
    if cut.times and max(loads) - min(loads) > max(taking.values()):
        refuse(f"{cut.told}: they aren't balanced, but take {loads}", 1)


def look_at_documents(paths, document):
    """A document that is taken apart by shards and joined again is the same, byte for byte."""
    head, tail = b'<?xml version="1.0" encoding="UTF-8"?>\n<testsuites name="jtap">\n', b"</testsuites>\n"
    suites = testsuites(document)
    for shards in (dealt(paths, 2), dealt(paths, len(paths)), balanced(paths, {}, 3)):
        parts = [head + b"".join(text for name, _, text in suites if class_of(name) in shard.paths) + tail for shard in shards]
        if joined_junit(paths, parts) != document:
            refuse("a document that is taken apart and joined isn't the same", 1)
    print(f"{len(suites)} testsuites, taken apart by shards: joined they are the same document")
