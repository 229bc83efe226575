"""Reports of shards, joined to the one of the whole run."""
import re

POINT = re.compile(rb"((?:not )?ok) (\d+) - ")


def levels_of(report):
    """What a report has of each top-level class: all lines to its point, and the block under this. None where it isn't whole."""
    lines = report.splitlines(True)
    if lines[:1] != [b"TAP version 14\n"] or len(lines) < 2:
        return None
    levels, open_level = [], False
    for line in lines[2:]:
        if not open_level and not line.startswith(b" "):
            levels.append([])
            open_level = True
        if not levels:
            return None
        levels[-1].append(line)
        open_level = open_level and not POINT.match(line)
    return levels if not open_level and lines[1] == f"1..{len(levels)}\n".encode() else None


def renumbered(level, number):
    """A class with another number at its point."""
    return b"".join(POINT.sub(rf"\1 {number} - ".encode(), line) if POINT.match(line) else line for line in level)


def joined_report(paths, shards, reports):
    """One report of those of shards, with each class in its place among these. None where one isn't whole, or has more or less than its
    classes."""
    by_path = {}
    for shard, report in zip(shards, reports):
        levels = levels_of(report)
        if levels is None or len(levels) != len(shard.paths):
            return None
        by_path.update(zip(shard.paths, levels))
    head = f"TAP version 14\n1..{len(paths)}\n".encode()
    return head + b"".join(renumbered(by_path[path], number) for number, path in enumerate(paths, 1))
