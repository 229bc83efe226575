"""Runs shards in processes of this machine, and reads what they came to here or elsewhere."""
import os
from concurrent.futures import ThreadPoolExecutor
from pathlib import Path
from typing import NamedTuple, Optional

from suite import refuse


class Ran(NamedTuple):
    """What a shard came to: its status, its report and, where it was asked for, its document."""

    status: int
    report: bytes
    junit: Optional[bytes]


def run_here(suite, shards, folder, with_junit):
    """Runs each shard in a process of its own, PROCESSES at once, or four."""
    at_once = os.environ.get("PROCESSES", "4")
    if not at_once.isdigit() or at_once == "0":
        refuse(f"PROCESSES is '{at_once}', and no number of processes")

    def run_shard(shard):
        out = Path(folder, "out", str(shard.number))
        out.mkdir(parents=True)
        (out / "list").write_text(shard.listed())
        words = suite.words(["--only-from", out / "list", *(["--junit", out / "report.xml"] if with_junit else [])])
        with open(out / "report.tap", "wb") as report:
            ended = suite.ask("run", *map(str, words), stdout=report).returncode
        # (a process that a signal ended is told as a shell tells it)
        (out / "status").write_text(str(ended if ended >= 0 else 128 - ended))

    with ThreadPoolExecutor(int(at_once)) as pool:
        list(pool.map(run_shard, shards))
    return [result_of(folder, shard, with_junit) for shard in shards]


def result_of(folder, shard, with_junit):
    """What a shard left in its folder of out/; None where something isn't there. Where it has a fault it wrote no document."""
    out = Path(folder, "out", str(shard.number))
    try:
        status = int((out / "status").read_text())
        junit = (out / "report.xml").read_bytes() if with_junit and status < 2 else None
        return Ran(status, (out / "report.tap").read_bytes(), junit)
    except (FileNotFoundError, ValueError):
        return None
