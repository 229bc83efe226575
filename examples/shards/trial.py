"""A run of `examples/shards/run --hosts` for `examples/shards/try-hosts`, and what is looked at when it has ended."""
import os
import subprocess
import sys
from collections import defaultdict
from pathlib import Path

HERE = Path(__file__).resolve().parent
TOP = HERE.parent.parent
sys.path.insert(0, str(TOP / "tests"))

from harness import PROGRAM, begin, expect, finish, refuse, run_in
from junit import without_times
from network import start_hosts, wait_until

RUN_SECONDS = 180
WORDS = ["--settings", "settings.toml", "--world", "world.toml", "shop.jtap", "orders.jtap", "ops.jtap"]
CLASS_BY_CLASS = ("--shards", "6")
TEAMS = TOP / "examples/teams"


class Trial:
    """A run of the teams on three new hosts."""

    def __init__(self, name, folder, words=CLASS_BY_CLASS):
        self.name, self.folder, self.words = name, Path(folder), words
        self.hosts = start_hosts(self.folder, TOP)
        (self.folder / "desk").mkdir()
        self.running = None
        print(f"\n{name}:", flush=True)

    def start(self):
        surroundings = {**os.environ, "JTAP": PROGRAM, "PARALLEL_SSH": f"ssh -F {self.folder}/ssh_config", "HOME": str(self.folder / "desk"),
                        "TMPDIR": str(self.folder / "desk")}
        words = ["--hosts", self.folder / "hosts", "--joblog", self.folder / "joblog", *self.junit("report.xml"), *self.words, *WORDS]
        with open(self.folder / "report", "wb") as report, open(self.folder / "errors", "wb") as errors:
            self.running = subprocess.Popen([HERE / "run", *map(str, words)], cwd=TEAMS, env=surroundings, stdout=report, stderr=errors)

    def junit(self, name):
        """Where a document is to be written, by a program that writes one."""
        return ["--junit", str(self.folder / name)] if b"--junit" in run_in(TEAMS, ["run", "--help"]).output else []

    def host_that_runs(self, shard):
        """Lets each host begin a shard, and answers the one that has this one."""
        wait_until(lambda: all(host.begun() for host in self.hosts), "that each host began a shard")
        return next(host for host in self.hosts if shard in host.begun())

    def end(self):
        """How it ends, and what was left on the hosts that stayed."""
        for host in self.hosts:
            host.let_go()
        try:
            status = self.running.wait(RUN_SECONDS)
        except subprocess.TimeoutExpired:
            self.running.kill()
            status = "hung"
        return status, (self.folder / "report").read_bytes()

    def begun(self):
        """On which hosts each shard was begun."""
        where = defaultdict(list)
        for host in self.hosts:
            for shard in host.begun():
                where[shard].append(host.name)
        return dict(sorted(where.items()))

    def logged(self):
        """Where each shard ended, and how, by GNU parallel's log."""
        lines = [line.split("\t") for line in (self.folder / "joblog").read_text().splitlines()[1:]]
        return sorted((int(line[8].split()[-1]), line[1], int(line[6])) for line in lines)

    def look(self, status, report):
        """The report is that of the whole run; nothing was begun twice but what a host that went away had begun; and nothing is left."""
        whole = run_in(TEAMS, ["run", *self.junit("whole.xml"), *WORDS])
        self.expect("the report and the status are those of the whole run", (status, report), (whole.status, whole.output))
        if self.junit("whole.xml"):
            joined, document = (without_times((self.folder / name).read_bytes()) for name in ("report.xml", "whole.xml"))
            self.expect("the JUnit XML is that of the whole run, but for times", joined, document)
        away = {host.name for host in self.hosts if host.is_away}
        begun = self.begun()
        for shard, names in begun.items():
            print(f"    shard {shard}{self.color(whole.output, shard)} was begun on {' and on '.join(names)}")
        self.expect("a shard is begun once, or once more where its host went away",
                    {shard for shard, names in begun.items() if len(set(names) - away) > 1 or len(names) > 1 and not away & set(names)}, set())
        for shard, host, ended in self.logged():
            print(f"    joblog: shard {shard} on {host}, exit value {ended}")
        self.expect("by the joblog each shard came to a good end", {shard for shard, _, ended in self.logged() if ended == 0}, set(begun))
        left = [str(path) for host in self.hosts if not host.is_away for path in (self.folder / host.name).glob("jtap-shards-*")]
        self.expect("nothing is left on the hosts that stayed, nor here", left + list(self.folder.glob("desk/tmp*")), [])
        return begun

    def color(self, report, shard):
        """What is told of a class that is a shard of its own: whether it is ok in the report."""
        if self.words != CLASS_BY_CLASS:
            return ""
        return ", red," if any(line.startswith(f"not ok {shard} - ".encode()) for line in report.splitlines()) else ", green,"

    def expect(self, what, found, wanted):
        print(f"    {'ok' if found == wanted else 'not ok'}: {what}", flush=True)
        expect(f"{self.name}: {what}", found, wanted)

    def close(self):
        if self.running and self.running.poll() is None:
            self.running.kill()
        for host in self.hosts:
            host.remove()
