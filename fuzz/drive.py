"""Runs the program on one input by each of its commands, and says what is wrong with what it did."""
import os
import re
import signal
import tempfile
import time
import unicodedata
from collections import Counter
from pathlib import Path

import inputs
import tables
import tap

PROGRAM = os.environ.get("JTAP", str(inputs.TOP / "release/jtap"))
COMMANDS = {
    "run": ["run"],
    "run --serial": ["run", "--serial"],
    "plan": ["plan"],
    "replay": ["replay", "--schedule", "schedule"],
    "run --only": ["run", "--only"],
}
SECONDS = 10
TRIES = 60
# The general categories of the characters that no reader sees.
UNSEEN = ("Cc", "Cf", "Zl", "Zp")


class Ran:
    """What one run of the program did. A status below 0 is a signal's number, and `late` says that it was ended for time."""

    def __init__(self, status, output, errors, seconds, kilobytes, late):
        self.status, self.output, self.errors = status, output, errors
        self.seconds, self.kilobytes, self.late = seconds, kilobytes, late


class Driver:
    def __init__(self):
        self.folder = Path(tempfile.mkdtemp(prefix="jtap-fuzz-", dir="/dev/shm" if os.path.isdir("/dev/shm") else None))
        os.chdir(self.folder)
        self.child, self.late = 0, False
        self.runs, self.findings = Counter(), []
        signal.signal(signal.SIGALRM, self.end_child)

    def end_child(self, *_):
        self.late = True
        os.kill(self.child, signal.SIGKILL)

    def write(self, files):
        for name in os.listdir("."):
            if name not in ("output", "errors"):
                os.unlink(name)
        for name, text in files.items():
            with open(name, "wb") as file:
                file.write(text.encode("latin-1"))

    def call(self, words):
        """Runs the program, in at most 10 seconds and a little."""
        flags = os.O_WRONLY | os.O_CREAT | os.O_TRUNC
        actions = [(os.POSIX_SPAWN_OPEN, 0, "/dev/null", os.O_RDONLY, 0), (os.POSIX_SPAWN_OPEN, 1, "output", flags, 0o600),
                   (os.POSIX_SPAWN_OPEN, 2, "errors", flags, 0o600)]
        self.late, begun = False, time.monotonic()
        self.child = os.posix_spawn(PROGRAM, ["jtap", *words], os.environ, file_actions=actions)
        signal.setitimer(signal.ITIMER_REAL, SECONDS + 1)
        _, status, usage = os.wait4(self.child, 0)
        signal.setitimer(signal.ITIMER_REAL, 0)
        output, errors = Path("output").read_bytes().decode("latin-1"), Path("errors").read_bytes().decode(errors="surrogateescape")
        code = os.waitstatus_to_exitcode(status)
        return Ran(code, output, errors, time.monotonic() - begun, usage.ru_maxrss, self.late)

    def words(self, command, files):
        scripts = [name for name in files if name.endswith(".jtap")]
        only = [files["only"]] if command == "run --only" else []
        return [*COMMANDS[command], *only, "--settings", "settings.toml", "--world", "world.toml", *scripts]

    def run(self, command, files):
        ran = self.call(self.words(command, files))
        self.runs[command, ran.status] += 1
        for why in faults_of(command, ran, sum(map(len, files.values()))):
            self.finding(command, why, files)
        return ran

    def finding(self, command, why, files):
        self.findings.append((command, why, dict(files)))

    def input(self, files, rng):
        """All commands on one input."""
        self.write(files)
        plan = self.run("plan", files)
        serial = self.run("run --serial", files)
        many = self.run("run", files)
        if (many.status, many.output, many.errors) != (serial.status, serial.output, serial.errors):
            self.finding("run", "it isn't what --serial answers", files)
        if plan.status != 0 and (plan.status, plan.errors) != (serial.status, serial.errors):
            self.finding("plan", "it is refused otherwise than the run", files)
        if plan.status == 0 and serial.status > 1:
            self.finding("run --serial", "it is refused, and its plan isn't", files)
        if "schedule" not in files:
            files["schedule"] = inputs.depth_first(plan.output, rng) if plan.status == 0 else inputs.FILES_SCHEDULE
            if rng.random() < 0.3:
                files["schedule"] = tables.mutated_schedule(rng, files["schedule"], 8)
        self.replay(files, plan, serial, rng)
        if plan.status == 0 and rng.random() < 0.3:
            self.select(files, plan, serial, rng)

    def select(self, files, plan, serial, rng):
        """One of the top-level classes alone: its part of the report is that of the whole run."""
        paths = [line.rsplit(" ", 1)[1] for line in plan.output.split("\n")[1:-1]]
        classes = [path for path in paths if path.count(".") == 1]
        if not classes:
            return
        place = rng.randrange(len(classes))
        files["only"] = classes[place]
        alone = self.run("run --only", files)
        parts = parts_of(alone.output)
        if len(parts) != 1 or renumbered(parts[0]) != renumbered(parts_of(serial.output)[place]):
            self.finding("run --only", "its report isn't its part of the whole one", files)

    def replay(self, files, plan, serial, rng):
        """A replay; now and then the schedule's steps are put right, as far as some tries go, so that whole ones come out."""
        tries = TRIES if rng.random() < 0.05 else 1
        for _ in range(tries):
            Path("schedule").write_bytes(files["schedule"].encode("latin-1"))
            replayed = self.run("replay", files)
            answer = (replayed.status, replayed.output, replayed.errors)
            if plan.status != 0:
                if answer != (serial.status, serial.output, serial.errors):
                    self.finding("replay", "it is refused otherwise than the run", files)
                return
            if replayed.status in (0, 1) and answer != (serial.status, serial.output, serial.errors):
                self.finding("replay", "its report isn't that of --serial", files)
            if replayed.status == 2 and not replayed.errors.startswith("jtap: schedule: "):
                self.finding("replay", "it is refused otherwise than for its schedule", files)
            mended = put_right(files["schedule"], replayed.errors)
            if mended is None:
                return
            files["schedule"] = mended


def parts_of(report):
    """What a report says of each top-level class."""
    return re.split(r"^(?=# Subtest: )", report, flags=re.MULTILINE)[1:]


def renumbered(part):
    """The same with a class's point as the first."""
    return re.sub(r"^(not ok|ok) [0-9]+ - ", r"\1 1 - ", part, flags=re.MULTILINE)


def put_right(schedule, line):
    """The schedule with a step more or less where an event was refused for the end of its body."""
    refused = re.match(r"jtap: schedule: event (\d+): (BodyNotEnded|BodyEnded|ParentClosed|NoBody)", line)
    if not refused:
        return None
    lines = [event for event in schedule.split("\n") if event.rstrip("\r")]
    at = int(refused[1])
    if refused[2] == "BodyNotEnded":
        lines.insert(at, "step " + lines[at].split()[1])
    else:
        del lines[at]
    return "\n".join(lines) + "\n"


def faults_of(command, ran, size):
    """What is wrong with one run by itself, over input of so many bytes."""
    if ran.late or ran.seconds > SECONDS:
        yield f"it took {ran.seconds:.1f} s"
    if ran.kilobytes * 1024 > 64 * size + (64 << 20):
        yield f"it took {ran.kilobytes} KiB"
    if ran.late:
        return
    if not 0 <= ran.status <= 3:
        yield f"its status is {ran.status}"
    if ran.status in (0, 1):
        if ran.errors:
            yield "words on standard error beside a report"
        yield from output_faults(command, ran)
    else:
        if ran.output:
            yield "words on standard output of a refused run"
        # A byte that is no UTF-8 was decoded as a surrogate.
        if not re.fullmatch(r"jtap: [^\n\ud800-\udfff]+\n", ran.errors) or any(unicodedata.category(char) in UNSEEN for char in ran.errors[:-1]):
            yield "standard error isn't one line of UTF-8 without characters that no reader sees that begins with `jtap: `"


def output_faults(command, ran):
    if command == "plan":
        fault = tap.plan_fault(ran.output)
        if fault or ran.status != 0:
            yield f"the plan: {fault or 'status 1'}"
        return
    fault, all_ok = tap.report_fault(ran.output)
    if fault:
        yield f"the report: {fault}"
    elif all_ok != (ran.status == 0):
        yield "the status isn't what the report says"
