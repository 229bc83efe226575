"""What the scripts share that try what is told of failures: a reader of reports, by the rules of `docs/REPORT.md`, and the texts of a summary,
by those of `docs/COMMAND.md`. Nothing here comes from what the program says.
"""
import os
import re
import subprocess
import unicodedata
from pathlib import Path
from typing import NamedTuple, Optional

from harness import PROGRAM, Answer, as_bytes

FAILS = ("fail", "fault")
WIDEST = 160
PLAIN = re.compile(rb"[A-Za-z0-9_./:=@%+,-]+")
POINT = re.compile(rb"(ok|not ok) (\d+) - (.*)")
KEY = re.compile(rb"  (verdict|message|at): (.*)")
PRINTED = re.compile(rb'    - "(.*)"')
NAMED_CONTROLS = {"\n": "\\n", "\r": "\\r", "\t": "\\t"}
# The general categories of the characters that no reader sees. The table of Python is of an older
# version of Unicode than that of the program. Python 3.12 and later have the same characters, 3.8 to
# 3.11 lack U+13439 to U+1343F, and 3.8 to 3.10 U+0890 and U+0891. No name here has these.
UNSEEN = ("Cc", "Cf", "Zl", "Zp")


class Point(NamedTuple):
    """The point of a class or test: how deep it stands, 1 at the top level, its line without its number, and the lines of its block."""

    depth: int
    is_test: bool
    line: bytes
    block: tuple

    def value(self, key):
        """What the block says of a key, if it does."""
        return next((found[2].decode() for found in map(KEY.fullmatch, self.block) if found and found[1] == key), None)

    @property
    def verdict(self):
        return self.value(b"verdict") or "pass"

    @property
    def message(self):
        """What ended it, without quotes and their backslashes, if something did."""
        told = self.value(b"message")
        return told if told is None else re.sub(r"\\(.)", r"\1", told[1:-1])

    @property
    def at(self):
        told = self.value(b"at")
        return told if told is None else told[1:-1]

    @property
    def title(self):
        """Its title, without backslashes."""
        return re.sub(r"\\(.)", r"\1", self.line.decode().partition(" - ")[2].partition(" # SKIP ")[0])

    @property
    def output(self):
        """The lines that it printed, without quotes and their backslashes."""
        return [re.sub(r"\\(.)", r"\1", found[1].decode()) for found in map(PRINTED.fullmatch, self.block) if found]


class Reader:
    """A report that is being read, line by line."""

    def __init__(self, report):
        self.lines = report.split(b"\n")
        self.next = 0
        self.points = []

    def take(self, depth, pattern):
        """Takes the next line, which has to be so, behind the margin of a level."""
        margin, line = b" " * 4 * (depth - 1), self.lines[self.next]
        found = re.fullmatch(pattern, line[len(margin):])
        if not line.startswith(margin) or not found:
            raise ValueError(f"line {self.next + 1} of the report, {line!r}, isn't as {pattern!r}")
        self.next += 1
        return found

    def level(self, depth):
        """Reads the points of a level."""
        for number in range(1, int(self.take(depth, rb"1\.\.(\d+)")[1]) + 1):
            self.point(depth, number)

    def point(self, depth, number):
        """Reads a point, of a class behind those that stand in it, and puts it before them."""
        place = len(self.points)
        is_test = not self.lines[self.next].startswith(b" " * 4 * (depth - 1) + b"# Subtest: ")
        if not is_test:
            self.next += 1
            self.level(depth + 1)
        word, counted, title = self.take(depth, POINT).groups()
        if int(counted) != number:
            raise ValueError(f"point {number} of the report has the number {int(counted)}")
        self.points.insert(place, Point(depth, is_test, word + b" - " + title, self.block(depth)))

    def block(self, depth):
        """Reads the block under a point, if it has one, without its margin."""
        margin = b" " * (4 * depth - 2)
        if self.lines[self.next] != margin + b"---":
            return ()
        end = self.lines.index(margin + b"...", self.next) + 1
        taken = self.lines[self.next + 1:end - 1]
        self.next = end
        return tuple(line[len(margin) - 2:] for line in taken)


def points_of(report):
    """The points of a report in written order, each class before what stands in it. Whatever is no report is a ValueError."""
    reader = Reader(report)
    reader.take(1, rb"TAP version 14")
    reader.level(1)
    if reader.lines[reader.next:] != [b""]:
        raise ValueError(f"the report goes on behind its points, by {reader.lines[reader.next]!r}")
    return reader.points


def counted(number, one, many):
    return f"{number} {one if number == 1 else many}"


def counts_line(points):
    """The last line of a summary: what the tests and classes with these verdicts came to."""
    tests = [point.verdict for point in points if point.is_test]
    classes = [point.verdict for point in points if not point.is_test]
    numbers = {"ok": ["pass"], "skipped": ["skipped"], "not ok": FAILS, "blocked": ["blocked"]}
    told = ", ".join(f"{sum(verdict in of for verdict in tests)} {word}" for word, of in numbers.items())
    failed = sum(verdict in FAILS for verdict in classes)
    end = f"; {counted(failed, 'class', 'classes')} not ok" if failed else ""
    return as_bytes(f"{counted(len(tests), 'test', 'tests')} in {counted(len(classes), 'class', 'classes')}: {told}{end}\n")


def has_unseen(word):
    """Whether a word has a character that no reader sees."""
    return any(unicodedata.category(char) in UNSEEN for char in word)


def with_escapes(name, categories):
    """A name with the characters of these general categories as in a basic string of TOML."""
    escape = lambda char: NAMED_CONTROLS.get(char, f"\\u{ord(char):04X}" if ord(char) < 65_536 else f"\\U{ord(char):08X}")
    return "".join(escape(char) if unicodedata.category(char) in categories else char for char in name)


def shown_name(name):
    """A file's name as a line has it: each character that no reader sees by its escape."""
    return with_escapes(name, UNSEEN)


def planned_name(name):
    """A file's name as a printed plan has it: each control character by its escape, and no other one."""
    return with_escapes(name, ("Cc",))


def source_line(script, line):
    """A line of a script as it is shown."""
    *ended, last = script.split(b"\n")
    text = [*(text[:-1] if text.endswith(b"\r") else text for text in ended), last][line - 1]
    shown = bytes(32 if byte == 9 else byte if 32 <= byte < 127 else 63 for byte in text[:WIDEST])
    return shown + (b".." if len(text) > WIDEST else b"")


def shell_word(word):
    """A word as a shell reads it back."""
    word = as_bytes(word)
    return word if PLAIN.fullmatch(word) else b"'" + word.replace(b"'", b"'\\''") + b"'"


def file_word(name):
    """The same of a file's name, with its folder before it where it would be an option."""
    return (b"./" if name.startswith("-") else b"") + shell_word(name)


class Command(NamedTuple):
    """The options of a run that its `again:` lines have."""

    settings: Optional[str] = None
    world: Optional[str] = None
    processors: Optional[int] = None

    def words(self):
        """The words that ask for them."""
        found = (("--settings", self.settings), ("--world", self.world), ("--processors", self.processors))
        return [word for option, value in found if value is not None for word in (option, str(value))]

    def again(self, path, name):
        """The line that runs a node of a script again, where it can be told."""
        if any(map(has_unseen, (name, self.settings or "", self.world or ""))):
            return b""
        files = [(b" --settings ", self.settings), (b" --world ", self.world)]
        told = b"".join(option + file_word(file) for option, file in files if file is not None)
        number = b"" if self.processors is None else as_bytes(f" --processors {self.processors}")
        return b"  again: jtap run" + told + number + b" --only " + shell_word(path) + b" " + file_word(name) + b"\n"


def failure(command, path, name, script, line, message, blocked=0):
    """What is told of a failed node of a script: NAME is None for standard input."""
    told = f"not ok {path}\n  {shown_name(name or 'stdin')}:{line}: {message}\n  {line} | "
    blocks = f"  blocks {counted(blocked, 'test', 'tests')}\n" if blocked else ""
    again = command.again(path, name) if name is not None else b""
    return as_bytes(told) + source_line(as_bytes(script), line) + b"\n" + as_bytes(blocks) + again + b"\n"


def skipped(path, name, line, reason):
    """What `--summary=all` tells of a skipped test."""
    return as_bytes(f"skipped {path}\n  {shown_name(name or 'stdin')}:{line}: {reason}\n\n")


def link_program(folder):
    """Makes a folder in which the program is `jtap`, for who pastes a command."""
    Path(folder, "path").mkdir()
    Path(folder, "path", "jtap").symlink_to(PROGRAM)
    return str(Path(folder, "path"))


def pasted(where, path, command):
    """What a shell answers to a command in a folder, where it finds programs also in that of `path`."""
    surroundings = {**os.environ, "PATH": f"{path}:{os.environ['PATH']}"}
    ran = subprocess.run(["sh", "-c", command], cwd=where, env=surroundings, stdin=subprocess.DEVNULL, capture_output=True, timeout=60)
    return Answer(ran.returncode, ran.stdout, ran.stderr)


def commands_of(summary):
    """The `again:` lines of a summary, each with the path of its node."""
    path, found = b"", []
    for line in summary.split(b"\n"):
        if line.startswith(b"not ok "):
            path = line[len(b"not ok "):]
        if line.startswith(b"  again: "):
            found.append((path.decode(), line[len(b"  again: "):]))
    return found


def point_again(where, programs, path, command):
    """Status and errors of a command that runs a node again, and the node's point: the first one so deep, since no class stands beside it."""
    ran = pasted(where, programs, command)
    try:
        points = points_of(ran.output)
    except ValueError as otherwise:
        return ran, str(otherwise)
    return ran.status, ran.errors, next((point for point in points if point.depth == path.count(".")), None)
