#!/usr/bin/env python3
"""A strict reader of the reports and plans that jtap writes: `tap.py FILE..` prints what is wrong with each report. A report is TAP
version 14 with a subtest for each class, a plan before the points of each level, points numbered from 1, and under a point at most one
YAML block with the keys of docs/REPORT.md. Names no line that it can't place; without a fault it prints nothing."""
import re
import sys

POINT = re.compile(r"(not )?ok ([1-9][0-9]*) - ((?:[^\\#]|\\\\|\\#)*?)( # SKIP ((?:[^\\#]|\\\\|\\#)+))?")
QUOTED = re.compile(r'"(?:[^"\\]|\\"|\\\\)*"')
VERDICTS = {"pass", "fail", "fault", "skipped", "blocked"}


class Wrong(Exception):
    pass


class Reader:
    """The lines of a report and the place of the next one."""

    def __init__(self, lines):
        self.lines, self.at = lines, 0

    def fail(self, why):
        raise Wrong(f"line {self.at + 1}: {why}")

    def peek(self, indent):
        """The next line without its indentation, where it has that."""
        if self.at < len(self.lines) and self.lines[self.at].startswith(" " * indent):
            return self.lines[self.at][indent:]
        return None

    def take(self, indent):
        line = self.peek(indent)
        if line is None:
            self.fail(f"no line indented by {indent}")
        self.at += 1
        return line

    def level(self, indent):
        """A plan and its points; whether all are ok."""
        plan = re.fullmatch(r"1\.\.(0|[1-9][0-9]*)", self.take(indent))
        if not plan:
            self.at -= 1
            self.fail("no plan")
        count, all_ok = int(plan[1]), True
        if count == 0 and indent > 0:
            self.fail("an empty subtest")
        for number in range(1, count + 1):
            all_ok = self.child(indent, number) and all_ok
        return all_ok

    def child(self, indent, number):
        """A point, with its subtest before it where it has one; whether it is ok."""
        line, title, inner_ok = self.take(indent), None, True
        if line.startswith("# Subtest: "):
            title = line[len("# Subtest: "):]
            inner_ok = self.level(indent + 4)
            line = self.take(indent)
        point = POINT.fullmatch(line)
        if not point:
            self.at -= 1
            self.fail("no point, or a hash or backslash that isn't escaped")
        self.point(point, number, title, inner_ok)
        self.block(indent + 2, not point[1], point[5], title is not None, inner_ok)
        return not point[1]

    def point(self, point, number, title, inner_ok):
        if int(point[2]) != number:
            self.fail(f"the point is {point[2]} and not {number}")
        if not point[3] or point[3] != point[3].strip(" "):
            self.fail("an empty title, or a space at its end")
        if title is not None and title != point[3]:
            self.fail("the subtest has another title")
        if not inner_ok and not point[1]:
            self.fail("an ok point over a subtest that isn't")
        if point[1] and point[4]:
            self.fail("a directive on a point that isn't ok")

    def block(self, indent, is_ok, reason, is_class, inner_ok):
        """The YAML block of a point, and whether it fits the point."""
        verdict, message, lines = "pass", None, []
        if self.peek(indent) == "---":
            self.at += 1
            verdict = self.key(indent, "verdict")
            if verdict not in VERDICTS:
                self.fail(f"the verdict {verdict}")
            if verdict != "pass":
                message = self.quoted(self.key(indent, "message"))
                self.place(self.quoted(self.key(indent, "at")), verdict)
            lines = self.output(indent)
            if self.take(indent) != "...":
                self.fail("a block that isn't closed")
            if verdict == "pass" and not lines:
                self.fail("a block that tells nothing")
        good = verdict in ("pass", "skipped")
        if is_ok != (good and inner_ok) or (not is_class and is_ok != good):
            self.fail("point and verdict don't fit")
        if (reason is not None) != (verdict == "skipped" and is_ok):
            self.fail("directive and verdict don't fit")
        if reason is not None and re.sub(r"\\([\\#])", r"\1", reason) != message:
            self.fail("the reason isn't the message")

    def key(self, indent, name):
        line = self.take(indent)
        if not line.startswith(name + ": "):
            self.fail(f"no {name}")
        return line[len(name) + 2:]

    def quoted(self, text):
        if not QUOTED.fullmatch(text):
            self.fail("no quoted text")
        return re.sub(r'\\(["\\])', r"\1", text[1:-1])

    def place(self, text, verdict):
        if text == "disabled" and verdict == "skipped":
            return
        if not re.fullmatch(r"test row [1-9][0-9]*|class [1-8] (before_all|after_all|before_each|after_each) row [1-9][0-9]*", text):
            self.fail("no place")

    def output(self, indent):
        line, lines = self.take(indent), []
        if line == "output: []":
            return lines
        if line != "output:":
            self.fail("no output")
        while (self.peek(indent) or "").startswith("  - "):
            lines.append(self.quoted(self.take(indent)[4:]))
        if not lines:
            self.fail("an output without lines")
        if sum(len(line) + 1 for line in lines) > 65536:
            self.fail("output above its limit")
        return lines


def split(text):
    """The lines of a text of printable ASCII in which each ends with a line feed."""
    if not text.endswith("\n"):
        raise Wrong("the last line has no end")
    if re.search(r"[^\n -~]", text):
        raise Wrong("a character that isn't printable ASCII")
    return text[:-1].split("\n")


def report_fault(text):
    """What is wrong with a report, and whether all its top-level points are ok."""
    try:
        reader = Reader(split(text))
        if reader.take(0) != "TAP version 14":
            raise Wrong("line 1: no version")
        all_ok = reader.level(0)
        if reader.at != len(reader.lines):
            reader.fail("a line too many")
    except Wrong as wrong:
        return str(wrong), False
    return None, all_ok


def plan_fault(text):
    """What is wrong with a printed plan."""
    try:
        lines = split(text)
    except Wrong as wrong:
        return str(wrong)
    if not re.fullmatch(r"workers ([1-9]|[1-5][0-9]|6[0-4])", lines[0]):
        return "line 1: no number of workers"
    for number, line in enumerate(lines[1:], 1):
        if not re.fullmatch(rf"{number} (class|test) (same_thread|concurrent) \[.*\] [A-Za-z]\w*(\.[A-Za-z]\w*)+", line):
            return f"line {number + 1}: no node"
    return None


RIGHT = """TAP version 14
1..2
# Subtest: a.B \\#1
    1..2
    ok 1 - t # SKIP no \\#
      ---
      verdict: skipped
      message: "no #"
      at: "test row 1"
      output: []
      ...
    not ok 2 - u
      ---
      verdict: fail
      message: "a \\"b\\""
      at: "class 1 after_each row 2"
      output:
        - "x"
      ...
not ok 1 - a.B \\#1
# Subtest: a.C
    1..1
    ok 1 - t
ok 2 - a.C
"""

# Each is a change of the report above that makes it wrong.
WRONG_CHANGES = [
    ("TAP version 14", "TAP version 13"), ("1..2\n#", "1..3\n#"), ("1..2\n#", "1..1\n#"), ("    1..2", "    1..1"), ("    1..1", "  1..1"),
    ("ok 2 - a.C", "ok 3 - a.C"), ("ok 2 - a.C\n", "ok 2 - a.D\n"), ("not ok 1 - a.B", "ok 1 - a.B"), (" # SKIP no \\#", ""),
    ("SKIP no \\#", "SKIP no #"), ("- u", "- u#"), ("- u", "- u\\n"), ("- u", "- u # SKIP x"), ("- u", "-"), ("- u", "- u "),
    ("      ---\n      verdict: skipped", "    ---\n    verdict: skipped"), ("verdict: fail", "verdict: pass"),
    ("verdict: fail", "verdict: bad"), ("verdict: skipped", "verdict: fail"), ('"a \\"b\\""', '"a "b""'), ('"a \\"b\\""', "a"),
    ('    at: "test row 1"\n', ""), ("class 1 after_each", "class 9 after_each"), ("row 2", "row 0"), ("class 1 after_each row 2", "disabled"),
    ('        - "x"\n', ""),
    ('- "x"', "- x"), ('- "x"', '- "\x1b"'), ("output: []", "output:"), ("      ...\n    not", "    not"), ("ok 2 - a.C\n", "ok 2 - a.C"),
    ("ok 2 - a.C\n", "ok 2 - a.C\n\n"), ("ok 2 - a.C\n", "ok 2 - a.C\nok 3 - x\n"), ("ok 2 - a.C\n", ""), ('message: "no #"', 'message: "yes"'),
]


def check_itself():
    """Ends the program where this reader takes a wrong report for a right one, or the other way round."""
    if report_fault(RIGHT) != (None, False):
        sys.exit(f"tap.py refuses a right report: {report_fault(RIGHT)[0]}")
    for old, new in WRONG_CHANGES:
        if old not in RIGHT or report_fault(RIGHT.replace(old, new, 1))[0] is None:
            sys.exit(f"tap.py takes a wrong report: {old!r} made {new!r}")


if __name__ == "__main__":
    check_itself()
    bad = 0
    for name in sys.argv[1:]:
        with open(name, encoding="latin-1", newline="") as file:
            fault = report_fault(file.read())[0]
        if fault:
            bad = 1
            print(f"{name}: {fault}")
    sys.exit(bad)
