"""What the scripts share that try the built program: which program it is, what it answers, and how many cases passed and failed.

JTAP names another program than the release. Each script says on its first line which one it tries, and whether that is built of the sources
at hand, as far as a stamp tells (`release/common.sh`).
"""
import os
import subprocess
import sys
import tempfile
from pathlib import Path
from typing import NamedTuple, Union

TESTS = Path(__file__).resolve().parent
TOP = TESTS.parent
PROGRAM = str(Path(os.environ.get("JTAP", TOP / "release/jtap")).resolve())
MEBIBYTE = 1_048_576
TEN = 10


class Answer(NamedTuple):
    """How a run of the program ended."""

    status: Union[int, str]
    output: bytes
    errors: bytes


# That of a run that was ended after its time.
HUNG = Answer("hung", b"", b"")

passed = 0
failed = 0
# Of each test, in how many cases it failed.
failures = {}


def as_bytes(text):
    return text if isinstance(text, bytes) else text.encode()


def begin(name):
    """Says which program is tried. A script that can't run it ends here."""
    if not os.access(PROGRAM, os.X_OK):
        refuse(name, f"{PROGRAM} can't be run")
    subprocess.run(["bash", "-c", f'. "{TOP}/release/common.sh"; tell_program "$@"', "bash", name, PROGRAM], check=True)


def refuse(name, why):
    """Tells why nothing is tried, and ends."""
    print(f"{name}: {why}", file=sys.stderr)
    sys.exit(2)


def run_in(folder, words, script=b"", seconds=60):
    """What the program answers in a folder, for these words and a script on standard input. A run that has hung is ended."""
    how = {"cwd": folder, "input": as_bytes(script), "capture_output": True, "timeout": seconds}
    try:
        ran = subprocess.run([PROGRAM, *words], **how)
    except subprocess.TimeoutExpired:
        return HUNG
    return Answer(ran.returncode, ran.stdout, ran.stderr)


def run(words, files={}, script=b""):
    """The same in a new folder, with these files."""
    return run_writing(words, files, script)[0]


def run_writing(words, files={}, script=b""):
    """The same, and the files that stand in the folder then and weren't handed in so."""
    with tempfile.TemporaryDirectory() as folder:
        for name, text in files.items():
            path = Path(folder, name)
            path.parent.mkdir(exist_ok=True)
            path.write_bytes(as_bytes(text))
        answer = run_in(folder, words, script)
        found = {str(path.relative_to(folder)): path.read_bytes() for path in Path(folder).rglob("*") if path.is_file()}
        return answer, {name: text for name, text in found.items() if name not in files or text != as_bytes(files[name])}


def expect(name, found, wanted):
    """Counts a case, and tells where it is otherwise."""
    report(name, [] if found == wanted else [f"{shortened(found, wanted)} in place of {shortened(wanted, found)}"])


def report(name, otherwise):
    """Counts a case of which this is otherwise. Of each test the first ten cases that failed are printed."""
    global passed, failed
    if not otherwise:
        passed += 1
        return
    failed += 1
    test = name.partition(", case ")[0]
    failures[test] = failures.get(test, 0) + 1
    if failures[test] <= TEN:
        print(f"{name}: {'; '.join(otherwise)}", flush=True)


def shortened(answer, other):
    """What is printed of an answer: of a long text the lines from the first on that the other answer has not."""
    if isinstance(answer, tuple) and isinstance(other, tuple):
        return "(" + ", ".join(map(shortened, answer, other)) + ")"
    if not isinstance(answer, (bytes, str)) or type(answer) is not type(other) or len(answer) < 200:
        return repr(answer)
    lines, others = answer.splitlines(True), other.splitlines(True)
    same = next((number for number, line in enumerate(lines) if line not in others[number:number + 1]), len(lines))
    return f"{len(answer)} bytes, from line {same + 1} {answer[:0].join(lines[same:])[:200]!r}"


def finish():
    """Tells how many cases passed and failed, and ends: with status 1 where one failed, or none was tried."""
    for test, count in failures.items():
        if count > TEN:
            print(f"{test}: {count - TEN} cases more are otherwise")
    print(f"{passed} passed, {failed} failed")
    sys.exit(1 if failed or not passed else 0)


def settings_of(workers):
    """Settings of so many workers, whose nodes are concurrent unless they are marked otherwise."""
    return ('[junit.jupiter.execution.parallel]\nenabled = true\nmode.default = "concurrent"\nconfig.strategy = "fixed"\n'
            f"config.fixed.parallelism = {workers}\n")
