"""JUnit XML as `jtap run --junit` writes it: the times of an earlier run, and documents of shards that are joined.

No text of such a document has a `<`, a `>` or a `"` in it, so each tag is found as it stands.
"""
import re
from collections import Counter
from decimal import Decimal
from xml.etree import ElementTree

from suite import refuse

HEAD = re.compile(rb'<\?xml version="1\.0" encoding="UTF-8"\?>\n<testsuites name="jtap"[^>]*>\n')
SUITE = re.compile(rb'  <testsuite name="([^"]*)"([^>]*)>\n.*?\n  </testsuite>\n', re.DOTALL)
TAIL = b"</testsuites>\n"
COUNTS = ("tests", "failures", "errors", "skipped")
TIME = re.compile(rb' time="[0-9.]*"')
MILLION = 1_000_000


def class_of(path):
    """The path of the top-level class in which a class stands: two names, that of the team and its own."""
    return ".".join(path.split(".")[:2])


def times_of(files):
    """What each top-level class took by these files, in microseconds: the sum over all testsuites of it and of the classes in it."""
    times = Counter()
    for name in files:
        try:
            suites = list(ElementTree.parse(name).getroot().iter("testsuite"))
        except (OSError, ElementTree.ParseError) as why:
            refuse(f"{name}: {why}")
        for suite in suites:
            if "time" in suite.attrib:
                times[class_of(suite.get("name", ""))] += microseconds(suite.get("time"), name)
    return times


def microseconds(text, name):
    """A time in seconds, with six decimals."""
    if not re.fullmatch(r"\d+(\.\d+)?", text):
        refuse(f"{name}: '{text}' is no time in seconds")
    return int(Decimal(text) * MILLION)


def testsuites(document):
    """The testsuites of a document, each with the name of its class and its counts; None where it isn't whole."""
    head = HEAD.match(document)
    if not head or not document.endswith(TAIL):
        return None
    found, place = [], head.end()
    while place < len(document) - len(TAIL):
        suite = SUITE.match(document, place)
        if not suite:
            return None
        found.append((suite[1].decode(), suite[2], suite[0]))
        place = suite.end()
    return found


def joined_junit(paths, documents):
    """One document of those of shards: their testsuites in the order of these classes, and the sums of their counts and times. None where
    one isn't whole, or has a testsuite of another class."""
    parts = [testsuites(document) for document in documents]
    places = {path: place for place, path in enumerate(paths)}
    if None in parts or any(class_of(name) not in places for part in parts for name, _, _ in part):
        return None
    suites = sorted((suite for part in parts for suite in part), key=lambda suite: places[class_of(suite[0])])
    return head_of([counts for _, counts, _ in suites]) + b"".join(text for _, _, text in suites) + TAIL


def head_of(counts):
    """The beginning of a document whose testsuites have these attributes. It has a time where one of them has."""
    sums = "".join(f' {name}="{sum(int(value_of(name, one) or 0) for one in counts)}"' for name in COUNTS)
    times = [microseconds(time, "a testsuite") for time in (value_of("time", one) for one in counts) if time]
    time = f' time="{sum(times) // MILLION}.{sum(times) % MILLION:06}"' if times else ""
    return f'<?xml version="1.0" encoding="UTF-8"?>\n<testsuites name="jtap"{sums}{time}>\n'.encode()


def value_of(name, attributes):
    found = re.search(rf' {name}="([^"]*)"'.encode(), attributes)
    return found and found[1].decode()


def without_times(document):
    """What two runs have in common."""
    return TIME.sub(b"", document)
