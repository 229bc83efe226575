"""What the scripts share that try `--junit`: a reader of its documents, and what a document has to tell of a report, by the rules of `docs/CI.md`.
Nothing here comes from what the program says, but for the report.
"""
import re
from typing import NamedTuple, Optional
from xml.etree import ElementTree

from summaries import FAILS, shown_name

COUNTS = ("tests", "failures", "errors", "skipped")
TIME = re.compile(rb' time="\d+\.\d{6}"')
PROBLEMS = {"fail": ("failure", "fail"), "fault": ("error", "fault"), "blocked": ("error", "blocked")}
# Where a report says that a test ended that wasn't run, for what its class came to.
OF_CLASS = re.compile(r"class \d before_all row \d+")


class Site(NamedTuple):
    """A node's path, its file, the line of its name, and that of what ended it."""

    path: str
    file: str
    line: int
    ended: Optional[int] = None


class Case(NamedTuple):
    """A testcase: its attributes, and the tags, attributes and texts of the elements in it."""

    name: str
    classname: str
    file: str
    line: int
    problem: Optional[tuple] = None
    output: Optional[str] = None


class Group(NamedTuple):
    """A testsuite, or the whole document, whose members are testsuites."""

    name: str
    counts: tuple
    members: list
    output: Optional[str] = None


def untimed(document):
    """The bytes of a document without its times."""
    return TIME.sub(b"", document)


def micros(element):
    """The time of an element."""
    time = element.get("time")
    if time is not None and not re.fullmatch(r"\d+\.\d{6}", time):
        raise ValueError(f"{time!r} is no time")
    return None if time is None else int(time.replace(".", ""))


def check_element(element, tags, attributes):
    """Refuses an element that is another one, has other attributes than these and a time, or a text between its elements."""
    if element.tag not in tags or {*element.attrib} - {"time"} != {*attributes}:
        raise ValueError(f"<{element.tag} {' '.join(element.attrib)}> in place of {' or '.join(tags)} with {' '.join(attributes)}")
    if len(element) and "".join([element.text or "", *(child.tail or "" for child in element)]).strip():
        raise ValueError(f"<{element.tag}> has a text between its elements")


def output_of(elements):
    """The text of the last of some elements, where that is one of output, and the elements before it."""
    if not elements or elements[-1].tag != "system-out":
        return None, elements
    check_element(elements[-1], ("system-out",), ())
    return elements[-1].text or "", elements[:-1]


def case_of(element):
    """What a testcase tells."""
    check_element(element, ("testcase",), ("name", "classname", "file", "line"))
    output, problems = output_of(list(element))
    for problem in problems:
        check_element(problem, ("failure", "error", "skipped"), ("message",) if problem.tag == "skipped" else ("message", "type"))
    told = tuple((problem.tag, problem.get("type"), problem.get("message"), problem.text) for problem in problems)
    if len(told) > 1:
        raise ValueError(f"a testcase came to {told}")
    return Case(element.get("name"), element.get("classname"), element.get("file"), int(element.get("line")), told[0] if told else None, output)


def group_of(element, tag, member):
    """What a testsuite or a document tells, with what `member` makes of each element in it."""
    check_element(element, (tag,), ("name", *COUNTS))
    output, members = output_of(list(element)) if tag == "testsuite" else (None, list(element))
    return Group(element.get("name"), tuple(int(element.get(count)) for count in COUNTS), list(map(member, members)), output)


def document_of(text):
    """What a document tells, but for times. Whatever is none is a ValueError, or an error of the parser."""
    return group_of(ElementTree.fromstring(text), "testsuites", lambda element: group_of(element, "testsuite", case_of))


def times_of(text):
    """Of each testcase of a document its time, by class and name; and what of the sums is otherwise."""
    root, times, wrong = ElementTree.fromstring(text), {}, []
    for group in (*root, root):
        found = [micros(case) for case in group.iter("testcase")]
        times.update({(case.get("classname"), case.get("name")): micros(case) for case in group.iter("testcase")})
        known = [time for time in found if time is not None]
        wanted = sum(known) if known else None
        if micros(group) != wanted:
            wrong.append(f"{group.get('name')} took {micros(group)} us, and its testcases {wanted}")
    return times, wrong


def file_name(name):
    """A file's name as a document tells it."""
    return shown_name(name).replace("\ufffe", "\\uFFFE").replace("\uffff", "\\uFFFF")


def problem_of(site, point):
    """What a node's testcase came to, if it didn't pass."""
    if point.verdict == "pass":
        return None
    if point.verdict == "skipped":
        return "skipped", None, point.message, None
    return (*PROBLEMS[point.verdict], point.message, f"{file_name(site.file)}:{site.ended}: {point.message}")


def output_text(site, point):
    """A node's display text and what it printed, if it has any of them."""
    name = site.path if point.depth == 1 else site.path.split(".")[-1]
    lines = [f"display-name: {point.title}"] * (point.title != name) + point.output
    return "".join(f"{line}\n" for line in lines) if lines else None


def counts_of(cases):
    """How many testcases there are, and what they came to."""
    tags = [case.problem and case.problem[0] for case in cases]
    return (len(cases), *(tags.count(tag) for tag in ("failure", "error", "skipped")))


def cases_of(place, nodes):
    """The testcases of the class in this place: its own, where its own blocks failed, and those of the tests that stand directly in it."""
    site, point = nodes[place]
    own = [Case("class", site.path, file_name(site.file), site.line, problem_of(site, point))] if point.verdict in FAILS else []
    tests = [(test, found) for test, found in nodes if found.is_test and test.path.rpartition(".")[0] == site.path]
    return own + [Case(test.path.split(".")[-1], site.path, file_name(test.file), test.line, problem_of(test, found), output_text(test, found))
                  for test, found in tests]


def wanted_document(sites, points):
    """What the document of a run has to tell whose report has these points, of nodes that stand there."""
    nodes, groups = list(zip(sites, points)), []
    for place, (site, point) in enumerate(nodes):
        cases = [] if point.is_test else cases_of(place, nodes)
        if cases or not point.is_test and point.output:
            groups.append(Group(site.path, counts_of(cases), cases, output_text(site, point)))
    return Group("jtap", counts_of([case for group in groups for case in group.members]), groups)


def was_run(point):
    """Whether the blocks of a test were run; None of one that is disabled, which is entered at least, unless its class is."""
    if point.at == "disabled":
        return None
    return point.verdict != "blocked" and not (point.verdict == "skipped" and OF_CLASS.fullmatch(point.at) is not None)
