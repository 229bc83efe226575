"""What the scripts share that try `--html`: a reader of pages, by Python's `html.parser`, which refuses each element, attribute and value that the
form of a page doesn't have; and what a page has to tell of a report, by the rules of `docs/PAGE.md`. Nothing here comes from what the program
says, but for the report.
"""
import re
from base64 import b64encode
from hashlib import sha256
from html.parser import HTMLParser
from typing import NamedTuple, Optional

from documents import file_name
from summaries import FAILS, counted

AROUND = 2
EMPTY = ("meta", "input")
NUMBER, PLAIN, DECIMAL = r"n\d+", r"[^\x00-\x1f]*", r"\d+\.\d\d"
# Of each element the attributes that it has, in each way in which it stands: their names as the parser tells them, and what their values are.
FORM = {
    "html": [{"lang": "en"}],
    "meta": [{"charset": "utf-8"}, {"name": "viewport", "content": "width=device-width, initial-scale=1"},
             {"http-equiv": "Content-Security-Policy", "content": r"default-src 'none'; style-src 'sha256-[A-Za-z0-9+/]{43}='"}],
    "span": [{}, {"class": "ok|bad|skip|block"}],
    "ul": [{}, {"class": "figures"}],
    "li": [{}, {"id": NUMBER}, {"title": f"who had {PLAIN}"}],
    "a": [{"href": f"#{NUMBER}"}],
    "input": [{"type": "radio", "name": "show", "checked": None}, {"type": "radio", "name": "show", "id": "red|skipped"}],
    "details": [{}, {"open": None}],
    "div": [{"class": "run|wide"}],
    "svg": [{"role": "img", "aria-label": f"What each worker ran|Who had {PLAIN}", "viewbox": r"0 0 1000 \d+", "height": r"\d+",
             "preserveaspectratio": "none"}],
    "rect": [{"class": "[bf]( c)?|[rw]", "x": DECIMAL, "y": r"\d+", "width": DECIMAL, "height": "12|20"}],
    "th": [{"scope": "col|row"}, {"scope": "col", "class": "n"}],
    "td": [{}, {"class": "n"}],
    **{tag: [{}] for tag in ("head", "title", "style", "body", "main", "h1", "h2", "h3", "b", "small", "article", "p", "code", "bdi", "pre", "mark",
                             "section", "fieldset", "legend", "label", "summary", "ol", "table", "thead", "tbody", "tr")},
}
# In which element each one stands.
PARENTS = {
    "html": [""], "head": ["html"], "meta": ["head"], "title": ["head", "rect"], "style": ["head"], "body": ["html"], "main": ["body"], "h1": ["main"],
    "h2": ["main", "section"], "article": ["main"], "h3": ["article"], "section": ["main"], "fieldset": ["section"], "legend": ["fieldset"],
    "label": ["fieldset"], "input": ["label"], "ul": ["main", "section", "details"], "ol": ["div"], "li": ["ul", "ol"], "details": ["li"],
    "summary": ["details"], "span": ["h1", "h3", "summary", "p"], "a": ["h3", "td", "p"], "b": ["li"], "small": ["summary", "p"],
    "p": ["article", "details", "div", "main"], "code": ["p"], "bdi": ["code"], "pre": ["article", "details"], "mark": ["pre"], "div": ["main"],
    "svg": ["div"], "rect": ["svg"], "table": ["div"], "thead": ["table"], "tbody": ["table"], "tr": ["thead", "tbody"], "th": ["tr"], "td": ["tr"],
}
# Elements in which no text stands beside others.
WITHOUT_TEXT = ("", "html", "head", "body", "main", "article", "section", "fieldset", "ul", "ol", "details", "div", "svg", "rect", "table", "thead",
                "tbody", "tr")
BARE = re.compile(r"&(?!(?:lt|gt|amp|quot|#\d+);)")
NAMED = {"lt": "<", "gt": ">", "amp": "&", "quot": '"'}
SIGNS = {"pass": ("ok", "\u2713 ok"), "fail": ("bad", "\u2717 fail"), "fault": ("bad", "\u2717 fault"), "skipped": ("skip", "\u2013 skipped"),
         "blocked": ("block", "\u25a0 blocked")}
MODES = {True: "same thread", False: "concurrent"}
ACCESSES = {"read": "reads", "write": "writes"}
NOT_OK = "bad", "\u2717 not ok"
SECONDS = re.compile(r"(\d+)\.(\d{6}) s")
# What of a page is measured: the time of a node, the figures above, and what stands below the tree.
TIMES = re.compile(rb" <small>\d+\.\d{6} s</small>(?=</summary>)")
FIGURES = re.compile(rb"<li><b>\d+ of \d+</b> workers?</li>\n<li><b>\d+\.\d{6} s</b> wall time</li>\n<li><b>\d+ %</b> busy</li>\n"
                     rb"(?:<li><b>\d+\.\d times</b> at best</li>\n)?")
SECTIONS = re.compile(rb"(?<=</section>\n)<h2>The run</h2>\n.*(?=</main>\n)", re.DOTALL)
STYLE = re.compile(r"<style>\n(.*)</style>", re.DOTALL)


class Element:
    """An element: its tag, its attributes, and the elements and texts in it."""

    def __init__(self, tag, attributes, parent=None):
        self.tag, self.attributes, self.parent, self.members = tag, attributes, parent, []

    @property
    def elements(self):
        return [member for member in self.members if isinstance(member, Element)]

    @property
    def text(self):
        """All text in it, in its order."""
        return "".join(member.text if isinstance(member, Element) else member for member in self.members)

    @property
    def own_text(self):
        return "".join(member for member in self.members if isinstance(member, str))

    def shape(self):
        """The tags of the elements in it."""
        return " ".join(element.tag for element in self.elements)

    def take(self, *tags):
        """The elements in it, which have to be these."""
        if self.shape() != " ".join(tags):
            raise ValueError(f"<{self.tag}> has {self.shape()} in place of {' '.join(tags)}")
        return self.elements


class Reader(HTMLParser):
    """A page that is being read. Whatever is none of its form is a ValueError."""

    def __init__(self):
        super().__init__(convert_charrefs=False)
        self.root = self.here = Element("", {})
        self.declared = 0

    def handle_decl(self, decl):
        self.declared += 1
        if decl != "DOCTYPE html" or self.declared > 1 or self.root.members:
            raise ValueError(f"<!{decl}> stands where none is")

    def handle_starttag(self, tag, attrs):
        check_form(tag, attrs, self.here.tag)
        element = Element(tag, dict(attrs), self.here)
        self.here.members.append(element)
        if tag not in EMPTY:
            self.here = element

    def handle_startendtag(self, tag, attrs):
        raise ValueError(f"<{tag}/> is no tag of HTML")

    def handle_endtag(self, tag):
        if self.here.tag != tag:
            raise ValueError(f"</{tag}> ends <{self.here.tag}>")
        self.here = self.here.parent

    def handle_data(self, data):
        if self.here.tag not in WITHOUT_TEXT:
            self.here.members.append(data)
        elif data.strip():
            raise ValueError(f"{data[:40]!r} stands in <{self.here.tag}>")

    def handle_entityref(self, name):
        self.handle_data(NAMED[name])

    def handle_charref(self, name):
        self.handle_data(chr(int(name)))

    def handle_comment(self, data):
        raise ValueError(f"{data[:40]!r} is a comment")

    def handle_pi(self, data):
        raise ValueError(f"{data[:40]!r} is an instruction")

    def unknown_decl(self, data):
        raise ValueError(f"{data[:40]!r} is a declaration")


def check_form(tag, attributes, parent):
    """Refuses an element that has other attributes than its form, or stands elsewhere."""
    names = [name for name, _ in attributes]
    ways = [way for way in FORM.get(tag, []) if list(way) == names and all(map(is_so, way.values(), (value for _, value in attributes)))]
    if not ways or parent not in PARENTS[tag]:
        raise ValueError(f"<{tag}> with {attributes} in <{parent}>")


def is_so(form, value):
    """Whether the value of an attribute has this form: None is that of one without a value, which Chromium writes as an empty one."""
    return not value if form is None else value is not None and re.fullmatch(form, value) is not None


def read(page):
    """The element of a page, and its style, which isn't read. The policy is to allow that style alone."""
    text = page.decode()
    style = STYLE.search(text)
    if BARE.search(text):
        raise ValueError(f"{text[BARE.search(text).start():][:40]!r} is no reference")
    if "<" in style[1] or any(word in style[1].lower() for word in ("url(", "@import", "expression(")):
        raise ValueError("the style has more than rules")
    reader = Reader()
    reader.feed(text[:style.start(1)] + text[style.end(1):])
    reader.close()
    if reader.here is not reader.root or reader.declared != 1 or reader.root.shape() != "html":
        raise ValueError(f"the page ends in <{reader.here.tag}>, and has {reader.root.shape()}")
    html, = reader.root.elements
    policy = html.elements[0].elements[1].attributes["content"]
    if f"'sha256-{b64encode(sha256(f'{chr(10)}{style[1]}'.encode()).digest()).decode()}'" not in policy:
        raise ValueError("the policy doesn't allow the style")
    return html


def unmeasured(page):
    """The bytes of a page without what was measured."""
    return TIMES.sub(b"", FIGURES.sub(b"", SECTIONS.sub(b"", page)))


class Wrong(NamedTuple):
    """What a page tells of what went wrong in a node: the number that the link leads to, its sign, the numbered lines of the script with which of
    them is marked, and the rest as the summary has it."""

    number: int
    sign: tuple
    path: str
    file: str
    line: int
    message: str
    lines: list
    blocks: Optional[str]
    output: list
    again: Optional[str]


class Shown(NamedTuple):
    """What the tree tells of a node, with its mode and, by their keys, whether it reads or writes."""

    depth: int
    number: int
    is_test: bool
    is_open: bool
    sign: tuple
    title: str
    path: str
    file: str
    line: int
    mode: str
    locks: dict
    message: Optional[str]
    output: list


class Page(NamedTuple):
    """A page: its title, its heading, the counts, what went wrong, the tree, the time of each node by its path, and the elements of what was
    measured: above, and below the tree."""

    title: str
    sign: tuple
    size: str
    counts: list
    wrong: list
    nodes: list
    times: dict
    figures: list
    sections: list


def sign_of(span):
    return span.attributes.get("class"), span.text


def lines_of(pre):
    """The lines of an element, in which the line feed at its begin is none."""
    if not re.match(r"\n.*\n\Z", pre.text, re.DOTALL):
        raise ValueError(f"{pre.text[:40]!r} are no lines")
    return pre.text[1:-1].split("\n")


def place_of(code):
    """The file and the line that an element tells."""
    file, = code.take("bdi")
    line = re.fullmatch(r":(\d+)", code.own_text)
    if not line or code.members[0] is not file:
        raise ValueError(f"{code.text!r} is no place")
    return file.text, int(line[1])


def quoted_line(text):
    """A line of a script as it is shown: whether it is marked, its number, and its text."""
    found = re.fullmatch(r"(> |  )(\d+) \| (.*)", text)
    if not found:
        raise ValueError(f"{text!r} is no line of a script")
    return found[1] == "> ", int(found[2]), found[3]


def next_of(rest, is_next):
    """The first of the elements that are left, if it is the next one."""
    return rest.pop(0) if rest and is_next(rest[0]) else None


def wrong_of(article):
    """What an article tells."""
    head, place, *rest = article.elements
    span, link = head.take("span", "a")
    (code,) = place.take("code")
    lines = next_of(rest, lambda one: one.tag == "pre" and one.elements)
    blocks = next_of(rest, lambda one: one.tag == "p" and not one.elements)
    output, again = next_of(rest, lambda one: one.tag == "pre"), next_of(rest, lambda one: one.tag == "p")
    if rest or not place.own_text.startswith(": ") or again and not (again.shape() == "code" and again.text.startswith("again: ")):
        raise ValueError(f"what went wrong with {article.shape()}")
    if lines and [f"{mark.text}\n" for mark in lines.elements] != [line for line in lines.text[1:].splitlines(True) if line.startswith("> ")]:
        raise ValueError("a line of a script is marked by half")
    return Wrong(number_of(link), sign_of(span), link.text, *place_of(code), place.own_text[2:], list(map(quoted_line, lines_of(lines))) if lines else [],
                 blocks and blocks.text, lines_of(output) if output else [], again and again.elements[0].text)


def number_of(link):
    return int(link.attributes["href"][2:])


def list_of(ul, depth, times):
    """The nodes of a list, as they are written."""
    for item in ul.elements:
        yield from node_of(item, depth, times)


def node_of(item, depth, times):
    """A node, and those that stand in it."""
    details, = item.take("details")
    summary, place, mode, *rest = details.elements
    sign, *time = summary.elements
    path, code = place.take("code", "code")
    message, output = next_of(rest, lambda one: one.tag == "p"), next_of(rest, lambda one: one.tag == "pre")
    inner = next_of(rest, lambda one: one.tag == "ul")
    if rest or (summary.shape(), place.own_text) not in (("span", " "), ("span small", " ")) or not summary.own_text.startswith(" "):
        raise ValueError(f"a node with {details.shape()}")
    title = summary.own_text[1:]
    if time:
        title, times[path.text] = title[:-1], micros(time[0].text)
    yield Shown(depth, int(item.attributes["id"][1:]), inner is None, "open" in details.attributes, sign_of(sign), title, path.text, *place_of(code),
                *mode_of(mode), message and message.text, lines_of(output) if output else [])
    if inner is not None:
        yield from list_of(inner, depth + 1, times)


def mode_of(line):
    """The mode that a line tells, and how the node takes each key."""
    mode, *accesses = line.own_text.split(", ")
    accesses, keys = [access.rstrip(" ") for access in accesses], [key.text for key in line.elements]
    if line.tag != "p" or mode not in MODES.values() or len(accesses) != len(keys) or {*accesses} - {*ACCESSES.values()}:
        raise ValueError(f"{line.text!r} is no mode")
    return mode, dict(zip(keys, accesses))


def micros(text):
    """A time as microseconds."""
    found = SECONDS.fullmatch(text)
    if not found:
        raise ValueError(f"{text!r} is no time")
    return int(found[1] + found[2])


def page_of(page):
    """What a page tells. Whatever is none is a ValueError, or an error of the parser."""
    head, body = read(page).take("head", "body")
    *_, title, _ = head.take("meta", "meta", "meta", "title", "style")
    main, = body.take("main")
    heading, figures, *rest = main.elements
    wrong_heading = next_of(rest, lambda one: one.tag == "h2")
    wrong, times = [], {}
    while rest and rest[0].tag == "article":
        wrong.append(wrong_of(rest.pop(0)))
    if wrong_heading is not None and wrong_heading.text != "What went wrong" or (wrong_heading is None) != (not wrong):
        raise ValueError("what went wrong has no heading, or nothing below it")
    section, *sections = rest
    tests, fieldset, ul = section.take("h2", "fieldset", "ul")
    if (tests.text, fieldset.shape(), fieldset.text) != ("Tests", "legend label label label", "Show all red ones skipped ones"):
        raise ValueError("the tree has another heading")
    counts = [item.text for item in figures.elements]
    return Page(title.text, sign_of(heading.elements[0]), heading.own_text, counts[:5], wrong, list(list_of(ul, 1, times)), times, counts[5:], sections)


def sign_for(point):
    """The sign of a node: one that passed isn't ok where something in it isn't."""
    is_ok = point.line.startswith(b"ok")
    return NOT_OK if point.verdict == "pass" and not is_ok else SIGNS[point.verdict]


def shown_line(text):
    """A line of a script as it is shown: its first 160 bytes, as printable ASCII, and two dots where it has more."""
    return "".join(" " if byte == 9 else chr(byte) if 32 <= byte < 127 else "?" for byte in text[:160]) + (".." if len(text) > 160 else "")


def excerpt(script, line):
    """A line of a script and two before it and after it, with their numbers; the line itself is marked. None stands behind the last line feed."""
    *ended, last = script.split(b"\n")
    lines = [*(text[:-1] if text.endswith(b"\r") else text for text in ended), *([last] if last else [])]
    return [(number == line, number, shown_line(lines[number - 1])) for number in range(max(1, line - AROUND), min(len(lines), line + AROUND) + 1)]


def wanted_wrong(number, site, point, script, blocks, again):
    """What a page has to tell of a node that failed."""
    return Wrong(number, SIGNS[point.verdict], site.path, file_name(site.file), site.ended, point.message, excerpt(script, site.ended),
                 f"blocks {counted(blocks, 'test', 'tests')}" if blocks else None, point.output, again)


def wanted_node(number, site, point, planned):
    """What the tree has to tell of a node."""
    return Shown(point.depth, number, point.is_test, not point.line.startswith(b"ok"), sign_for(point), point.title, site.path, file_name(site.file), site.line,
                 MODES[planned.same_thread], {key: ACCESSES[access] for key, access in planned.locks.items()}, point.message, point.output)


def wanted_page(sites, points, plan, scripts, blocks, again):
    """What a page has to tell that is no time, of a run whose report has these points: of nodes that stand there and are planned so, in these scripts by
    the names of their files, which block so many tests and are run again so, both by their paths."""
    nodes = list(zip(range(1, len(points) + 1), sites, points))
    tests, classes = [point.verdict for point in points if point.is_test], [point.verdict for point in points if not point.is_test]
    size = f"{counted(len(tests), 'test', 'tests')} in {counted(len(classes), 'class', 'classes')}"
    is_ok = all(point.line.startswith(b"ok") for point in points)
    failed = sum(verdict in FAILS for verdict in tests)
    broken = sum(verdict in FAILS for verdict in classes)
    counts = [f"{tests.count('pass')} ok", f"{tests.count('skipped')} skipped", f"{failed} not ok", f"{tests.count('blocked')} blocked",
              f"{broken} {'class' if broken == 1 else 'classes'} not ok"]
    wrong = [wanted_wrong(number, site, point, scripts[site.file], blocks.get(site.path, 0), again.get(site.path))
             for number, site, point in nodes if point.verdict in FAILS]
    return Page(f"{'ok' if is_ok else 'not ok'}: {size}", SIGNS["pass"] if is_ok else NOT_OK, f": {size}", counts, wrong,
                [wanted_node(*node, planned) for node, planned in zip(nodes, plan)], {}, [], [])


def told_of(page):
    """What a page tells that is no time."""
    return page._replace(times={}, figures=[], sections=[])
