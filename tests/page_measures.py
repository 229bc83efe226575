"""What the scripts share that try the measured parts of pages (`--html`): a reader of the picture, of the locks and of the slowest, and what follows
for them from the bodies of a trace of the same run, by `traces.py` and the rules of `docs/PAGE.md`. Times are in nanoseconds.
"""
from typing import NamedTuple

from critical import critical_of
from page_reader import micros
from traces import GLOBAL, LONGEST_TOLD, at_best

PIXELS = 1_000
HUNDREDTHS = 100
LANE = 24
SLOWEST = 10
BAD = ("fail", "fault")
WORDS = {"pass": "ok"}
ACCESSES = {"read": ("READ", "r"), "write": ("READ_WRITE", "w")}
# From the top of its lane, how far down a bar begins, and how high it is.
HEIGHTS = {"b": (6, "12"), "r": (6, "12"), "f": (2, "20"), "w": (2, "20")}


class Bar(NamedTuple):
    """A bar of a row: how it looks, where it stands and how wide it is, and what it is called."""

    look: str
    place: str
    width: str
    title: str


class Measures(NamedTuple):
    """What is told below the tree: the lanes of the workers, the rows of keys, the end of the axis, the line of each key, the longest chain, and the
    slowest with their times."""

    lanes: dict
    rows: dict
    end: int
    keys: dict
    chain: list
    slowest: list


class Stretch(NamedTuple):
    """What is drawn: a body, which may be critical, or a node that had a key, from when until when."""

    look: str
    path: str
    title: str
    begin: int
    end: int
    is_critical: bool = False


def shown(look, is_critical):
    """The class of a bar, and what its title says of that."""
    return (f"{look} c", ", critical") if is_critical else (look, "")


def rows_of(svg):
    """The bars of a picture, by the number of their lane."""
    rows = {}
    for rect in svg.elements:
        told = rect.attributes
        title, = rect.take("title")
        top, height = HEIGHTS[told["class"][0]]
        lane, rest = divmod(int(told["y"]) - top, LANE)
        if rest or told["height"] != height:
            raise ValueError(f"{title.text} stands in no lane")
        rows.setdefault(lane, []).append(Bar(told["class"], told["x"], told["width"], title.text))
    return rows


def picture_of(div, words):
    """The labels of a picture, and its bars by their lanes."""
    labels, svg = div.take("ol", "svg")
    names = [item.text for item in labels.elements]
    size = str(LANE * len(names))
    if svg.attributes["height"] != size or svg.attributes["viewbox"] != f"0 0 {PIXELS} {size}" or svg.attributes["aria-label"] != words(names):
        raise ValueError(f"the picture of {', '.join(names)} is {svg.attributes}")
    return names, rows_of(svg)


def key_row_of(div):
    """A key that was waited for, and its bars."""
    (name,), rows = picture_of(div, lambda names: f"Who had {names[0][len('key '):]}")
    key = name[len("key "):]
    if name[:4] != "key " or div.elements[0].elements[0].attributes != {"title": f"who had {key}"}:
        raise ValueError(f"{name} is the name of a key's row")
    return key, rows.get(0, [])


def table_of(div, heads):
    """The rows of a table under these heads, each as its cells."""
    table, = div.take("table")
    head, body = table.take("thead", "tbody")
    if [[cell.text for cell in row.elements] for row in head.elements] != [heads]:
        raise ValueError(f"a table of {head.text}")
    return [row.elements for row in body.elements]


def link_of(link):
    return int(link.attributes["href"][2:]), link.text


def measures_of(sections):
    """What the elements below the tree tell, None where there are none."""
    if not sections:
        return None
    first, lanes, *rest = sections
    names, bars = picture_of(lanes, lambda names: "What each worker ran")
    rows = []
    while rest[0].elements and rest[0].elements[0].tag == "ol":
        rows.append(key_row_of(rest.pop(0)))
    axis, _, second, keys, _, *rest = rest
    chain = [rest.pop(0)] if rest[0].tag == "p" else []
    third, slowest = rest
    if [one.text for one in (first, second, third)] != ["The run", "Locks", "Slowest"] or names != [f"worker {n}" for n in range(len(names))]:
        raise ValueError("the headings are others")
    begin, end = axis.take("p")[0].take("span", "span")
    lines = table_of(keys, ["key", "readers", "writers", "held", "waited for"])
    if begin.text != "0.000000 s" or len(dict(rows)) != len(rows) or set(bars) - set(range(len(names))):
        raise ValueError("the picture has other rows")
    return Measures({lane: bars.get(lane, []) for lane in range(len(names))}, dict(rows), micros(end.text),
                    {key.text: (int(readers.text), int(writers.text), micros(held.text), micros(waited.text))
                     for key, readers, writers, held, waited in lines},
                    [(line.text, [link_of(link) for link in line.elements]) for line in chain],
                    [(link_of(path.elements[0]), micros(time.text)) for path, time in table_of(slowest, ["path", "time"])])


def seconds(nanos):
    """A time as the page tells it, cut off after microseconds."""
    return f"{nanos // 1_000_000_000}.{nanos // 1_000 % 1_000_000:06} s"


def between(stretch):
    return f"{seconds(stretch.begin)} to {seconds(stretch.end)}"


def place(span, moment):
    """Where a moment stands, in hundredths of a pixel."""
    return min(moment * PIXELS * HUNDREDTHS // span, PIXELS * HUNDREDTHS) if span else 0


def pixels(hundredths):
    return f"{hundredths // HUNDREDTHS}.{hundredths % HUNDREDTHS:02}"


def together(pixel, stretches, word, words):
    """The bar of those that are thinner than a pixel and begin in the same one. It looks as the worst of them."""
    look, critical = shown(max((one.look for one in stretches), key="brfw".index), any(one.is_critical for one in stretches))
    count, more = len(stretches), ", .." if len(stretches) > 1 else ""
    begin, end = min(one.begin for one in stretches), max(one.end for one in stretches)
    what = f"{count} {word if count == 1 else words}: {stretches[0].path}{more}{critical}"
    return Bar(look, pixels(pixel * HUNDREDTHS), "1.00", f"{what}, {seconds(begin)} to {seconds(end)}")


def row_of(span, stretches, word, words):
    """The bars of a row: the wide ones in their order, and behind them one for each pixel in which thinner ones begin."""
    wide, thin = [], {}
    for one in stretches:
        begin, end = place(span, one.begin), place(span, one.end)
        if end - begin < HUNDREDTHS:
            thin.setdefault(min(begin // HUNDREDTHS, PIXELS - 1), []).append(one)
        else:
            look, critical = shown(one.look, one.is_critical)
            wide.append(Bar(look, pixels(begin), pixels(end - begin), f"{one.title}{critical}, {between(one)}"))
    return wide + [together(pixel, thin[pixel], word, words) for pixel in sorted(thin)]


def body_of(body, critical):
    """What is drawn of a body, where those with these names are critical."""
    title = f"{body.name}: {WORDS.get(body.verdict, body.verdict)}"
    return Stretch("f" if body.verdict in BAD else "b", body.path, title, body.begin, body.end, body.name in critical)


def lanes_of(suite, times):
    """The bars of each lane, in the order of the nodes: of the bodies of nodes that have a time of their own."""
    order, critical = {node.path: node.number for node in suite.nodes}, {*critical_of(suite)}
    bodies = sorted((body for body in suite.trace.bodies if body.path in times), key=lambda body: (order[body.path], body.name.endswith(" after_all")))
    return {lane: row_of(suite.span(), [body_of(body, critical) for body in bodies if body.lane == lane], "body", "bodies") for lane in suite.trace.lanes}


def takers_of(suite, key):
    """What is drawn of the nodes that had a key."""
    takers = [(node, *ACCESSES[node.locks[key]]) for node in suite.nodes if key in node.locks and node.path in suite.stays]
    return [Stretch(look, node.path, f"{node.path}: {word}", *suite.stays[node.path]) for node, word, look in takers]


def key_line(suite, key):
    """How many nodes take a key for reading and for writing, how long they had it, and how long it was waited for, in microseconds."""
    taken = [node.locks[key] for node in suite.nodes if key in node.locks]
    held = sum(stretch.end - stretch.begin for stretch in takers_of(suite, key))
    waited = sum(wait.time for wait in suite.single_waits if wait.key == key)
    return taken.count("read"), taken.count("write"), held // 1_000, waited // 1_000


def chain_of(suite):
    """The line of the longest chain with the nodes that it leads to, if there is one."""
    longest, numbers = suite.longest(), {node.path: node.number for node in suite.nodes}
    if longest is None:
        return []
    time, what, is_key, chain = longest
    paths = [path for _, path in sorted(chain, key=lambda one: -one[0])]
    more = ", .." if len(chain) > LONGEST_TOLD else ""
    links = [*([] if is_key or what not in numbers else [what]), *paths[:LONGEST_TOLD]]
    return [(f"longest chain {seconds(time)}: {what}: {', '.join(paths[:LONGEST_TOLD])}{more}", [(numbers[path], path) for path in links])]


def slowest_of(suite, times):
    """The slowest nodes with their times: of equal ones the first written."""
    nodes = sorted((node for node in suite.nodes if node.path in times), key=lambda node: (-times[node.path], node.number))
    return [((node.number, node.path), times[node.path]) for node in nodes[:SLOWEST]]


def wanted_measures(suite, times):
    """What is to stand below the tree, of a run with this trace, whose nodes have these times."""
    keys = {GLOBAL, *(key for node in suite.nodes for key in node.locks)}
    waited = {wait.key for wait in suite.single_waits}
    return Measures(lanes_of(suite, times), {key: row_of(suite.span(), takers_of(suite, key), "node", "nodes") for key in waited}, suite.span() // 1_000,
                    {key: key_line(suite, key) for key in keys}, chain_of(suite), slowest_of(suite, times))


def wanted_figures(suite, started, workers):
    """What is to stand beside the counts."""
    span, work, longest = suite.span(), suite.work(), suite.longest()
    best = [f"{at_best(work, workers, longest[0])} times at best"] if longest else []
    return [f"{started} of {workers} worker{'s' * (workers != 1)}", f"{seconds(span)} wall time", f"{work // started * 100 // span if span else 0} % busy", *best]


def own_times(suite, times):
    """How long the bodies took of the nodes that have a time, each cut off after microseconds."""
    found = dict.fromkeys(times, 0)
    for body in suite.trace.bodies:
        if body.path in found:
            found[body.path] += (body.end - body.begin) // 1_000
    return found
