"""Suites that are made at random, of one to three files, whose failing statements know their lines: most say it in their message
(`fail "line 17"`). They stand in every kind of block and at every depth, in files that are laid out as nobody would: comments with braces and
quotes, LF and CR LF, statements and words on one line and over several, tabs and single CRs. What each node comes to is worked out here.
"""
from itertools import count
from pathlib import Path
from random import Random
from typing import NamedTuple, Optional

from summaries import FAILS, Command, failure, planned_name, skipped

DEEPEST = 8
BEFORE_ALL, AFTER_ALL, BEFORE_EACH, AFTER_EACH = BLOCKS = ("before_all", "after_all", "before_each", "after_each")
NAMES = ("a.jtap", "two words.jtap", "it's.jtap", "-d.jtap", "e$f;g.jtap", "ü.jtap", "tab\t.jtap", "below/h.jtap", "pat\u202e.jtap", "i\u200bj.jtap",
         "k\u2028l.jtap", "m\U000e0001.jtap", "n\u2010o.jtap")
TITLES = ('"The total"', '"a { b } // c"', r'"says \"no\""', r'"#1 \\ {"')
# What stands between tokens: where a line ends, and where it doesn't.
COMMENTS = ("// } {", '// "open', '// fail "line 1"; }', "//", "/// \\", "// class C { test t {", "//\ttab", "// " + "long " * 40)
SPACES = (" ", " ", " ", "  ", "\t", " \t ", "\r")
# Nothing, one or several of these stand between two tokens.
SIZES = {"dense": (0, 0, 0, 0, 1, 1, 1), "usual": (0, 0, 1, 1, 1, 1, 2), "loose": (0, 1, 1, 2, 2, 3)}
LINE_ENDS = {"dense": 12, "usual": 4, "loose": 2}
# The ways to run a suite, by turns.
WAYS = ((), (), ("--serial",))
met = set()


class Told(NamedTuple):
    """How a block or a node ended that didn't end well: where, as the report has it, and in which line, which a disabled node doesn't say."""

    verdict: str
    message: str
    at: str
    line: Optional[int] = None


class Node:
    """A class or test that was written: its path, where its name stands, the blocks that it has with how they end, those that have a statement,
    and what is in it."""

    def __init__(self, path, place, disabled):
        self.path = path
        self.place = place
        self.disabled = disabled
        self.blocks = {}
        self.filled = set()
        self.members = None
        self.told = None
        self.blocks_tests = 0

    def nodes(self):
        """This node, and what stands in it, as it is written."""
        yield self
        for member in self.members or ():
            yield from member.nodes()

    def tests(self):
        return [node for node in self.nodes() if node.members is None]


class Ending(NamedTuple):
    """A statement that ends its block: how, its tokens, in which `LINE` is the line of its first one, and its message."""

    verdict: str
    tokens: str
    message: str


ENDINGS = (
    Ending("fail", 'fail "line~LINE" ;', "line LINE"),
    Ending("fail", 'fail "}~{~//~LINE" ;', "} { // LINE"),
    Ending("fail", "assert_equal LINE , - 1 ;", "expected: <LINE> but was: <-1>"),
    Ending("fail", 'assert_equal "line~LINE" , text ( 0 ) ;', "expected: <line LINE> but was: <0>"),
    Ending("fail", "assert ( LINE == 0 ) == true ;", "assertion failed"),
    Ending("fault", "print xLINE ;", "unknown name xLINE"),
    Ending("fault", "xLINE = 1 ;", "unknown name xLINE"),
    Ending("fault", 'print file ( "LINE" ) ;', "undeclared READ of file:LINE"),
    Ending("fault", 'append_file "LINE" , "x" ++ "y" ;', "undeclared READ_WRITE of file:LINE"),
    Ending("fault", "print 9223372036854775807 + LINE ;", "overflow"),
    Ending("fault", "repeat - LINE { }", "bad count"),
    Ending("fault", 'if LINE { fail "no" ; }', "wrong kind"),
    Ending("fault", "repeat 10000 { }", "out of steps"),
    Ending("fault", "let STATIC = LINE ;", "name STATIC is taken"),
    Ending("skipped", 'assume LINE < 1 , "line~LINE" ;', "line LINE"),
    Ending("skipped", 'assume false , "line~LINE" ;', "line LINE"),
)
# Statements after which a block goes on, some of them around one that would end it.
WELL = ("let vNEW = LINE ;", 'print "}~//~{" ;', "assert 1 < 2 ;", 'assert_equal "a" ++ "b" , "ab" ;', 'assume true , "no" ;',
        'if false { fail "line~LINE" ; }', 'if true { } else { fail "line~LINE" ; }', 'repeat 0 { fail "line~LINE" ; }',
        "repeat 2 { let inner = 1 ; print inner ; }", "repeat 3 { }")
# What stands around the statement that ends a block: before it, and after it.
AROUND = (("", ""), ("", ""), ("if true {", "}"), ("if 2 < 1 { fail \"no\" ; } else {", "}"), ("repeat 2 {", "}"),
          ("repeat 3 { if true {", "} }"), ("let vNEW = 0 ; repeat 9 { vNEW = vNEW + 1 ; if vNEW == 3 {", "} }"))


class Draft:
    """A file that is being written, and the line and column of its next byte. `below` picks a number below another one."""

    def __init__(self, below):
        self.below = below
        self.pieces, self.line, self.column, self.last = [], 1, 1, " "
        self.size, self.ends = self.one_of(sorted(SIZES)), self.one_of((("\n",), ("\r\n",), ("\n", "\r\n")))
        self.names = 0

    def one_of(self, choices):
        return choices[self.below(len(choices))]

    def once_in(self, times):
        """Whether what happens once in so many times happens."""
        return self.below(times) == 0

    def put(self, text):
        self.pieces.append(text)
        ends = text.count("\n")
        self.line += ends
        self.column = len(text) - text.rfind("\n") if ends else self.column + len(text)
        self.last = text[-1]

    def space(self):
        """Writes some white space: in one line, or with the end of one, behind a comment at times."""
        if not self.once_in(LINE_ENDS[self.size]):
            self.put(self.one_of(SPACES))
            return
        self.put((self.one_of(COMMENTS) if self.once_in(3) else "") + self.one_of(self.ends) + self.one_of(("", "    ", "\t")))

    def gap(self, first):
        """Writes what stands between two tokens, of which the second begins so."""
        for _ in range(self.one_of(SIZES[self.size])):
            self.space()
        if (self.last.isalnum() or self.last == "_") and (first.isalnum() or first == "_"):
            self.space()

    def token(self, text):
        """Writes a token, and answers where it begins."""
        self.gap(text[0])
        place = self.line, self.column
        self.put(text)
        return place

    def tokens(self, text, static="s"):
        """Writes tokens that stand here with a space between two of them, `~` for one in a text. It answers the line of the first."""
        if "vNEW" in text:
            self.names += 1
            text = text.replace("vNEW", f"v{self.names}")
        first, *rest = text.replace("STATIC", static).split()
        self.gap(first[0])
        line = self.line
        self.put(first.replace("LINE", str(line)))
        for word in rest:
            self.token(word.replace("LINE", str(line)).replace("~", " "))
        return line


class Script(Draft):
    """A script that is being written, with the names that its suite has left."""

    def __init__(self, below, team, name, numbering):
        super().__init__(below)
        self.team, self.name, self.numbering = team, name, numbering

    def body(self, may_end, static, block):
        """Writes the body of a block, and answers how it ends, if not well. Row 1 is the line of its brace."""
        brace, _ = self.token("{")
        before = self.below(3)
        for _ in range(before):
            self.tokens(self.one_of(WELL))
        told = self.ending(static, brace, block) if may_end else None
        after = self.below(3)
        self.last_is_filled = before + after > 0 or told is not None
        for _ in range(after):
            self.tokens(self.one_of(WELL + ('fail "line~LINE" ;',)) if told else self.one_of(WELL))
        self.token("}")
        return told

    def ending(self, static, brace, block):
        """Writes a statement that ends a block whose brace is in this line, within others at times."""
        ending, (before, after) = self.one_of(ENDINGS), self.one_of(AROUND)
        if before:
            self.tokens(before)
        line = self.tokens(ending.tokens, static)
        if self.once_in(2):
            self.tokens('fail "line~LINE" ;')
        if after:
            self.tokens(after)
        message = ending.message.replace("LINE", str(line)).replace("STATIC", static)
        return Told(ending.verdict, message, f"{block} row {line - brace + 1}", line)

    def marks(self, is_class):
        """Writes the marks of a node, and answers why it is disabled, if it is."""
        reason = None
        if self.once_in(4):
            self.token(self.one_of(("same_thread", "concurrent")))
        if self.once_in(40 if is_class else 14):
            reason = self.one_of(("later", "a { b", "line 1"))
            self.token("disabled")
            self.token(f'"{reason}"')
        for key in ("K", "L // {"):
            if self.once_in(5):
                self.token(self.one_of(("read", "write")))
                if is_class and self.once_in(2):
                    self.token("children")
                self.token(f'"{key}"')
        if is_class and self.once_in(12):
            self.token("isolated")
        return reason

    def head(self, around, kind, letter):
        """Writes the head of a class or test, and answers its node."""
        reason = self.marks(kind == "class")
        self.token(kind)
        name = f"{letter}{next(self.numbering)}"
        node = Node(f"{around}.{name}", self.token(name), reason)
        if self.once_in(3):
            self.token(self.one_of(TITLES))
        return node

    def test(self, around, static):
        node = self.head(around, "test", "t")
        node.blocks["test"] = self.body(self.once_in(3), static, "test")
        return node

    def class_of(self, around, depth, deepest):
        """Writes a class in others, and in it another one until they are so deep; tests stand before and after it."""
        node = self.head(around, "class", "C")
        static = f"s{next(self.numbering)}"
        self.token("{")
        self.tokens(f"static {static} = {depth} ;")
        for kind in sorted(BLOCKS, key=lambda kind: self.below(1_000)):
            if self.once_in(2):
                self.token(kind)
                node.blocks[kind] = self.body(self.once_in(9), static, f"class {depth} {kind}")
                if self.last_is_filled:
                    node.filled.add(kind)
        node.members = [self.test(node.path, static) for _ in range(self.below(2) + (depth == deepest))]
        for _ in range(depth < deepest and 1 + self.once_in(6)):
            node.members.append(self.class_of(node.path, depth + 1, deepest))
        node.members += [self.test(node.path, static) for _ in range(self.below(2))]
        self.token("}")
        return node

    def whole(self):
        """Writes the script, and answers its classes."""
        self.tokens(f"team {self.team}")
        classes = [self.class_of(self.team, 1, 1 + self.below(DEEPEST)) for _ in range(1 + self.below(2))]
        if not self.once_in(3):
            self.space()
        return classes


def first_of(ends):
    """What blocks come to that end so: the first fail or fault, or else the first false assumption."""
    ends = [end for end in ends if end]
    return next((end for end in ends if end.verdict in FAILS), ends[0] if ends else None)


def test_blocks(node, around):
    """The blocks of a test that are run, in their order, with those of the classes around it."""
    for place, outer in enumerate(around):
        yield BEFORE_EACH, place + 1, outer.blocks.get(BEFORE_EACH)
        if outer.blocks.get(BEFORE_EACH):
            break
    else:
        yield "test", 0, node.blocks["test"]
    for place, outer in reversed(list(enumerate(around))):
        yield AFTER_EACH, place + 1, outer.blocks.get(AFTER_EACH)


def judge_own(node, around):
    """What a node's own blocks come to. Which kind of block told it, and at which depth, is kept in `met`."""
    blocks = list(test_blocks(node, around)) if node.members is None else [
        (kind, len(around) + 1, node.blocks.get(kind)) for kind in (BEFORE_ALL, AFTER_ALL)]
    told = first_of([end for _, _, end in blocks])
    met.update((kind, depth) for kind, depth, end in blocks if end and end is told)
    return told


def judge(node, around=(), cause=None):
    """Works out what a node comes to, and all that stands in it, where `cause` is why none of it is run."""
    if cause is None and node.disabled:
        cause = Told("skipped", node.disabled, "disabled")
    node.told = cause or judge_own(node, around)
    opening = None if cause else node.blocks.get(BEFORE_ALL)
    if opening and node.members is not None:
        cause = opening._replace(verdict="blocked" if opening.verdict in FAILS else "skipped")
        node.blocks_tests = len(node.tests()) if opening.verdict in FAILS else 0
    for member in node.members or ():
        judge(member, (*around, node), cause)


class Suite:
    """The suite of a seed: how it is run, and of each file the name, the text and the classes, judged."""

    def __init__(self, seed):
        numbers, numbering, names = Random(seed).random, count(1), list(NAMES)
        below = lambda limit: int(numbers() * limit)
        self.way = WAYS[seed % len(WAYS)]
        self.command = Command(*(file if seed % turn == 0 else None for file, turn in ((f"../settings{seed % 4}", 2), ("../world", 3), (7, 5))))
        self.files = []
        for _ in range(1 + below(3)):
            script = Script(below, ("shop", "bank")[below(2)], names.pop(below(len(names))), numbering)
            classes = script.whole()
            for node in classes:
                judge(node)
            self.files.append((script.name, "".join(script.pieces).encode(), classes))

    def words(self, word, *more):
        """The words of a run or a plan of the files."""
        return (word, *more, *self.command.words(), "--", *(name for name, _, _ in self.files))

    def nodes(self):
        """Each node with its file's name and text, as they are written."""
        return [(name, text, node) for name, text, classes in self.files for top in classes for node in top.nodes()]

    def summary(self):
        """What is told of all nodes, but for the counts."""
        return b"".join(self.told(*found) for found in self.nodes() if found[2].told)

    def told(self, name, text, node):
        """What is told of a node that failed or was skipped: nothing of a skipped class, and nothing of what is blocked."""
        verdict, message, _, line = node.told
        if verdict in FAILS:
            return failure(self.command, node.path, name, text, line, message, node.blocks_tests)
        return skipped(node.path, name, line or node.place[0], message) if verdict == "skipped" and node.members is None else b""

    def ends(self):
        """Of each node whether it is a test, how it ended, and where."""
        return [(node.members is None, *(node.told or ("pass", None, None))[:3]) for _, _, node in self.nodes()]

    def places(self):
        """What `plan --places` adds to the line of each node."""
        return [f" {planned_name(name)}:{node.place[0]}:{node.place[1]}" for name, _, node in self.nodes()]


def written(folder, seed, suite):
    """Writes the files of a suite into a folder of its own."""
    where = Path(folder, str(seed))
    for name, text, _ in suite.files:
        Path(where, name).parent.mkdir(parents=True, exist_ok=True)
        Path(where, name).write_bytes(text)
    return where
