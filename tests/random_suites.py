"""Scripts of suites that are picked at random, each by a seed: 1 to 16 tests, in classes that stand up to four deep, with marks, keys, blocks
and statements of which some end a body.
"""

WORLD = 'locale = "de"\nfiles.a = "s"\nproperties.p = "1"\n'
KEYS = ("java.lang.System.properties", "java.util.Locale.default", "file:a", "K")
# What a class may declare keys for, itself or its children, and what a test may.
CLASS_TARGETS, TEST_TARGETS = ("", "children "), ("",)
# Some end the body, where the world or the declared keys are not as they want.
STATEMENTS = ('print "x";', 'print file("a");', 'print prop("p");', "print locale();", 'write_file "a", "n";', 'append_file "a", "+";',
              'delete_file "a";', 'set_prop "p", "2";', 'clear_prop "p";', 'set_locale "pl";', 'repeat 3 { print "turn"; }',
              'assert_equal "1", prop("p");', 'assume has_file("a"), "no file";', 'fail "no";')
BLOCKS = ("before_all", "after_all", "before_each", "after_each")


class Draft:
    """A script that is being written, and how many of its classes are open. Numbers that look random (xorshift) decide what comes next."""

    def __init__(self, seed):
        self.state = 0x9E37_79B9_7F4A_7C15 ^ seed
        self.text = "team shop\n"
        self.open = 0

    def number(self):
        """The upper half of the next number of 64 bits."""
        self.state ^= self.state << 13 & 0xFFFF_FFFF_FFFF_FFFF
        self.state ^= self.state >> 7
        self.state ^= self.state << 17 & 0xFFFF_FFFF_FFFF_FFFF
        return self.state >> 32

    def once_in(self, times):
        """Whether what happens once in so many times happens."""
        return self.number() % times == 0

    def one_of(self, texts):
        return texts[self.number() % len(texts)]

    def marks(self, targets):
        """Writes the marks of a node, whose keys are for one of these targets each. At times it is disabled."""
        if self.once_in(3):
            self.text += self.one_of(("same_thread ", "concurrent "))
        if self.once_in(12):
            self.text += 'disabled "later" '
        for key in KEYS:
            if self.once_in(3):
                access = self.one_of(("read", "write"))
                self.text += f'{access} {self.one_of(targets)}"{key}" '

    def body(self):
        self.text += " { "
        for _ in range(3):
            if self.once_in(2):
                self.text += self.one_of(STATEMENTS) + " "
        self.text += "}\n"

    def open_class(self, number):
        """Opens a class, and writes its blocks."""
        self.marks(CLASS_TARGETS)
        if self.once_in(12):
            self.text += "isolated "
        self.text += f"class C{number} {{\n"
        self.open += 1
        for block in BLOCKS:
            if self.once_in(4):
                self.text += block
                self.body()

    def close_class(self):
        self.text += "}\n"
        self.open -= 1

    def test(self, number):
        """Writes a test, in a new class where none is open, and else at times; and at times closes a class after it."""
        if self.open == 0 or self.open < 4 and self.once_in(3):
            self.open_class(number)
        self.marks(TEST_TARGETS)
        self.text += f"test t{number}"
        self.body()
        if self.once_in(3):
            self.close_class()


def script_of(seed):
    """The script of a seed: 1 to 16 tests, in classes that stand up to four deep."""
    draft = Draft(seed)
    for number in range(1 + draft.number() % 16):
        draft.test(number)
    while draft.open > 0:
        draft.close_class()
    return draft.text
