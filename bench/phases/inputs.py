"""The inputs on which the program is compared with an ordinary version of itself: scripts by name, all under one world."""

WORLD = '[properties]\na = "1"\n'
PROPERTIES = "java.lang.System.properties"


def classes(count, tests, test, mark=lambda c: ""):
    """Classes of tests, each in a line of its own; `test` makes a test's statements, `mark` the marks of a class."""
    written = ["team bench\n"]
    for c in range(count):
        lines = "".join(f"  test t{t} {{ {test(c, t)} }}\n" for t in range(tests))
        written.append(f"{mark(c)}class C{c} {{\n{lines}}}\n")
    return "".join(written)


def locked(c, t):
    """A test of a class that reads a property, or, of each fourth class, sets it."""
    return f'set_prop "a", text({t}); assert_equal "{t}", prop("a");' if c % 4 == 3 else 'assert_equal "1", prop("a");'


def large(c, t):
    """A test of eight statements, in five lines."""
    k = c * 62 + t
    return (f'let a = {k};\n    let b = a + 2;\n    assert_equal {k + 2}, b;\n'
            f'    if a < b {{ print "less " ++ text(b); }} else {{ fail "more"; }}\n    let name = "item " ++ text(a);\n'
            f'    assert_equal {5 + len(str(k))}, len(name);\n    repeat 2 {{ b = b * 2; }}\n    assert b == {4 * (k + 2)};\n  ')


def deep(levels, tests):
    """Empty tests in so many classes, one in the other."""
    inner = "".join(f"test t{t} {{ }} " for t in range(tests))
    for level in reversed(range(levels)):
        inner = f"class D{level} {{ {inner} }} "
    return f"team bench\n{inner}\n"


def named(names):
    """A test of 4,000 turns that sees so many names beside the one that it counts in."""
    lets = "".join(f"let v{i} = {i}; " for i in range(names))
    return f"team bench\nclass C {{ test t {{ {lets}let n = 0; repeat 4000 {{ n = n + 1; }} }} }}\n"


INPUTS = {
    "locks": classes(64, 62, locked, lambda c: f'{"write" if c % 4 == 3 else "read"} "{PROPERTIES}" '),
    "plain": classes(64, 62, lambda c, t: f"assert_equal {2 * t}, {t} + {t};"),
    "steps": classes(16, 16, lambda c, t: "let n = 0; repeat 4900 { n = n + 1; }"),
    "tiny": classes(64, 60, lambda c, t: f'print "{t}";'),
    "large": classes(64, 62, large),
    "depth1": deep(1, 2000), "depth8": deep(8, 2000),
    "names1": named(0), "names60": named(60),
}
