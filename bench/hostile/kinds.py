"""The worst inputs of each kind that were found. Each function makes the files of one for a share of its largest size, and says by
which words the program is asked."""

MEBIBYTE = 1_048_576
KINDS = {}


def kind(*words):
    """Names the words of a kind, to which the scripts are added."""

    def keep(make):
        KINDS[make.__name__] = (words, make)
        return make

    return keep


def one(text):
    return {"s0.jtap": "team t\n" + text}


def filled(before, piece, after, size, first=0):
    """As many pieces, numbered from `first` on, between two texts as fit into so many bytes."""
    pieces, room, number = [before], size - len(before) - len(after), first
    while room >= (length := len(made := piece.replace("#", str(number)))):
        pieces.append(made)
        room -= length
        number += 1
    return "".join(pieces) + after


def tests(count, before="", body=" "):
    return "".join(f"{before}test t{number} {{{body}}}\n" for number in range(count))


def settings(count):
    return ('[junit.jupiter.execution.parallel]\nenabled = true\nmode.default = "concurrent"\nmode.classes.default = "concurrent"\n'
            f'config.strategy = "fixed"\nconfig.fixed.parallelism = {count}\n')


def named_statics(size):
    """The beginning of a class with as many statics as fit into so many bytes, and the name of the last one."""
    text = filled("class C { ", "static s#=1;", "", size, 10000)
    return text, f"s{9999 + text.count('static')}"


def summed(operand, count):
    """The sum of so many operands, in chains of 32."""
    return added([operand] * count)


def added(parts):
    """The sum of operands, in chains of 32."""
    while len(parts) > 1:
        parts = ["(" + "+".join(parts[place:place + 32]) + ")" for place in range(0, len(parts), 32)]
    return parts[0]


def reads(first, after, children=""):
    """Marks that read the keys with these numbers, each by itself."""
    return "".join(f'read {children}"{number}" ' for number in range(first, after))


def in_scripts(classes):
    """Top-level classes, in as few scripts as they fit into."""
    files, size = {}, MEBIBYTE
    for text in classes:
        if size + len(text) > MEBIBYTE - 16:
            name, size = f"s{len(files)}.jtap", 0
            files[name] = ["team t\n"]
        files[name].append(text)
        size += len(text)
    return {name: "".join(texts) for name, texts in files.items()}


# Scripts, read and planned.


@kind("plan")
def statements(share):
    """A test of the most statements."""
    return one(filled("class C { test t { ", "print 1; ", "} }", int((MEBIBYTE - 7) * share)))


@kind("plan")
def tokens(share):
    """The most tokens: an empty statement has three."""
    return one(filled("class C { test t { ", "if 1{}", "} }", int((MEBIBYTE - 7) * share)))


@kind("plan")
def different_marks(share):
    """One class with the most different keys, which is refused."""
    return one(filled("", 'read "#" ', "class C { test t { } }", int((MEBIBYTE - 7) * share)))


@kind("plan")
def different_marks_64(share):
    """As many in each of 64 scripts."""
    text = filled("", 'read "#" ', "class C.. { test t { } }", int((MEBIBYTE - 7) * share))
    return {f"s{number}.jtap": "team t\n" + text.replace("C..", f"C{number}") for number in range(64)}


@kind("plan")
def equal_marks(share):
    """One class with one key again and again."""
    return one(filled("", 'read "k" ', "class C { test t { } }", int((MEBIBYTE - 7) * share)))


@kind("plan")
def marks_255(share):
    """One class with 255 keys again and again."""
    keys = "".join(f'read "{number}" ' for number in range(255))
    return one(filled("", keys, "class C { test t { } }", int((MEBIBYTE - 7) * share)))


@kind("plan")
def marks_over_tests(share):
    """One class with 255 keys again and again, and 4,094 tests in it."""
    keys = "".join(f'read "{number}" ' for number in range(255))
    inside = "class C {\n" + tests(int(4094 * share)) + "}"
    return one(filled("", keys, inside, int((MEBIBYTE - 7) * share)))


@kind("plan")
def keys_of_nodes(share):
    """4,095 nodes, each test with marks of 255 keys, in 12 scripts."""
    marks = "".join(f'write "{number}" ' for number in range(255))
    return {f"s{number}.jtap": f"team t\nclass C{number} {{\n{tests(int(340 * share), marks)}}}\n" for number in range(12)}


@kind("plan")
def deep_bodies(share):
    """Bodies 32 deep, again and again."""
    return one(filled("class C { test t { ", "if 1{" * 31 + "}" * 31, "} }", int((MEBIBYTE - 7) * share)))


@kind("plan")
def deep_parentheses(share):
    """Parentheses 32 deep, again and again."""
    return one(filled("class C { test t { ", "print " + "(" * 32 + "1" + ")" * 32 + ";", "} }", int((MEBIBYTE - 7) * share)))


@kind("plan")
def nodes(share):
    """4,095 nodes in classes 8 deep."""
    return one("".join("class C%d { %s test t { } %s\n" % (number, "class D { " * 7, "} " * 8) for number in range(int(455 * share))))


@kind("plan")
def top_level_names(share):
    """4,095 nodes, half of them top-level classes with names of 64 bytes."""
    return one("".join(f"class {'C' * 58}{number:06} {{ test t {{ }} }}\n" for number in range(int(2047 * share))))


@kind("plan")
def member_names(share):
    """4,094 tests in a class, with names of 64 bytes that begin alike."""
    return one("class C {\n" + "".join(f"test {'t' * 58}{number:06} {{ }}\n" for number in range(int(4094 * share))) + "}\n")


@kind("plan")
def static_names(share):
    """The most statics of one class."""
    return one(filled("class C { ", "static s#=1;", "test t { } }", int((MEBIBYTE - 7) * share)))


# Scripts, run on one thread.


@kind("run", "--serial")
def long_expression(share):
    """An expression that fills the script, in 4,999 turns."""
    return one("class C { test t { repeat 4999 { let x=" + summed("1", int(14 * 32768 * share)) + "; } } }")


@kind("run", "--serial")
def looked_up_statics(share):
    """Half a script of statics, and expressions that name the last of them in the other half."""
    size = int(MEBIBYTE * share / 2)
    text, last = named_statics(size)
    chain = "(" + "+".join([last] * 32) + ");"
    return one(text + filled("test t { ", "print " + chain, "} }", size))


@kind("run", "--serial")
def turns_over_statics(share):
    """A 32nd of a script, half of it statics and half an expression that names the last of them, in 4,999 turns of one test."""
    size = int(MEBIBYTE * share / 64)
    text, last = named_statics(size)
    return one(text + "test t { repeat 4999 { let x=" + summed(last, size // (len(last) + 1)) + "; } } }")


@kind("run", "--serial")
def let_under_statics(share):
    """A script of statics, in which four tests declare a local 4,999 times."""
    inside = tests(4, "", " repeat 4999 { let x=1; } ") + "}"
    return one(filled("class C { ", "static s#=1;", inside, int((MEBIBYTE - 7) * share)))


@kind("run", "--serial")
def statics_of_classes(share):
    """Statics of a class, and classes in it, each of which sees them."""
    inner = "".join(f"class C{number} {{ test t {{ }} }}\n" for number in range(int(200 * share))) + "}"
    return one(filled("class C { ", "static s#=1;", inner, int((MEBIBYTE - 7) * share)))


@kind("run", "--serial")
def statics_of_tests(share):
    """Statics of a class, and tests in it, each of which sees them."""
    return one(filled("class C { ", "static s#=1;", tests(int(4000 * share)) + "}", int((MEBIBYTE - 7) * share)))


@kind("run", "--serial")
def statics_of_blocks(share):
    """Statics of the innermost of eight classes, each of which has blocks around the tests in it."""
    outer = "".join(f"class C{depth} {{ before_each {{ }} after_each {{ }} " for depth in range(7))
    inside = "before_each { } after_each { } " + tests(int(4000 * share)) + "}" * 8
    return one(filled(outer + "class C7 { ", "static s#=1;", inside, int((MEBIBYTE - 7) * share)))


@kind("run", "--serial")
def looked_up_statics_of_tests(share):
    """Statics of a class, and tests in it, each of which looks up 60 names."""
    inside = tests(int(4000 * share), "", " repeat 60 { let x=s0; } ") + "}"
    return one(filled("class C { ", "static s#=1;", inside, int((MEBIBYTE - 7) * share)))


@kind("run", "--serial")
def looked_up_locals(share):
    """5,000 locals in a body, the first of which is named again and again."""
    count = int(4900 * share)
    lets = "".join(f"let x{number}=1;" for number in range(count))
    chain = "+".join(["x0"] * 32)
    return one("class C { test t { " + lets + f"print {chain};" * count + "} }")


@kind("run", "--serial")
def fields_of_tests(share):
    """Half a script of fields, and tests in the other half."""
    size = int(MEBIBYTE * share / 2)
    return one(filled("class C { ", "field f#=1;", "", size) + tests(int(4000 * share)) + "}")


@kind("run", "--serial")
def fields_of_texts(share):
    """Fields of 4,096 bytes each in half of a script, and 4,000 tests."""
    fields = "".join(f'field f{number}="{"a" * 4096}";' for number in range(int(128 * share)))
    return one("class C { " + fields + tests(int(4000 * share)) + "}")


@kind("run", "--serial")
def steps(share):
    """10,000 steps in each of 17 blocks of 600 tests."""
    classes = "".join(f"class C{depth} {{ before_each {{ repeat 9999 {{ }} }} after_each {{ repeat 9999 {{ }} }} " for depth in range(8))
    return one(classes + tests(int(600 * share), "", " repeat 9999 { } ") + "}" * 8)


@kind("run", "--serial")
def short_lines(share):
    """The most output in lines of one letter, in 1,000 tests."""
    blocks = 'before_each { repeat 4999 { print "a"; } } after_each { repeat 4999 { print "a"; } } '
    classes = "".join(f"class C{depth} {{ {blocks if depth < 4 else ''}" for depth in range(8))
    return one(classes + tests(int(1000 * share)) + "}" * 8)


@kind("run", "--serial")
def long_lines(share):
    """The most output in lines of 4,095 quotes, in 4,094 tests."""
    text = '\\"' * 4095
    return one(f'class C {{ before_each {{ let a = "{text}"; repeat 16 {{ print a; }} }}\n' + tests(int(4094 * share)) + "}")


@kind("run", "--serial")
def blocked(share):
    """4,094 tests that are blocked with a message of 8 KiB, each letter a quote."""
    text = '\\"' * 4090
    return one(f'class C {{ before_all {{ assert_equal "a{text}", "b{text}"; }}\n' + tests(int(4094 * share)) + "}")


@kind("run", "--serial")
def properties(share):
    """A test that sets 4,999 properties by names of 4,096 bytes, and takes all of them back, in 50 tests."""
    body = f' let p = "{"p" * 4000}"; let n = 0; repeat 3300 {{ set_prop p ++ text(n), p; n = n + 1; }} '
    return one('write "java.lang.System.properties" class C {\n' + tests(int(50 * share), "", body) + "}")


@kind("run", "--serial")
def joined(share):
    """Texts of 4,096 bytes that are joined in 3,300 turns of 100 tests."""
    body = f' let p = "{"p" * 2048}"; repeat 3300 {{ let q = p ++ p; let r = q == q; }} '
    return one("class C {\n" + tests(int(100 * share), "", body) + "}")


@kind("plan", "--only", "t.C.t0")
def unselected_tests(share):
    """A class with 255 marks for its children, and the most tests, of which one is kept."""
    return one(filled(reads(0, 255, "children ") + "class C {\n", "test t#{}\n", "}", int((MEBIBYTE - 7) * share)))


@kind("run", "--serial")
def changed_properties(share):
    """A property with a name and a text of 4,000 bytes, which each block around a test in 8 classes changes in 4,999 turns."""
    turns = f"repeat {int(4999 * share)} {{ set_prop v, v; }}"
    blocks = " ".join(f"{block} {{ {turns} }}" for block in ("before_all", "before_each", "after_each", "after_all"))
    opened = "".join(f"class C{depth} {{ {blocks}\n" for depth in range(1, 8))
    return one(f'write "java.lang.System.properties" class C0 {{ static v = "{"a" * 4000}"; {blocks}\n{opened}test t {{ {turns} }}\n' + "}" * 8)


@kind("run", "--serial")
def looked_up_files(share):
    """A statement with 500 looks at files among 255 declared paths, in 4,999 turns."""
    marks = "".join(f'read "file:{100 + number}" ' for number in range(255))
    looks = added([f'len(text(has_file("{100 + number % 255}")))' for number in range(int(500 * share))])
    return one(marks + "class C {\n" + tests(1, "", f" repeat 4999 {{ let x = {looks}; }} ") + "}")


@kind("run", "--serial")
def writers_of_255_keys(share):
    """4,000 tests that each write 255 keys, which their class has for its children."""
    return one("".join(f'write children "{number}" ' for number in range(255)) + "class C {\n" + tests(int(4000 * share)) + "}")


@kind("run", "--serial")
def writers_of_one_key(share):
    """4,000 tests that write one key."""
    return one("class C {\n" + tests(int(4000 * share), 'write "k" ') + "}")


# Several workers.


@kind("run", "--settings", "settings.toml")
def classes_with_writers(share):
    """2,040 top-level classes with a test each, which reads 254 keys and writes one more, on 64 workers."""
    marks = reads(0, 254) + 'write "254" '
    return {**in_scripts(f"class C{number} {{ {marks}test t {{ }} }}\n" for number in range(int(2040 * share))), "settings.toml": settings(64)}


@kind("run", "--settings", "settings.toml")
def marks_of_children(share):
    """A class with 230 marks for its children, and 3,900 empty tests, on 64 workers."""
    return {**one(reads(0, 230, "children ") + "class C {\n" + tests(int(3900 * share)) + "}"), "settings.toml": settings(64)}


@kind("run", "--settings", "settings.toml")
def readers_by_children(share):
    """4,090 tests that read 255 keys, on 64 workers."""
    return {**one(reads(0, 255, "children ") + "class C {\n" + tests(int(4090 * share)) + "}"), "settings.toml": settings(64)}


@kind("run", "--settings", "settings.toml")
def open_classes(share):
    """2,040 top-level classes that read 255 keys, with an empty test each, which one worker opens before it runs their tests."""
    marks = reads(0, 255)
    return {**in_scripts(f"{marks}class C{number} {{ test t {{ }} }}\n" for number in range(int(2040 * share))), "settings.toml": settings(1)}


@kind("run", "--settings", "settings.toml")
def classes_with_some_locks(share):
    """An ordinary suite: 2,000 classes of one printing test, each with 20 marks of 40 keys, by one worker."""
    classes = (f'{"".join(f"""read "{(7 * number + 3 * key) % 40}" """ for key in range(20))}class C{number} {{ test t {{ print 1; }} }}\n'
               for number in range(int(2000 * share)))
    return {**in_scripts(classes), "settings.toml": settings(1)}



@kind("run", "--settings", "settings.toml")
def conflicts(share):
    """4,000 tests that all write 255 keys, on 64 workers."""
    marks = "".join(f'write "{number}" ' for number in range(255))
    files = {f"s{number}.jtap": f"team t\nclass C{number} {{\n{tests(int(330 * share), marks)}}}\n" for number in range(12)}
    return {**files, "settings.toml": settings(64)}


@kind("run", "--settings", "settings.toml")
def readers_and_writers(share):
    """4,094 tests on 64 workers, of which every second writes a key that the others read."""
    pairs = "".join(f'read "k" test r{number} {{ }}\nwrite "k" test w{number} {{ }}\n' for number in range(int(2047 * share)))
    return {**one("class C {\n" + pairs + "}"), "settings.toml": settings(64)}


@kind("run", "--world", "world.toml", "--settings", "settings.toml")
def written_world(share):
    """The most starting properties, which 2,000 classes write in turn, on 64 workers."""
    classes = "".join(f'write "java.lang.System.properties" class C{number} {{ test t {{ set_prop "{number}", "a"; }} }}\n'
                      for number in range(int(2000 * share)))
    return {**one(classes), "world.toml": filled("[properties]\n", "#=''\n", "", int(MEBIBYTE * share)), "settings.toml": settings(64)}


@kind("run", "--world", "world.toml", "--settings", "settings.toml")
def files_of_world(share):
    """The most starting files, 255 of which are read and written by 4,080 tests, on 64 workers."""
    marks = "".join(f'write "file:{100 + number % 255}" test t{number} {{ append_file "{100 + number % 255}", "a"; }}\n'
                    for number in range(int(4080 * share)))
    return {**one("class C {\n" + marks + "}"), "world.toml": filled("[files]\n", "#=''\n", "", int(MEBIBYTE * share)),
            "settings.toml": settings(64)}


# Settings and worlds.


@kind("plan", "--world", "world.toml")
def deepest_tables(share):
    """Tables 6,500 deep, again and again."""
    table = "a." * 79 + "a={"
    deep = lambda number: f"files.k{number}." + "a." * 77 + "a={" + table * 79 + " " + "}" * 80 + "\n"
    return {**one(""), "world.toml": "".join(deep(number) for number in range(int(78 * share)))}


@kind("plan", "--settings", "settings.toml")
def deepest_settings(share):
    table = "a." * 79 + "a={"
    deep = lambda number: f"k{number}." + "a." * 78 + "a={" + table * 79 + " " + "}" * 80 + "\n"
    return {**one(""), "settings.toml": "".join(deep(number) for number in range(int(78 * share)))}


@kind("plan", "--world", "world.toml")
def long_joined_keys(share):
    """The most keys that are joined to nearly 4,096 bytes."""
    return {**one(""), "world.toml": filled(f"[files.{'a' * 4080}]\n", "k#=''\n", "", int(MEBIBYTE * share))}


@kind("plan", "--world", "world.toml")
def many_keys(share):
    return {**one(""), "world.toml": filled("[properties]\n", "#=''\n", "", int(MEBIBYTE * share))}


@kind("plan", "--settings", "settings.toml")
def many_settings(share):
    return {**one(""), "settings.toml": filled("", "#=0\n", "", int(MEBIBYTE * share))}


@kind("plan", "--settings", "settings.toml")
def dotted_settings(share):
    """Keys of 80 parts, each with tables of its own."""
    return {**one(""), "settings.toml": filled("", "k#." + "a." * 78 + "a=0\n", "", int(MEBIBYTE * share))}


@kind("plan", "--settings", "settings.toml")
def shared_dots(share):
    """Keys of 80 parts in the same tables."""
    return {**one(""), "settings.toml": filled("", "a." * 79 + "k#=0\n", "", int(MEBIBYTE * share))}


@kind("plan", "--settings", "settings.toml")
def headers(share):
    return {**one(""), "settings.toml": filled("", "[a.b.k#]\n", "", int(MEBIBYTE * share))}


@kind("plan", "--settings", "settings.toml")
def deep_headers(share):
    return {**one(""), "settings.toml": filled("", "[" + "a." * 79 + "k#]\n", "", int(MEBIBYTE * share))}


@kind("plan", "--settings", "settings.toml")
def arrays_of_tables(share):
    return {**one(""), "settings.toml": "[[a]]\n" * int(MEBIBYTE * share / 6)}


@kind("plan", "--settings", "settings.toml")
def wide_array(share):
    return {**one(""), "settings.toml": "a=[" + "0," * int((MEBIBYTE - 8) * share / 2) + "]\n"}


@kind("plan", "--settings", "settings.toml")
def deep_arrays(share):
    return {**one(""), "settings.toml": filled("", "k#=" + "[" * 79 + "]" * 79 + "\n", "", int(MEBIBYTE * share))}


@kind("plan", "--settings", "settings.toml")
def unclosed_arrays(share):
    return {**one(""), "settings.toml": "a=" + "[" * int((MEBIBYTE - 8) * share)}


@kind("plan", "--world", "world.toml")
def control_characters(share):
    """A key of line feeds alone, which the line on standard error shows by their numbers."""
    return {**one(""), "world.toml": '"' + "\\n" * int((MEBIBYTE - 16) * share / 2) + '"=1\n'}


@kind("plan", "--settings", "settings.toml")
def escapes(share):
    return {**one(""), "settings.toml": 'a="' + "\\n" * int((MEBIBYTE - 16) * share / 2) + '"\n'}


@kind("plan", "--settings", "settings.toml")
def comments(share):
    return {**one(""), "settings.toml": "#\n" * int(MEBIBYTE * share / 2)}


# Schedules.


def long_schedule(share, last):
    count = int(14 * share)
    events = ["enter 0 1", "leave 0"]
    for number in range(count):
        events += [f"enter 0 {number + 2}", *["step 0"] * 10000, "leave 0"]
    return {**one("class C {\n" + tests(count, "", " repeat 9999 { } ") + "}"), "e": "\n".join(events + last) + "\n"}


@kind("replay", "--schedule", "e")
def longest_schedule(share):
    return long_schedule(share, ["shut 0 1", "leave 0"])


@kind("replay", "--schedule", "e")
def refused_last_event(share):
    return long_schedule(share, ["shut 0 1", "leave 0", "leave 0"])


@kind("replay", "--schedule", "e")
def bad_last_line(share):
    return long_schedule(share, ["shut 0 1", "leave 0", "leave"])


@kind("replay", "--schedule", "e")
def empty_lines(share):
    return {**one(""), "e": "\n" * int(MEBIBYTE * share)}


@kind("replay", "--schedule", "e", "--settings", "settings.toml")
def entered_nodes(share):
    """4,080 tests that each write a key of their own of 255, entered one after another; each Enter goes over all nodes."""
    count = int(4080 * share)
    text = "class C {\n" + "".join(f'write "k{number % 255}" test t{number} {{ }}\n' for number in range(count)) + "}"
    events = ["enter 0 1", "leave 0"] + [event for number in range(count) for event in (f"enter 0 {number + 2}", "leave 0")]
    return {**one(text), "e": "\n".join(events + ["shut 0 1", "leave 0"]) + "\n", "settings.toml": settings(64)}


@kind("replay", "--schedule", "e", "--settings", "settings.toml")
def readers_of_255_keys(share):
    """4,080 tests that read 255 keys, which one worker runs while 63 others are in such tests."""
    marks, count = "".join(f'read "{number}" ' for number in range(255)), int(340 * share)
    files = {f"s{number}.jtap": f"team t\nclass C{number} {{\n{tests(count, marks)}}}\n" for number in range(12)}
    classes = [1 + number * (count + 1) for number in range(12)]
    nodes = [first + 1 + number for first in classes for number in range(count)]
    events = [event for first in classes for event in (f"enter 0 {first}", "leave 0")]
    events += [f"enter {worker} {nodes[worker - 1]}" for worker in range(1, 64)]
    events += [event for node in nodes[63:] for event in (f"enter 0 {node}", "leave 0")]
    events += [f"leave {worker}" for worker in range(1, 64)] + [event for first in classes for event in (f"shut 0 {first}", "leave 0")]
    return {**files, "e": "\n".join(events) + "\n", "settings.toml": settings(64)}


@kind("replay", "--schedule", "e", "--settings", "settings.toml")
def opened_before_closed(share):
    """2,040 classes that read 255 keys, which stand in one class and are all opened before one is closed."""
    count = int(2040 * share)
    text = reads(0, 255, "children ") + "class C {\n" + "".join(f"class D{number} {{ test t {{ }} }}\n" for number in range(count)) + "}"
    events = ["enter 0 1", "leave 0"] + [event for number in range(count) for event in (f"enter 0 {2 + 2 * number}", "leave 0")]
    for number in range(count):
        events += [f"enter 0 {3 + 2 * number}", "leave 0", f"shut 0 {2 + 2 * number}", "leave 0"]
    return {**one(text), "e": "\n".join(events + ["shut 0 1", "leave 0"]) + "\n", "settings.toml": settings(1)}


@kind("run", "--serial")
def looked_up_keys(share):
    """255 files with paths of 250 bytes that begin alike, the last of which is asked for in 4,999 turns of 20 tests."""
    paths = [f"{'p' * 247}{number:03}" for number in range(int(255 * share))]
    marks = "".join(f'read "file:{path}"\n' for path in paths)
    return one(marks + "class C {\n" + "".join(tests(20, "", f' repeat 4999 {{ let x=has_file("{path}"); }} ') for path in paths[:1])
               + "class D {\n" + "".join(tests(20, "", f' repeat 4999 {{ let x=has_file("{path}"); }} ') for path in paths[-1:]) + "}}")


# What is told of plans, runs and states.


@kind("plan", "--why")
def why_gathered(share):
    """A class that takes 255 keys, each of which all of the 4,000 tests in it declare."""
    return one('read "255" class C { ' + reads(0, 254, "children ") + "class D {\n" + tests(int(4000 * share)) + "}}")


@kind("plan", "--conflicts")
def conflicts_of_all_keys(share):
    """4,000 tests that read 255 keys."""
    return one(reads(0, 255, "children ") + "class C {\n" + tests(int(4000 * share)) + "}")


@kind("run", "--serial", "--html", "page")
def failed_in_one_line(share):
    """1,000 tests that fail in a script of one line, of each of which the page shows that line."""
    return {"s0.jtap": "team t class C {" + tests(int(1000 * share), "", f' print "{"a" * 200}"; fail "no"; ').replace("\n", " ") + "}"}


@kind("run", "--serial", "--junit", "results")
def blocked_in_results(share):
    """4,094 tests that are blocked with a message of 8 KiB, each letter a quote, for which XML takes six."""
    return blocked(share)


@kind("run", "--serial", "--summary", "--explain")
def missing_under_many_names(share):
    """Half a script of statements that give properties values, and 4,000 tests that miss another one."""
    before = filled("before_each { if false { ", 'set_prop "#","1"; ', "} }\n", int(MEBIBYTE * share / 2))
    return one('write "java.lang.System.properties" class C { ' + before + tests(int(4000 * share), "", ' print prop("q"); ') + "}")


@kind("run", "--serial", "--summary", "--explain")
def unknown_under_statics(share):
    """Half a script of statics, and 4,000 tests that name another one."""
    return one(filled("class C { ", "static s#=1;", "", int(MEBIBYTE * share / 2)) + tests(int(4000 * share), "", " print r; ") + "}")


@kind("affected", "--old", "old", "--world", "world.toml")
def worlds_of_readers(share):
    """1,000 tests that read the properties, of which there are 15,000 and the last one differs."""
    script = one("class C {\n" + tests(int(1000 * share), 'read "java.lang.System.properties" ') + "}")["s0.jtap"]
    world = "[properties]\n" + "".join(f"p{10000 + number} = ''\n" for number in range(int(15000 * share)))
    return {"s0.jtap": script, "old/s0.jtap": script, "world.toml": world + "q = '1'\n", "old/world.toml": world + "q = '2'\n"}
