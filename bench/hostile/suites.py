"""Suites of so many nodes that try to take more instructions than their nodes and bytes are worth: ordinary ones first, then those that
aim at locks, keys, selections, schedules, nesting and what a body changes. Each function makes the files of a suite of about so many nodes,
and says by which words the program is asked beside the workers."""

import random
import sys

from kinds import in_scripts, one, reads, settings, tests

SUITES = {}


def suite(*words, command="run"):
    """Names the words of a kind of suite, to which the scripts are added."""

    def keep(make):
        SUITES[make.__name__] = (command, words, make)
        return make

    return keep


def named(names, others):
    """These names of suites, or others where there are none. A name that no suite has ends the program."""
    unknown = [name for name in names if name not in SUITES]
    if unknown:
        sys.exit(f"there is no suite {unknown[0]}: name some of {', '.join(SUITES)}")
    return names or others


def classes(count, before="", inside="test t { }"):
    """Top-level classes, in one of whose texts `#` stands for the number of the class."""
    return in_scripts(f"{before}class C{number} {{ {inside} }}\n".replace("#", str(number)) for number in range(count))


def in_a_class(texts, before=""):
    return one(before + "class C {\n" + "".join(texts) + "}\n")


def writes(keys):
    return "".join(f'write "{key}" ' for key in keys)


def picked(count, seed, pick):
    """Tests that write keys, which are picked at random for each."""
    generator = random.Random(seed)
    return [f"{writes(pick(generator))}test t{number} {{ }}\n" for number in range(count)]


# Ordinary suites, without locks of their own.


@suite()
def classes_of_one_test(nodes):
    return classes(nodes // 2)


@suite()
def classes_with_before_all(nodes):
    return classes(nodes // 2, "", "before_all { } test t { }")


@suite()
def disabled_classes(nodes):
    return classes(nodes // 2, 'disabled "no" ')


@suite()
def classes_in_a_class(nodes):
    return in_a_class(f"class C{number} {{ test t {{ }} }}\n" for number in range(nodes // 2))


@suite()
def readers_of_one_key(nodes):
    return in_a_class([tests(nodes, 'read "k" ')])


@suite()
def isolated_classes(nodes):
    return classes(nodes // 2, "isolated ")


@suite()
def own_keys(nodes):
    return in_scripts(f'write "{number % 255}" class C{number} {{ test t {{ }} }}\n' for number in range(nodes // 2))


@suite()
def tests_in_one_class(nodes):
    return in_a_class([tests(nodes)])


@suite()
def tests_eight_deep(nodes):
    depth = "".join(f"class C{level} {{ " for level in range(8))
    return one(depth + tests(nodes - 8) + "}" * 8)


@suite()
def barred_classes(nodes):
    return classes(nodes // 2, "", 'before_all { fail "no"; } test t { }')


# Locks.


@suite()
def writers_of_one_key(nodes):
    return in_a_class([tests(nodes, 'write "k" ')])


@suite()
def writers_in_classes(nodes):
    """A SAME_THREAD test that writes one key, in each class."""
    return classes(nodes // 2, "", 'write "k" same_thread test t { }')


@suite()
def pairs_of_keys(nodes):
    """Tests that write {a, b}, {a} and {b} in turn."""
    turn = ('write "a" write "b" ', 'write "a" ', 'write "b" ')
    return in_a_class(f"{turn[number % 3]}test t{number} {{ }}\n" for number in range(nodes))


@suite()
def pairs_of_keys_in_classes(nodes):
    """The same on one thread, three in a class."""
    inside = 'write "a" write "b" same_thread test t { } write "a" same_thread test u { } write "b" same_thread test v { }'
    return classes(nodes // 4, "", inside)


@suite()
def neighbours(nodes):
    """Test i writes the keys i and i + 1, of 255."""
    return in_a_class(f"{writes((number % 255, (number + 1) % 255))}test t{number} {{ }}\n" for number in range(nodes))


@suite()
def few_of_twelve_keys(nodes):
    """Up to 3 of 12 keys, at random."""
    return in_a_class(picked(nodes, 1, lambda generator: generator.sample(range(12), generator.randrange(1, 4))))


@suite()
def half_of_all_keys(nodes):
    """A random half of 255 keys. Its bytes are 128 times its tests."""
    texts = picked(nodes, 2, lambda generator: [key for key in range(255) if generator.random() < 0.5])
    per = len(texts) // 8 + 1
    return in_scripts(f"class C{place} {{ {''.join(texts[place:place + per])} }}\n" for place in range(0, len(texts), per))


@suite()
def one_writer_in_ten(nodes):
    """Classes that read 20 of 40 keys; one in ten writes one of them."""
    marks = lambda number: "".join(f'{"write" if key == 0 and number % 10 == 0 else "read"} "{(7 * number + 3 * key) % 40}" ' for key in range(20))
    return in_scripts(f"{marks(number)}class C{number} {{ test t {{ print 1; }} }}\n" for number in range(nodes // 2))


@suite()
def classes_that_read_all_keys(nodes):
    return in_scripts(f"{reads(0, 255)}class C{number} {{ test t {{ }} }}\n" for number in range(nodes // 2))


@suite()
def classes_that_read_and_write(nodes):
    """Each class reads 254 keys and writes the last one."""
    marks = reads(0, 254) + 'write "254" '
    return in_scripts(f"{marks}class C{number} {{ test t {{ }} }}\n" for number in range(nodes // 2))


@suite()
def readers_by_their_class(nodes):
    """Tests that read 255 keys, for which their class is marked once."""
    return in_a_class([tests(nodes)], reads(0, 255, "children "))


@suite()
def writers_by_their_class(nodes):
    """Tests that write 255 keys, for which their class is marked once."""
    return in_a_class([tests(nodes)], "".join(f'write children "{key}" ' for key in range(255)))


@suite()
def one_writer_of_all_keys(nodes):
    """A class that writes 255 keys, and tests in it, which are done whole."""
    return in_a_class([tests(nodes)], writes(range(255)))


@suite()
def writers_below_a_reader(nodes):
    """A class that reads one key, and tests in it that read another 254 and write one."""
    return in_a_class([tests(nodes)], 'read "r" ' + reads(0, 253, "children ") + 'write children "253" ')


@suite()
def halves_of_all_keys_read(nodes):
    """A random half of 255 keys, which each test reads."""
    generator = random.Random(3)
    texts = ["".join(f'read "{key}" ' for key in range(255) if generator.random() < 0.5) + f"test t{number} {{ }}\n" for number in range(nodes)]
    return in_scripts(f"class C{place} {{ {''.join(texts[place:place + 50])} }}\n" for place in range(0, len(texts), 50))


@suite()
def keys_that_begin_alike(nodes):
    """Tests that write one of 255 keys of 255 bytes each."""
    texts = [f'write "{"k" * 252}{number % 255:03}" test t{number} {{ }}\n' for number in range(nodes)]
    return in_scripts(f"class C{place} {{ {''.join(texts[place:place + 100])} }}\n" for place in range(0, len(texts), 100))


@suite()
def readers_and_a_writer(nodes):
    """Classes of 20 tests that read one key and one that writes it."""
    return in_scripts(f'class C{number} {{ {tests(20, """read "k" """)}write "k" test w {{ }} }}\n' for number in range(nodes // 22))


@suite()
def modes_in_turn(nodes):
    """Tests of one class, SAME_THREAD and CONCURRENT in turn."""
    modes = ("same_thread", "concurrent")
    return in_a_class(f"{modes[number % 2]} test t{number} {{ }}\n" for number in range(nodes))


@suite()
def marks_for_few_children(nodes):
    """Classes with 255 marks for their children, which are 8 tests each."""
    marks = reads(0, 255, "children ")
    return in_scripts(f"{marks}class C{number} {{ {tests(8)}}}\n" for number in range(nodes // 9))


# Nesting.


@suite()
def nested_classes_with_blocks(nodes):
    """Towers of 8 classes, each with a block before and after each test."""
    tower = "".join(f"class C{level} {{ before_each {{ }} after_each {{ }} test t {{ }} " for level in range(1, 8)) + "}" * 7
    return classes(nodes // 16, "", f"before_each {{ }} after_each {{ }} test t {{ }} {tower}")


@suite()
def nested_classes_with_marks(nodes):
    """Towers of 8 classes and a test, each class with 31 keys of its own for its child."""
    marks = [reads(31 * level, 31 * level + 31, "children ") for level in range(8)]
    inside = "".join(f"{marks[level]}class D{level} {{ " for level in range(1, 8)) + "test t { } " + "}" * 7
    return classes(nodes // 9, marks[0], inside)


# What is kept.


@suite("--only-from", "only")
def kept_by_their_paths(nodes):
    """Tests that are all named."""
    return {**in_a_class([tests(nodes)]), "only": "".join(f"t.C.t{number}\n" for number in range(nodes))}


@suite("--match", "t.C*.t1*")
def kept_by_a_pattern(nodes):
    return classes(nodes // 3, "", "test t1 { } test u { }")


@suite("--shard", "1/2")
def kept_by_a_shard(nodes):
    return classes(nodes // 2)


# What bodies change.


@suite()
def one_property_many_times(nodes):
    """A body that sets one property four times for each node."""
    return in_a_class([f'write "java.lang.System.properties" test t {{ repeat {min(4999, 4 * nodes)} {{ set_prop "p", "1"; }} }}\n'])


@suite()
def many_properties(nodes):
    """A body that sets a property for each node."""
    return in_a_class([f'write "java.lang.System.properties" test t {{ let n = 0; repeat {nodes} {{ set_prop text(n), "1"; n = n + 1; }} }}\n'])


@suite()
def a_longer_file(nodes):
    """A body that appends a byte to a file for each node."""
    return in_a_class([f'write "file:a" test t {{ write_file "a", ""; repeat {nodes} {{ append_file "a", "1"; }} }}\n'])


@suite("--world", "world.toml")
def properties_that_all_write(nodes):
    """A world with a property for each node, and tests that set one each."""
    world = "[properties]\n" + "".join(f"p{number} = ''\n" for number in range(nodes))
    return {**in_a_class(f'write "java.lang.System.properties" test t{number} {{ set_prop "p{number}", "1"; }}\n' for number in range(nodes)),
            "world.toml": world}


@suite()
def a_property_of_many(nodes):
    """A class that sets a property for each node, and tests that set one of them each."""
    opening = f'before_all {{ let n = 0; repeat {min(3300, nodes)} {{ set_prop text(n), "1"; n = n + 1; }} }}\n'
    return in_a_class([opening, tests(nodes, "", ' set_prop "7", "2"; print prop("8"); ')], 'write "java.lang.System.properties" ')


# What is told.


@suite("--stats")
def waits_that_are_told(nodes):
    """Up to 3 of 12 keys, at random; who waited for whom is worked out wait by wait."""
    return few_of_twelve_keys(nodes)


# Schedules.


def enter(worker, node):
    return [f"enter {worker} {node}", f"leave {worker}"]


def shut(worker, node):
    return [f"shut {worker} {node}", f"leave {worker}"]


def replayed(nodes, events, mark='read "k" '):
    """Classes of one test with a schedule. Class i is node 2 i + 1, its test the node behind it."""
    return {**classes(nodes // 2, mark), "e": "".join(event + "\n" for event in events)}


@suite("--schedule", "e", command="replay")
def depth_first(nodes):
    """Each class is opened, run and closed before the next."""
    return replayed(nodes, [event for node in range(1, nodes // 2 * 2, 2) for event in enter(0, node) + enter(0, node + 1) + shut(0, node)])


@suite("--schedule", "e", "--settings", "settings.toml", command="replay")
def opened_before_closed(nodes):
    """All classes are opened before one is closed."""
    events = [event for node in range(1, nodes // 2 * 2, 2) for event in enter(0, node)]
    events += [event for node in range(1, nodes // 2 * 2, 2) for event in enter(0, node + 1) + shut(0, node)]
    return {**replayed(nodes, events), "settings.toml": settings(1)}


@suite("--schedule", "e", "--settings", "settings.toml", command="replay")
def closed_last_first(nodes):
    """All classes are opened before one is closed, and closed in the other order, each with 20 locks."""
    events = [event for node in range(1, nodes // 2 * 2, 2) for event in enter(0, node)]
    events += [event for node in reversed(range(1, nodes // 2 * 2, 2)) for event in enter(0, node + 1) + shut(0, node)]
    return {**replayed(nodes, events, reads(0, 20)), "settings.toml": settings(1)}


@suite("--schedule", "e", "--settings", "settings.toml", command="replay")
def by_64_workers(nodes):
    """64 workers have a class each, which they open, run and close side by side."""
    events, firsts = [], range(1, nodes // 2 * 2, 2)
    for place in range(0, len(firsts), 64):
        some = list(enumerate(firsts[place:place + 64]))
        events += [event for worker, node in some for event in enter(worker, node)]
        events += [event for worker, node in some for event in enter(worker, node + 1)]
        events += [event for worker, node in some for event in shut(worker, node)]
    return {**replayed(nodes, events), "settings.toml": settings(64)}


@suite("--schedule", "e", "--settings", "settings.toml", command="replay")
def towers_side_by_side(nodes):
    """64 workers have a tower of 8 classes and a test each, which they open and close side by side."""
    towers, events = range(1, nodes // 9 * 9, 9), []
    for place in range(0, len(towers), 64):
        some = list(enumerate(towers[place:place + 64]))
        events += [event for level in range(9) for worker, first in some for event in enter(worker, first + level)]
        events += [event for level in reversed(range(8)) for worker, first in some for event in shut(worker, first + level)]
    inside = "".join(f"class D{level} {{ " for level in range(7)) + "test t { } " + "}" * 7
    return {**classes(len(towers), "", inside), "e": "".join(event + "\n" for event in events), "settings.toml": settings(64)}


@suite("--schedule", "e", "--settings", "settings.toml", command="replay")
def concurrent_ones_first(nodes):
    """Tests SAME_THREAD and CONCURRENT in turn, of which first the CONCURRENT ones are entered, from the last on."""
    order = [1, *reversed(range(3, nodes + 2, 2)), *range(2, nodes + 2, 2)]
    events = [event for node in order for event in enter(0, node)] + shut(0, 1)
    return {**modes_in_turn(nodes), "e": "".join(event + "\n" for event in events), "settings.toml": settings(64)}
