"""All plans of a number of nodes below the root and of keys beside the global one, each once, as scripts of the language."""
import itertools
from collections import namedtuple

# `locks` is a text of marks; a plan is a list of nodes in preorder, of which node 0 is the root.
Node = namedtuple("Node", "parent is_test same isolated locks")
FREE, TAKEN, FORCED = range(3)
KEYS = "kjl"


def shapes(size):
    """Parents in preorder: the next node stands in the last one or in one that the last stands in."""

    def grow(parents):
        if len(parents) == size + 1:
            yield parents
            return
        at = len(parents) - 1
        while True:
            yield from grow(parents + [at])
            if at == 0:
                return
            at = parents[at]

    yield from grow([0])


def plans(size, keys):
    for parents in shapes(size):
        yield from fill(parents, 1, [None], [FREE], keys)


def fill(parents, at, plan, under, keys):
    if at == len(parents):
        yield plan
        return
    above = parents[at]
    if above and plan[above].is_test:
        return
    has_children = at in parents[at + 1 :]
    # (no class is empty, and no test stands at the top)
    if above == 0 and not has_children:
        return
    for same in (False, True):
        if not same and under[above] == FORCED:
            continue
        for isolated in (False, True)[: 2 if above == 0 else 1]:
            for locks in itertools.product(("", "read", "write"), repeat=keys):
                if any(locks) and under[above] != FREE:
                    continue
                if "write" in locks or isolated or under[above] == FORCED:
                    now = FORCED
                else:
                    now = TAKEN if any(locks) else under[above]
                node = Node(above, not has_children, same, isolated, locks)
                yield from fill(parents, at + 1, plan + [node], under + [now], keys)


def is_lower_of_keys(plan):
    """Whether a plan is the first of itself and the same with both keys changed for each other."""
    locks = [it.locks for it in plan[1:]]
    return len(locks[0]) != 2 or locks <= [it[::-1] for it in locks]


def script(plan, failing):
    """A plan as a script, in which the `before_all` of these classes fails."""

    def write(at):
        node = plan[at]
        marks = ["same_thread" if node.same else "concurrent"] + ["isolated"] * node.isolated
        marks += [f'{lock} "{KEYS[i]}"' for i, lock in enumerate(node.locks) if lock]
        begin = f"{' '.join(marks)} {'test t' if node.is_test else 'class C'}{at} {{"
        fails = ' before_all { fail "no"; }' if at in failing else ""
        inside = [write(it) for it in range(at + 1, len(plan)) if plan[it].parent == at]
        return f"{begin}{fails} {' '.join(inside)} }}"

    return "team t " + " ".join(write(it) for it in range(1, len(plan)) if plan[it].parent == 0)


def scripts(plan):
    """A plan as scripts: each `before_all` may fail or end well, unless a class round it has failed."""
    classes = [at for at in range(1, len(plan)) if not plan[at].is_test]

    def inside_failed(at, failing):
        while at:
            at = plan[at].parent
            if at in failing:
                return True
        return False

    for count in range(len(classes) + 1):
        for failing in itertools.combinations(classes, count):
            if not any(inside_failed(it, failing) for it in failing):
                yield script(plan, failing)


FOUR = 'team t class C1 { write "k" write "j" test a { } write "k" test b { } write "k" test c { } write "j" test d { } }'
