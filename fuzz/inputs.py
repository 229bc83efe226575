"""What the fuzzer makes of the examples: input number N of a seed is always the same."""
import random
from pathlib import Path

import scripts
import tables

TOP = Path(__file__).resolve().parent.parent
EXAMPLES = TOP / "examples"


def text_of(path):
    return path.read_bytes().decode("latin-1")


ALL_SCRIPTS = [text_of(path) for path in sorted(EXAMPLES.glob("**/*.jtap")) if path.parent.name != "faults"]
SETTINGS = text_of(EXAMPLES / "teams/settings.toml")
WORLD = text_of(EXAMPLES / "teams/world.toml")
TEAMS = [text_of(EXAMPLES / "teams" / name) for name in ("shop.jtap", "orders.jtap", "ops.jtap")]
FILES_SUITE = """team shop
class A {
  read "file:a" test r1 { print file("a"); print "x"; }
  read "file:a" test r2 { print file("a"); }
  write "file:a" test w1 { write_file "a", "n"; assert_equal "n", file("a"); }
  write "file:b" test w2 { write_file "b", "m"; print file("b"); }
}
"""
FILES_SCHEDULE = """enter 0 1
leave 0
enter 0 2
enter 1 3
step 0
step 1
leave 1
step 0
leave 0
enter 1 4
enter 0 5
step 1
step 0
step 1
step 0
leave 1
leave 0
shut 0 1
leave 0
"""


def depth_first(plan, rng):
    """The events of a printed plan, depth first on worker 0, with a guess of each body's steps."""
    events, open_classes = [], []

    def shut(depth):
        while open_classes and open_classes[-1][1] >= depth:
            events.extend([f"shut 0 {open_classes.pop()[0]}", "leave 0"])

    for line in plan.split("\n")[1:-1]:
        number, kind, _, rest = line.split(" ", 3)
        depth = rest.rsplit(" ", 1)[1].count(".")
        shut(depth)
        events.append(f"enter 0 {number}")
        if kind == "test":
            events.extend(["step 0"] * rng.choice((0, 1, 1, 2, 3)))
        events.append("leave 0")
        if kind == "class":
            open_classes.append((number, depth))
    shut(0)
    return "\n".join(events) + "\n"


def made(seed, number):
    """The files of an input by their names. `schedule` is missing where it is to be made of the plan."""
    rng = random.Random(f"{seed}:{number}")
    suite = rng.choice(["one", "one", "teams", "files"])
    files = {}
    if suite == "one":
        chosen = [rng.choice(ALL_SCRIPTS)]
    else:
        chosen = list(TEAMS) if suite == "teams" else [FILES_SUITE]
    place = rng.randrange(len(chosen))
    if rng.random() < 0.8:
        chosen[place] = scripts.mutated(rng, chosen[place], ALL_SCRIPTS)
    for index, script in enumerate(chosen):
        files[f"s{index}.jtap"] = script
    files["settings.toml"] = rng.choice([SETTINGS, tables.workers(rng), tables.workers(rng), ""])
    if rng.random() < 0.12:
        files["settings.toml"] = tables.mutated(rng, files["settings.toml"], tables.setting_line)
    files["world.toml"] = WORLD if suite != "files" else '[files]\na = "s"\n'
    if rng.random() < 0.12:
        files["world.toml"] = tables.mutated(rng, files["world.toml"], tables.world_line)
    if suite == "files" and rng.random() < 0.7:
        files["schedule"] = tables.mutated_schedule(rng, FILES_SCHEDULE, 5) if rng.random() < 0.8 else FILES_SCHEDULE
    return files, rng
