"""The floor of an older commit, in which siblings wait as one group behind a node: how it is got, and what the modules in `older/` see of it."""
import os
import subprocess

COMMIT = "12e9ebaae4bf1a64eebbcf83ea45059dc92be725"
MODULES = ["player", "course", "checks", "key"]
# What the modules see of a floor beside what it shows the rest of its crate.
SHOWN = {
    "floor.rt": ["    desk: Mutex<Desk<'a, G>>,"],
    "desk.rt": ["    untried: u32,", "    idle: u32,"],
    "seat.rt": ["    is_called: bool,"],
    "work.rt": ["fn is_free<'a, G: Ground>("],
    "agenda.rt": [
        "struct OpenClass {",
        "    owner: u32,",
        "    left: usize,",
        "    passed: usize,",
        "    links: Links,",
        "    cleared: Line,",
        "    own: Vec<Line>,",
        "    behind: Vec<Line>,",
        "    group: Vec<Line>,",
        "    shared: Vec<bool>,",
        "    open: Vec<Option<OpenClass>>,",
        "    handed: bool,",
    ],
    "links.rt": ["    ends: Option<Ends>,", "struct Ends {", "    first: u32,", "    last: u32,", "    next: Vec<Option<u32>>,"],
}
# A desk keeps whom its events call: the floor notifies a `Condvar`, which nobody sees in one thread.
EDITS = [
    ("desk.rt", "    idle: u32,\n    of: ", "    idle: u32,\n    pub(crate) calls: Vec<Call>,\n    of: "),
    ("desk.rt", "            idle: 0,\n", "            idle: 0,\n            calls: Vec::new(alloc),\n"),
    (
        "desk.rt",
        "        Wakes {\n            watchers: self.watching > 0,\n            workers: self.call(),\n        }\n",
        "        let workers = self.call();\n        if !matches!(workers, Call::Nobody) && self.calls.push(workers).is_err() {\n            self.book.stop();\n        }\n"
        "        Wakes {\n            watchers: self.watching > 0,\n            workers,\n        }\n",
    ),
]


def unpack(top, folder):
    """Puts the crates of the commit into a folder."""
    archive = subprocess.run(["git", "archive", COMMIT, "crates", "crates.txt", "HANDLES"], cwd=top, stdout=subprocess.PIPE)
    if archive.returncode:
        raise SystemExit(f"search: there is no commit {COMMIT}")
    os.mkdir(folder)
    subprocess.run(["tar", "-x", "-C", folder], input=archive.stdout, check=True)
