"""What the scripts share that have the prover check a crate over the libraries that the last gate of this folder has built.

These stand in crates/NAME/out. The gate keeps in .build/gate.tar the sources that they were built of, and in .build/gate.json by which sum
each library is known.
"""
import json
import subprocess
import sys
import tarfile
from pathlib import Path

TOP = Path(__file__).resolve().parent.parent
SOURCES = TOP / ".build/gate.tar"
LIBRARIES = TOP / ".build/gate.json"
# What of a crate's folder a proof reads.
PROVED = ("src", "specs", "proofs")


def uses_of(crates_txt=None):
    """The libraries that each crate stands on, by the crate's name, as a crates.txt says."""
    text = crates_txt if crates_txt is not None else (TOP / "crates.txt").read_text()
    lines = (line.partition("#")[0].partition(":") for line in text.splitlines())
    return {name.strip(): used.split() for name, colon, used in lines if colon}


def below(crate, uses):
    """The crates of this repository that a crate stands on, at any depth, the lowest first."""
    found = {}

    def add(name):
        for used in uses[name]:
            if used in uses and used not in found:
                add(used)
                found[used] = True

    add(crate)
    return list(found)


def above(crates, uses):
    """The crates that stand on one of these, at any depth."""
    return sorted(name for name in uses if name not in crates and set(below(name, uses)) & set(crates))


def paths_of(crate):
    """The files of a crate that a proof reads, by their paths."""
    folder = TOP / "crates" / crate
    return {str(path.relative_to(TOP)): path for part in PROVED for path in sorted((folder / part).rglob("*")) if path.is_file()}


def library(crate):
    """Where a crate's library stands."""
    return TOP / f"crates/{crate}/out/rlib/{crate}.rlib"


def sum_of(crate):
    """By what a library is known: its format holds the sum of its files. Nothing where there is none."""
    path = library(crate) / "format"
    return path.read_text() if path.is_file() else None


def without_library(crate):
    """The crates that a crate stands on, at any depth, of which there is no library, as of a new one."""
    return [name for name in below(crate, uses_of()) if sum_of(name) is None]


class Gate:
    """What the last gate of this folder has read and built."""

    def __init__(self):
        with tarfile.open(SOURCES) as archive:
            self.texts = {member.name: archive.extractfile(member).read() for member in archive.getmembers()}
        self.libraries = json.loads(LIBRARIES.read_text())
        self.uses = uses_of(self.texts["crates.txt"].decode())

    def changed_files(self, crate):
        """The files of a crate that are otherwise than when the gate read them, by their paths: changed, new and deleted ones."""
        new, front = paths_of(crate), f"crates/{crate}/"
        old = {path for path in self.texts if path.startswith(front)}
        return sorted(path for path in {*old, *new} if path not in old or path not in new or new[path].read_bytes() != self.texts[path])

    def why_stale(self, crate):
        """Why a crate's library isn't that of the sources at hand; nothing where it is."""
        if self.uses.get(crate) != uses_of()[crate] or self.changed_files(crate):
            return "was changed since the gate built its library"
        if sum_of(crate) is None or sum_of(crate) != self.libraries.get(crate):
            return "has another library than the gate built"
        return None


def last_gate(name):
    """What the last gate has left. A script that finds nothing ends here."""
    if not SOURCES.is_file():
        stop(name, "no gate was finished in this folder: .ci/run leaves what it built, and so does `tests/check --keep` after `rt ci`")
    return Gate()


def keep():
    """Keeps for later checks what the gate has read and built."""
    SOURCES.parent.mkdir(exist_ok=True)
    new = SOURCES.with_suffix(".new")
    with tarfile.open(new, "w") as archive:
        for path in ["crates.txt", *(path for crate in uses_of() for path in paths_of(crate))]:
            archive.add(TOP / path, path)
    LIBRARIES.write_text(json.dumps({crate: sum_of(crate) for crate in uses_of()}, indent=0))
    new.rename(SOURCES)


def kit_folder():
    """Where the kit stands: its first page is at the top."""
    return Path(subprocess.run(["rt", "doc"], capture_output=True, text=True, check=True).stdout.split()[0]).parent


def root_of(folder):
    """The file that a crate's check begins with."""
    return "src/main.rt" if Path(folder, "src/main.rt").is_file() else "src/lib.rt"


def checking(crate, functions, folder, jobs=1):
    """The words that have these functions of a crate in a folder checked, or all where none is named, as `rt ci` has the whole crate."""
    kit, uses = kit_folder(), uses_of()
    words = [str(kit / "bin/rattle"), "check", "--crate-name", crate, root_of(folder), "--jobs", str(jobs)]
    for name in ["std", *uses[crate]]:
        words += ["--extern", f"{name}={library(name) if name in uses else kit / f'rlibs/{name}.rlib'}"]
    for at in [kit / "rlibs", *(library(name).parent for name in below(crate, uses))]:
        words += ["-L", f"dependency={at}"]
    words += ["--antt-project", str(kit / "rattle/logic/antt-project.json"), "--logic-built", str(kit / "logic_built")]
    return words + [word for function in functions for word in ("--only", function)]


def stop(name, why):
    """Tells why nothing is checked, and ends."""
    print(f"{name}: {why}", file=sys.stderr)
    sys.exit(2)
