"""What the scripts share that read contracts: the public calls of a crate with their clauses, in the layout of `rt fmt`."""
import re

TESTS = {"iso_parts_tests", "iso_book_tests", "iso_floor_tests", "iso_worker_tests", "iso_run_tests", "iso_growths"}
CLAUSE = re.compile(r"(requires|ensures|ghost)\b")
ITEM = re.compile(r"(?P<shown>pub )?(unsafe )?(?P<kind>impl|trait|fn|mod)\b")
NAME = re.compile(r"(?:pub )?(?:unsafe )?(?:fn|trait|mod) (\w+)")
SHOWN_TYPE = re.compile(r"^pub (?:struct|enum|trait) (\w+)", re.MULTILINE)
# What stands in place of the clauses of a private module.
PRIVATE = "private"
# Texts, characters and comments, in which a brace opens nothing.
UNCOUNTED = re.compile(r'"(?:\\.|[^"\\])*"|\'(?:\\.|[^\'\\])\'|//[^\n]*')
# The type of an `impl`, behind its parameters and its trait.
OWNER = re.compile(r"impl(?P<parameters><.*?>(?= ))? (?:(?P<trait>.+?) for )?(?P<type>.+?) \{")


def joined(lines):
    """Lines as one, without comments and with one space where there are more."""
    text = re.sub(r"\s+", " ", " ".join(line.strip() for line in lines if not line.strip().startswith("//"))).strip()
    return text.replace("( ", "(").replace(", )", ")")


def depth_of(text):
    """How many braces of code are open at its end. Those in texts and comments aren't counted."""
    code = UNCOUNTED.sub("", text)
    return code.count("{") - code.count("}")


class Reader:
    """Reads a file of code item by item, in the layout of `rt fmt`: an item's lines begin at its margin, and its body ends there."""

    def __init__(self, path):
        self.lines = path.read_text(encoding="utf-8").split("\n")
        self.at = 0

    def clause(self):
        """A clause or a ghost member, which ends where its braces are closed."""
        first = self.at
        while depth_of("\n".join(self.lines[first:self.at + 1])) > 0 or "{" not in "\n".join(self.lines[first:self.at + 1]):
            if self.at == len(self.lines):
                raise ValueError(f"no end of a clause: {self.lines[first]}")
            self.at += 1
        self.at += 1
        return joined(self.lines[first:self.at]).rstrip(";")

    def header(self):
        """What stands before the clauses or the body."""
        first = self.at
        while True:
            line = self.lines[self.at]
            following = self.lines[self.at + 1].strip() if self.at + 1 < len(self.lines) else ""
            self.at += 1
            if line.endswith((" {", ";", "}")) or following == "{" or following.startswith("//") or CLAUSE.match(following):
                return joined(self.lines[first:self.at])

    def skip_comments(self):
        """Passes over comments."""
        while self.at < len(self.lines) and self.lines[self.at].strip().startswith("//"):
            self.at += 1

    def function(self, margin):
        """A function's signature and clauses. Its body is passed over."""
        signature, clauses = self.header(), []
        has_body = signature.endswith("{")
        self.skip_comments()
        while not has_body and CLAUSE.match(self.lines[self.at].strip()) and not signature.endswith((";", "}")):
            clauses.append(self.clause())
            self.skip_comments()
        if not has_body and self.at < len(self.lines) and self.lines[self.at] == margin + "{":
            has_body = True
        if has_body:
            while self.lines[self.at] != margin + "}":
                self.at += 1
            self.at += 1
        return re.sub(r"( \{|;)$", "", signature), sorted(clauses)

    def skip(self):
        """Passes over an item that promises nothing by itself."""
        first = self.at
        self.at += 1
        while depth_of("\n".join(self.lines[first:self.at])) > 0:
            self.at += 1


def members(reader, front, owner, is_trait, is_foreign):
    """What the members of an `impl` or a trait promise: its functions, and of a model or a trait what contracts see."""
    while reader.lines[reader.at] != "}":
        line = reader.lines[reader.at].strip()
        if line.startswith("ghost ") and not line.startswith("ghost use"):
            yield f"{front} {owner}", [reader.clause()]
        elif re.match(r"(pub )?(unsafe )?fn ", line):
            is_shown = line.startswith("pub ") or is_trait or is_foreign
            signature, clauses = reader.function("    ")
            if is_shown and (clauses or not is_foreign):
                yield f"{front}::{NAME.match(line)[1]} {signature} of {owner}", clauses
        else:
            reader.at += 1
    reader.at += 1


def promises_of(path, front):
    """What a module promises, each with its clauses, and the modules in it: public ones with None in their place, private ones with PRIVATE."""
    reader = Reader(path)
    while reader.at < len(reader.lines):
        line = reader.lines[reader.at]
        item = ITEM.match(line)
        if not item:
            reader.at += 1
        elif item["kind"] == "mod":
            if line.endswith(";"):
                yield NAME.match(line)[1], None if item["shown"] else PRIVATE
            reader.skip() if not line.endswith(";") else reader.header()
        elif item["kind"] == "fn":
            signature, clauses = reader.function("")
            if item["shown"]:
                yield f"{front}::{NAME.match(line)[1]} {signature}", clauses
        else:
            header = reader.header()
            if header.endswith("}"):
                continue
            owner = re.sub(r" \{$", "", header)
            of = OWNER.match(header)
            name = NAME.match(line)[1] if item["kind"] == "trait" else re.match(r"\w+", of["type"].lstrip("&"))[0]
            if item["kind"] == "trait" and not item["shown"]:
                list(members(reader, front, owner, True, False))
            else:
                yield from members(reader, f"{front}::{name}", owner, item["kind"] == "trait", item["kind"] == "impl" and bool(of["trait"]))


def module(folder, name, path, front):
    """What a module and the public modules in it promise, and what the private ones in it promise of its types."""
    for promise, clauses in promises_of(path, front):
        if clauses is not None and clauses is not PRIVATE:
            yield promise, clauses
            continue
        inner = folder / promise
        file = inner.with_suffix(".rt") if inner.with_suffix(".rt").is_file() else inner / "mod.rt"
        if clauses is None:
            yield from module(inner, promise, file, f"{front}::{promise}")
        else:
            types = set(SHOWN_TYPE.findall(path.read_text(encoding="utf-8")))
            yield from ((inside, told) for inside, told in promises_of(file, front)
                        if told is not None and told is not PRIVATE and inside[len(front) + 2:].partition("::")[0] in types)
