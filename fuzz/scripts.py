"""Changes of scripts: of bytes, of tokens, and of whole members (classes, tests, blocks, marks, statements). A script is a text of
latin-1 characters, one a byte."""
import re

TOKEN = re.compile(r'//[^\n]*|"(?:\\.|[^"\\\n])*"|[A-Za-z]\w*|[0-9]+|\+\+|==|!=|[ \t\r\n]+|.', re.DOTALL)
BLOCKS = ("before_all", "after_all", "before_each", "after_each")
WORDS = (
    "team class test same_thread concurrent isolated read write static field let print assert assert_equal assume fail if else repeat "
    "set_prop clear_prop set_locale write_file append_file delete_file true false text len prop has_prop locale file has_file children "
    "disabled").split() + list(BLOCKS)
SYMBOLS = "{ } ( ) ; , = + - * ++ == != <".split()
ODD_TEXTS = ['""', '"a"', '" a"', '"a "', '"\\""', '"\\\\"', '"\\n"', '"#"', '"\\\\#"', '"a {"', '"# SKIP x"', '"ok 1 - x"', '"..."', '"---"',
             '"' + "a" * 200 + '"', '"' + "a" * 201 + '"', '"' + "k" * 255 + '"', '"' + "k" * 256 + '"', '"' + "t" * 4096 + '"',
             '"' + "t" * 4097 + '"', '"open', '"x\\', '"TAP version 14"', '"1..3"', '"- x"', '"Bail out!"', '"pragma +strict"']
NUMBERS = ["0", "1", "2", "3", "33", "00", "9999", "10000", "10001", "9223372036854775807", "9223372036854775808", "9223372036854775809",
           "99999999999999999999", "1x", "0" * 60 + "1"]
NAMES = ["x", "y", "z", "tax", "rate", "net", "n" * 64, "n" * 65, "x_1", "_x"]
KEYS = ['"java.lang.System.properties"', '"java.util.Locale.default"', '"file:a"', '"file:/orders/db"', '"file:"', '"k"', '"iso:global"', '"K#1"']
BYTES = [chr(byte) for byte in (0, 9, 10, 13, 27, 31, 32, 34, 35, 47, 92, 123, 125, 126, 127, 128, 155, 255)]


def tokens(script):
    return TOKEN.findall(script)


def is_blank(token):
    return token[0] in " \t\r\n" or token.startswith("//")


def after_braces(parts, start):
    """The place after the brace that closes the first one from `start` on, or the end."""
    depth = 0
    for place in range(start, len(parts)):
        if parts[place] == "{":
            depth += 1
        elif parts[place] == "}":
            depth -= 1
            if depth <= 0:
                return place + 1
    return len(parts)


def after_semicolon(parts, start):
    for place in range(start, len(parts)):
        if parts[place] == ";":
            return place + 1
        if parts[place] in "{}":
            return place
    return len(parts)


def after_text(parts, start):
    """The place after the text of a mark, or some places on."""
    for place in range(start, min(start + 5, len(parts))):
        if parts[place][0] == '"':
            return place + 1
    return min(start + 3, len(parts))


def with_marks(parts, start):
    """The place at which the marks before `start` begin."""
    place = start
    while place > 0 and (is_blank(parts[place - 1]) or parts[place - 1][0] == '"'
                         or parts[place - 1] in ("same_thread", "concurrent", "isolated", "read", "write", "children", "disabled")):
        place -= 1
    while place < start and (is_blank(parts[place]) or parts[place][0] == '"'):
        place += 1
    return place


def members(parts):
    """Kind, beginning and end of each class, test, block, mark, static, field and statement, as tokens."""
    found = []
    for place, part in enumerate(parts):
        if part in ("class", "test"):
            found.append((part, with_marks(parts, place), after_braces(parts, place)))
        elif part in BLOCKS:
            found.append(("block", place, after_braces(parts, place)))
        elif part in ("same_thread", "concurrent", "isolated"):
            found.append(("mark", place, place + 1))
        elif part in ("read", "write", "disabled"):
            found.append(("mark", place, after_text(parts, place)))
        elif part in ("static", "field"):
            found.append(("static", place, after_semicolon(parts, place)))
        elif part in ("if", "repeat"):
            found.append(("statement", place, after_braces(parts, place)))
        elif part in ("let", "print", "assert", "assert_equal", "assume", "fail", "set_prop", "clear_prop", "set_locale", "write_file",
                      "append_file", "delete_file"):
            found.append(("statement", place, after_semicolon(parts, place)))
    return found


def expression(rng, depth):
    """An expression of the grammar, mostly of one that means something."""
    if depth == 0 or rng.random() < 0.3:
        return rng.choice(['1', '2', '-3', 'true', 'false', '"a"', '"b"', '"shop.currency"', '"/orders/db"', 'x', 'y', 'net', 'rate', 'locale()',
                           '9223372036854775807', '-9223372036854775808', '""'])
    inner = lambda: expression(rng, depth - 1)
    operand = lambda: rng.choice(["({})", "{}"]).format(inner()) if rng.random() < 0.2 else "(" + inner() + ")"
    form = rng.randrange(4)
    if form == 0:
        operator = rng.choice(["+", "-", "*", "++"])
        return f" {operator} ".join(operand() for _ in range(rng.choice((2, 2, 3, 32, 33) if depth == 1 else (2, 3))))
    if form == 1:
        return operand() + rng.choice([" == ", " != ", " < "]) + operand()
    return rng.choice(["text", "len", "prop", "has_prop", "file", "has_file"]) + "(" + inner() + ")"


def statement(rng, depth=2):
    value = lambda: expression(rng, rng.randrange(3))
    body = lambda: "{ " + " ".join(statement(rng, depth - 1) for _ in range(rng.randrange(3))) + " }" if depth else "{ }"
    name = rng.choice(["x", "y", "net", "rate"])
    return rng.choice([
        lambda: f"let {name} = {value()};",
        lambda: f"{name} = {value()};",
        lambda: f"print {value()};",
        lambda: f"print text({value()});",
        lambda: f"assert {value()};",
        lambda: f"assert_equal {value()}, {value()};",
        lambda: f'assume {value()}, {rng.choice(ODD_TEXTS)};',
        lambda: f'fail {rng.choice(ODD_TEXTS)};',
        lambda: f"if {value()} {body()} else {body()}",
        lambda: f"if {value()} {body()}",
        lambda: f"repeat {rng.choice(['0', '1', '2', '3', '100', '5000', '9999', '10000', value()])} {body()}",
        lambda: f'set_prop "shop.currency", {value()};',
        lambda: f"set_prop {value()}, {value()};",
        lambda: f"clear_prop {value()};",
        lambda: f"set_locale {value()};",
        lambda: f"write_file {rng.choice(['a', '/orders/db'])!r}, {value()};".replace("'", '"'),
        lambda: f"append_file {value()}, {value()};",
        lambda: f"delete_file {value()};"])()


def change_bytes(rng, script):
    place = rng.randrange(len(script) + 1)
    end = min(len(script), place + rng.choice((1, 1, 1, 2, 8, 64)))
    piece = script[place:end]
    return rng.choice([
        lambda: script[:place] + rng.choice(BYTES) + script[place:],
        lambda: script[:place] + chr(rng.randrange(256)) + script[end:],
        lambda: script[:place] + script[end:],
        lambda: script[:place] + piece + piece + script[end:],
        lambda: script[:place],
        lambda: script[:place] + "".join(chr(ord(character) ^ (1 << rng.randrange(8))) for character in piece) + script[end:]])()


def any_token(rng, parts):
    pool = rng.choice([WORDS, SYMBOLS, SYMBOLS, ODD_TEXTS, NUMBERS, NAMES, KEYS, [part for part in parts if not is_blank(part)] or ["x"]])
    return rng.choice(pool)


def change_tokens(rng, script):
    parts = tokens(script)
    places = [place for place, part in enumerate(parts) if not is_blank(part)]
    if not places:
        return script + any_token(rng, parts)
    place, other = rng.choice(places), rng.choice(places)
    form = rng.randrange(5)
    if form == 0:
        parts[place] = any_token(rng, parts)
    elif form == 1:
        parts.insert(place, any_token(rng, parts) + " ")
    elif form == 2:
        del parts[place]
    elif form == 3:
        parts[place], parts[other] = parts[other], parts[place]
    else:
        parts.insert(place, parts[place] + " ")
    return "".join(parts)


def renamed(rng, kind, piece):
    """A member with another name, where it is a class or test."""
    if kind not in ("class", "test"):
        return piece
    parts = tokens(piece)
    for place, part in enumerate(parts[:-2]):
        if part == kind:
            parts[place + 2] = rng.choice("abcdefgh") + str(rng.randrange(1000))
            break
    return "".join(parts)


def change_members(rng, script, others):
    """A member dropped, doubled, moved, taken from another script, or a mark, block or statement put in."""
    parts = tokens(script)
    found = members(parts)
    if not found:
        return script + "\nclass C { test t { } }\n"
    kind, start, end = rng.choice(found)
    piece = "".join(parts[start:end])
    form = rng.randrange(7)
    if form == 0:
        return "".join(parts[:start] + parts[end:])
    if form == 1:
        return "".join(parts[:end]) + " " + (renamed(rng, kind, piece) if rng.random() < 0.8 else piece) + " " + "".join(parts[end:])
    if form in (2, 3):
        source = parts if form == 2 else tokens(rng.choice(others))
        same = [member for member in members(source) if member[0] == kind]
        if not same:
            return script
        _, other_start, other_end = rng.choice(same)
        taken = renamed(rng, kind, "".join(source[other_start:other_end]))
        return "".join(parts[:start]) + " " + taken + " " + "".join(parts[start:])
    return put_in(rng, parts, found)


def mark(rng):
    """A mark of any kind, mostly as the grammar has it."""
    form = rng.randrange(4)
    if form == 0:
        return rng.choice(["same_thread", "concurrent", "isolated"])
    if form == 1:
        return "disabled " + rng.choice(ODD_TEXTS[1:2] * 4 + ODD_TEXTS)
    return rng.choice(["read ", "write "]) + rng.choice(["", "children "]) + rng.choice(KEYS)


def put_in(rng, parts, found):
    """A mark before a class or test, a block into a class, or a statement into a body."""
    classes = [member for member in found if member[0] in ("class", "test")]
    bodies = [member for member in found if member[0] in ("test", "block")]
    form = rng.randrange(5)
    if form == 0 and classes:
        place = rng.choice(classes)[1]
        return "".join(parts[:place]) + mark(rng) + " " + "".join(parts[place:])
    holders = [member for member in found if member[0] == "class"] if form == 1 else bodies
    if not holders:
        return "".join(parts)
    _, start, end = rng.choice(holders)
    opening = next((place for place in range(start, end) if parts[place] == "{"), None)
    if opening is None:
        return "".join(parts)
    inside = " ".join(statement(rng) for _ in range(rng.choice((1, 1, 2, 3))))
    if form == 1:
        inside = rng.choice(BLOCKS) + " { " + inside + " }" if rng.random() < 0.7 else f"{rng.choice(['static', 'field'])} x = {rng.choice(NUMBERS)};"
    return "".join(parts[:opening + 1]) + " " + inside + " " + "".join(parts[opening + 1:])


def mutated(rng, script, others):
    """The script after one to four changes."""
    for _ in range(rng.choice((1, 1, 2, 3, 4))):
        chance = rng.random()
        if chance < 0.15:
            script = change_bytes(rng, script)
        elif chance < 0.4:
            script = change_tokens(rng, script)
        else:
            script = change_members(rng, script, others)
    return script[:200_000]
