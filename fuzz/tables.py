"""Changes of settings and worlds, which are TOML, and of schedules. Texts of latin-1 characters, one a byte, but where they're said to
be encoded already."""

SETTINGS_KEYS = ["execution.parallel.enabled", "execution.parallel.mode.default", "execution.parallel.mode.classes.default",
                 "execution.parallel.config.strategy", "execution.parallel.config.dynamic.factor",
                 "execution.parallel.config.fixed.parallelism", "testinstance.lifecycle.default"]
VALUES = ["true", "false", '"true"', '"FALSE"', '"same_thread"', '"concurrent"', '"Concurrent"', '"dynamic"', '"fixed"', '"custom"', '"per_method"',
          '"per_class"', "0", "1", "2", "3", "8", "64", "65", "-1", '"8"', '"000000064"', '"0000000064"', "8.0", "0x10", "[1]", "{a = 1}",
          "9223372036854775808", '""', "1979-05-27", "nan", "'x'", '"""a\nb"""', '"\\u007f"', '"\\u001b[31m"', '"\\U0001F600"', '"a\\nb"']
TOML_KEYS = ['a', 'a.b', '"a.b"', '"\\n"', '"x\\u001b[1m"', '"\\u0085"', '"jtap: forged\\njtap: two"', "files", "properties", "locale", '""',
             "k" * 300, '"' + "k" * 4096 + '"', '"' + "k" * 4097 + '"', ".".join("a" * 79), ".".join("a" * 81), '"/orders/db"', '"shop.currency"',
             '"\u00c3\u00a9"']
TOML_BYTES = [chr(byte) for byte in (0, 9, 10, 13, 27, 34, 35, 39, 44, 46, 61, 91, 92, 93, 123, 125, 127, 0xC3, 0xFF)]


def workers(rng):
    """Good settings of some number of workers."""
    mode = rng.choice(["same_thread", "concurrent", "concurrent", "concurrent"])
    return (f'[junit.jupiter.execution.parallel]\nenabled = true\nmode.default = "{mode}"\nmode.classes.default = "concurrent"\n'
            f'config.strategy = "fixed"\nconfig.fixed.parallelism = {rng.choice((1, 2, 2, 3, 4, 8, 64))}\n')


def setting_line(rng):
    key = rng.choice(SETTINGS_KEYS)
    value = rng.choice(VALUES)
    return rng.choice([f"junit.jupiter.{key} = {value}", f'"junit.jupiter.{key}" = {value}', f"[junit.jupiter.{key}]", f'{key} = {value}',
                       f'junit = {{ jupiter = {{ "{key}" = {value} }} }}'])


def world_line(rng):
    return rng.choice([f"{rng.choice(TOML_KEYS)} = {rng.choice(VALUES)}", f"[{rng.choice(TOML_KEYS)}]", f"files.{rng.choice(TOML_KEYS)} = {rng.choice(VALUES)}",
                       f"properties.{rng.choice(TOML_KEYS)} = {rng.choice(VALUES)}", f"locale = {rng.choice(VALUES)}", f"[[{rng.choice(TOML_KEYS)}]]",
                       "x = " + "[" * rng.choice((1, 79, 80, 81, 200)), "files.y = " + "{ a = " * rng.choice((1, 79, 80, 81)) + '"t"' + " }" * 80])


def change_bytes(rng, text):
    place = rng.randrange(len(text) + 1)
    end = min(len(text), place + rng.choice((1, 1, 4, 16)))
    return rng.choice([
        lambda: text[:place] + rng.choice(TOML_BYTES) + text[place:],
        lambda: text[:place] + chr(rng.randrange(256)) + text[end:],
        lambda: text[:place] + text[end:],
        lambda: text[:place] + text[place:end] * 2 + text[end:],
        lambda: text[:place]])()


def change_lines(rng, text, new_line):
    lines = text.split("\n")
    place, other = rng.randrange(len(lines)), rng.randrange(len(lines))
    form = rng.randrange(5)
    if form == 0:
        del lines[place]
    elif form == 1:
        lines.insert(place, lines[other])
    elif form == 2:
        lines[place], lines[other] = lines[other], lines[place]
    else:
        lines.insert(place, new_line(rng))
    return "\n".join(lines)


def mutated(rng, text, new_line):
    for _ in range(rng.choice((1, 1, 2, 3))):
        text = change_bytes(rng, text) if rng.random() < 0.3 else change_lines(rng, text, new_line)
    return text[:200_000]


def event_line(rng, nodes):
    worker, node = rng.choice((0, 0, 0, 1, 2, 63, 64, 999999999)), rng.choice((rng.randrange(nodes + 1), 0, nodes, nodes + 1, 999999999))
    return rng.choice([f"enter {worker} {node}", f"step {worker}", f"leave {worker}", f"shut {worker} {node}", "leave 0000000000", f"enter  {worker}   {node}",
                       f" step {worker}", f"step {worker} ", "step", "", "\r", f"leave {worker}\r", "# x", "leave -1", "leave 1000000000", "leave \x80"])


def mutated_schedule(rng, text, nodes):
    return mutated(rng, text, lambda source: event_line(source, nodes))
