"""Generated texts that are refused: faults built on purpose, limits passed by one, and scripts with changed words."""
from __future__ import annotations

from random import Random
from functools import partial
from typing import Callable

from forms import (
    BARRED_FROM_HANDLERS_AND_CLEANUPS, DECLARED, FORMS, OPERAND, RANGES, SERVER_WORDS, SIGNAL, SIGNAL_SET, USES, Form, Role,
    Stage, built_forms)
from reader import LIMITS_OF_VERSION, read
from writer import accepted

_GREATEST = 10**18
Text = list[str]

LEAST_SCRIPT: Text = ["thread a fifo 5 at 0", "run 1", "end"]
OF_EACH_KIND: dict[str, Text] = {
    "handler": ["handler h", "yield", "end"], "cleanup": ["cleanup u", "yield", "end"], "mutex": ["mutex m inherit"], "cond": ["cond c"],
    "sem": ["sem s 1"], "queue": ["queue q 2 8"], "timer": ["timer k rt1 7"]}
NAME_OF_KIND = {"thread": "a"} | {kind: lines[0].split()[1] for kind, lines in OF_EACH_KIND.items()}
STRANGE_NAMES = ("A", "a-b", "1a", "_a", "a" * 33, "a" * 32, "a.b", "x,y", "a0_", "reg", "rt1", "none", "end", "%")
STRANGE_NUMBERS = ("-1", "+1", "1x", "0x1", "1.0", "1e3", "reg", "", "00", "007", "0", "1", "255", "256", "257",
                   str(_GREATEST), str(_GREATEST + 1), "0" * 40 + "5", "9" * 60, "18446744073709551616", "rt1")
STRANGE_SIGNALS = ("rt32", "rt01", "rt", "rt-1", "rt1,", ",rt1", "rt1,,rt2", "RT1", "all", "none", "rt31", "rt1,rt1",
                   "rt0,rt32", "1", "all,rt1", "sig1")
STRANGE_LINES = (
    "frob", "end", "end end", "pop 0", "pop 1", "pop", "pop 2", "if", "if 00", "if FOO", "unless 1", "loop", "loop 0",
    "run", "run 0", "run 1 1", "run x", "Run 1", "thread", "quantum 5", "quantum 0", "quantum", "version 2",
    "version 3", "yield", "yield yield", "handler z", "cleanup z", "set reg", "thread z fifo 5", "thread z fifo 5 at",
    "thread z fifo 5 at 0", "thread z fifo 5 dormant", "thread z rr 5 at 0", "thread z fifo 0 at 0",
    "thread z fifo 256 at 0", "thread z foo 5 at 0", "thread z fifo five at 0", "thread z fifo 5 dormant 0",
    "thread z fifo 5 at 1 2", "forever", "forever 1", "take 1", "add", "# x", "", "  ", "\t", "run 1 # one",
    "run 1# one", "run\t1", "lock m", "nanosleep reg", "strict", "\x7f", "# \x01", "caf\xe9", "run 1\r", "\x00")

HEADINGS = ("version 2",) * 12 + (
    "version 2 # two", "# two\n\nversion 2", "version 2 # \x07", "\x01\nversion 3", "version 3", "version", "version 02", "version 2 2",
    "version 3 \xe9", "version\x01 2", "Version 2", "version 2\nversion 2", "version two", "quantum 4")


def forms_at(stage: Stage) -> dict[str, tuple[Form, ...]]:
    """The forms of the version whose scripts are generated at a stage."""
    return built_forms(stage, version_at(stage))


def version_at(stage: Stage) -> int:
    return 2 if stage is Stage.VERSION2 else 1


def refused(seed: int, stage: Stage = Stage.WHOLE) -> bytes:
    """A text that is no script at the stage."""
    draw = Random(f"refused {seed} {stage.name}")
    while True:
        makers: list[Callable[[Random, Stage], Text]] = [changed, changed, written, alone, alone, limit_passed, late, late, late]
        maker = draw.choice(makers)
        lines = maker(draw, stage)
        if stage is Stage.VERSION2 and (maker in (written, alone, limit_passed) or draw.random() < 0.05):
            lines = [draw.choice(HEADINGS), *lines]
        text = ending(draw, lines)
        if read(text, stage)[1] is not None:
            return text


def ending(draw: Random, lines: Text) -> bytes:
    """The bytes of the lines, at times without the last line end."""
    text = "\n".join(lines) + "\n" * draw.choice((1, 1, 1, 0, 2))
    return text.encode("latin-1")


# Changed scripts


def changed(draw: Random, stage: Stage) -> Text:
    """An accepted script after one to three changes."""
    lines = accepted(draw.randrange(10**9), stage)[0].decode().split("\n")[:-1]
    if draw.random() < 0.5:
        lines = [line for part in some_parts(draw, lines) for line in part]
    for _ in range(draw.choice((1, 1, 2, 3))):
        change = draw.choice((word_changed, word_changed, word_lost, word_added, line_lost, line_twice, line_put,
                              line_put, form_put, form_put, byte_put, lines_swapped))
        lines = change(draw, stage, lines) if lines else lines
    return lines


def some_parts(draw: Random, lines: Text) -> list[Text]:
    """Some of the declarations of a script, whole, so that names may lack."""
    parts: list[Text] = []
    depth = 0
    for line in lines:
        words = line.split("#")[0].split()
        if depth == 0:
            parts.append([])
        parts[-1].append(line)
        if words and words[0] in ("thread", "handler", "cleanup", "if", "unless", "loop", "forever", "push"):
            depth += 1
        if words and words[0] in ("end", "pop"):
            depth -= 1
    return [part for part in parts if draw.random() < 0.7]


def word_changed(draw: Random, stage: Stage, lines: Text) -> Text:
    at = draw.randrange(len(lines))
    words = lines[at].split(" ")
    place = draw.randrange(len(words))
    others = [word for line in lines for word in line.split()] or ["a"]
    words[place] = draw.choice((
        draw.choice(STRANGE_NUMBERS), draw.choice(STRANGE_NAMES), draw.choice(STRANGE_SIGNALS), draw.choice(others),
        draw.choice(others), words[place].upper(), words[place] + "x"))
    return lines[:at] + [" ".join(words)] + lines[at + 1:]


def word_lost(draw: Random, stage: Stage, lines: Text) -> Text:
    at = draw.randrange(len(lines))
    words = lines[at].split(" ")
    del words[draw.randrange(len(words))]
    return lines[:at] + [" ".join(words)] + lines[at + 1:]


def word_added(draw: Random, stage: Stage, lines: Text) -> Text:
    at = draw.randrange(len(lines))
    words = lines[at].split(" ")
    words.insert(draw.randint(0, len(words)), draw.choice(("0", "a", "reg", "recursive", "nonblock", "real", "end")))
    return lines[:at] + [" ".join(words)] + lines[at + 1:]


def line_lost(draw: Random, stage: Stage, lines: Text) -> Text:
    at = draw.randrange(len(lines))
    return lines[:at] + lines[at + 1:]


def line_twice(draw: Random, stage: Stage, lines: Text) -> Text:
    at, to = draw.randrange(len(lines)), draw.randint(0, len(lines))
    return lines[:to] + [lines[at]] + lines[to:]


def line_put(draw: Random, stage: Stage, lines: Text) -> Text:
    at = draw.randint(0, len(lines))
    return lines[:at] + [draw.choice(STRANGE_LINES)] + lines[at:]


def form_put(draw: Random, stage: Stage, lines: Text) -> Text:
    """A line of some form with fitting or strange operands is put in."""
    at = draw.randint(0, len(lines))
    form = draw.choice(FORMS if draw.random() < 0.3 else [f for fs in forms_at(stage).values() for f in fs])
    return lines[:at] + [filled(draw, form, lines)] + lines[at:]


def byte_put(draw: Random, stage: Stage, lines: Text) -> Text:
    at = draw.randrange(len(lines))
    place = draw.randint(0, len(lines[at]))
    byte = chr(draw.choice((0, 1, 8, 11, 12, 13, 27, 31, 32, 35, 126, 127, 128, 160, 255, 9)))
    return lines[:at] + [lines[at][:place] + byte + lines[at][place:]] + lines[at + 1:]


def lines_swapped(draw: Random, stage: Stage, lines: Text) -> Text:
    one, two = draw.randrange(len(lines)), draw.randrange(len(lines))
    lines = list(lines)
    lines[one], lines[two] = lines[two], lines[one]
    return lines


def filled(draw: Random, form: Form, lines: Text) -> str:
    """A line of the form, its operands taken from what the text has or from what is strange."""
    names = [words[1] for words in (line.split() for line in lines) if len(words) > 1] + ["z", "nope"]
    words = []
    for word in form.words:
        if word in RANGES:
            least, greatest = RANGES[word]
            word = draw.choice((str(least), str(greatest), "3", str(greatest + 1), draw.choice(STRANGE_NUMBERS))
                               + ("reg",) * (word == OPERAND))
        elif word == SIGNAL:
            word = draw.choice(("rt1", "rt1", "rt30", draw.choice(STRANGE_SIGNALS)))
        elif word == SIGNAL_SET:
            word = draw.choice(("all", "rt1,rt2", draw.choice(STRANGE_SIGNALS)))
        elif word == DECLARED or word in USES:
            word = draw.choice((draw.choice(names), draw.choice(names), draw.choice(STRANGE_NAMES)))
        words.append(word)
    return " ".join(words)


# Scripts with faults of names, ranges and pairing alone


def late(draw: Random, stage: Stage) -> Text:
    """An accepted script whose lines keep their forms, so that names, ranges or the end are at fault."""
    lines = accepted(draw.randrange(10**9), stage)[0].decode().split("\n")[:-1]
    for _ in range(draw.choice((1, 1, 2, 3))):
        change = draw.choice((number_passed, number_passed, name_swapped, name_swapped, part_twice, end_lost, cut_off,
                              threads_lost, server_changed, server_changed))
        lines = change(draw, lines) if lines else lines
    return lines


def number_passed(draw: Random, lines: Text) -> Text:
    """A number becomes one at an edge of a range or past it."""
    edges = ("0", "256", "00", "65", "32", "32768", "65537", str(_GREATEST), str(_GREATEST + 1), "9" * 50)
    return one_word_changed(draw, lines, str.isdigit, edges)


def one_word_changed(draw: Random, lines: Text, wanted: Callable[[str], bool], others: tuple[str, ...]) -> Text:
    """One of the wanted words becomes one of the others."""
    places = [(at, place) for at, line in enumerate(lines)
              for place, word in enumerate(line.split(" ")) if wanted(word)]
    if not places:
        return lines
    at, place = draw.choice(places)
    words = lines[at].split(" ")
    words[place] = draw.choice(others)
    return lines[:at] + [" ".join(words)] + lines[at + 1:]


def name_swapped(draw: Random, lines: Text) -> Text:
    """A name becomes another name of the text or one that is not declared."""
    names = [line.split()[1] for line in lines if declares(line)]
    return one_word_changed(draw, lines, lambda word: word in names, (*names, "nope"))


def declares(line: str) -> bool:
    words = line.split()
    return len(words) > 1 and words[0] in {form.head for form in FORMS if form.declares}


def part_twice(draw: Random, lines: Text) -> Text:
    """A declaration stands a second time."""
    heads = [line for line in lines if first_word(line) in ("action", "mutex", "cond", "sem", "quantum")]
    return [*lines, draw.choice(heads)] if heads else [*lines, "handler t0", "end"]


def first_word(line: str) -> str:
    return (line.split() or [""])[0]


def end_lost(draw: Random, lines: Text) -> Text:
    """The last closing line is left out."""
    ends = [at for at, line in enumerate(lines) if first_word(line) in ("end", "pop")]
    return lines[:ends[-1]] + lines[ends[-1] + 1:] if ends else lines


def cut_off(draw: Random, lines: Text) -> Text:
    """The text ends early, at times."""
    return lines[:draw.randint(0, len(lines))] if draw.random() < 0.5 else lines


def threads_lost(draw: Random, lines: Text) -> Text:
    """The objects alone are left, and no thread."""
    kept = [line for line in lines if declares(line) and first_word(line) not in ("thread", "handler", "cleanup")]
    return ["handler z", "end", *kept]


def server_changed(draw: Random, lines: Text) -> Text:
    """A parameter of a server changes, so that it may not fit the others."""
    spots = [at for at, line in enumerate(lines) if " sporadic " in line or " strict " in line]
    if not spots:
        return number_passed(draw, lines)
    at = draw.choice(spots)
    words = lines[at].split(" ")
    place = next(at for at, word in enumerate(words) if word in SERVER_WORDS) + draw.randint(1, 5)
    if place < len(words):
        words[place] = draw.choice(("0", "1", "9", "17", "255", "256", str(_GREATEST + 1)))
    return lines[:at] + [" ".join(words)] + lines[at + 1:]


# Texts written for their faults


def written(draw: Random, stage: Stage) -> Text:
    """A short text from a few lines, with faults of several phases at times."""
    parts: list[Text] = [list(LEAST_SCRIPT)] * draw.choice((0, 1, 1, 1))
    for _ in range(draw.randint(0, 4)):
        parts.append(draw.choice((faulty_body, faulty_line, faulty_server, barred_step))(draw, stage))
    draw.shuffle(parts)
    return [line for part in parts for line in part]


def alone(draw: Random, stage: Stage) -> Text:
    """A script with one thing of each kind, and one line of some form, most of whose operands fit."""
    kinds = [kind for kind in OF_EACH_KIND if kind in forms_at(stage)]
    form = draw.choice([form for forms in forms_at(stage).values() for form in forms if form.role in (Role.STEP, Role.DECLARATION)])
    words = [fitting(draw, word) for word in form.words]
    if draw.random() < 0.15:
        words.insert(draw.randint(1, len(words)), draw.choice(("0", "a", "reg", "nonblock")))
    elif draw.random() < 0.15:
        del words[-1]
    lines = [line for kind in kinds for line in OF_EACH_KIND[kind]] + LEAST_SCRIPT
    bodies = [at + 1 for at, line in enumerate(lines) if first_word(line) in ("thread", "handler", "cleanup")]
    inside = form.role is Role.STEP or draw.random() < 0.2
    at = draw.choice((*bodies, bodies[-1], bodies[-1])) if inside and draw.random() < 0.95 else 0
    return lines[:at] + [" ".join(words)] + lines[at:]


def fitting(draw: Random, word: str) -> str:
    """An operand for a place of a form, mostly one that fits; another word stays."""
    if word in USES:
        name = NAME_OF_KIND[USES[word].value]
        return draw.choice((name, name, name, draw.choice(list(NAME_OF_KIND.values())), "nope", draw.choice(STRANGE_NAMES)))
    if word in RANGES:
        least, greatest = RANGES[word]
        return draw.choice((str(least), str(least), str(greatest), str(greatest + 1), draw.choice(STRANGE_NUMBERS)))
    if word in (SIGNAL, SIGNAL_SET):
        return draw.choice(("rt1", "rt31", draw.choice(STRANGE_SIGNALS)))
    return draw.choice(("z", "z", "a", draw.choice(STRANGE_NAMES))) if word == DECLARED else word


def faulty_line(draw: Random, stage: Stage) -> Text:
    return [draw.choice(STRANGE_LINES)]


def faulty_body(draw: Random, stage: Stage) -> Text:
    """A body with some lines, of which each may have a fault."""
    openers = [form for forms in forms_at(stage).values() for form in forms if form.role is Role.BODY]
    steps = [form for forms in forms_at(stage).values() for form in forms if form.role is Role.STEP]
    inner = [draw.choice((draw.choice(STRANGE_LINES), filled(draw, draw.choice(steps), LEAST_SCRIPT), "run 1", "run 2"))
             for _ in range(draw.randint(0, 4))]
    return [filled(draw, draw.choice(openers), LEAST_SCRIPT), *inner] + ["end"] * draw.choice((1, 1, 1, 1, 0, 2))


def faulty_server(draw: Random, stage: Stage) -> Text:
    if stage < Stage.SERVERS:
        return faulty_line(draw, stage)
    numbers = [draw.choice((1, 4, 5, 255, 0, 256)), draw.choice((1, 4, 5)), draw.choice((0, 3, 10, _GREATEST + 1)),
               draw.choice((0, 1, 3, 11)), draw.choice((0, 1, 16, 17))]
    word = draw.choice(SERVER_WORDS) if stage is Stage.VERSION2 else "sporadic"
    return [f"thread v {word} {' '.join(map(str, numbers))} at 0", "end"]


def barred_step(draw: Random, stage: Stage) -> Text:
    """A handler or cleanup with a step that must not stand in it."""
    if stage < Stage.LANGUAGE:
        return faulty_line(draw, stage)
    barred = [form for form in FORMS if form.head in BARRED_FROM_HANDLERS_AND_CLEANUPS | {"sigmask"}]
    return [f"{draw.choice(('handler', 'cleanup'))} w", filled(draw, draw.choice(barred), LEAST_SCRIPT), "end"]


# Limits passed by one


def limit_passed(draw: Random, stage: Stage) -> Text:
    """A text with one declaration, block or step more than a limit allows, or just as many."""
    limits = LIMITS_OF_VERSION[version_at(stage)]
    makers: list[Callable[[Random, int], Text]] = [partial(too_many_threads, limits)]
    if stage >= Stage.LANGUAGE:
        makers += [too_deep, too_deep, too_many_bodies, two_quantums, too_many_steps]
    if stage >= Stage.WAITING:
        makers += [partial(too_many_objects, limits)] * 2
    if stage >= Stage.LIVES:
        makers += [too_guarded, too_guarded]
    return draw.choice(makers)(draw, draw.choice((0, 1, 1, 2)))


def with_fault_above(draw: Random, lines: Text, extra: int) -> Text:
    """The text as it is, or with a second fault somewhere in it."""
    if extra and draw.random() < 0.6:
        return lines
    at = draw.randint(0, len(lines))
    return lines[:at] + [draw.choice(STRANGE_LINES)] + lines[at:]


def too_many_threads(limits: dict[str, int], draw: Random, extra: int) -> Text:
    lines = [line for k in range(limits["thread"] + extra) for line in (f"thread t{k} fifo 5 at {k}", "end")]
    return with_fault_above(draw, lines, extra)


def too_deep(draw: Random, extra: int) -> Text:
    """Blocks one in the other; the body counts as one of the sixteen that are allowed."""
    openers = [draw.choice(("loop 1", "forever", "if 0", "unless EINTR")) for _ in range(15 + extra)]
    lines = ["thread a fifo 5 at 0", *openers, *["end"] * (16 + extra)]
    return with_fault_above(draw, lines, extra)


def too_many_bodies(draw: Random, extra: int) -> Text:
    kinds = [draw.choice(("handler", "cleanup")) for _ in range(64 + extra)]
    lines = [line for k, kind in enumerate(kinds) for line in (f"{kind} h{k}", "end")] + LEAST_SCRIPT
    return with_fault_above(draw, lines, extra)


def two_quantums(draw: Random, extra: int) -> Text:
    return with_fault_above(draw, [f"quantum {k + 1}" for k in range(1 + extra)] + LEAST_SCRIPT, extra)


def too_many_steps(draw: Random, extra: int) -> Text:
    if draw.random() < 0.9:
        return too_deep(draw, extra)
    half = draw.randint(1, 65_535)
    lines = ["thread a fifo 5 at 0", *["yield"] * half, "end", "handler h", *["yield"] * (65_536 + extra - half), "end"]
    return with_fault_above(draw, lines, extra)


def too_many_objects(limits: dict[str, int], draw: Random, extra: int) -> Text:
    form = draw.choice(("mutex {} inherit", "cond {}", "sem {} 3", "queue {} 1 8", "timer {} rt3 5"))
    limit = limits[first_word(form)]
    return with_fault_above(draw, [form.format(f"x{k}") for k in range(limit + extra)] + LEAST_SCRIPT, extra)


def too_guarded(draw: Random, extra: int) -> Text:
    """Push blocks one in the other; eight are allowed."""
    lines = ["cleanup u", "end", "thread a fifo 5 at 0", *["push u"] * (8 + extra)]
    return with_fault_above(draw, lines + ["pop 1"] * (8 + extra) + ["end"], extra)
