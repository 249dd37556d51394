"""The faults of a line by itself: its bytes, its pattern, and the words at its places."""
from __future__ import annotations

import re

import trace_lines
from forms import DECLARED, GREATEST_NUMBER, OPERAND, RANGES, REAL, SERVER_WORDS, SIGNAL, SIGNAL_SET, is_place
from reader import Entry, FaultKind, is_number, operand_fault, read_line
from words import is_signal

from .found import Found, Word, listed, words_in
from .patterns import KEYWORDS, LETTERS, MEANT, SERVER, Forms, best_form, meant_by, nearest, pattern_of

_CLOCKS = {REAL: REAL, "realtime": REAL, "clock_realtime": REAL, "monotonic": "", "clock_monotonic": ""}
"""What people write for a clock, and the word for it."""
ELSE = ("else", "elif", "elseif")
_BYTES = {0: "a zero byte", 11: "a vertical tab", 12: "a form feed", 13: "a Windows line end", 27: "an escape", 127: "a delete"}


def bad_byte(number: int, line: bytes) -> Found:
    """The first byte of a line that no text may have."""
    at = re.search(rb"[^\t -~]", line).start()
    byte, word = line[at], Word(" ", at + 1)
    if byte == 13 and at == len(line) - 1:
        return Found(1, number, FaultKind.BadByte, word, f"byte {at + 1} is 13, a Windows line end",
                     "end lines with byte 10 alone, as by: tr -d '\\r' < OLD > NEW")
    if number == 1 and line.startswith((b"\xef\xbb\xbf", b"\xff\xfe", b"\xfe\xff")):
        return Found(1, number, FaultKind.BadByte, word, "the text begins with a byte order mark", "save it as plain ASCII, without a mark")
    if byte >= 128:
        letter = line[at:at + 4].decode("utf-8", "replace")[0].replace("\ufffd", chr(byte))
        if not letter.isprintable():
            return Found(1, number, FaultKind.BadByte, word, f"byte {at + 1} begins U+{ord(letter):04X}, which cannot be seen and is not ASCII",
                         "remove it, or write a blank")
        return Found(1, number, FaultKind.BadByte, word, f"byte {at + 1} begins the letter '{letter}', which is not ASCII",
                     "write it in ASCII, also in a comment")
    return Found(1, number, FaultKind.BadByte, word, f"byte {at + 1} is {_BYTES.get(byte, f'a control byte, {byte}')}", "remove it")


def bad_version(number: int, words: list[Word]) -> Found:
    """A first line that asks for a version that is not there."""
    wrong = words[1] if len(words) == 2 else words[0]
    return Found(1, number, FaultKind.BadVersion, wrong, f"there is no version '{' '.join(word.text for word in words[1:])}'",
                 "write `version 2`, or leave the line out for version 1")


def line_fault(number: int, line: bytes, forms: Forms) -> tuple[Entry | None, Found | None]:
    """The entry of a line with words, as far as it can be told, and its fault by itself."""
    words = words_in(line)
    texts = [word.text for word in words]
    entry, kind = read_line(number, texts, forms)
    if kind is None:
        return entry, None
    if kind is FaultKind.UnknownWord:
        return _guess(number, texts, forms), _unknown_word(number, words, forms)
    if kind is FaultKind.WordCount:
        return _guess(number, texts, forms), _word_count(number, words, forms)
    places = [(place, word) for want, word in zip(entry.form.words, words) if is_place(place := want)]
    place, word = next((place, word) for place, word in places if operand_fault(place, word.text) is kind)
    wrong, mend = _number(place, word.text) if kind is FaultKind.BadNumber else _name(place, word.text)
    return entry, Found(1, number, kind, word, wrong, f"{mend} (the pattern is `{pattern_of(entry.form)}`)")


def _guess(number: int, texts: list[str], forms: Forms) -> Entry | None:
    """A line that has no pattern, as the one that it was to be, so that what it opens, closes and declares counts."""
    head = texts[0] if texts[0] in forms else meant_by(texts[0])
    form = best_form([head, *texts[1:]], forms) if head else None
    if form is None:
        return None
    operands = tuple(have for want, have in zip(form.words, texts) if is_place(want))
    return Entry(number, form, operands + ("",) * (len(form.places) - len(operands)))


def _unknown_word(number: int, words: list[Word], forms: Forms) -> Found:
    first, texts = words[0], [word.text for word in words]
    if first.text == "version":
        return Found(1, number, FaultKind.UnknownWord, first, "`version` stands on the first line with words alone", "move it there")
    if "strict" in texts and not any("strict" in form.words for form in forms["thread"]):
        return Found(1, number, FaultKind.UnknownWord, words[texts.index("strict")], "`strict` is a policy of version 2",
                     "write `version 2` as the first line, or `sporadic`")
    if first.text not in forms:
        return Found(1, number, FaultKind.UnknownWord, first, *_no_first_word(texts, forms))
    if (server := _server(texts)) is not None:
        return Found(1, number, FaultKind.UnknownWord, _policy(words), *server)
    form = best_form(texts, forms)
    at, expected = _first_difference(texts, forms)
    near = nearest(texts[at], expected)
    behind = " ".join(texts[:at])
    if texts[at - 1] in expected:
        return Found(1, number, FaultKind.UnknownWord, words[at - 1], f"a word is missing before `{texts[at - 1]}`", f"write `{pattern_of(form)}`")
    if not near and (lacking := _lacking(texts, at, forms)):
        return Found(1, number, FaultKind.UnknownWord, words[at], f"a word is missing before `{texts[at]}`", f"write {listed(lacking)}")
    pattern = "" if texts[0] in ("if", "unless") else f"; the nearest pattern is `{pattern_of(form)}`"
    joined = re.fullmatch(r"([a-z]+)([0-9]+)", texts[at])
    if joined is not None and joined[1] in expected:
        near = f"{joined[1]} {joined[2]}"
    return Found(1, number, FaultKind.UnknownWord, words[at], f"'{texts[at]}' may not stand behind `{behind}`",
                 f"did you mean `{near}`?" if near else f"there stands {listed(expected)}{pattern}")


def _no_first_word(texts: list[str], forms: Forms) -> tuple[str, str]:
    """Of a line whose first word begins none: what is wrong, and what to write."""
    first = texts[0]
    wrong = f"'{first}' begins no line of a script"
    if first.startswith(("//", ";", "--")):
        return f"'{first}' begins no line", "a comment begins with `#`"
    if first.lower() in ELSE:
        return "there is no `else`", "end the block of `if R`, and open one of `unless R` with the same R behind it"
    if trace_lines.read_line(" ".join(texts).encode()) is not None:
        return wrong, "this is a line of a trace, which pse52-view draws and pse52-measure measures"
    if first == "task" and len(texts) == 6 and all(map(is_number, texts[2:])):
        return wrong, "this is a line of tasks, which `pse52 rta N` reads; a script has `thread NAME fifo P at N`"
    meant = meant_by(first)
    if meant is None and nearest(first, ["version"]):
        return wrong, "did you mean `version 2`? That is the first line with words"
    known = f"`{meant}` is what does it here" if first.lower() in MEANT else f"did you mean `{meant}`?"
    behind = f"`{first}` stands behind another word: " if first in KEYWORDS else ""
    return wrong, f"{known} {_patterns(meant, forms)}" if meant else f"{behind}docs/SCRIPT.md, Patterns, has every line that there is"


def _lacking(texts: list[str], at: int, forms: Forms) -> list[str]:
    """The patterns that a line would have with one keyword more before a word."""
    found = []
    for form in forms[texts[0]]:
        whole = [*texts[:at], *form.words[at:at + 1], *texts[at:]]
        if len(whole) == len(form.words) and form.agrees(whole) and all(
                operand_fault(want, have) is None for want, have in zip(form.words, whole) if is_place(want)):
            found.append(pattern_of(form))
    return found


def _first_difference(texts: list[str], forms: Forms) -> tuple[int, list[str]]:
    """The first word with which no pattern agrees any more, and the keywords that may stand there."""
    left = list(forms[texts[0]])
    for at in range(1, len(texts)):
        agreeing = [form for form in left if form.agrees(texts[:at + 1])]
        if not agreeing:
            return at, list(dict.fromkeys(form.words[at] for form in left if len(form.words) > at and not is_place(form.words[at])))
        left = agreeing
    raise AssertionError(texts)


def _patterns(head: str, forms: Forms) -> str:
    found = [pattern_of(form) for form in forms[head]]
    return f"({listed(found)})" if len(found) <= 3 else f"({listed(found[:2], 'and')}, and {len(found) - 2} more)"


def _policy(words: list[Word]) -> Word:
    """The word of a line that says its policy has a server."""
    return next(word for word in words if word.text in SERVER_WORDS)


def _server(texts: list[str]) -> tuple[str, str] | None:
    """Of the parameters of a sporadic server with a number too few or too many: what is wrong, and which number is missing."""
    policy = next((text for text in texts if text in SERVER_WORDS), None)
    if policy is None:
        return None
    behind = texts[texts.index(policy) + 1:]
    numbers = [_value(text) for text in behind[:next((i for i, text in enumerate(behind) if not is_number(text)), len(behind))]]
    five = "high priority, low priority, period, budget, and how many replenishments may be pending"
    if len(numbers) == 5 or len(numbers) == 0:
        return None
    wrong = f"behind `{policy}` come five numbers, and there are {len(numbers)}"
    missing = [at for at in (4, 1, 3, 2, 0) if len(numbers) == 4 and _fits(numbers, at)]
    if len(missing) not in (1, 2):
        return wrong, f"they are, in this order: {five}"
    names = " or ".join(SERVER[at] for at in missing)
    return wrong, f"missing is {names}: the five are {five}"


def _value(text: str) -> int:
    """The value of digits, where it is not far above the greatest number of a script."""
    digits = text.lstrip("0")
    return int(digits or "0") if len(digits) <= 19 else GREATEST_NUMBER + 1


def _fits(numbers: list[int], missing: int) -> bool:
    """Whether four numbers are those of a server without the one that is missing."""
    high, low, period, budget, limit = numbers[:missing] + [None] + numbers[missing:]
    return ((high is None or 1 <= high <= 255) and (low is None or 1 <= low <= 255) and (limit is None or 1 <= limit <= 16)
            and (high is None or low is None or low < high) and (budget is None or period is None or 1 <= budget <= period))


def _word_count(number: int, words: list[Word], forms: Forms) -> Found:
    texts = [word.text for word in words]
    comment = next((word for word in words if word.text.startswith(("//", ";", "--"))), None)
    if comment is not None:
        return Found(1, number, FaultKind.WordCount, comment, f"'{comment.text}' is a word too many", "a comment begins with `#`")
    if (server := _server(texts)) is not None:
        return Found(1, number, FaultKind.WordCount, _policy(words), *server)
    agreeing = [form for form in forms[texts[0]] if form.agrees(texts)]
    form = min(agreeing, key=lambda form: abs(len(form.words) - len(texts)))
    wants = f"write `{pattern_of(form)}`" if len(agreeing) == 1 else f"write {listed([pattern_of(form) for form in agreeing])}"
    longest = max(len(form.words) for form in agreeing)
    if len(texts) > longest:
        wants = _instead(texts, longest, forms) or wants
        if all(text.startswith(",") or text.endswith(",") or "," in text for text in texts[longest - 1:longest]):
            wants += "; a set has no blanks round its commas"
        elif form.words[-1] == SIGNAL_SET and is_signal(texts[longest]):
            wants += "; the signals of a set stand between commas, as `rt1,rt5`"
        if (clock := _clock(texts[0], texts[longest], forms)) is not None:
            wants = clock
        return Found(1, number, FaultKind.WordCount, words[longest], f"'{texts[longest]}' is a word too many", wants)
    end = Word(" ", words[-1].column + len(words[-1].text) + 1)
    missing = [_what(place) for place in form.words[len(texts):]]
    wrong = f"the line ends too early: {' '.join(missing)} is missing" if len(agreeing) == 1 else "the line ends too early"
    return Found(1, number, FaultKind.WordCount, end, wrong, wants)


def _instead(texts: list[str], longest: int, forms: Forms) -> str | None:
    """What to write for a word too many where it is misspelt, or where `real` does not stand last."""
    longer = [form for form in forms[texts[0]] if len(form.words) > longest and form.agrees(texts[:longest])]
    if (near := nearest(texts[longest], [form.words[longest] for form in longer if not is_place(form.words[longest])])) is not None:
        return f"did you mean `{near}`?"
    last = [form for form in longer if form.words[-1] == REAL and len(form.words) == len(texts) and REAL in texts[:longest]]
    return f"write `{pattern_of(last[0])}`: `real` stands last" if last else None


def _clock(head: str, word: str, forms: Forms) -> str | None:
    """What to write for a word too many that names a clock, if it does."""
    clock = _CLOCKS.get(word.lower())
    if clock is None:
        return None
    if clock == "":
        return "leave it out: without `real` a time is one of CLOCK_MONOTONIC"
    if word != REAL and any(form.words[-1] == REAL for form in forms[head]):
        return "write `real`: that puts the time on CLOCK_REALTIME"
    if head == "timer_settime":
        return "a timer's clock is said where it is declared, by `timer NAME SIG N real`"
    if head == "gettime":
        return "write `real_gettime`, which reads CLOCK_REALTIME"
    return "leave it out: `real` stands once, behind an absolute time and a timer's declaration alone"


def _what(place: str) -> str:
    return LETTERS.get(place, "N") if is_place(place) else f"`{place}`"


def _number(place: str, text: str) -> tuple[str, str]:
    """What is wrong with a word at the place of a number."""
    if text == "reg":
        return "`reg` may not stand here", "a number stands here: only where a pattern has V may the register stand"
    wrong = f"'{text}' is no number"
    if text == REAL:
        return wrong, "the number stands here, and `real` behind it"
    if re.fullmatch(r"[0-9]+\.[0-9]+", text):
        return wrong, "ticks are whole numbers: choose a shorter tick"
    if re.fullmatch(r"-[0-9]+", text):
        return wrong, "no number is negative"
    if re.fullmatch(r"0[xX][0-9a-fA-F]+", text):
        return wrong, f"write it in decimal: {int(text, 16)}" if len(text) <= 18 else "write it in decimal"
    if (unit := re.fullmatch(r"([0-9]+)([a-zA-Z]+)", text)) is not None:
        return wrong, f"write digits without a unit, as {unit[1]}: all times are in ticks"
    if re.fullmatch(r"[0-9]+[_,'][0-9_,']+|[0-9]+[eE][0-9]+", text):
        return wrong, "write all its digits, and nothing between them"
    if re.fullmatch(r"\{\w+\}", text):
        return wrong, "write a number in its place; bin/pse52-sweep fills it in by the values of its SWEEP.toml"
    return wrong, "digits stand here, or `reg`" if place == OPERAND else "digits stand here"


def _name(place: str, text: str) -> tuple[str, str]:
    """What is wrong with a word at the place of a name, a signal or a set."""
    if place == SIGNAL:
        return f"'{text}' is no signal", "signals are `rt0` to `rt31`"
    if place == SIGNAL_SET:
        return f"'{text}' is no set of signals", "a set is `all`, `none`, or signals between commas, of `rt0` to `rt31`, as `rt1,rt5`"
    if len(text) > 32:
        return f"the name has {len(text)} bytes", "a name has at most 32"
    if re.fullmatch(r"[A-Za-z][A-Za-z0-9_]*", text):
        return f"'{text}' is no name, since it has capital letters", f"write `{text.lower()}`"
    if (strange := re.search(r"[^a-z0-9_]", text)) is not None:
        return f"'{text}' is no name, since it has '{strange[0]}'", "a name has small letters, digits and `_` alone"
    return f"'{text}' is no name, since it begins with '{text[:1]}'", "a name begins with a small letter"


def number_fault(entry: Entry, words: list[Word]) -> tuple[Word, str] | None:
    """The first number of a line that is out of its range, and what is wrong with it."""
    for want, word in zip(entry.form.words, words):
        if want in RANGES and word.text != "reg":
            least, most = RANGES[want]
            value = _value(word.text)
            if not least <= value <= most:
                bound = "10^18" if most == GREATEST_NUMBER else most
                return word, f"{word.text} is out of the range of this number, {least} to {bound}"
    return None


def declared_word(entry: Entry, words: list[Word]) -> Word:
    """The word that a line declares: its name, or the signal of an action."""
    at = next((at for at, want in enumerate(entry.form.words) if want in (DECLARED, SIGNAL)), 0)
    return words[at]


def used_words(entry: Entry, words: list[Word]) -> list[tuple[str, Word]]:
    """The places of a line that name something, with their words."""
    return [(want, word) for want, word in zip(entry.form.words, words) if is_place(want)]

