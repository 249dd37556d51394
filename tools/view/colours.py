"""Colours of priorities: from blue, the lowest of the trace, to red, the highest."""
from __future__ import annotations

Rgb = tuple[int, int, int]

_SCALE: tuple[Rgb, ...] = ((69, 117, 180), (116, 173, 209), (112, 191, 160), (230, 205, 90), (244, 150, 75), (205, 55, 45))
_DARK, _LIGHT = "#1d2433", "#ffffff"


def _between(a: Rgb, b: Rgb, share: float) -> Rgb:
    return tuple(round(x + (y - x) * share) for x, y in zip(a, b))


def _text_on(colour: Rgb) -> str:
    """Dark or light text, whichever is read better on the colour."""
    red, green, blue = colour
    return _DARK if 0.299 * red + 0.587 * green + 0.114 * blue > 140 else _LIGHT


def colours_of(priorities: list[int]) -> dict[int, tuple[str, str]]:
    """For each priority, given the highest first, the colour of its stretches and that of text on them."""
    colours = {}
    for rank, priority in enumerate(reversed(priorities)):
        place = rank / max(1, len(priorities) - 1) * (len(_SCALE) - 1)
        low = min(int(place), len(_SCALE) - 2)
        colour = _between(_SCALE[low], _SCALE[low + 1], place - low)
        colours[priority] = ("#%02x%02x%02x" % colour, _text_on(colour))
    return colours


def digits_apart(number: int) -> str:
    """A number with thin blanks between its thousands, as it is read on an axis."""
    return f"{number:,}".replace(",", "\u2009")


def raised(power: int) -> str:
    return "".join("⁰¹²³⁴⁵⁶⁷⁸⁹"[int(digit)] for digit in str(power))


def short_number(number: int) -> str:
    """A number as it is read on an axis; a long one with few digits that are not 0 by a power of ten, exactly."""
    digits = str(number)
    told = digits.rstrip("0")
    if len(digits) >= 7 and len(told) <= 5:
        return f"{told[0]}{'.' if len(told) > 1 else ''}{told[1:]}·10{raised(len(digits) - 1)}"
    return digits_apart(number)
