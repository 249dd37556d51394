"""Draws one measure over one or two names as an SVG, by gnuplot."""
from __future__ import annotations

import math
import shutil
import subprocess
from itertools import pairwise
from pathlib import Path

MOST_LINES = 12
# Whole figures on an axis that is shorter than this have a stroke each: gnuplot would put some between them.
FEW = 6
# Dashes and points of lines, so that they are told apart without their colours.
DASHES = ("1", "(12,6)", "(3,4)")
SIGNS = (7, 5, 9, 11, 13)
HEAD = """\
set terminal svg size 760,440 dynamic enhanced font 'DejaVu Sans,12' background rgb 'white'
set output {out}
set xlabel '{x}'
set ylabel '{y}'
"""
LINES = """\
set grid
set key outside right
{counts}set xrange [{left}:{right}]
set yrange [0:{top}]
"""
MAP = """\
set nokey
set style fill solid noborder
set palette defined (0 '#4575b4', 1 '#70bfa0', 2 '#e6cd5a', 3 '#f4964b', 4 '#cd372d')
"""

Points = dict[tuple[int, ...], float]


class NoPlot(Exception):
    """Why there is no picture."""


def greatest_at(rows: list[dict[str, str]], measure: str, over: list[str]) -> Points:
    """For each point over the names the greatest figure of all runs there. Runs without a figure do not count."""
    points: Points = {}
    for row in rows:
        if row[measure] != "":
            at, figure = tuple(int(row[name]) for name in over), float(row[measure])
            points[at] = max(points.get(at, figure), figure)
    return points


def with_gaps(points: Points, rows: list[dict[str, str]], over: list[str]) -> Points:
    """The points, and where no run has a figure none, so that the axis goes as far as the grid and no line goes over the gap."""
    return {tuple(int(row[name]) for name in over): math.nan for row in rows} | points


def script(points: Points, measure: str, over: list[str], out: Path, deadline: int | None = None) -> str:
    """The commands of gnuplot, data among them: a line, a line for each value of the second name, or a map where those are many."""
    if len(over) == 1:
        return _head(out, over[0], measure) + _frame(points, deadline) + _line(points, deadline)
    if len({second for _, second in points}) <= MOST_LINES:
        return _head(out, over[0], measure) + _frame(points, deadline) + _lines(points, over[1], deadline)
    return _head(out, *over) + _map(points, measure)


def _frame(points: Points, deadline: int | None) -> str:
    """The axes: along as far as there are points, up from 0 to above all of them and the deadline."""
    places, figures = [at[0] for at in points], [figure for figure in points.values() if not math.isnan(figure)]
    margin = max(1, max(places) - min(places)) * 0.03
    left = max(0.0, min(places) - margin)
    top = max([1, deadline or 0, *figures]) * 1.08
    counts = "".join(f"set {axis}tics 1\n" for axis, along, far in (("x", places, max(places) - left), ("y", figures, top))
                     if far < FEW and all(figure == int(figure) for figure in along))
    return LINES.format(left=left, right=max(places) + margin, top=top, counts=counts)


def _deadline(deadline: int | None) -> str:
    """A line across at the deadline."""
    return "" if deadline is None else f", \\\n  {deadline} with lines lw 1.5 dt 2 lc rgb '#c21f1f' title 'deadline {deadline}'"


def _head(out: Path, x: str, y: str) -> str:
    return HEAD.format(out="'" + str(out).replace("'", "''") + "'", x=_shown(x), y=_shown(y))


def _shown(name: str) -> str:
    """A name as gnuplot prints it: without the mark a low line would put what follows it low."""
    return name.replace("_", "\\_")


def _data(name: str, points: Points) -> str:
    rows = "".join(f"{' '.join(map(str, at))} {figure}\n" for at, figure in sorted(points.items()))
    return f"${name} << EOD\n{rows}EOD\n"


def _line(points: Points, deadline: int | None) -> str:
    return _data("d", points) + "plot $d using 1:2 with linespoints lw 2 pt 7 ps 0.6 lc rgb '#2b62a8' notitle" + _deadline(deadline) + "\n"


def _lines(points: Points, name: str, deadline: int | None) -> str:
    """A line for each value. The first are the widest, so that one that hides another leaves its edges to be seen; each has dashes and points of its own."""
    data, plots = "", []
    seconds = sorted({second for _, second in points})
    for number, second in enumerate(seconds):
        data += _data(f"d{number}", {at: figure for at, figure in points.items() if at[1] == second})
        wide = 1.8 + 0.5 * (len(seconds) - 1 - number)
        look = f"lw {wide:.1f} dt {DASHES[number % len(DASHES)]} pt {SIGNS[number % len(SIGNS)]} ps 0.8"
        plots.append(f"$d{number} using 1:3 with linespoints {look} title '{_shown(name)} {second}'")
    return data + "plot " + ", \\\n  ".join(plots) + _deadline(deadline) + "\n"


def _map(points: Points, measure: str) -> str:
    """A box around each point, half as wide and high as the least step between two."""
    ranges, sizes = "", []
    for axis, places in zip("xy", zip(*points)):
        half = min((b - a for a, b in pairwise(sorted(set(places)))), default=1) / 2
        ranges += f"set {axis}range [{min(places) - half}:{max(places) + half}]\n"
        sizes.append(f"({half})")
    return (MAP + f"set cblabel '{_shown(measure)}'\n" + ranges + _data("d", points)
            + f"plot $d using 1:2:{sizes[0]}:{sizes[1]}:3 with boxxyerror fc palette\n")


def gnuplot() -> str:
    """The path of gnuplot. Raises NoPlot where it is not here."""
    path = shutil.which("gnuplot")
    if path is None:
        raise NoPlot("gnuplot, which draws the picture, is not here")
    return path


def draw(rows: list[dict[str, str]], measure: str, over: list[str], out: Path, deadline: int | None = None) -> None:
    """Writes the picture. Raises NoPlot where there is nothing to draw, or nothing to draw it with."""
    points = greatest_at(rows, measure, over)
    if not points:
        raise NoPlot(f"no run has a figure of '{measure}'")
    ended = subprocess.run([gnuplot()], input=script(with_gaps(points, rows, over), measure, over, out, deadline), text=True, capture_output=True, check=False)
    if ended.returncode != 0:
        raise NoPlot(f"gnuplot: {ended.stderr.strip()}")
