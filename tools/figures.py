"""Draws the figures of docs/figures as SVG, from what the program prints and from the times in bench/times.csv.

    python3 tools/figures.py PROGRAM           writes growth.svg, times.svg and pants.svg
    python3 tools/figures.py --check PROGRAM   compares them with what is there
"""
import csv
import os
import re
import subprocess
import sys
from fractions import Fraction
from math import ceil, factorial, floor, log10, pi, sqrt

ROOT = os.path.realpath(f"{os.path.dirname(os.path.abspath(__file__))}/..")
FOLDER = f"{ROOT}/docs/figures"
INK, GREY, BLUE, RED = "#222222", "#cccccc", "#1f5fa8", "#b5432a"


# ---- SVG

def tag(name, inside="", **given):
    words = "".join(f' {key.replace("_", "-")}="{round(v, 2) if isinstance(v, float) else v}"' for key, v in given.items())
    return f"<{name}{words}>{inside}</{name}>" if inside else f"<{name}{words}/>"


def words(x, y, text, anchor="middle", size=13, colour=INK, **more):
    return tag("text", text, x=float(x), y=float(y), font_size=size, text_anchor=anchor, fill=colour, **more)


def picture(width, height, title, parts):
    head = f'<svg xmlns="http://www.w3.org/2000/svg" viewBox="0 0 {width} {height}" width="{width}" height="{height}" font-family="sans-serif">'
    return "\n".join([head, tag("title", title), tag("rect", x=0, y=0, width=width, height=height, fill="white"), *parts, "</svg>", ""])


class Plot:
    """A plot of points (x, y), with y in powers of ten, in a box."""

    def __init__(self, box, xs, ys):
        self.left, self.top, self.right, self.bottom = box
        self.xs, self.ys = xs, ys

    def x(self, x):
        return self.left + (x - self.xs[0]) / (self.xs[1] - self.xs[0]) * (self.right - self.left)

    def y(self, y):
        return self.bottom - (y - self.ys[0]) / (self.ys[1] - self.ys[0]) * (self.bottom - self.top)

    def axes(self, marks, heights, below, beside):
        yield tag("rect", x=self.left, y=self.top, width=self.right - self.left, height=self.bottom - self.top, fill="none", stroke=INK)
        for x in marks:
            yield words(self.x(x), self.bottom + 18, x)
        for y, text in heights:
            yield tag("line", x1=self.left, x2=self.right, y1=self.y(y), y2=self.y(y), stroke=GREY, stroke_width="0.6")
            yield words(self.left - 7, self.y(y) + 4, text, anchor="end")
        yield words((self.left + self.right) / 2, self.bottom + 38, below)
        middle = (self.top + self.bottom) / 2
        yield words(self.left - 58, middle, beside, transform=f"rotate(-90 {self.left - 58} {middle})")

    def curve(self, points, colour, dashed=False):
        path = " ".join(f"{self.x(x):.2f},{self.y(y):.2f}" for x, y in points)
        yield tag("polyline", points=path, fill="none", stroke=colour, stroke_width="1.6", **({"stroke_dasharray": "6 4"} if dashed else {}))

    def dots(self, points, colour):
        return (tag("circle", cx=self.x(x), cy=self.y(y), r="3.2", fill=colour) for x, y in points)


# ---- the growth of volumes

def volume_of(program, genus):
    """V(g,1) at boundary length 0, the first term that the program prints."""
    told = subprocess.run([program, "volume", str(genus), "1"], stdout=subprocess.PIPE, text=True, check=True).stdout
    amount, exponent = re.match(r"(\S+) p(?:\^([0-9]+))?(?: \+|$)", told).groups()
    return float(Fraction(amount)) * pi ** (2 * int(exponent or 1))


def expected(g):
    """(4 pi^2)^(2g-2) (2g-2)! / sqrt(g pi), for one boundary."""
    return (4 * pi ** 2) ** (2 * g - 2) * factorial(2 * g - 2) / sqrt(g * pi)


def growth(program):
    genera = range(1, 7)
    found = {g: volume_of(program, g) for g in genera}
    left = Plot((80, 40, 420, 320), (0.7, 6.3), (-1, 24))
    right = Plot((520, 40, 780, 320), (0.7, 6.3), (0, 1.6))
    parts = [words(240, 25, "V(g,1) at length 0", size=14), words(650, 25, "V(g,1) over its expected growth", size=14)]
    parts += left.axes(genera, [(y, f"10^{y}") for y in range(0, 25, 4)], "genus g", "volume")
    parts += left.curve([(g, log10(expected(g))) for g in genera], RED, True)
    parts += left.dots([(g, log10(v)) for g, v in found.items()], BLUE)
    parts += right.axes(genera, [(y / 5, f"{y / 5:.1f}") for y in range(0, 9)], "genus g", "ratio")
    parts += right.curve([(0.7, 1), (6.3, 1)], RED, True)
    parts += right.curve([(g, v / expected(g)) for g, v in found.items()], BLUE)
    parts += right.dots([(g, v / expected(g)) for g, v in found.items()], BLUE)
    parts += [words(240, 385, "dots: airyrun volume g 1 with p = pi squared", colour=BLUE), words(240, 403, "dashed: (4 pi^2)^(2g-2) (2g-2)! / sqrt(g pi)", colour=RED)]
    return picture(820, 420, "Growth of Weil-Petersson volumes by genus", parts)


# ---- the time of a table

def times(_program):
    with open(f"{ROOT}/bench/times.csv", encoding="ascii", newline="") as it:
        rows = [row for row in csv.DictReader(line for line in it if not line.startswith("#")) if row["kind"] == "wk"]
    found = {threads: [(int(row["bound"]), log10(float(row[f"seconds_{threads}"]))) for row in rows] for threads in (1, 4)}
    lowest = floor(min(y for points in found.values() for _, y in points))
    highest = ceil(max(y for points in found.values() for _, y in points))
    bounds = [x for x, _ in found[1]]
    plot = Plot((90, 40, 560, 360), (bounds[0] - 0.5, bounds[-1] + 0.5), (lowest, highest))
    parts = [words(325, 25, "airyrun table wk X", size=14)]
    marks = range(bounds[-1], bounds[0] - 1, -2 if bounds[-1] - bounds[0] > 10 else -1)
    parts += plot.axes(marks, [(y, f"{10.0 ** y:g}") for y in range(lowest, highest + 1)], "bound X on 2g - 2 + n", "seconds")
    for points, colour, name, height in ((found[1], BLUE, "one thread", 60), (found[4], RED, "four threads", 78)):
        parts += [*plot.curve(points, colour), *plot.dots(points, colour), words(110, height, name, anchor="start", colour=colour)]
    return picture(600, 420, "Time of a table of Witten and Kontsevich by its bound", parts)


# ---- the terms of the recursion as pairs of pants

def ring(x, y, across, up=16):
    return tag("ellipse", cx=float(x), cy=float(y), rx=float(across), ry=float(up), fill="white", stroke=INK, stroke_width="1.5")


def pants(x, y, upper, lower):
    """A pair of pants with its waist at (x, y) and its legs 150 to the right, at the heights above and below."""
    legs = x + 150
    edges = [f"M {x} {y - 16} C {x + 60} {y - 16}, {legs - 60} {y + upper - 16}, {legs} {y + upper - 16}",
             f"M {x} {y + 16} C {x + 60} {y + 16}, {legs - 60} {y + lower + 16}, {legs} {y + lower + 16}",
             f"M {legs} {y + upper + 16} C {legs - 70} {y + upper + 16}, {legs - 70} {y + lower - 16}, {legs} {y + lower - 16}"]
    yield from (tag("path", d=it, fill="none", stroke=INK, stroke_width="1.5") for it in edges)
    yield from (ring(x, y, 6), ring(legs, y + upper, 6), ring(legs, y + lower, 6))


def body(x, y, height, holes, ends, note):
    """A surface that begins at x, with holes and with boundaries at the heights of `ends` on its right."""
    yield tag("rect", x=float(x), y=float(y - height / 2), width=130, height=float(height), rx=26, fill="#eef3fa", stroke=INK, stroke_width="1.5")
    for hole in range(holes):
        hx, hy = x + 42 + 45 * hole, y - 6
        arcs = f"M {hx - 14} {hy} Q {hx} {hy + 14} {hx + 14} {hy} M {hx - 9} {hy + 4} Q {hx} {hy - 5} {hx + 9} {hy + 4}"
        yield tag("path", d=arcs, fill="none", stroke=INK, stroke_width="1.3")
    yield words(x + 65, y + height / 2 - 8, note, size=12)
    yield from (ring(x + 130, end, 5, 12) for end in ends)


def notes(*given):
    """Small words, each with its place."""
    return (words(x, y, text, size=12) for x, y, text in given)


def drawing(_program):
    """The term with B, the joined term with C, and the product."""
    parts = [words(190, 26, "B^i_ja F(g,n-1)[a, I without j]", size=14)]
    parts += [*body(180, 190, 80, 2, (175, 205), "F(g, n-1)"), *pants(30, 130, -50, 60)]
    parts += notes((14, 135, "i"), (196, 84, "j"), (196, 168, "a"), (365, 195, "I without j"))
    parts += [words(590, 26, "C^i_ab F(g-1,n+1)[a,b,I] / 2", size=14)]
    parts += [*body(600, 135, 190, 1, (105, 165), "F(g-1, n+1)"), *pants(450, 135, -60, 60)]
    parts += notes((434, 140, "i"), (580, 50, "a"), (580, 230, "b"), (748, 140, "I"))
    parts += [words(970, 20, "C^i_ab F(k,1+|J|)[a,J] F(l,1+|J'|)[b,J'] / 2", size=14)]
    parts += [*body(980, 75, 90, 1, (75,), "F(k, 1+|J|)"), *body(980, 195, 90, 1, (195,), "F(l, 1+|J'|)"), *pants(830, 135, -60, 60)]
    parts += notes((814, 140, "i"), (960, 50, "a"), (960, 230, "b"), (1128, 80, "J"), (1128, 200, "J'"))
    return picture(1170, 270, "The terms of the recursion as pairs of pants that are cut off at the boundary i", parts)


FIGURES = {"growth.svg": growth, "times.svg": times, "pants.svg": drawing}


def main(program, is_check):
    os.makedirs(FOLDER, exist_ok=True)
    for name, draw in FIGURES.items():
        made, at = draw(program), f"{FOLDER}/{name}"
        if not is_check:
            with open(at, "w", encoding="ascii") as it:
                it.write(made)
        else:
            with open(at, encoding="ascii") as it:
                if it.read() != made:
                    print(f"{name} isn't what the script draws")
                    return 1
    print(f"{len(FIGURES)} figures {'are what the script draws' if is_check else 'written'}")
    return 0


if __name__ == "__main__":
    sys.exit(main(sys.argv[-1], "--check" in sys.argv))
