"""Compares the program's tables with numbers that are printed in the literature, and with numbers made here by other ways than the program's.

    python3 tools/literature.py PROGRAM

Each check prints a line with the number of values that agree; the first that doesn't is printed, and the status is then 1. docs/LITERATURE.md says
where each formula comes from, and in which normalisation.
"""
import sys
from collections import Counter
from fractions import Fraction
from functools import lru_cache
from itertools import product
from math import comb, factorial, prod

sys.dont_write_bytecode = True
from load import intersection, odd_product, run, theta_number, volume  # noqa: E402

# Witten (1991) and Itzykson and Zuber (1992), genus 1 to 3.
WITTEN = {(1, (1,)): "1/24", (2, (4,)): "1/1152", (2, (2, 3)): "29/5760", (2, (2, 2, 2)): "7/240", (3, (7,)): "1/82944", (3, (2, 6)): "77/414720",
          (3, (3, 5)): "503/1451520", (3, (4, 4)): "607/1451520", (3, (2, 2, 5)): "17/5760", (3, (2, 3, 4)): "1121/241920",
          (3, (3, 3, 3)): "583/96768", (3, (2, 2, 2, 4)): "53/1152", (3, (2, 2, 3, 3)): "205/3456", (3, (2, 2, 2, 2, 3)): "193/288",
          (3, (2, 2, 2, 2, 2, 2)): "1225/144"}
# Norbury: log Z = -1/8 log(1 - t0) + 3/128 t1/(1 - t0)^3 + 15/1024 t2/(1 - t0)^5 + 63/1024 t1^2/(1 - t0)^6 + ..
NORBURY = {(1, 0): [((), "1/8")], (2, 3): [((1,), "3/128")], (3, 5): [((2,), "15/1024")], (3, 6): [((1, 1), "63/512")]}
# Zograf (2008) and Mirzakhani (2007), the volumes of curves with cusps over the power of pi squared.
CUSPS = {(0, 3): "1", (0, 4): "2", (0, 5): "10", (0, 6): "244/3", (1, 1): "1/12", (1, 2): "1/4", (1, 3): "14/9", (1, 4): "529/36", (2, 1): "29/192",
         (3, 1): "9292841/4082400"}


# ---- intersection numbers, by the recursion of Dijkgraaf, Verlinde and Verlinde in Witten's normalisation

@lru_cache(maxsize=None)
def witten(g, d):
    """<tau_d1 .. tau_dn>_g for an ascending list d."""
    n = len(d)
    if g < 0 or 2 * g - 2 + n <= 0 or sum(d) != 3 * g - 3 + n:
        return Fraction(0)
    if d[-1] == 0:
        return Fraction(1)
    k, rest = d[-1] - 1, d[:-1]
    if not rest and k == 0:
        return Fraction(1, 24)
    found = Fraction(0)
    for place, e in enumerate(rest):
        if e + k >= 0:
            found += Fraction(odd_product(e + k), odd_product(e - 1) if e else 1) * witten(g, sorted_list(rest[:place] + rest[place + 1:] + (e + k,)))
    for a in range(k):
        b = k - 1 - a
        both = witten(g - 1, sorted_list(rest + (a, b)))
        for part, other, ways in splits(rest):
            both += ways * sum(witten(h, sorted_list(part + (a,))) * witten(g - h, sorted_list(other + (b,))) for h in range(g + 1))
        found += Fraction(odd_product(a) * odd_product(b), 2) * both
    return found / odd_product(k + 1)


def sorted_list(d):
    return tuple(sorted(d))


def splits(items):
    """The splits of a list into a part and the others, with the number of ways; equal items aren't told apart."""
    counts = sorted(Counter(items).items())
    for taken in product(*(range(times + 1) for _, times in counts)):
        part = tuple(d for (d, _), t in zip(counts, taken) for _ in range(t))
        other = tuple(d for (d, times), t in zip(counts, taken) for _ in range(times - t))
        yield part, other, prod(comb(times, t) for (_, times), t in zip(counts, taken))


# ---- closed formulas

def two_points(most):
    """Dijkgraaf: the numbers <tau_a tau_b>_g are the coefficients of exp((x^3 + y^3)/24) sum k!/(2k+1)! (xy (x+y)/2)^k / (x+y)."""
    found = Counter()
    for i, j, (a, b, sign) in product(range(most), range(most), ((2, 0, 1), (1, 1, -1), (0, 2, 1))):
        # the term k = 0: (x^3 + y^3)^(i+j+1) / (x + y), where x^3 + y^3 is x + y times x^2 - xy + y^2
        found[3 * i + a, 3 * j + b] += Fraction(sign * comb(i + j, i), 24 ** (i + j + 1) * factorial(i + j + 1))
    for k in range(1, most + 1):
        front = Fraction(factorial(k), factorial(2 * k + 1) * 2 ** k)
        for i, j, c in product(range(most), range(most), range(k)):
            found[3 * i + k + c, 3 * j + 2 * k - 1 - c] += front * comb(k - 1, c) / (24 ** (i + j) * factorial(i) * factorial(j))
    return found


def sphere_volumes(most):
    """Kaufmann, Manin and Zagier: the numbers v_n = integral of kappa_1^(n-3), by inverting sum (-1)^(m-1) y^m / (m! (m-1)!)."""
    given = [Fraction(0)] + [Fraction((-1) ** (m - 1), factorial(m) * factorial(m - 1)) for m in range(1, most)]
    inverse = [Fraction(0), Fraction(1)]
    for size in range(2, most):
        inverse.append(Fraction(0))
        power, total = [Fraction(1)] + [Fraction(0)] * size, Fraction(0)
        for m in range(1, size + 1):
            power = [sum(power[a] * inverse[c - a] for a in range(c + 1) if c - a < len(inverse)) for c in range(size + 1)]
            total += given[m] * power[size]
        inverse[size] = -total
    return {n: inverse[n - 2] * factorial(n - 2) * factorial(n - 3) for n in range(3, most + 1)}


def partitions(total, most=None):
    if total == 0:
        yield ()
    for first in range(min(total, most or total), 0, -1):
        yield from ((first, *others) for others in partitions(total - first, first))


def with_kappa(g, d):
    """The number before p^m of F(g,n)[d] of wp, from psi classes alone: (2p)^m/m! <kappa_1^m tau_d1 .. tau_dn>_g times the (2d+1)!!."""
    m, found = 3 * g - 3 + len(d) - sum(d), Fraction(0)
    for parts in partitions(m):
        signs = prod((Fraction((-1) ** (part + 1), factorial(part)) for part in parts), start=Fraction(1))
        found += signs / prod(map(factorial, Counter(parts).values())) * witten(g, sorted_list(d + tuple(part + 1 for part in parts)))
    return 2 ** m * found * prod(map(odd_product, d))


# ---- Korteweg and de Vries, of the numbers of a table

def kdv(table, numbers, law):
    """(2k+1) <k 0 0 I> = <k-1 0 J><0 0 0 J'> + 2 <k-1 0 0 J><0 0 J'> + 1/4 <k-1 0 0 0 0 I> at each key of the table that has k >= 1 and two zeros."""
    def at(g, d):
        return numbers(table, g, *d) if g >= 0 and 2 * g - 2 + len(d) > 0 and sum(d) == law(g, len(d)) else 0

    for g, d in table:
        for k in sorted(set(d)):
            if k == 0 or d.count(0) < 2:
                continue
            rest = list(d)
            for taken in (k, 0, 0):
                rest.remove(taken)
            rest = tuple(rest)
            right = Fraction(at(g - 1, (k - 1, 0, 0, 0, 0) + rest)) / 4
            for part, other, ways in splits(rest):
                for h in range(g + 1):
                    both = at(h, (k - 1, 0) + part) * at(g - h, (0, 0, 0) + other) + 2 * at(h, (k - 1, 0, 0) + part) * at(g - h, (0, 0) + other)
                    right += ways * both
            yield (g, d, k), (2 * k + 1) * at(g, d), right


# ---- the checks

def checks(program):
    """Each with a name and triples of a place, the program's number and the other one."""
    wk, bgw, wp = run(program, "table", "wk", 10), run(program, "table", "bgw", 11), run(program, "table", "wp", 6)
    yield "Witten, Itzykson and Zuber: printed numbers of genus 1 to 3", [((g, d), intersection(wk, g, *d), Fraction(v)) for (g, d), v in WITTEN.items()]
    yield "table wk 10 by the recursion in Witten's normalisation", [(key, intersection(wk, key[0], *key[1]), witten(*key)) for key in wk]
    two = two_points(15)
    yield "Dijkgraaf: two points", [((g, d), intersection(wk, g, *d), two[d]) for g, d in wk if len(d) == 2]
    yield "one point, 1/(24^g g!)", [((g, d), intersection(wk, g, *d), Fraction(1, 24 ** g * factorial(g))) for g, d in wk if len(d) == 1]
    yield "Korteweg and de Vries, table wk 10", list(kdv(wk, intersection, lambda g, n: 3 * g - 3 + n))
    yield "Korteweg and de Vries, table bgw 11", list(kdv(bgw, theta_number, lambda g, n: g - 1))
    yield "Norbury: printed series of genus 1 to 3", list(norbury(bgw))
    yield "Zograf, Mirzakhani: printed volumes of cusps", [((g, n), wp[g, (0,) * n](1), Fraction(v)) for (g, n), v in CUSPS.items()]
    spheres = sphere_volumes(8)
    yield "Kaufmann, Manin and Zagier: spheres with cusps", [((0, n), wp[0, (0,) * n](1), 2 ** (n - 3) * spheres[n] / factorial(n - 3)) for n in range(3, 9)]
    yield "table wp 6 by psi classes and kappa_1", [(key, wp[key], with_kappa(*key) * power(wp, key)) for key in wp]
    yield "Mirzakhani: V(1,1), V(1,2), V(2,1), V(0,5)", list(mirzakhani(wp))


def norbury(bgw):
    """The coefficient of t0^m in -1/8 log(1 - t0), or in t_d../(1 - t0)^e, times m!."""
    for (g, e), ((d, v),) in NORBURY.items():
        for m in range(1 if not d else 0, 12 - 2 * g + 2 - len(d)):
            times = factorial(m - 1) if not d else prod(range(e, e + m))
            yield (g, d, m), theta_number(bgw, g, *(0,) * m, *d), Fraction(v) * times


def power(wp, key):
    """p^m, m being 3g - 3 + n less the sum of the indices."""
    return (wp[1, (0,)] * 12) ** (3 * key[0] - 3 + len(key[1]) - sum(key[1]))


def mirzakhani(wp):
    """The printed polynomials, at 0, 1, 2 in place of each L squared and of p."""
    printed = {(1, 1): lambda p, x: (4 * p + x) / 48, (1, 2): lambda p, x, y: (4 * p + x + y) * (12 * p + x + y) / 192,
               (2, 1): lambda p, x: (4 * p + x) * (12 * p + x) * (6960 * p ** 2 + 384 * p * x + 5 * x ** 2) / 2211840,
               (0, 5): lambda p, *xs: (sum(x * x for x in xs) + 4 * sum(a * b for i, a in enumerate(xs) for b in xs[:i]) + 24 * p * sum(xs) + 80 * p ** 2) / 8}
    for (g, n), meant in printed.items():
        terms = volume(wp, g, n)
        for p, *xs in product([Fraction(v) for v in range(3)], repeat=n + 1):
            found = sum(v(p) * prod(x ** (m // 2) for x, m in zip(xs, powers)) for powers, v in terms.items())
            yield (g, n, p, *xs), found, meant(p, *xs)


def main(program):
    for name, triples in checks(program):
        for place, found, other in triples:
            if found != other:
                print(f"{name}: at {place} the program has {found}, and not {other}")
                return 1
        print(f"{name}: {len(triples)} values agree")
    return 0


if __name__ == "__main__":
    sys.exit(main(sys.argv[1]))
