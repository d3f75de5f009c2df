"""Writes the JSON document of a table that was made elsewhere, as `airymore verify` reads it.

    python3 tools/document.py KIND X LINES     from lines `G,N [I I .. I] V`, in any order, of a file, or of standard input where LINES is -
    python3 tools/document.py KIND X           KIND is wk, bgw or wp: from numbers that are made here, by other ways than the program's

KIND is wk, bgw or wp, or the name of a file with the text of your tensors; X bounds 2g - 2 + n. V is the amplitude of the key, a fraction; a power of the
letter, ` p` or ` p^e` behind it, is left out. Lines beyond X are left out too. What is wrong in a line is for `verify` to find: that no key is
missing or too many, that each number solves the constraints.

Numbers made here: those of wk by the recursion of Dijkgraaf, Verlinde and Verlinde in Witten's normalisation, those of bgw by the recursion of Norbury's
Theta numbers, those of wp from psi classes alone. From Python: `document("wk", 2, {(0, (0, 0, 0)): 1, (1, (1,)): Fraction(1, 8), ..})`.
"""
import json
import sys
from fractions import Fraction
from functools import lru_cache
from math import prod

sys.dont_write_bytecode = True
from literature import sorted_list, splits, with_kappa, witten  # noqa: E402
from load import LINE, odd_product  # noqa: E402


# ---- the document

def euler(key):
    return 2 * key[0] - 2 + len(key[1])


def document(kind, bound, table):
    """The text of the document of a table {(g, (d1, .., dn)): number}: the keys up to the bound, by Euler number, genus and indices."""
    listed = {(g, tuple(sorted(d))): Fraction(v) for (g, d), v in table.items()}
    if len(listed) != len(table):
        raise ValueError("a key stands twice")
    keys = sorted((key for key in listed if euler(key) <= bound), key=lambda key: (euler(key), key))
    cells = [{"g": g, "i": list(d), "v": str(listed[g, d])} for g, d in keys]
    return json.dumps({"bound": bound, "cells": cells, "kind": kind}, sort_keys=True, separators=(",", ":")) + "\n"


def numbers_of(text):
    """The numbers of lines `KEY VALUE`, without the letter's power."""
    table = {}
    for line in text.splitlines():
        read = LINE.fullmatch(line.strip())
        if read is None:
            raise ValueError(f"no line of a table: {line}")
        g, n, indices, amount = read.groups()[:4]
        key = int(g), tuple(sorted(map(int, indices.split())))
        if len(key[1]) != int(n) or key in table:
            raise ValueError(f"not {n} indices, or a key that stands twice: {line}")
        table[key] = Fraction(amount)
    return table


# ---- numbers

@lru_cache(maxsize=None)
def theta(g, d):
    """Norbury's <Theta; tau_d1 .. tau_dn>_g for an ascending list d."""
    n = len(d)
    if g < 1 or n == 0 or sum(d) != g - 1:
        return Fraction(0)
    k, rest = d[-1], d[:-1]
    if g == 1 and not rest:
        return Fraction(1, 8)
    found = Fraction(0)
    for place, e in enumerate(rest):
        found += Fraction(odd_product(e + k), odd_product(e - 1) if e else 1) * theta(g, sorted_list(rest[:place] + rest[place + 1:] + (e + k,)))
    for a in range(k):
        b = k - 1 - a
        both = theta(g - 1, sorted_list(rest + (a, b)))
        for part, other, ways in splits(rest):
            both += ways * sum(theta(h, sorted_list(part + (a,))) * theta(g - h, sorted_list(other + (b,))) for h in range(g + 1))
        found += Fraction(odd_product(a) * odd_product(b), 2) * both
    return found / odd_product(k)


def odd_products(d):
    return prod(map(odd_product, d))


# the greatest sum of the indices of genus g and n places, whether every smaller one has keys too, and the amplitude
STRUCTURES = {"wk": (lambda g, n: 3 * g - 3 + n, False, lambda g, d: witten(g, d) * odd_products(d)),
              "bgw": (lambda g, n: g - 1, False, lambda g, d: theta(g, d) * odd_products(d)),
              "wp": (lambda g, n: 3 * g - 3 + n, True, with_kappa)}


def lists_from(least, total, places):
    """The ascending lists of so many indices from the least on, with this sum."""
    if places == 0:
        if total == 0:
            yield ()
        return
    for first in range(least, total // places + 1):
        for others in lists_from(first, total - first, places - 1):
            yield (first, *others)


def amplitudes(kind, bound):
    """The amplitudes of a named structure with 2g - 2 + n up to the bound."""
    law, smaller, amplitude = STRUCTURES[kind]
    table = {}
    for level in range(1, bound + 1):
        for g in range(level // 2 + 2):
            n = level + 2 - 2 * g
            if n < 1 or law(g, n) < 0:
                continue
            for total in range(0 if smaller else law(g, n), law(g, n) + 1):
                for d in lists_from(0, total, n):
                    table[g, d] = amplitude(g, d)
    return table


# ---- the command

def main(words):
    kind, bound = words[0], int(words[1])
    if len(words) == 2:
        table = amplitudes(kind, bound)
    elif words[2] == "-":
        table = numbers_of(sys.stdin.read())
    else:
        with open(words[2], encoding="ascii") as it:
            table = numbers_of(it.read())
    if kind not in STRUCTURES:
        with open(kind, encoding="ascii") as it:
            kind = it.read()
    sys.stdout.write(document(kind, bound, table))


if __name__ == "__main__":
    sys.setrecursionlimit(10000)
    if len(sys.argv) not in (3, 4):
        sys.exit(__doc__)
    main(sys.argv[1:])
