"""Tables of airyrun as exact numbers in Python and in Sage, and texts of tensors from nested lists.

    table = load("wk8.txt")            what `airyrun table wk 8 > wk8.txt` wrote
    table = run("airyrun", "table", "wk", "8")         the same without a file
    table = load_document("wk8.json")  the same from a JSON document, which `airymore json wk 8 0 > wk8.json` or `document.py` wrote
    table[1, (2, 0)]                   5/8, the amplitude F(1,2)[0,2]; the indices may stand in any order
    intersection(table, 2, 4)          1/1152, of a table of wk: <tau_4>_2
    theta_number(table, 2, 1)          3/128, of a table of bgw: <Theta; tau_1>_2
    volume(table, 1, 1)                {(0,): 1/12 p, (2,): 1/48}, of a table of wp, by the powers of L1, L2, ..
    text_of(A, B, C, D)                the text of the tensors with A[i][j][k], .., D[i], for `airyrun table - X`

Numbers are `Fraction`, and those of a table with the letter p are `Polynomial` in p, which stands for pi squared. Under Sage they are elements
of QQ and of the polynomial ring QQ[p]. A table that was refused is a ValueError with the program's line.

    python3 tools/load.py FILE.json    writes the lines of the document's table, as `airyrun table` does
"""
import json
import re
import subprocess
import sys
from fractions import Fraction
from itertools import product
from math import factorial, prod


class Polynomial:
    """A polynomial in p over the fractions: `coefficients[e]` stands before p^e."""

    def __init__(self, coefficients):
        kept = [Fraction(c) for c in coefficients]
        while kept and kept[-1] == 0:
            kept.pop()
        self.coefficients = kept

    def _both(self, other):
        other = other if isinstance(other, Polynomial) else Polynomial([other])
        size = max(len(self.coefficients), len(other.coefficients))
        return [(self[e], other[e]) for e in range(size)], other

    def __getitem__(self, e):
        return self.coefficients[e] if e < len(self.coefficients) else Fraction(0)

    def __add__(self, other):
        return Polynomial([a + b for a, b in self._both(other)[0]])

    def __sub__(self, other):
        return Polynomial([a - b for a, b in self._both(other)[0]])

    def __mul__(self, other):
        other = self._both(other)[1]
        made = [Fraction(0)] * (len(self.coefficients) + len(other.coefficients))
        for (i, a), (j, b) in product(enumerate(self.coefficients), enumerate(other.coefficients)):
            made[i + j] += a * b
        return Polynomial(made)

    def __truediv__(self, divisor):
        return Polynomial([c / divisor for c in self.coefficients])

    def __pow__(self, exponent):
        return prod([self] * exponent, start=Polynomial([1]))

    def __eq__(self, other):
        return all(a == b for a, b in self._both(other)[0])

    def __hash__(self):
        return hash(self[0]) if len(self.coefficients) < 2 else hash(tuple(self.coefficients))

    def __call__(self, p):
        """The value where p has this value, as `math.pi ** 2`."""
        return sum(c * p ** e for e, c in enumerate(self.coefficients))

    def __repr__(self):
        terms = [f"{c}{'' if e == 0 else ' p' if e == 1 else f' p^{e}'}" for e, c in enumerate(self.coefficients) if c != 0]
        return " + ".join(terms) or "0"

    __radd__ = __add__
    __rmul__ = __mul__


try:
    from sage.all import QQ, PolynomialRing

    number = QQ
    letter = PolynomialRing(QQ, "p").gen()
except ImportError:
    number = Fraction
    letter = Polynomial([0, 1])


# ---- tables

class Table(dict):
    """Numbers by their keys (g, (d1, .., dn)), d1 <= .. <= dn, in the order of the lines. `bound` is the greatest Euler number 2g - 2 + n."""

    bound = 0

    def __getitem__(self, key):
        g, indices = key
        return dict.__getitem__(self, (int(g), tuple(sorted(int(d) for d in indices))))


LINE = re.compile(r"([0-9]+),([0-9]+) \[([0-9]+(?: [0-9]+)*)\] (-?[0-9]+(?:/[0-9]+)?)( p(?:\^([0-9]+))?)?")


def table_of(text):
    """The table with these lines."""
    found = Table()
    has_letter = " p" in text
    for line in text.splitlines():
        read = LINE.fullmatch(line)
        if read is None:
            raise ValueError(line)
        g, n, indices, amount, power, exponent = read.groups()
        value = number(amount)
        if has_letter:
            value = value * letter ** (int(exponent or 1) if power else 0)
        dict.__setitem__(found, (int(g), tuple(int(d) for d in indices.split())), value)
        found.bound = max(found.bound, 2 * int(g) - 2 + int(n))
    if not found:
        raise ValueError("a table without lines")
    return found


def load(file):
    """The table in a file that the program wrote."""
    with open(file, encoding="ascii") as it:
        return table_of(it.read())


def run(program, *words, text=""):
    """The table that the program prints for these words, and for this text at its standard input."""
    return table_of(subprocess.run([program, *map(str, words)], input=text, stdout=subprocess.PIPE, text=True).stdout)


# ---- JSON documents

def letter_law(kind):
    """The numbers (P, Q) of the law by which a kind's tensors carry the letter, or None where they carry none."""
    if kind == "wp":
        return 3, 1
    found = re.search(r"^\s*shape\s+atmost\s+(\S+)\s+(\S+)\s+letter\s*$", kind, re.MULTILINE)
    return found and (int(found[1]), int(found[2]))


def document_lines(document):
    """The lines of the table in a document that `json.load` gave. The letter's power, P (g - 1) + Q n less the sum of the indices, is put back."""
    law = letter_law(document["kind"])
    for cell in document["cells"]:
        g, d = cell["g"], cell["i"]
        e = law[0] * (g - 1) + law[1] * len(d) - sum(d) if law else 0
        power = "" if e == 0 else " p" if e == 1 else f" p^{e}"
        yield f"{g},{len(d)} [{' '.join(map(str, d))}] {cell['v']}{power}"


def load_document(file):
    """The table in a file with a JSON document."""
    with open(file, encoding="utf-8") as it:
        return table_of("\n".join(document_lines(json.load(it))))


# ---- what is counted

def odd_product(d):
    """(2d+1)!!, the product of the odd numbers up to 2d + 1."""
    return prod(range(1, 2 * d + 2, 2))


def _divided(table, g, indices, sum_of_indices):
    euler = 2 * g - 2 + len(indices)
    if not indices or euler <= 0:
        raise ValueError(f"the pair {g},{len(indices)} is not stable")
    if euler > table.bound:
        raise ValueError(f"the table ends at 2g - 2 + n = {table.bound}")
    if sum(indices) != sum_of_indices:
        return number(0)
    return table[g, indices] / prod(map(odd_product, indices))


def intersection(table, g, *indices):
    """Witten's <tau_d1 .. tau_dn>_g, of a table of wk, or of wp."""
    return _divided(table, g, indices, 3 * g - 3 + len(indices))


def theta_number(table, g, *indices):
    """Norbury's <Theta; tau_d1 .. tau_dn>_g, of a table of bgw."""
    return _divided(table, g, indices, g - 1)


def volume(table, g, n):
    """The Weil-Petersson volume of genus g with n boundaries, of a table of wp: its terms by the powers (m1, .., mn) of L1, .., Ln."""
    most = 3 * g - 3 + n
    lists = (d for d in product(range(most + 1), repeat=n) if sum(d) <= most)
    terms = {tuple(2 * k for k in d): table[g, d] / prod(factorial(2 * k + 1) for k in d) for d in lists}
    return {powers: value for powers, value in terms.items() if value != 0}


# ---- texts of tensors

def _value(v):
    if isinstance(v, float):
        raise TypeError(f"{v} is a float: give whole numbers or fractions")
    v = Fraction(str(v))
    if max(abs(v.numerator), v.denominator) >= 1 << 127:
        raise ValueError(f"{v} leaves 128 bits")
    return v


def _entries(name, tensor, dim, symmetric):
    if len(tensor) != dim or any(len(row) != dim or any(len(line) != dim for line in row) for row in tensor):
        raise ValueError(f"{name} is not {dim} by {dim} by {dim}")
    for i, j, k in product(range(dim), repeat=3):
        v = _value(tensor[i][j][k])
        if symmetric and v != _value(tensor[i][k][j]):
            raise ValueError(f"{name}[{i}][{j}][{k}] is not {name}[{i}][{k}][{j}]")
        if v != 0 and (j <= k or not symmetric):
            yield f"{name} {i} {j} {k} {v}"


def text_of(A, B, C, D):
    """The text `airy 1` of tensors as nested lists: A[i][j][k] is A^i_jk. A and C must be symmetric in the last two places."""
    dim = len(D)
    lines = ["airy 1", f"dim {dim}", *_entries("A", A, dim, True), *_entries("B", B, dim, False), *_entries("C", C, dim, True)]
    lines += [f"D {i} {_value(v)}" for i, v in enumerate(D) if _value(v) != 0]
    return "\n".join(lines) + "\nend\n"


if __name__ == "__main__":
    with open(sys.argv[1], encoding="utf-8") as it:
        print("\n".join(document_lines(json.load(it))))
