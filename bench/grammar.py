"""A second reader of the texts `airy 1` and `airy 2`, written from the grammar in words alone, and what `probe X` and `table - X` answer to a text.

`read` gives the dim, the shape and the tensors of a text, or raises `Refused` with the line that the program prints. `answer` gives the status and the
bytes of a command. It has no code in common with the program: whole numbers without a bound, tensors as dictionaries, and sums that
go through all keys and all splits.
"""
import re
from itertools import combinations, combinations_with_replacement, product
from math import comb, gcd

LONGEST = 1 << 20
LARGEST = (1 << 127) - 1
MOST_KEYS = 200_000


class Refused(Exception):
    """A refusal: the status and the line without `refused: `."""

    def __init__(self, status, line):
        super().__init__(line)
        self.status = status
        self.line = line


# ---- the grammar

def lines_of(text):
    """The lines of a text, each without its line feed and one carriage return at its end."""
    pieces = text.split(b"\n")
    if pieces[-1] == b"":
        pieces.pop()
    return [piece[:-1] if piece.endswith(b"\r") else piece for piece in pieces]


def words_of(line):
    """The longest runs of bytes other than space and tab."""
    return re.findall(rb"[^ \t]+", line)


def natural(word):
    """The value of a word of digits, None where it isn't one; a value of more than 45 digits is just a large one."""
    if not re.fullmatch(rb"[0-9]+", word):
        return None
    digits = word.lstrip(b"0") or b"0"
    return int(digits) if len(digits) <= 45 else 10 ** 45


def fraction(word):
    """The value that a word is, as a pair in lowest terms; None where it isn't one."""
    match = re.fullmatch(rb"([+-]?)([0-9]+)(?:/([0-9]+))?", word)
    if not match:
        return None
    sign, above, below = match.groups()
    above = natural(above)
    below = 1 if below is None else natural(below)
    if above > LARGEST or below > LARGEST or below == 0:
        return None
    return lowest(-above if sign == b"-" else above, below)


# ---- shapes: a relation, `all`, `exact` or `atmost`; the law's two numbers P and Q; and whether there is a letter

ALL = ("all", 0, 0, False)


def shape_of(words):
    """The shape that a shape line says; None where it isn't one."""
    match words:
        case [b"shape", b"all"]:
            return ALL
        case [b"shape", b"exact", p, q]:
            relation, letter = "exact", False
        case [b"shape", b"atmost", p, q]:
            relation, letter = "atmost", False
        case [b"shape", b"atmost", p, q, b"letter"]:
            relation, letter = "atmost", True
        case _:
            return None
    if not all(re.fullmatch(rb"[+-]?[0-9]{1,2}", word) for word in (p, q)):
        return None
    return relation, int(p), int(q), letter


def stands(shape, number, other):
    """Whether a number stands to the other as the shape wants."""
    return shape[0] == "all" or number == other or shape[0] == "atmost" and number < other


def covers(shape, g, places):
    return stands(shape, sum(places), law_number(shape, g, len(places)))


def law_number(shape, g, n):
    return shape[1] * (g - 1) + shape[2] * n


def keeps(shape, name, place):
    """Whether an entry keeps the grading of the shape."""
    _, p, q, _ = shape
    if name == b"D":
        return stands(shape, place[0], q)
    i, j, k = place
    number, other = {b"A": (i + j + k, 3 * q - p), b"B": (i + j - k, q), b"C": (i - j - k, p - q)}[name]
    return stands(shape, number, other)


def read(text):
    """The dim, the shape and the four dictionaries of the entries that aren't 0."""
    if len(text) > LONGEST:
        raise Refused(3, "text too long")
    lines = lines_of(text)
    significant = [(number, words) for number, words in enumerate(map(words_of, lines), 1) if words and not words[0].startswith(b"#")]
    behind = len(lines) + 1

    def refuse(number, kind):
        raise Refused(3, f"line {number} {kind}")

    number, words = significant[0] if significant else (behind, [])
    if words not in ([b"airy", b"1"], [b"airy", b"2"]):
        refuse(number, "Header")
    first, shape = 2, ALL
    shaped = words[1] == b"2"
    number, words = significant[1] if len(significant) > 1 else (behind, [])
    dim = natural(words[1]) if len(words) == 2 and words[0] == b"dim" else None
    if dim is None or not 1 <= dim <= 32:
        refuse(number, "Dim")
    if shaped:
        number, words = significant[2] if len(significant) > 2 else (behind, [])
        first, shape = 3, shape_of(words)
        if shape is None:
            refuse(number, "Shape")
    tensors = {b"A": {}, b"B": {}, b"C": {}, b"D": {}}
    counts = {b"A": 5, b"B": 5, b"C": 5, b"D": 3, b"end": 1}
    ended = False
    for number, words in significant[first:]:
        if ended:
            refuse(number, "After")
        if words[0] not in counts:
            refuse(number, "Word")
        if len(words) != counts[words[0]]:
            refuse(number, "Count")
        if words[0] == b"end":
            ended = True
            continue
        place = [natural(word) for word in words[1:-1]]
        if any(index is None or index >= dim for index in place):
            refuse(number, "Index")
        value = fraction(words[-1])
        if value is None:
            refuse(number, "Number")
        if value[0] == 0:
            continue
        if not keeps(shape, words[0], place):
            refuse(number, "Grade")
        if words[0] in (b"A", b"C"):
            place = place[:1] + sorted(place[1:])
        entries = tensors[words[0]]
        if tuple(place) in entries:
            refuse(number, "Twice")
        entries[tuple(place)] = value
    if not ended:
        refuse(behind, "NoEnd")
    return dim, shape, tensors


# ---- sums and products of 128 bits

class Over(Exception):
    """A step leaves the range."""


def lowest(above, below):
    common = gcd(above, below)
    return above // common, below // common


def fits(*numbers):
    if any(abs(number) > LARGEST for number in numbers):
        raise Over


def times(left, right):
    found = lowest(left[0] * right[0], left[1] * right[1])
    fits(*found)
    return found


def plus(left, right):
    common = gcd(left[1], right[1])
    first, second = left[0] * (right[1] // common), right[0] * (left[1] // common)
    shared = gcd(first + second, common)
    below = (left[1] // common) * (right[1] // shared)
    fits(first, second, first + second, below)
    return (first + second) // shared, below


def shown(value):
    return str(value[0]) if value[1] == 1 else f"{value[0]}/{value[1]}"


# ---- the five relations

def row(tensor, i, j, both):
    """The numbers of a tensor at i, j, a by a; where `both`, also those at i, a, j."""
    found = {a: v for (x, y, a), v in tensor.items() if (x, y) == (i, j)}
    if both:
        found |= {a: v for (x, a, y), v in tensor.items() if (x, y) == (i, j)}
    return found


def products(relation, rows, i, j, k, l):
    """The products of one side of BA, BB or BC: for each index a in order three of them, where they aren't 0."""
    left = {"BA": "BBB", "BB": "BBC", "BC": "BCC"}[relation]
    right = {"BA": "AAA", "BB": "BBA", "BC": "CBB"}[relation]
    firsts = [rows[name].get((i, index), {}) for name, index in zip(left, (j, k, l))]
    for a in sorted(set().union(*firsts)):
        seconds = rows[right[0]].get((a, k), {}).get(l), rows[right[1]].get((j, a), {}).get(l), rows[right[2]].get((j, a), {}).get(k)
        for first, second in zip(firsts, seconds):
            if a in first and second:
                yield first[a], second


def products_of_d(tensors, rows, i, j):
    """The products of one side of D, where they aren't 0."""
    for a, v in sorted(rows["B"].get((i, j), {}).items()):
        if (a,) in tensors[b"D"]:
            yield v, tensors[b"D"][a,]
    for (head, a, b), v in sorted(tensors[b"C"].items()):
        if head == i:
            yield v if a < b else times(v, (1, 2)), rows["A"].get((j, a), {}).get(b, (0, 1))


def side(relation, tensors, rows, i, j, *rest):
    if relation == "AA":
        return rows["A"].get((i, j), {}).get(rest[0], (0, 1))
    total = (0, 1)
    for left, right in products_of_d(tensors, rows, i, j) if relation == "D" else products(relation, rows, i, j, *rest):
        total = plus(total, times(left, right))
    return total


def check_relations(dim, tensors):
    """Refuses the first place at which a relation fails, or a side of it leaves the range."""
    rows = {name: {(i, j): found for i in range(dim) for j in range(dim) if (found := row(tensors[name.encode()], i, j, name != "B"))} for name in "ABC"}
    heads = {i for name in "ABC" for i, _ in rows[name]}
    for relation, free in (("AA", 1), ("BA", 2), ("BB", 2), ("BC", 2), ("D", 0)):
        for i, j in combinations(range(dim), 2):
            if i not in heads and j not in heads:
                continue
            for rest in product(range(dim), repeat=free):
                try:
                    left, right = side(relation, tensors, rows, i, j, *rest), side(relation, tensors, rows, j, i, *rest)
                except Over:
                    raise Refused(6, f"over in {relation} at {' '.join(map(str, (i, j, *rest)))}") from None
                if left != right:
                    raise Refused(4, f"{relation} at {' '.join(map(str, (i, j, *rest)))}: {shown(left)} and {shown(right)}")


# ---- the table

def keys_of(dim, level):
    """The keys of a level in order, of every shape."""
    for g in range(level // 2 + 2):
        if level + 2 - 2 * g >= 1:
            for places in combinations_with_replacement(range(dim), level + 2 - 2 * g):
                yield g, places


def keys_up_to(dim, shape, bound):
    """The planned keys in order."""
    keys = []
    for level in range(1, bound + 1):
        if shape == ALL:
            ns = [level + 2 - 2 * g for g in range(level // 2 + 2) if level + 2 - 2 * g >= 1]
            if len(keys) + sum(comb(dim + n - 1, n) for n in ns) > MOST_KEYS:
                raise Refused(5, f"cells at level {level}")
        for g, places in keys_of(dim, level):
            if covers(shape, g, places):
                keys.append((g, places))
            if len(keys) > MOST_KEYS:
                raise Refused(5, f"cells at level {level}")
    return keys


def less(places, *gone):
    left = list(places)
    for index in gone:
        left.remove(index)
    return left


def key(g, *places):
    return g, tuple(sorted(places))


def splits(places):
    """Each sub-list with the rest and its weight, by how often each distinct index is taken, ascending."""
    distinct = sorted(set(places))
    for taken in product(*(range(places.count(index) + 1) for index in distinct)):
        part = [index for index, count in zip(distinct, taken) for _ in range(count)]
        weight = 1
        for index, count in zip(distinct, taken):
            weight *= comb(places.count(index), count)
        yield part, less(places, *part), weight


def pivot_sum(rows, values, g, places, pivot):
    """The sum over the terms of a key with this pivot, step by step from 0; raises Over. A key that isn't stable or that the shape doesn't cover has no
    value, and no term."""
    rest = less(places, pivot)
    if (g, len(places)) == (0, 3):
        return rows["A"].get((pivot, *rest), (0, 1))
    if (g, len(places)) == (1, 1):
        return rows["D"].get((pivot,), (0, 1))
    total = (0, 1)
    for j in sorted(set(rest)):
        for a, v in rows["B"].get((pivot, j), []):
            found = values.get(key(g, a, *less(rest, j)))
            if found:
                total = plus(total, times(times((rest.count(j), 1), v), found))
    for a, b, v in rows["C"].get(pivot, []):
        weight = None
        joined = values.get(key(g - 1, a, b, *rest)) if g >= 1 else None
        if joined:
            weight = v if a < b else times(v, (1, 2))
            total = plus(total, times(weight, joined))
        for k in range(g + 1):
            for part, others, ways in splits(rest):
                left, right = values.get(key(k, a, *part)), values.get(key(g - k, b, *others))
                if left and right:
                    weight = weight or (v if a < b else times(v, (1, 2)))
                    total = plus(total, times(times(times(weight, (ways, 1)), left), right))
    return total


def rows_of(tensors):
    """A and D by place, B by its first two indices, C by its first; each row ascending."""
    rows = {"A": tensors[b"A"], "B": {}, "C": {}, "D": tensors[b"D"]}
    for (i, j, a), v in sorted(tensors[b"B"].items()):
        rows["B"].setdefault((i, j), []).append((a, v))
    for (i, a, b), v in sorted(tensors[b"C"].items()):
        rows["C"].setdefault(i, []).append((a, b, v))
    return rows


def named(g, places):
    return f"{g},{len(places)} [{' '.join(map(str, places))}]"


def table_of(dim, shape, tensors, bound):
    """The value of each planned key, where every pivot gives it; else the first refusal."""
    rows = rows_of(tensors)
    values = {}
    for g, places in keys_up_to(dim, shape, bound):
        try:
            values[g, places] = pivot_sum(rows, values, g, places, places[0])
        except Over:
            raise Refused(6, f"over at {named(g, places)}") from None
    for (g, places), value in values.items():
        for pivot in sorted(set(places))[1:]:
            try:
                found = pivot_sum(rows, values, g, places, pivot)
            except Over:
                raise Refused(6, f"over at {named(g, places)} first {pivot}") from None
            if found != value:
                raise Refused(7, f"{named(g, places)} first {places[0]} gives {shown(value)}, first {pivot} gives {shown(found)}")
    return values


def power(shape, g, places):
    """The letter's power at a key, behind a space."""
    exponent = law_number(shape, g, len(places)) - sum(places) if shape[3] else 0
    return "" if exponent == 0 else " p" if exponent == 1 else f" p^{exponent}"


def answer(text, command, bound):
    """The status and the bytes of `probe BOUND` or `table - BOUND` with this text."""
    try:
        dim, shape, tensors = read(text)
        if command == "table":
            check_relations(dim, tensors)
        values = table_of(dim, shape, tensors, bound)
    except Refused as refused:
        return refused.status, f"refused: {refused.line}\n".encode()
    return 0, "".join(f"{named(g, places)} {shown(value)}{power(shape, g, places)}\n" for (g, places), value in values.items()).encode()
