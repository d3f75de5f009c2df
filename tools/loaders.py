"""Checks load.py, and load.gp where there is a gp, against each other and against the equations of intersection numbers.

    python3 tools/loaders.py PROGRAM

Each check prints a line; the first that fails ends with status 1.
"""
import os
import re
import shutil
import subprocess
import sys
import tempfile
from fractions import Fraction
from itertools import product

sys.dont_write_bytecode = True
HERE = os.path.dirname(os.path.abspath(__file__))
from document import amplitudes, document, numbers_of  # noqa: E402
from load import Polynomial, intersection, load, load_document, table_of, text_of, theta_number, volume  # noqa: E402

TABLES = (("wk", 8), ("wp", 5), ("bgw", 11))


class Fails(Exception):
    pass


def printed(program, *words, text=""):
    return subprocess.run([program, *words], input=text, stdout=subprocess.PIPE, text=True).stdout


def agree(name, pairs):
    """Prints how many pairs of numbers are equal."""
    pairs = list(pairs)
    for place, left, right in pairs:
        if left != right:
            raise Fails(f"{name}: at {place} {left} is not {right}")
    if not pairs:
        raise Fails(f"{name}: nothing was compared")
    print(f"{name}: {len(pairs)}")


# ---- the equations

def string(table):
    """<0 d1 .. dn> against the sum over k of <d1 .. dk - 1 .. dn>."""
    for g, (first, *d) in table:
        if first == 0 and d and (g, len(d)) != (0, 2):
            lower = (d[:k] + [d[k] - 1] + d[k + 1:] for k in range(len(d)) if d[k] > 0)
            yield (g, d), intersection(table, g, 0, *d), sum(intersection(table, g, *e) for e in lower)


def dilaton(table, numbers, index):
    """<index d1 .. dn> against (2g - 2 + n) <d1 .. dn>."""
    for g, d in table:
        if index in d and len(d) > 1 and 2 * g - 3 + len(d) > 0:
            d = list(d)
            d.remove(index)
            yield (g, d), numbers(table, g, index, *d), (2 * g - 2 + len(d)) * numbers(table, g, *d)


# ---- volumes and refusals

def volume_terms(program, g, n):
    """The polynomial that the program prints, by the powers of L1, .., Ln."""
    found = {}
    for term in printed(program, "volume", str(g), str(n)).strip().split(" + "):
        powers = [0] * n
        for place, power in re.findall(r" L([0-9]+)\^([0-9]+)", term):
            powers[int(place) - 1] = int(power)
        amount, exponent = re.fullmatch(r"(\S+)((?: p(?:\^[0-9]+)?)?)(?: L.*)?", term).groups()
        found[tuple(powers)] = Fraction(amount) * Polynomial([0, 1]) ** (int(exponent[3:] or 1) if exponent else 0)
    return found


def volumes(program, table):
    for g, n in ((0, 4), (1, 1), (1, 2), (2, 1), (0, 5), (1, 3), (2, 2)):
        made, told = volume(table, g, n), volume_terms(program, g, n)
        yield from (((g, n, powers), made.get(powers), told.get(powers)) for powers in {*made, *told})


def refused(text):
    try:
        table_of(text)
    except ValueError as told:
        return str(told)
    return None


def refusals(program):
    for words in (("wk", "25"), ("wp", "14"), ("wk",)):
        line = printed(program, "table", *words)
        yield words, refused(line), line.strip()
    yield "an empty text", refused(""), "a table without lines"


# ---- JSON documents

def documents(tables, room):
    """The tables of the folder as documents, loaded again; and the numbers that `document.py` makes itself."""
    for kind, bound in TABLES:
        with open(f"{room}/{kind}.txt", encoding="ascii") as it:
            numbers = numbers_of(it.read())
        with open(f"{room}/{kind}.json", "w", encoding="ascii") as it:
            it.write(document(kind, bound, numbers))
        again, made = load_document(f"{room}/{kind}.json"), amplitudes(kind, bound)
        yield (kind, "keys"), list(again), list(tables[kind])
        yield (kind, "made keys"), set(made), set(numbers)
        yield from (((kind, key), value, again.get(key)) for key, value in tables[kind].items())
        yield from (((kind, key, "made"), value, made[key]) for key, value in numbers.items())


# ---- texts from nested lists

def changed(tensor, slots, t):
    """The tensor of one index, twice, behind the change of basis F'[..1..] = F[..1..] + t F[..0..]; a slot is summed ('c') or not ('a')."""
    full = {place: Fraction(tensor) if len(set(place)) == 1 else Fraction(0) for place in product(range(2), repeat=len(slots))}
    for slot, sort in enumerate(slots):
        to, by, times = (1, 0, t) if sort == "a" else (0, 1, -t)
        full = {place: v + (times * full[place[:slot] + (by,) + place[slot + 1:]] if place[slot] == to else 0) for place, v in full.items()}
    return full


def nested(full, depth):
    return [nested({place[1:]: v for place, v in full.items() if place[0] == i}, depth - 1) for i in range(2)] if depth else full[()]


def two_copies():
    return [nested(changed(1, slots, 1), 3) for slots in ("aaa", "aac", "acc")] + [nested(changed("1/8", "a", 1), 1)]


def entries_of(text):
    """The lines of a text without its remarks."""
    return [line for line in text.splitlines() if not line.startswith("#")]


# ---- the same by gp

def gp_text(tensor):
    return "[" + ", ".join(map(gp_text, tensor)) + "]" if isinstance(tensor, list) else str(tensor)


def by_gp(tensors, room):
    """Has gp load the tables of the folder, test the equations, and write a text; returns its counts, and its entries by the kind."""
    names = ", ".join("ABCD")
    lines = [f'read("{HERE}/{name}.gp");' for name in ("load", "../bench/recursion", "equations")]
    lines += [f'{kind} = airy_load("{room}/{kind}.txt"); dump({kind}, "{room}/{kind}.dump");' for kind, _ in TABLES]
    lines += [f'dump(airy_document("{room}/{kind}.json"), "{room}/{kind}.json.dump");' for kind, _ in TABLES]
    lines += ["print([string_holds(wk), dilaton_holds(wk, intersection, 1), dilaton_holds(bgw, theta_number, 0), by_hand(wk)]);"]
    lines += [f"{name} = {gp_text(tensor)};" for name, tensor in zip("ABCD", tensors)] + [f'airy_write("{room}/copies.txt", {names});']
    lines += [f'iferr(airy_load("{room}/refused.txt"), e, print(e));']
    with open(f"{room}/all.gp", "w", encoding="ascii") as it:
        it.write("\n".join([*lines, "quit"]) + "\n")
    ran = subprocess.run(["gp", "-q", "-f", f"{room}/all.gp"], cwd=f"{HERE}/..", stdin=subprocess.DEVNULL, stdout=subprocess.PIPE, stderr=subprocess.STDOUT, text=True)
    if "***" in ran.stdout or ran.returncode:
        raise Fails(f"gp: {ran.stdout}")
    return ran.stdout.splitlines()


def dumped(file):
    with open(file, encoding="ascii") as it:
        for line in it:
            g, d, value = re.fullmatch(r"([0-9]+) \[([0-9, ]*)\] \[(.*)\]", line.strip()).groups()
            yield (int(g), tuple(int(e) for e in d.split(","))), Polynomial(value.split(", ") if value else [])


def gp_checks(program, tables, counts, room):
    tensors = two_copies()
    with open(f"{room}/refused.txt", "w", encoding="ascii") as it:
        it.write(printed(program, "table", "wk", "25"))
    told = by_gp(tensors, room)
    agree("gp: string, dilaton, dilaton of Theta as often as in Python, and the recursion by hand", [("counts", told[0], str([*counts, len(tables["wk"])]))])
    agree("gp: a refused table is an error", [("line", "refused: bound 25" in told[1], True)])
    for kind, table in tables.items():
        entries = dict(dumped(f"{room}/{kind}.dump"))
        agree(f"gp and Python, entries of {kind}", [((kind, key), entries.get(key), table.get(key)) for key in {*entries, *table}])
        agree(f"gp, the document of {kind}", [(kind, dict(dumped(f"{room}/{kind}.json.dump")), entries)])
    with open(f"{room}/copies.txt", encoding="ascii") as it:
        agree("gp and Python, lines of a text", [("text", it.read(), text_of(*tensors))])


def checks(program, room):
    tables = {}
    for kind, bound in TABLES:
        with open(f"{room}/{kind}.txt", "w", encoding="ascii") as it:
            it.write(printed(program, "table", kind, str(bound)))
        tables[kind] = load(f"{room}/{kind}.txt")
    wk, bgw, wp = tables["wk"], tables["bgw"], tables["wp"]
    equations = [list(string(wk)), list(dilaton(wk, intersection, 1)), list(dilaton(bgw, theta_number, 0))]
    for name, pairs in zip(("string equation, table wk 8", "dilaton equation, table wk 8", "dilaton equation, table bgw 11"), equations):
        agree(name, pairs)
    agree("number", (((g, d), f"{intersection(wk, g, *d)}\n", printed(program, "number", "wk", *map(str, (g, *d)))) for g, d in list(wk)[:60]))
    agree("terms of volumes, from table wp 5", volumes(program, wp))
    agree("wk in wp", ((key, wp[key], value) for key, value in wk.items() if 2 * key[0] - 2 + len(key[1]) <= wp.bound))
    agree("refusals", refusals(program))
    agree("JSON documents, and numbers made by other ways", documents(tables, room))
    with open(f"{HERE}/../examples/two_copies.txt", encoding="utf-8") as it:
        agree("text from nested lists", [("text", entries_of(text_of(*two_copies())), entries_of(it.read()))])
    agree("its relations hold", [("line", printed(program, "relations", "2", "-", text=text_of(*two_copies())), "closed\n")])
    if shutil.which("gp"):
        gp_checks(program, tables, list(map(len, equations)), room)
    else:
        print("gp: not there, so load.gp is left out")


def main(program):
    with tempfile.TemporaryDirectory() as room:
        try:
            checks(program, room)
        except Fails as told:
            print(told)
            return 1
    return 0


if __name__ == "__main__":
    sys.exit(main(os.path.realpath(sys.argv[1])))
