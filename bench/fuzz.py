"""Makes texts from a seed, lets the program and the second reader of `grammar.py` answer each, and compares status and bytes.

The words: the program, the batch runner, the number of texts, the seed, `probe` or `table`, and the bound. With `edits` in the seed's place the
texts are those that differ from one by one byte, put in, left out or changed, at every place and for every byte. At the first text with two
answers it prints the text and both and ends with 1; else it prints how many texts got each answer.
"""
import collections
import random
import re
import struct
import subprocess
import sys
import time
from fractions import Fraction
from itertools import permutations, product

import grammar

BATCH = 1000
LARGEST = (1 << 127) - 1
BYTES = b" \t\r\n\0#+-/0123456789ABCDabcdein.,\x0b\x0c\x1f\x7f\x80\xb2\xff"
KINDS = b"A A A B B C C D D".split()
FAR = [LARGEST - 1, LARGEST, LARGEST + 1, LARGEST + 2, 1 << 128, (1 << 128) - 1, (1 << 128) + 1, 10 ** 38, 17 * 10 ** 37, 10 ** 39 + 1, 10 ** 60,
       (1 << 64) - 1, 1 << 64, (1 << 63) - 1, 1 << 63, 1 << 126, 1 << 32, 3 ** 80, 5 ** 54]
ODD_VALUES = b"1/0 0/0 0/5 -0 +0 -0/7 00/01 1/ /2 / + - -/ +/1 --1 +-1 1//2 1/2/3 1/-2 1/+2 1.5 1e3 0x1 1_0 1, \xc2\xb2 \xd9\xa1 #1 1# inf 4/8 -6/9".split()
ODD_INDICES = b"00 000 01 007 -0 +0 -1 +1 0/1 1/1 a 0x0 \xc2\xb9 256 257 65536 4294967296 18446744073709551616 " \
              b"340282366920938463463374607431768211456 31 32 33 254 255 99999999999999999999999999999999999999999999".split()
ODD_DIMS = b"0 00 1 01 2 02 3 31 32 032 00000000000000000000000000000002 33 34 64 72 100 255 256 257 258 288 65537 4294967297 " \
           b"18446744073709551617 -1 +1 +2 2/1 2.0 a \xc2\xb2".split()
ODD_LAWS = b"0 00 000 1 01 -1 +1 -01 -0 +0 - + -- 3 -3 9 99 100 -99 -100 1/1 a all exact atmost letter Letter \xc2\xb2 #".split()
ODD_LINES = [b"airy 1", b"airy 2", b"airy 1 1", b"airy", b"Airy 1", b"airy 01", b"airy1", b"airy 1#", b"\xef\xbb\xbfairy 1", b"dim 1", b"dim", b"dim 1 1", b"Dim 1", b"end", b"end end",
             b"END", b"ends", b"end.", b"en", b"end #", b"# end", b"#", b"##", b" # x", b"\t#", b"#\r", b"", b" ", b"\t", b"\r", b"\r\r", b" \r ", b"\0", b"a 0 0 0 1",
             b"shape", b"shape all", b"shape all letter", b"Shape all", b"shape exact", b"shape exact 3", b"shape exact 3 1", b"shape exact 3 1 letter",
             b"shape exact 3 1 1", b"shape atmost 3 1", b"shape atmost 3 1 letter", b"shape atmost 3 1 letters", b"shape atmost 3 letter", b"shape exact 0 0", b"shape exact +3 -01",
             b"shape exact 100 1", b"shape atmost 3 001 letter", b"shape atmost -0 +0", b"shapes all", b"shape most 3 1",
             b"E 0 0 0 1", b"A", b"A 0", b"A 0 0 0", b"A 0 0 0 1 1", b"A 0 0 0 1 #", b"B 0 0 0 1 ", b"D", b"D 0", b"D 0 1 1", b"D 0 0 1", b"C 0 0 1", b"AA 0 0 0 1", b"A0 0 0 1",
             b"A 0 0 0 1\x0b", b"A\xa00 0 0 1", b"D\x000 1", b"D 0 1\r", b"D 0 \r1"]


# ---- texts that are read, mostly

def value(rng):
    way = rng.random()
    if way < 0.5:
        above, below = rng.randint(-9, 9), rng.choice([1, 1, 1, 2, 3, 4, 6, 8])
    elif way < 0.8:
        above, below = rng.randint(-10 ** rng.randint(1, 39), 10 ** rng.randint(1, 39)), rng.choice([1, 1 << rng.randint(0, 127), rng.randint(1, 10 ** rng.randint(1, 39))])
    else:
        above, below = rng.choice(FAR) * rng.choice([1, -1]) + rng.choice([0, 0, 1]), rng.choice([1, 1, rng.choice(FAR)])
    sign = b"-" if above < 0 else rng.choice([b"", b"", b"", b"+"])
    zeros = b"0" * rng.choice([0, 0, 0, 0, 1, 2, 50])
    text = sign + zeros + str(abs(above)).encode()
    if below != 1 or rng.random() < 0.1:
        text += b"/" + b"0" * rng.choice([0, 0, 0, 1, 40]) + str(below).encode()
    return text


def modest(rng):
    """A value within the range."""
    while grammar.fraction(text := value(rng)) is None:
        pass
    return text


def entries(rng, dim):
    """Lines of entries, A mostly the same for every order of its indices."""
    lines = []
    used = set()
    for _ in range(rng.choice([0, 1, 2, 3, 4, 6, 9, 14])):
        kind = rng.choice(KINDS)
        if kind == b"D":
            places = [(rng.randrange(dim),)]
        else:
            places = [tuple(rng.randrange(dim) for _ in range(3))]
        if kind == b"A" and rng.random() < 0.9:
            places = {(i, *sorted(rest)) for i, *rest in permutations(places[0])}
        same = modest(rng)
        for place in sorted(places):
            i, *rest = place
            mark = (kind, i, *(sorted(rest) if kind in b"AC" else rest))
            if mark in used and rng.random() < 0.98:
                continue
            used.add(mark)
            if kind in b"AC" and rng.random() < 0.5:
                place = (i, *reversed(rest))
            lines.append([kind, *(str(index).encode() for index in place), same])
    rng.shuffle(lines)
    return lines


def copies(rng):
    """A structure that closes: copies of structures of one index, after some changes of basis by which the amplitudes with s gain t times those with r."""
    dim = rng.choice([1, 1, 2, 2, 2, 3, 3, 4])
    full = {name: {place: Fraction(0) for place in product(range(dim), repeat=size)} for name, size in (("A", 3), ("B", 3), ("C", 3), ("D", 1))}
    for i in range(dim):
        for name, size in (("A", 3), ("B", 3), ("C", 3), ("D", 1)):
            full[name][(i,) * size] = Fraction(rng.randint(-4, 4), rng.choice([1, 1, 2, 3, 8])) * rng.choice([1, 1, 1, 1 << 60])
    for _ in range(rng.randint(0, 3) if dim > 1 else 0):
        r, s = rng.sample(range(dim), 2)
        t = Fraction(rng.randint(-2, 2), rng.choice([1, 1, 2]))
        for name, slots in (("A", "aaa"), ("B", "aac"), ("C", "acc"), ("D", "a")):
            for slot, sort in enumerate(slots):
                to, by, times = (s, r, t) if sort == "a" else (r, s, -t)
                for place in full[name]:
                    if place[slot] == to:
                        full[name][place] += times * full[name][place[:slot] + (by,) + place[slot + 1:]]
    lines = [[name.encode(), *(str(index).encode() for index in place), str(v).encode()]
             for name, tensor in full.items() for place, v in tensor.items() if v != 0 and (name in "BD" or place[1] <= place[2])]
    rng.shuffle(lines)
    return [[b"airy", b"1"], [b"dim", str(dim).encode()], *lines, [b"end"]]


LAWS = [(3, 1), (1, 0), (0, 0), (0, 1), (2, 1), (3, 2), (-1, 0), (1, 1), (-3, 2), (5, 1)]


def shaped(rng, most):
    """A text that states a shape; its entries keep the grading, mostly."""
    dim = min(most, rng.choice([1, 2, 2, 3, 3, 4, 5]))
    relation, (p, q) = rng.choice(["all", "exact", "exact", "atmost", "atmost"]), rng.choice(LAWS)
    letter = relation == "atmost" and rng.random() < 0.6
    shape = grammar.ALL if relation == "all" else (relation, p, q, letter)
    line = [b"shape", relation.encode()]
    if relation != "all":
        line += [rng.choice([b"", b"+"] if z >= 0 else [b"-"]) + rng.choice([b"", b"0"]) + str(abs(z)).encode() for z in (p, q)]
    lines = []
    for name, size in ((b"A", 3), (b"B", 3), (b"C", 3), (b"D", 1)):
        free = [place for place in product(range(dim), repeat=size)
                if (name in b"BD" or place[1] <= place[2]) and (rng.random() < 0.002 or grammar.keeps(shape, name, place))]
        some = rng.random()
        same = {}
        for place in free:
            if rng.random() < some:
                v = same.setdefault(tuple(sorted(place)), modest(rng)) if name == b"A" else modest(rng)
                lines.append([name, *(str(index).encode() for index in place), v])
    rng.shuffle(lines)
    return [[b"airy", b"2"], [b"dim", str(dim).encode()], line + [b"letter"] * letter, *lines, [b"end"]]


def whole(rng, most):
    way = rng.random()
    if way < 0.3:
        return copies(rng)
    if way < 0.6:
        return shaped(rng, most)
    dim = min(most, rng.choice([1, 1, 2, 2, 2, 3, 3, 4, rng.randint(5, 8), rng.choice([2, 3, 5, 31, 32]) if rng.random() < 0.2 else 2]))
    return [[b"airy", b"1"], [b"dim", str(dim).encode()], *entries(rng, dim), [b"end"]]


# ---- what goes wrong with lines, and with bytes

def change_word(rng, lines):
    line = rng.choice(lines)
    if not line:
        return
    place = rng.randrange(len(line))
    if line[0] == b"dim" and place == 1:
        line[place] = rng.choice(ODD_DIMS)
    elif line[0] in (b"A", b"B", b"C", b"D") and place == len(line) - 1:
        line[place] = rng.choice([rng.choice(ODD_VALUES), value(rng), str(rng.choice(FAR)).encode()])
    elif line[0] == b"shape" and place > 0:
        line[place] = rng.choice(ODD_LAWS)
    elif place > 0:
        line[place] = rng.choice([rng.choice(ODD_INDICES), str(rng.randint(0, 9)).encode()])
    else:
        line[0] = rng.choice([b"A", b"B", b"C", b"D", b"end", b"dim", b"airy", b"E", b"a", b"#", b"#A", b"\0"])


def near_dim(rng, lines):
    """An index next to the dim."""
    dim = grammar.natural(lines[1][1]) if len(lines) > 1 and len(lines[1]) == 2 else None
    found = [line for line in lines[2:] if len(line) > 1]
    if dim is not None and found:
        line = rng.choice(found)
        line[rng.randrange(1, len(line))] = str(max(0, dim + rng.choice([-1, 0, 1])) + rng.choice([0, 0, 0, 256, 1 << 32, 1 << 64])).encode()


def drop_word(rng, lines):
    line = rng.choice(lines)
    if line:
        line.pop(rng.randrange(len(line)))


def double_word(rng, lines):
    line = rng.choice(lines)
    if line:
        line.insert(rng.randint(0, len(line)), rng.choice(line))


def drop_line(rng, lines):
    lines.pop(rng.randrange(len(lines)))


def double_line(rng, lines):
    lines.insert(rng.randint(0, len(lines)), list(rng.choice(lines)))


def swap_lines(rng, lines):
    a, b = rng.randrange(len(lines)), rng.randrange(len(lines))
    lines[a], lines[b] = lines[b], lines[a]


def odd_line(rng, lines):
    lines.insert(rng.randint(0, len(lines)), [rng.choice(ODD_LINES)])


def odd_line_behind(rng, lines):
    lines.append([rng.choice(ODD_LINES)])


def note(rng, lines):
    lines.insert(rng.randint(0, len(lines)), [b"#" + bytes(rng.choice(BYTES.replace(b"\n", b"")) for _ in range(rng.randrange(20)))])


def no_end(rng, lines):
    if lines[-1] == [b"end"]:
        lines.pop()


LINE_CHANGES = [change_word, change_word, near_dim, drop_word, double_word, drop_line, double_line, swap_lines, odd_line, odd_line_behind, note, no_end]


def joined(rng, lines):
    """The bytes of lines of words, with plain or with odd parts between."""
    if rng.random() < 0.6:
        return b"".join(b" ".join(line) + b"\n" for line in lines)
    ends = rng.choice([[b"\n"], [b"\r\n"], [b"\n", b"\r\n"], [b"\n", b"\r\r\n", b" \r\n", b"\r \n", b" \n", b"\n\n"]])
    gaps = rng.choice([[b" "], [b"\t"], [b" ", b"\t", b"  ", b" \t "]])
    text = b""
    for line in lines:
        text += rng.choice([b"", b"", b" ", b"\t "])
        for place, word in enumerate(line):
            text += (rng.choice(gaps) if place else b"") + word
        text += rng.choice(ends)
    return text[:-1] if rng.random() < 0.2 else text


def change_bytes(rng, text):
    text = bytearray(text)
    for _ in range(rng.choice([1, 1, 1, 2, 5])):
        if not text:
            break
        place = rng.randrange(len(text))
        way = rng.randrange(5)
        if way == 0:
            text[place] = rng.choice(BYTES)
        elif way == 1:
            text.insert(place, rng.choice(BYTES))
        elif way == 2:
            del text[place]
        elif way == 3:
            text[place] ^= 1 << rng.randrange(8)
        else:
            size = rng.randrange(1, 12)
            text[place:place] = text[place:place + size]
    return bytes(text)


def large(rng, text):
    """The text with one long part: its size is at the limit of bytes, or near it, or well below."""
    size = rng.choice([grammar.LONGEST - 1, grammar.LONGEST, grammar.LONGEST + 1, grammar.LONGEST + 2, rng.randrange(10 ** 4, 10 ** 6), rng.randrange(65000, 66000)])
    more = max(0, size - len(text))
    place = rng.choice([0, len(text), text.find(b"end"), text.rfind(b" ") + 1, rng.randint(0, len(text))])
    filler = rng.choice([b"#", b"\n", b" ", b"0", b"# \n", b"\r\n", b"1", b"\t#\n", b"/", b"\0", b"end\n"])
    return text[:place] + (filler * (more // len(filler) + 1))[:more] + text[place:]


def text_of(rng, most):
    """A text whose dim is at most `most` before it is changed."""
    way = rng.random()
    if way < 0.02:
        return bytes(rng.choice(BYTES) for _ in range(rng.randrange(40)))
    lines = whole(rng, most)
    if way < 0.05:
        rng.shuffle(lines)
    if way < 0.7:
        for _ in range(rng.choice([1, 1, 1, 2, 3])):
            if lines:
                rng.choice(LINE_CHANGES)(rng, lines)
    text = joined(rng, lines)
    if 0.55 < way < 0.8:
        text = change_bytes(rng, text)
    if 0.8 < way < 0.85:
        text = text[:rng.randint(0, len(text))]
    return large(rng, text) if rng.random() < 0.0005 else text


# ---- both answers

def answers_of(program, batch, texts, words):
    """The status and the bytes of each run."""
    given = b"".join(struct.pack("=I", len(text)) + text for text in texts)
    told = subprocess.run([batch, program, *words], input=given, stdout=subprocess.PIPE, check=True).stdout
    at = 0
    while at < len(told):
        status, size = struct.unpack_from("=iI", told, at)
        yield status, told[at + 8:at + 8 + size]
        at += 8 + size


def kind_of(status, told):
    """A name for the answer: the table, or the refusal without its numbers."""
    if status == 0:
        return "0 table"
    line = told.decode("latin-1").rstrip("\n").removeprefix("refused: ")
    if "gives" in line:
        line = "two orders"
    line = re.sub(r"at \d.*?\]", "at KEY", line)
    line = re.sub(r"at \d.*", "at a place", line)
    return f"{status} {re.sub(r'[0-9]+', 'N', line)}"


def edits():
    """Two texts with every kind of line, and all texts that differ from one of them by one byte."""
    plain = b"# all\nairy 1\ndim 2\nA 0 0 1 1\nA 1 0 0 +1\nB 1 0 1 -7/06\r\nC 0 1 1 3\nD 1 1/8\n\nend\n #"
    graded = b"airy 2\ndim 2\nshape atmost +3 01 letter\nA 0 0 0 1\nB 1 0 0 2\nB 0 1 1 -1/2\nC 0 1 1 3\nD 0 1/12\nend\n"
    for text in (plain, graded):
        yield text
        for place in range(len(text)):
            yield text[:place] + text[place + 1:]
            yield from (text[:place] + bytes([byte]) + text[place + 1:] for byte in range(256))
        for place in range(len(text) + 1):
            yield from (text[:place] + bytes([byte]) + text[place:] for byte in range(256))


def batches(count, seed, most):
    """Lists of texts, each from a seed of its own."""
    if seed == "edits":
        left = list(edits())[:count]
        yield from (left[first:first + BATCH] for first in range(0, len(left), BATCH))
        return
    for first in range(0, count, BATCH):
        rng = random.Random(f"{seed} {first // BATCH}")
        yield [text_of(rng, most) for _ in range(min(BATCH, count - first))]


def main(program, batch, count, seed, command, bound):
    words = ["probe", bound] if command == "probe" else ["table", "-", bound]
    most = 32 if words == ["probe", "1"] else 5
    counts = collections.Counter()
    done, size, began = 0, 0, time.monotonic()
    for texts in batches(count, seed, most):
        given = list(answers_of(program, batch, texts, words))
        if len(given) != len(texts):
            print("the batch runner gave too few answers")
            return 1
        for text, (status, told) in zip(texts, given):
            meant = grammar.answer(text, command, int(bound))
            if (status, told) != meant:
                print(f"text {done} of seed {seed}, {len(text)} bytes: {text[:4000]!r}")
                print(f"the program: status {status}, {told[:1000]!r}")
                print(f"the second reader: status {meant[0]}, {meant[1][:1000]!r}")
                return 1
            counts[kind_of(status, told)] += 1
            done += 1
            size += len(text)
    print(f"{' '.join(words)}: {done} texts of seed {seed}, {size} bytes, no differing answer, {done / (time.monotonic() - began):.0f} a second")
    for kind, number in sorted(counts.items(), key=lambda item: (int(item[0].split()[0]), item[0])):
        print(f"{number:9} {kind}")
    return 0


if __name__ == "__main__":
    sys.exit(main(sys.argv[1], sys.argv[2], int(sys.argv[3]), *sys.argv[4:]))
