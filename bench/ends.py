"""Runs the program where memory, threads, reads or writes are refused, and judges each answer.

The words: `memory`, `faults` or `limits`, the program, and the library of `shim/refuse.c`. A run must answer as without refusals, or as the table
of statuses in README says; anything else is printed, and the exit status is then 1.
"""
import collections
import errno
import mmap
import os
import resource
import struct
import subprocess
import sys
import tempfile

ONE = b"airy 1\ndim 1\nA 0 0 0 1\nB 0 0 0 1\nC 0 0 0 1\nD 0 1/8\nend\n"
TWO = b"""airy 1\ndim 2\nA 0 0 0 1\nA 0 0 1 1\nA 0 1 1 1\nA 1 0 0 1\nA 1 0 1 1\nA 1 1 1 2\nB 0 0 0 1\nB 0 1 0 1\nB 1 0 0 1\nB 1 1 1 1
C 0 0 0 1\nC 1 0 0 2\nC 1 0 1 -1\nC 1 1 1 1\nD 0 1/8\nD 1 1/4\nend\n"""
LONG = ONE + b"".join(b"# line %d\n" % line for line in range(1500))
ORDERS = b"airy 1\ndim 2\nA 0 1 1 1\nend\n"
LARGE = b"airy 1\ndim 1\nA 0 0 0 85070591730234615865843651857942052864\nB 0 0 0 1\nend\n"
NONE = b""

# The status of a run without refusals, its text, and its words.
JOBS = [
    (0, ONE, "table - 3"),
    (0, NONE, "session wk 2 --workers=2 finish ask:0:0,0,0"),
    (0, NONE, "session wk 1 --workers=2 finish ask:1:1 grow:2 finish ask:1:1,1 grow:4 finish ask:2:4"),
    (0, NONE, "session wk 1 --workers=0 grow:2 ask:0:0,0,0,1 finish ask:0:0,0,0,1 grow:3 grow:4 ask:2:4"),
    (0, b"airy 1\ndim 32\nend\n", "session - 2 --workers=0 ask:1:0 grow:3 ask:1:0"),
    (0, NONE, "volume 1 2"),
    (0, NONE, "bulk 1 2 1"),
    (0, NONE, "table wp 4"),
    (0, NONE, "table wk 8 --workers=0"),
    (0, NONE, "table bgw 6 --workers=16"),
    (0, TWO, "table - 2 --workers 1"),
    (0, TWO, "probe 3 --workers=3"),
    (0, TWO, "session - 3 --workers=3 ask:0:0,1,0 ask:1:1,0 ask:2:7 finish ask:2:1 ask:1:0,0,1"),
    (0, LARGE, "session - 3 finish ask:0:0,0,0 ask:0:0,0,0,0 ask:0:0,0,0,0,0 ask:1:0,0,0 ask:0:0,0,1"),
    (0, NONE, "relations 3 wp"),
    (0, TWO, "relations 2 -"),
    (0, NONE, "number wk 2 4"),
    (0, NONE, "volume 2 1"),
    (0, NONE, "bulk 1 3 3 --workers=2"),
    (0, LONG, "table - 2"),
    (2, NONE, "table wk"),
    (2, NONE, "session wk 2 finish finish"),
    (3, b"airy 1\ndim 1\n", "table - 1"),
    (4, ORDERS, "table - 1"),
    (2, NONE, "number wk 0 0 0"),
    (5, NONE, "table wk 25"),
    (5, NONE, "volume 13 1"),
    (5, NONE, "volume 0 20"),
    (5, b"airy 1\ndim 32\nend\n", "table - 3"),
    (6, LARGE, "table - 3"),
    (6, NONE, "table wp 14"),
    (7, ORDERS, "probe 1"),
]
# Jobs that take some memory, for the limits on it.
GREAT = b"airy 1\ndim 32\nA 0 0 0 1\nB 1 2 3 1/2\nD 5 1/8\nend\n"
BROAD = b"airy 1\ndim 20\nA 0 0 0 1\nB 0 0 0 1/2\nC 0 0 0 1\nD 0 1/8\nend\n"
FULL = ONE + b"#" * ((1 << 20) - len(ONE))
LARGER_JOBS = [
    (0, GREAT, "probe 2 --workers=3"),
    (0, GREAT, "session - 2 --workers=1 finish ask:0:0,0,0 ask:1:5,5"),
    (0, BROAD, "table - 3 --workers=0"),
    (0, NONE, "table wk 14"),
    (0, NONE, "session wk 18 --workers=4 finish ask:0:0,0,0 ask:2:4"),
    (0, NONE, "session wk 8 --workers=4 finish ask:0:0,0,0 grow:16 finish ask:2:4 grow:18"),
    (0, NONE, "table bgw 24 --workers=16"),
    (0, FULL, "table - 1"),
    (0, NONE, "volume 3 4"),
    (0, NONE, "bulk 1 4 8"),
]
LATER = {"number", "volume", "bulk"}
MEMORY, THREADS, READS, WRITES = range(4)
WANT = (10, b"refused: want of memory\n")
READ_FAULT = (8, b"refused: read fault\n")


class Bench:
    """The program with the library, a file of counts, and what was found so far."""

    def __init__(self, program, library):
        self.program = program
        self.library = library
        self.bad = 0
        self.runs = 0
        self.file = tempfile.NamedTemporaryFile()
        self.file.write(bytes(64))
        self.file.flush()
        self.counts = mmap.mmap(self.file.fileno(), 64)

    def run(self, words, text, stdin=None, stdout=None, limits=(), **refusals):
        """The status and the bytes of a run; what it writes to standard error stands with them, so that it is never passed over."""
        self.counts[:] = bytes(64)
        self.runs += 1
        given = dict(os.environ)
        if refusals:
            given.update(LD_PRELOAD=self.library, REFUSE_COUNTS=self.file.name, **{f"REFUSE_{name.upper()}": str(value) for name, value in refusals.items()})

        def narrow():
            for limit, size in limits:
                resource.setrlimit(limit, (size, size))

        with tempfile.TemporaryFile() as source, tempfile.TemporaryFile() as told:
            source.write(text)
            source.seek(0)
            # With a limit on files the signal that passing it sends stays ignored, as Python has it; else all signals are as the system gives them.
            ended = subprocess.run([self.program, *words.split()], stdin=stdin or source, stdout=stdout or told, stderr=told, env=given,
                                   preexec_fn=narrow if limits else None, restore_signals=not limits, timeout=300)
            told.seek(0)
            return ended.returncode, told.read()

    def seen(self, kind):
        return struct.unpack_from("=Q", self.counts, kind * 16)[0]

    def refused(self, kind):
        return struct.unpack_from("=Q", self.counts, kind * 16 + 8)[0]

    def report(self, words, how, answer, meant):
        self.bad += 1
        if self.bad <= 20:
            print(f"WRONG: {words}, {how}: status {answer[0]}, {answer[1][:300]!r}, but not {meant}")

    def plain_runs(self, jobs=JOBS):
        """Each job that the program has, with its answer without refusals."""
        for status, text, words in jobs:
            plain = self.run(words, text)
            if plain == (2, b"refused: word 1\n") and words.split()[0] in LATER:
                print(f"{words}: not in this program yet")
            elif plain[0] != status:
                self.report(words, "nothing refused", plain, f"status {status}")
            else:
                yield words, text, Whole(self, words, text, plain)

    def end(self, what):
        print(f"{what}: {self.runs} runs, {self.bad} wrong")
        return 1 if self.bad else 0


class Whole:
    """The answers that a run gives without refusals: one, or for a session that doesn't grow each line before `finish` may be `not yet`."""

    def __init__(self, bench, words, text, plain):
        self.status, self.told = plain
        self.early = 0
        parts = words.split()
        if parts[0] == "session" and "finish" in parts and "grow:" not in words:
            self.early = sum(part.startswith("ask:") for part in parts[:parts.index("finish")])
        if self.early:
            parts.remove("finish")
            parts.insert(3, "finish")
            self.told = bench.run(" ".join(parts), text)[1]

        # What a session that meets want of memory at a `grow` has written: the lines before that of the `grow`.
        lines = self.told.splitlines(True)
        self.cuts = {b"".join(lines[:place]) for place, line in enumerate(lines) if place and line.startswith((b"grown to ", b"not grown: "))}

    def is_whole(self, answer):
        if answer[0] != self.status:
            return False
        lines, meant = answer[1].splitlines(True), self.told.splitlines(True)
        return len(lines) == len(meant) and all(line == wanted or (place < self.early and line == b"not yet\n")
                                                for place, (line, wanted) in enumerate(zip(lines, meant)))


# ---- memory

def judge(bench, words, how, whole, answer, no_line):
    """A name for an answer under refused memory."""
    if whole.is_whole(answer):
        return "whole"
    if answer == WANT and not no_line:
        return "line"
    if answer[0] == 10 and answer[1] in whole.cuts:
        return "lines"
    if answer == (10, b""):
        return "nothing"
    bench.report(words, how, answer, "whole, nor status 10 with its line" + (" wanting" if no_line else ""))
    return "wrong"


def refuse_each(bench, words, text, whole, kind, name, suffix, no_line):
    """Refuses the first, the second, and so on, until nothing was left to refuse in three runs in a row."""
    found = collections.Counter()
    number, quiet = 0, 0
    while quiet < 3:
        number += 1
        answer = bench.run(words, text, **{name: f"{number}{suffix}"})
        how = f"{name} {number}{suffix}"
        verdict = judge(bench, words, how, whole, answer, no_line)
        if verdict == "nothing" and found["line"] or verdict == "line" and found["lines"]:
            bench.report(words, how, answer, "more written than at a smaller number")
        if bench.refused(kind):
            found[verdict] += 1
            quiet = 0
        else:
            quiet += 1
            if verdict != "whole":
                bench.report(words, how, answer, "whole where nothing was refused")
    return found


def row(name, how, found):
    return f"{name[:42]:<44}{how:<15}{sum(found.values()):>6}{found['line']:>10}{found['lines']:>10}{found['nothing']:>10}{found['whole']:>8}"


def memory(bench):
    """Each job with each allocation, and each start of a thread, refused alone, and with all from it on."""
    print(f"{'job':<44}{'refused':<15}{'runs':>6}{'10, line':>10}{'10, lines':>10}{'10, none':>10}{'whole':>8}")
    every = collections.Counter()
    for words, text, whole in bench.plain_runs():
        no_line = whole.status == 2 or whole.told.startswith((b"refused: bound", b"refused: terms"))
        for kind, name in ((MEMORY, "memory"), (THREADS, "threads")):
            for suffix in ("", "+"):
                found = refuse_each(bench, words, text, whole, kind, name, suffix, no_line)
                every += found
                if found:
                    print(row(words, name + (" from N" if suffix else " N"), found))
    print(row("all", "", every))
    return bench.end("memory")


# ---- reads and writes

def reads(bench, words, text, whole):
    """Refuses each read of the text, with whole reads and with reads of one byte."""
    found = collections.Counter()
    for error in (errno.EIO, errno.EAGAIN, errno.EBADF, errno.EINTR):
        for short in ({}, {"short": 1}) if len(text) < 500 else ({},):
            for suffix in ("", "+"):
                number = 0
                while True:
                    number += 1
                    answer = bench.run(words, text, reads=f"{number}{suffix}", error=error, **short)
                    how = f"read {number}{suffix} of {errno.errorcode[error]}{' short' if short else ''}"
                    if not bench.refused(READS):
                        if not whole.is_whole(answer):
                            bench.report(words, how, answer, "whole")
                        break
                    if error == errno.EINTR and not suffix and whole.is_whole(answer):
                        found["whole, the read made again"] += 1
                    elif answer != READ_FAULT:
                        bench.report(words, how, answer, "a read fault")
                    else:
                        found["read fault"] += 1
                        if bench.seen(READS) != number:
                            bench.report(words, how, answer, f"one read less than {bench.seen(READS)}")
    return found


def writes(bench, words, text, whole):
    """Refuses each write, with whole writes and with writes of one byte."""
    found = collections.Counter()
    lines = whole.told.splitlines(True)
    for error in (errno.EIO, errno.ENOSPC, errno.EPIPE, errno.EAGAIN, errno.EINTR, 0):
        for short in ({}, {"short": 1}) if len(whole.told) < 200 else ({},):
            for suffix in ("", "+"):
                number = 0
                while True:
                    number += 1
                    answer = bench.run(words, text, writes=f"{number}{suffix}", error=error, **short)
                    how = f"write {number}{suffix} of {errno.errorcode.get(error, 'nothing taken')}{' short' if short else ''}"
                    if not bench.refused(WRITES):
                        if not whole.is_whole(answer):
                            bench.report(words, how, answer, "whole")
                        break
                    if words.startswith("volume") and not short:
                        right = answer[0] == 9 and whole.told.startswith(answer[1]) and answer[1] != whole.told
                    else:
                        right = answer == (9, whole.told[:number - 1] if short else b"".join(lines[:number - 1]))
                    if error == errno.EINTR and not suffix and whole.is_whole(answer):
                        found["whole, the write made again"] += 1
                    elif not right:
                        bench.report(words, how, answer, "status 9 with what stood before that write")
                    else:
                        found["status 9 and the prefix"] += 1
                        if bench.seen(WRITES) != number:
                            bench.report(words, how, answer, f"one write less than {bench.seen(WRITES)}")
    return found


def expect(bench, words, how, answer, meant, found):
    if answer != meant:
        bench.report(words, how, answer, f"status {meant[0]}, {meant[1][:60]!r}")
    found[how] += 1


def real_ends(bench, words, text, whole, found):
    """Standard output full, closed, without a reader, or at the limit of a file; standard input closed, or a folder."""
    nothing = (9, b"")
    with open("/dev/full", "wb") as full:
        expect(bench, words, "a full device", bench.run(words, text, stdout=full), nothing, found)
    with open("/dev/null", "rb") as unwritable:
        expect(bench, words, "a file that can't be written", bench.run(words, text, stdout=unwritable), nothing, found)
    reader, writer = os.pipe()
    os.close(reader)
    expect(bench, words, "a pipe without a reader", bench.run(words, text, stdout=writer), nothing, found)
    os.close(writer)
    limit = len(whole.told) // 2
    expect(bench, words, "a limit on the file", bench.run(words, text, limits=[(resource.RLIMIT_FSIZE, limit)]), (9, whole.told[:limit]), found)
    expect(bench, words, "closed output", closed(bench, words, text, ">&-"), nothing, found)
    if text:
        expect(bench, words, "closed input", closed(bench, words, text, "<&-"), READ_FAULT, found)
        with open("/dev/null", "wb") as unreadable:
            expect(bench, words, "a file that can't be read", bench.run(words, text, stdin=unreadable), READ_FAULT, found)
        folder = os.open("/", os.O_RDONLY)
        expect(bench, words, "a folder as input", bench.run(words, text, stdin=folder), READ_FAULT, found)
        os.close(folder)


def closed(bench, words, text, which):
    bench.runs += 1
    ended = subprocess.run(["sh", "-c", f'exec "$@" {which}', "sh", bench.program, *words.split()], input=text, stdout=subprocess.PIPE,
                           stderr=subprocess.STDOUT, timeout=300)
    return ended.returncode, ended.stdout


def faults(bench):
    """Each job with its reads and writes refused, in every way."""
    found = collections.Counter()
    for words, text, whole in bench.plain_runs():
        if whole.early:
            continue
        if text:
            found += reads(bench, words, text, whole)
            answer = bench.run(words, text, reads=1, writes=1)
            expect(bench, words, "the text, and then the line of its refusal", answer, (9, b""), found)
        found += writes(bench, words, text, whole)
        answer = bench.run(words, text, short=1)
        if not whole.is_whole(answer):
            bench.report(words, "one byte at a time", answer, "whole")
        found["one byte at a time"] += 1
        real_ends(bench, words, text, whole, found)
    for how, number in found.items():
        print(f"{number:7} {how}")
    return bench.end("faults")


# ---- limits on the address space

def limits(bench):
    """Sizes from 1 MB on, each by a 64th above the one before, from 32 MB to 1 GB by an eighth."""
    sizes = [1 << 20]
    while sizes[-1] < 1 << 30:
        sizes.append(sizes[-1] + sizes[-1] // (64 if sizes[-1] < 1 << 25 else 8) >> 12 << 12)
    started = next(size for size in sizes if bench.run("table wk", NONE, limits=[(resource.RLIMIT_AS, size)]) == (2, b"refused: word 3\n"))
    print(f"the system starts the program from {started >> 10} KB of address space on")
    print(f"{'job':<44}{'least whole':<15}{'runs':>6}{'10, line':>10}{'10, lines':>10}{'10, none':>10}{'whole':>8}")
    every = collections.Counter()
    for words, text, whole in bench.plain_runs(LARGER_JOBS + JOBS):
        no_line = whole.status == 2 or whole.told.startswith((b"refused: bound", b"refused: terms"))
        found = collections.Counter()
        least = None
        for size in sizes:
            if size < started:
                continue
            answer = bench.run(words, text, limits=[(resource.RLIMIT_AS, size)])
            verdict = judge(bench, words, f"{size} bytes of address space", whole, answer, no_line)
            found[verdict] += 1
            if verdict == "whole":
                least = least or size
        every += found
        print(row(words, f"{least >> 10} KB" if least else "-", found))
    print(row("all", "", every))
    return bench.end("limits")


if __name__ == "__main__":
    sys.exit({"memory": memory, "faults": faults, "limits": limits}[sys.argv[1]](Bench(sys.argv[2], sys.argv[3])))
