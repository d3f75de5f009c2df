"""Processor time and peak memory of a table, of its JSON document, and of the document's verification, on one thread, beside each other.

    python3 bench/documents.py PROGRAM MORE [TURNS]

PROGRAM and MORE are the built programs `airyrun` and `airymore`. Each job's three runs take turns; the best time of all turns is told, and the greatest
peak. Each document must be verified.
"""
import os
import sys
import tempfile

JOBS = ["wk 12", "wk 16", "wk 20", "wk 23", "bgw 24", "wp 9", "wp 11"]


def run(words, source, sink):
    """Runs a program; its status, its processor seconds, and its peak memory in MB."""
    child = os.fork()
    if not child:
        for path, flags, at in ((source, os.O_RDONLY, 0), (sink, os.O_WRONLY | os.O_CREAT | os.O_TRUNC, 1)):
            os.dup2(os.open(path, flags, 0o600), at)
        os.execv(words[0], words)
    _, status, used = os.wait4(child, 0)
    return os.waitstatus_to_exitcode(status), used.ru_utime + used.ru_stime, used.ru_maxrss / 1024


def main(program, more, turns):
    print("| table | bytes of the document | table, s | json, s | verify, s | table, MB | json, MB | verify, MB |\n|---|---|---|---|---|---|---|---|")
    with tempfile.TemporaryDirectory() as room:
        lines, document, told = f"{room}/lines", f"{room}/document", f"{room}/told"
        for job in JOBS:
            kind, bound = job.split()
            runs = [([program, "table", kind, bound, "--workers", "0"], os.devnull, lines),
                    ([more, "json", kind, bound, "0"], os.devnull, document),
                    ([more, "verify"], document, told)]
            seconds, peaks = [[] for _ in runs], [[] for _ in runs]
            for _ in range(turns):
                for at, it in enumerate(runs):
                    status, time, peak = run(*it)
                    if status:
                        sys.exit(f"{job}: {' '.join(it[0])} ended with status {status}")
                    seconds[at].append(time)
                    peaks[at].append(peak)
            with open(told, encoding="ascii") as it:
                if it.read() != "solution\n":
                    sys.exit(f"{job}: the document isn't verified")
            times = " | ".join(f"{min(it):.3f}" for it in seconds)
            print(f"| {job} | {os.path.getsize(document):,} | {times} | {' | '.join(f'{max(it):.1f}' for it in peaks)} |", flush=True)


if __name__ == "__main__":
    main(os.path.realpath(sys.argv[1]), os.path.realpath(sys.argv[2]), int(sys.argv[3]) if len(sys.argv) > 3 else 3)
