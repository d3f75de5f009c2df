"""Runs the commands that pages and examples show, and compares what they print and their status with what stands there.

    python3 tools/transcripts.py PROGRAM MORE WAITING FILE..

A FILE is a page (`.md`), whose blocks between lines of three backquotes are read, a file `.out`, which is one such block, or a folder with files
`.out`. In a block a line `$ COMMAND` begins what COMMAND prints; blocks without such a line are left out. COMMAND runs in bash with the programs
as `airyrun`, `airymore` and `airywait`: that of a `.out` in its folder, that of a page in a folder of its own, in which `examples` is the folder of the examples. There
`$ cat NAME` makes the file where it isn't yet. Behind a printed line four spaces or more may stand with a remark; a remark `status N` is the
command's status, which is 0 without one.
"""
import os
import re
import subprocess
import sys
import tempfile

HERE = os.path.dirname(os.path.abspath(__file__))
REMARK = re.compile(r" {4,}(?=\S)(.*)$")


def blocks_of(file):
    """The blocks of lines that have a command."""
    with open(file, encoding="utf-8") as it:
        text = it.read()
    found = [text] if file.endswith(".out") else re.findall(r"^```[a-z]*\n(.*?)^```$", text, re.M | re.S)
    return [block.splitlines() for block in found if re.search(r"^\$ ", block, re.M)]


def commands_of(block):
    """Each command with the lines behind it, a command going on where its line ends with a backslash."""
    found = []
    for line in block:
        if found and not found[-1][1] and found[-1][0].endswith("\\"):
            found[-1][0] += "\n" + line
        elif line.startswith("$ "):
            found.append([line[2:], []])
        elif found:
            found[-1][1].append(line)
    return found


def meant(lines):
    """The printed lines without their remarks, and the status."""
    status, kept = 0, []
    for line in lines:
        remark = REMARK.search(line)
        told = remark and re.match(r"status ([0-9]+)", remark[1])
        status = int(told[1]) if told else status
        kept.append(line[:remark.start()] if remark else line)
    return "".join(f"{line}\n" for line in kept), status


def difference(command, lines, folder, path):
    """What differs, or None."""
    text, status = meant(lines)
    made = re.fullmatch(r"cat (\S+)", command)
    if made and not os.path.exists(f"{folder}/{made[1]}"):
        with open(f"{folder}/{made[1]}", "w", encoding="utf-8") as it:
            it.write(text)
        return None
    how = {"cwd": folder, "env": {**os.environ, "PATH": path}, "stdin": subprocess.DEVNULL, "stdout": subprocess.PIPE, "text": True}
    ran = subprocess.run(["bash", "-c", command], **how)
    if (ran.stdout, ran.returncode) == (text, status):
        return None
    return f"$ {command}\nwanted, with status {status}:\n{text}printed, with status {ran.returncode}:\n{ran.stdout}"


def check(programs, files):
    """Returns the number of commands, or prints the first difference and returns None."""
    count = 0
    with tempfile.TemporaryDirectory() as room:
        for name, program in zip(("airyrun", "airymore", "airywait"), programs):
            os.symlink(os.path.realpath(program), f"{room}/{name}")
        path = f"{room}:{os.environ['PATH']}"
        for number, file in enumerate(files):
            folder = os.path.dirname(os.path.abspath(file))
            if not file.endswith(".out"):
                folder = f"{room}/{number}"
                os.mkdir(folder)
                os.symlink(os.path.realpath(f"{HERE}/../examples"), f"{folder}/examples")
            for command, lines in (found for block in blocks_of(file) for found in commands_of(block)):
                told = difference(command, lines, folder, path)
                if told:
                    print(f"{file}: {told}", end="")
                    return None
                count += 1
    return count


def files_of(names):
    """The files, those of a folder being all of its `.out`; a text without one is named."""
    found = []
    for name in names:
        if not os.path.isdir(name):
            found.append(name)
            continue
        inside = sorted(f"{at}/{file}" for at, _, files in os.walk(name) for file in files)
        lacking = [it for it in inside if it.endswith(".txt") and f"{it[:-4]}.out" not in inside]
        if lacking:
            sys.exit(f"{lacking[0]} has no .out beside it")
        found += [it for it in inside if it.endswith(".out")]
    return found


if __name__ == "__main__":
    given = files_of(sys.argv[4:])
    commands = check(sys.argv[1:4], given)
    if commands is None:
        sys.exit(1)
    print(f"{commands} commands of {len(given)} files: what they print is what stands there")
