#!/usr/bin/env python3
"""Tries the program on a journal that is kept in a file, and compares the file with the model's areas.

Usage: files.py PROGRAM. Works in a new folder of its own. `strace` kills the program at each system call, and makes
each one fail; without strace those two parts are left out, and said so. The first thing that is not as it should be
ends it with a non-zero exit.
"""
import os
import pathlib
import random
import re
import shutil
import subprocess
import sys
import tempfile

from model import AREA, Console

LINES = ["append 1 0101", "append 2 -", "prune 2", "power 7", "append 3 0203", "power on", "append 3 04", "damage 5 9"]
CALLS = "openat,flock,write,fsync,rename,close"


class Wrong(Exception):
    """The program did what it should not."""


def must(holds, what):
    if not holds:
        raise Wrong(what)


def run(program, lines, before=()):
    """What the program prints for these lines, without the summary at the end, if it comes that far."""
    text = "".join(line + "\n" for line in lines)
    done = subprocess.run([*before, program], input=text, capture_output=True, text=True)
    return done.stdout.splitlines()


def states(lines, areas=2):
    """The areas before the first of these lines and after each."""
    console = Console()
    console.answer(f"journal bytes {areas}")
    found = [bytes(console.journal.medium)]
    for line in lines:
        console.answer(line)
        found.append(bytes(console.journal.medium))
    return found


class Talk:
    """A program that is asked line by line."""

    def __init__(self, program):
        self.child = subprocess.Popen([program], stdin=subprocess.PIPE, stdout=subprocess.PIPE, text=True, bufsize=1)

    def ask(self, line):
        self.child.stdin.write(line + "\n")
        self.child.stdin.flush()
        return self.child.stdout.readline().rstrip("\n")

    def kill(self):
        self.child.kill()
        self.child.wait()


def talk(program):
    """Line by line: when a line is answered, the file holds what the model's areas hold."""
    count = 0
    for seed in range(40):
        draw = random.Random(f"file {seed}")
        lines = [draw.choice([*LINES, "cut", "sync 1", "sync-all", f"append {draw.randint(0, 9)} {'01' * draw.randint(0, 900)}"])
                 for _ in range(12)]
        lines = [line if line[-1] != " " else line + "-" for line in lines]
        path = pathlib.Path(f"talk{seed}")
        child = Talk(program)
        must(child.ask(f"journal file {path} 2") == f"journal file {path}, 2 areas", "a new file is opened")
        console = Console()
        console.answer("journal bytes 2")
        for line in lines:
            wanted = console.answer(line)
            must([child.ask(line)] == wanted, f"{line}: {wanted}")
            must(path.read_bytes() == bytes(console.journal.medium), f"{line}: it is in the file when it is answered")
            count += 1
        child.kill()
        must(run(program, [f"journal file {path}", "read"])[1:-1] == reread(path), "a killed program's file is read again")
    return count


def reread(path):
    """What the model reads in this file."""
    console = Console()
    data = path.read_bytes()
    console.answer(f"journal bytes {len(data) // AREA}")
    console.journal.medium[:] = data
    console.meaning.take(console.journal.sections(), 0)
    return console.answer("read")


def strace(what):
    return ["strace", "-o", "trace", "-e", f"trace={CALLS}", "-e", f"inject={what}"]


def killed(program):
    """Killed at each system call: the file holds the areas after the last line answered, or after the next."""
    left = states(LINES)
    count = 0
    for call in CALLS.split(","):
        for when in range(1, 200):
            path = pathlib.Path("killed")
            path.write_bytes(left[0])
            answers = run(program, [f"journal file {path}", *LINES], strace(f"{call}:signal=SIGKILL:when={when}"))
            held = path.read_bytes()
            if answers and "lines, 0 tips counted" in answers[-1]:
                break
            done = max(len(answers) - 1, 0)
            must(held in left[done : done + 2], f"killed at {call} {when}: the file holds what {done} or {done + 1} lines made")
            count += 1
        else:
            raise Wrong(f"{call} has no end")
    return count


def failing(program):
    """Each system call fails once: a line that cannot be kept is refused, and the journal closed."""
    left = states(LINES)
    refused = 0
    for call, error in [("openat", "EACCES"), ("flock", "ENOLCK"), ("write", "ENOSPC"), ("fsync", "EIO"), ("rename", "EACCES")]:
        for when in range(1, 60):
            path = pathlib.Path("failing")
            path.write_bytes(left[0])
            answers = run(program, [f"journal file {path}", *LINES], strace(f"{call}:error={error}:when={when}"))
            held = path.read_bytes()
            places = [i for i, answer in enumerate(answers) if answer.startswith("refused: the journal cannot be kept")]
            if not places:
                if answers and "lines, 0 tips counted" in answers[-1] and not traced(call, when):
                    break
                continue
            place = places[0]
            after = set(answers[place + 1 : -1])
            must(after <= {'refused: no journal is open, a line "journal .." comes first'}, f"{call} {when}: closed then, {after}")
            # the folder is made durable last: where that fails, the file has what the line made
            last = call in ("fsync", "openat") and held == left[place]
            must(held == left[place - 1] or last, f"{call} {when}: the file is as it was")
            refused += 1
    return refused


def traced(call, when):
    """The call that was made to fail, as strace wrote it; empty if the program made none so late."""
    found = [line for line in pathlib.Path("trace").read_text().splitlines() if re.match(rf"{call}\(", line)]
    return found[when - 1] if len(found) >= when else ""


def wrong_files(program):
    """Files that are no journal, and paths that are none: each is refused, and nothing is made or changed."""
    cases = {
        "missing": (None, "No such file"),
        "empty": (0, "the file has 0 bytes"),
        "one": (1, "the file has 1 bytes"),
        "short": (AREA - 1, "the file has 4095 bytes"),
        "long": (2 * AREA + 1, "the file has 8193 bytes"),
        "huge": (1025 * AREA, "the file has 4198400 bytes"),
    }
    for name, (size, reason) in cases.items():
        if size is not None:
            pathlib.Path(name).write_bytes(b"\1" * size)
        answers = run(program, [f"journal file {name}", "append 1 01"])
        must(answers[0].startswith("refused: ") and reason in answers[0] and (size is not None or f" {name}: " in answers[0]), f"{name}: {answers[0]}")
        must(answers[1].startswith("refused: no journal is open"), f"{name}: no journal is open")
        must(not pathlib.Path(name).exists() if size is None else pathlib.Path(name).read_bytes() == b"\1" * size, f"{name} stays")
    os.mkdir("folder")
    must(run(program, ["journal file folder"])[0] == "refused: folder: it is no file", "a folder")
    must(run(program, ["journal file short 2"])[0] == "refused: short: a file is there already", "a new file over an old one")
    must(pathlib.Path("short").read_bytes() == b"\1" * (AREA - 1), "the old one stays")
    must(run(program, ["journal file none/new 2"])[0].startswith("refused: none/new: No such file"), "a new file in a folder that is not there")
    # a journal that was open stays open where a line cannot open another
    answers = run(program, ["journal file stays 1", "append 1 01", "journal file missing", "append 1 02", "read"])
    must(answers[3:6] == ["appended", "record 1 0 01", "record 1 1 02"], f"the open one stays: {answers}")
    # a journal in memory is never written into the file of the one before it
    before = pathlib.Path("stays").read_bytes()
    run(program, ["journal file stays", "journal bytes 1", "append 9 09"])
    must(pathlib.Path("stays").read_bytes() == before, "another journal leaves the file alone")
    return len(cases) + 6


def read_only(program):
    """A folder that may not be written: what the file holds is read, and a line that changes it is refused."""
    if os.getuid() == 0 and not shutil.which("setpriv"):
        return 0
    other = ["setpriv", "--reuid=65534", "--regid=65534", "--clear-groups"] if os.getuid() == 0 else []
    os.mkdir("locked")
    run(program, ["journal file locked/j 1", "append 1 01"])
    before = pathlib.Path("locked/j").read_bytes()
    os.chmod("locked", 0o555)
    os.chmod(".", 0o755)
    answers = run(program, ["journal file locked/j", "read", "append 1 02", "append 1 03", "journal file locked/new 1"], other)
    must(answers[1:3] == ["record 1 0 01", "read 1 records"], f"it is read: {answers}")
    must(answers[3].startswith("refused: the journal cannot be kept, and is closed: its lock, a file beside it, may not be written"), f"{answers}")
    must(answers[4].startswith("refused: no journal is open"), "it is closed")
    must(answers[5].startswith("refused: locked/new: Permission denied"), "no new file there")
    must(pathlib.Path("locked/j").read_bytes() == before and sorted(os.listdir("locked")) == ["j", "j.lock"], "nothing changed")
    os.chmod("locked", 0o755)
    return 5


def two_programs(program):
    """A journal that one program has open is opened by no other, until that lets it go or ends."""
    one, other = Talk(program), Talk(program)
    cases = [
        (one, "journal file both 1", "journal file both, 1 areas"),
        (other, "journal file both", "refused: both: it is open already"),
        (other, "journal file ./both", "refused: ./both: it is open already"),
        (one, "append 1 01", "appended"),
        (one, "journal file both", "journal file both, 1 areas"),
        (one, "append 1 02", "appended"),
        (one, "journal file ./both", "refused: ./both: it is open already"),
        (other, "journal file both", "refused: both: it is open already"),
        (other, "read", 'refused: no journal is open, a line "journal .." comes first'),
        (one, "journal bytes 1", "journal bytes, 1 areas"),
        (other, "journal file both", "journal file both, 1 areas"),
        (other, "append 1 03", "appended"),
        (one, "journal file both", "refused: both: it is open already"),
    ]
    for child, line, wanted in cases:
        answer = child.ask(line)
        must(answer == wanted, f"two programs: {line}: {answer}")
    other.kill()
    must(one.ask("journal file both") == "journal file both, 1 areas", "a killed program holds no lock")
    one.kill()
    records = ["record 1 0 01", "record 1 1 02", "record 1 2 03"]
    must(run(program, ["journal file both", "read"])[1:4] == records, "what both appended is there")
    return len(cases) + 2


def main():
    if len(sys.argv) != 2:
        sys.exit(__doc__)
    program = os.path.abspath(sys.argv[1])
    with tempfile.TemporaryDirectory() as folder:
        shutil.copy(program, f"{folder}/program")
        os.chmod(folder, 0o755)
        os.chdir(folder)
        program = f"{folder}/program"
        print(f"lines that are in the file when they are answered: {talk(program)}")
        print(f"wrong files: {wrong_files(program)}")
        print(f"two programs at one file: {two_programs(program)}")
        print(f"read-only folder: {read_only(program)}")
        if not shutil.which("strace"):
            print("no strace: not killed at each system call, and none was made to fail")
            return
        print(f"killed at a system call, the file whole: {killed(program)}")
        print(f"a system call failed, the line refused: {failing(program)}")


if __name__ == "__main__":
    main()
