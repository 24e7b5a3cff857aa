"""Times the reader of program files and the printer: read.py PROGRAM ROUNDS, in an empty folder; read.sh calls it.

Times are processor time, user and system, of a call with what it gave let go: the least of ROUNDS processes that make several
calls, less the least of as many that make one. `check` is what reading takes beyond reading the same file with its `main` under
another name, which is refused before functions are looked at. `growth` is the exponent of the time by the bytes, from 256 KiB to a
mebibyte: 1 is linear. Memory is the largest peak of a process that reads, or that reads and prints, and no less than that of the
Python that starts it.
"""

import math
import os
import subprocess
import sys

program, rounds = sys.argv[1], int(sys.argv[2])
SIZES = (256, 512, 1024)
CALLS = 4
FUNCTIONS, SETS, PAIRS, DEEP, LONGEST = 256, 255, 16, 8, 64


def function(name, statements):
    return [f"func {name} {{", *statements, "}"]


def filled(head, statements, room):
    """Lines, and a `main` that has these statements again and again, in so many bytes."""
    left = room - sum(len(it) + 1 for it in head) - len("func main {\n}\n")
    body, at = [], 0
    while left >= len(statements[at % len(statements)]) + 1:
        body.append(statements[at % len(statements)])
        left -= len(body[-1]) + 1
        at += 1
    return head + function("main", body)


def row(room):
    return filled([], ["work 1"], room)


def nests(room):
    block = "\n".join(["loop 1 {"] * DEEP + ["work 1"] + ["}"] * DEEP)
    return filled([], [block], room)


def sets(room):
    """255 sets of sixteen pairs, at a mebibyte with keys and values of 64 bytes; the keys fall, and differ in their last bytes."""
    size = LONGEST * room // (1024 * 1024)
    pairs = " ".join(f"{'k' * (size - 2)}{PAIRS + 10 - i}={'v' * size}" for i in range(PAIRS))
    head = [f"labels l{n} {pairs}" for n in range(SETS)]
    return filled(head, [f"labels l{n}" for n in range(SETS)], room)


def names(room):
    """1,024 channels and as many mutexes, with names of 64 bytes that differ in their last two, each used in turn."""
    letters = "abcdefghijklmnopqrstuvwxyz012345"
    long = ["n" * (LONGEST - 2) + a + b for a in letters for b in letters]
    head = [f"chan {name} 1" for name in long] + [f"mutex {name}" for name in long]
    return filled(head, [f"{verb} {name}" for name in long for verb in ("send", "lock")], room)


def hashes(room):
    return ["#" * (room - 1)]


def comments(room):
    return ["#"] * (room // 2)


def empty(room):
    """A function that is closed on the last of as many lines as there may be."""
    return ["func main {", "work 1", *[""] * (room - 21), "}"]


def blanks(room):
    """Words far apart."""
    gap = " " * 250
    return filled([], [f"{gap}work{gap}1{gap}"], room)


def words(room):
    """Far too many pairs on one line."""
    return ["labels l" + " k=" * (room // 3 - 3)]


def wide(room):
    """256 functions that call the next one each, the callers first."""
    lines = []
    statements = room // FUNCTIONS // 7 - 3
    for i in range(FUNCTIONS):
        body = [f"call f{i + 1}" if i < FUNCTIONS - 1 else "work 1"] + ["work 1"] * (statements - 1)
        lines += function(f"f{i}" if i else "main", body)
    return lines


def dense(room):
    """256 functions that call the last ones again and again, the callers first."""
    lines = []
    for i in range(FUNCTIONS - 32):
        body = [f"call f{FUNCTIONS - 1 - j % 32}" for j in range(room // FUNCTIONS // 10 - 2)]
        lines += function(f"f{i}" if i else "main", body)
    for i in range(FUNCTIONS - 32, FUNCTIONS):
        lines += function(f"f{i}", ["work 1"] * (room // FUNCTIONS // 7 - 3))
    return lines


SHAPES = (
    ("one function, `work 1`", row),
    ("loops eight deep", nests),
    ("255 sets of 16 pairs", sets),
    ("1,024 channels and mutexes, names of 64 bytes", names),
    ("one line of `#`", hashes),
    ("lines of `#`", comments),
    ("empty lines", empty),
    ("words 250 blanks apart", blanks),
    ("one line of pairs", words),
    ("256 functions, each calls the next", wide),
    ("256 functions, calls alone", dense),
)


def once(what, name, calls):
    """Runs the program: what the file is, its processor time in seconds, and the peak of memory in MiB."""
    with open("said", "w+", encoding="utf-8") as said:
        process = subprocess.Popen([program, what, name, str(calls)], stdin=subprocess.DEVNULL, stdout=said, stderr=said)
        _, status, usage = os.wait4(process.pid, 0)
        process.returncode = os.waitstatus_to_exitcode(status)
        said.seek(0)
        return said.read().split()[0], usage.ru_utime + usage.ru_stime, usage.ru_maxrss / 1024


def least(what, name):
    """What the file is, the least processor time of a call in seconds, and the largest peak of memory in MiB."""
    runs = [(once(what, name, 1), once(what, name, 1 + CALLS)) for _ in range(rounds)]
    took = min(many for _, (_, many, _) in runs) - min(one for (_, one, _), _ in runs)
    return runs[0][0][0], max(took, 0.0) / CALLS, max(it for run in runs for _, _, it in run)


def growth(times):
    x = [math.log(it) for it in SIZES]
    y = [math.log(it) for it in times]
    mean_x, mean_y = sum(x) / len(x), sum(y) / len(y)
    return sum((a - mean_x) * (b - mean_y) for a, b in zip(x, y)) / sum((a - mean_x) ** 2 for a in x)


def told(times):
    return f"{times[-1] * 1000:.1f} ms, {growth(times):.2f}" if min(times) > 0 else "-"


print(f"processors {os.cpu_count()}, load {os.getloadavg()[0]:.1f}, rounds {rounds}")
print("| a mebibyte | is | read, growth | of it check | print, growth | memory to read, to print |")
print("|---|---|---|---|---|---|")
for title, shape in SHAPES:
    reads, checks, prints, memory, printing, what = [], [], [], 0.0, 0.0, ""
    for kibibytes in SIZES:
        lines = shape(kibibytes * 1024)
        text = "\n".join(lines) + "\n"
        assert len(text) <= kibibytes * 1024, (title, len(text))
        with open("it.gp", "w", encoding="utf-8") as to:
            to.write(text)
        what, took, memory = least("read", "it.gp")
        reads.append(took)
        if what == "program":
            with open("other.gp", "w", encoding="utf-8") as to:
                to.write(text.replace("func main {", "func mail {"))
            checks.append(took - least("read", "other.gp")[1])
            _, took, printing = least("print", "it.gp")
            prints.append(took)
    print(
        f"| {title} | {what} | {told(reads)} | {f'{checks[-1] * 1000:.1f} ms' if checks else '-'} | {told(prints) if prints else '-'} "
        f"| {memory:.0f} MiB, {f'{printing:.0f} MiB' if prints else '-'} |",
        flush=True,
    )
