"""Times simulated runs: sim.py GP PROGRAMS ROUNDS [BESIDE], in an empty folder; sim.sh calls it.

Times are processor time, user and system, the least of ROUNDS rounds in which gp and Go take turns, so that a machine that is
slow for a while is slow for both. `MiB` is the largest peak of memory, and no less than that of the Python that starts the
program. `growth` is the exponent of the time by the quantity that doubles, over the upper half of the rows: 1 is linear. An
entry is one of the journal; how many a run makes, and how many samples, its summary tells.
"""

import math
import os
import re
import subprocess
import sys

from runs import head, program, row

gp, programs, rounds, beside = sys.argv[1], sys.argv[2], int(sys.argv[3]), sys.argv[4:]
FULL, LEAST, MOST = 8, 16, 4_194_304


def once(words, environment=None):
    """Runs a command: its processor time in seconds, its peak memory in MiB, its status, and what it prints."""
    with open("said", "w+", encoding="utf-8") as said:
        process = subprocess.Popen(words, stdin=subprocess.DEVNULL, stdout=said, stderr=said, env={**os.environ, **(environment or {})})
        _, status, usage = os.wait4(process.pid, 0)
        process.returncode = os.waitstatus_to_exitcode(status)
        said.seek(0)
        return usage.ru_utime + usage.ru_stime, usage.ru_maxrss / 1024, process.returncode, said.read()


def sim(*options):
    return [gp, "sim", *map(str, options)]


def gen(*options):
    return [gp, "gen", *map(str, options)]


def measure(commands, status=0, go=None, is_told=False):
    """Least processor times and largest memory of each of these commands, and the least time of Go, taken in turns."""
    found = [[math.inf, 0.0] for _ in commands]
    of_go = math.inf
    for _ in range(rounds):
        for at, words in enumerate(commands):
            took, memory, ended, said = once(words)
            if status is not None and ended != status:
                print(f"  {' '.join(words[1:])}: status {ended} in place of {status} {said}")
            found[at] = [min(found[at][0], took), max(found[at][1], memory)]
        if go and beside:
            took, _, _, said = once([beside[0], *map(str, go)], {"GOMAXPROCS": "1"})
            of_go = min(of_go, float(said) if is_told else took)
    return found, of_go


def summed(words, *names):
    """What the summary of a run tells under these names."""
    said = once(words)[3]
    return [int(re.search(rf"\b{name} (\d+)", said)[1]) for name in names]


def entries(name, *options):
    """How many entries a run makes, up to the most."""
    return summed(sim(name, *options, "--entries", MOST), "entries")[0]


def growth(rows):
    """The exponent of the second number by the first one, over the upper half of the rows."""
    rows = [(math.log(n), math.log(it)) for n, it in rows[len(rows) // 2 :] if it > 0]
    if len(rows) < 2:
        return math.nan
    x, y = (sum(it) / len(rows) for it in zip(*rows))
    return sum((n - x) * (it - y) for n, it in rows) / sum((n - x) ** 2 for n, _ in rows)


print(f"processors {os.cpu_count()}, load {os.getloadavg()[0]:.1f}, rounds {rounds}")
with open("smallest.gp", "w", encoding="utf-8") as to:
    to.write("func main {\nwork 1\n}\n")
(found,), _ = measure([sim("smallest.gp", "--at", 0)])
print(f"the smallest run: {found[0] * 1000:.1f} ms, {found[1]:.1f} MiB")

for kind, asked, title in (
    ("shared", [], "Workers of channels and mutexes alone. An operation is a shared point that was passed."),
    ("shared", ["--block", 1, "--mutex", 1], "The same, with each block and mutex event recorded, as in Go."),
    ("mixed", ["--at", 1000], "Workers of calls, work, channels and mutexes, with one profile. An operation is a shared point or a work passed."),
):
    print(f"\n{title}")
    head("workers", "goroutines", "entries", "ns/entry", "ns/operation", "Go", "ratio", "MiB")
    for workers in (1, 4, 16):
        rows = []
        for n in (4, 8, 16, 32, 64, 128, 256):
            operations = program(programs, "it.gp", kind, n)[0]
            options = ["--workers", workers, *asked]
            ((took, memory),), of_go = measure([sim("it.gp", *options, "--entries", MOST)], go=(kind, n))
            rows.append((n, took))
            if n == 256:
                made = entries("it.gp", *options)
                each = took / operations
                row(workers, n, made, took / made * 1e9, each * 1e9, of_go / operations * 1e9, each * operations / of_go, memory)
        print(f"{'':>14}growth with goroutines {growth(rows):.2f}")

print("\nFiles that make an entry dear, less what reading them takes. A call is one that is entered and left again.")
head("file", "size", "entries", "ns/entry", "ns/call", "MiB")
least = math.nan
for kind, size in (("twice", 38), ("twice", 250), ("row", 149_000), ("climb", 2), ("climb", 32), ("climb", 250)):
    program(programs, "it.gp", kind, size)
    made = 4096 if kind == "twice" else entries("it.gp", "--workers", 1)
    (begun, whole), _ = measure([sim("it.gp", "--workers", 1, "--entries", it) for it in (LEAST, made)], status=None)
    took = whole[0] - begun[0]
    least = took if (kind, size) == ("climb", 2) else least
    call = (took - least) / (4096 * (size - 2)) if kind == "climb" and size > 2 else math.nan
    row(kind, size, made, took / (made - LEAST) * 1e9, call * 1e9, whole[1])

print("\nReading and judging a file: 256 functions that each call the next one, the callers first; and one function of as many bytes.")
head("KiB", "wide, ms", "row, ms", "MiB")
rows = []
for kibibytes in (128, 256, 512, 1000):
    program(programs, "wide.gp", "wide", kibibytes)
    program(programs, "row.gp", "row", kibibytes * 1024 // 7 - 4)
    (wide, flat), _ = measure([sim("wide.gp", "--entries", LEAST), sim("row.gp", "--entries", LEAST)], status=FULL)
    rows.append((kibibytes, wide[0]))
    row(kibibytes, wide[0] * 1000, flat[0] * 1000, wide[1])
print(f"{'':>14}growth with bytes {growth(rows):.2f}")

print("\nGoroutine profiles of goroutines that all wait, 32 frames each: the time of a run with eight, less that of one without, by eight.")
head("stacks", "goroutines", "us/goroutine", "Go", "ratio", "MiB")
for kind in ("same", "distinct"):
    rows = []
    for n in (1024, 2048, 4096, 8192, 16384):
        _, stacks = program(programs, "it.gp", "blocked", n, kind)
        options = ["it.gp", "--workers", 1, "--cells", 16384, "--room", 16384, "--entries", MOST]
        runs = [sim(*options), sim(*options, *["--at", "end"] * 8)]
        (plain, profiled), of_go = measure(runs, status=6, go=("blocked", n, kind), is_told=True)
        took = (profiled[0] - plain[0]) / 8
        rows.append((n, took))
        row(stacks, n, took / n * 1e6, of_go / n * 1e6, took / of_go, profiled[1])
    print(f"{'':>14}growth with goroutines {growth(rows):.2f}")

print("\nSamples: workers of calls, work, channels and mutexes, 64 goroutines, at several rates; a Tick is an entry too.")
head("workers", "samples/s", "ticks", "lost", "entries", "ns/entry", "ns/tick", "MiB")
program(programs, "it.gp", "mixed", 64)
for workers in (1, 4):
    options = ["it.gp", "--workers", workers, "--entries", MOST]
    rates = (1, 100, 10_000, 1_000_000)
    found, _ = measure([sim(*options, "--hz", hz) for hz in rates])
    for hz, (took, memory) in zip(rates, found):
        made, ticks, lost = summed(sim(*options, "--hz", hz), "entries", "ticks", "lost")
        # (few ticks don't show in the time)
        more = (took - found[0][0]) / ticks * 1e9 if ticks > made / 100 else math.nan
        row(workers, hz, ticks, lost, made, took / made * 1e9, more, memory)

print("\nMany samples: a sample for each instruction of a function behind calls; the run, cpu.pb with it.")
head("frames", "stacks", "samples", "ms", "us/sample", "MiB")
for frames, stacks in ((1, 1), (64, 1), (64, 1024)):
    rows = []
    for n in (125_000, 250_000, 500_000, 1_000_000, 2_000_000):
        program(programs, "it.gp", "sampled", frames, stacks, n)
        ((took, memory),), _ = measure([sim("it.gp", "--workers", 1, "--hz", 1_000_000, "--entries", MOST)])
        rows.append((n, took))
        row(frames, stacks, n, took * 1e3, took / n * 1e6, memory)
    print(f"{'':>14}growth with samples {growth(rows):.2f}")

print("\nPrograms made by rules, by two workers with one profile and all events: more goroutines, a larger journal, more samples.")
head("numbers", "entries up to", "samples/s", "entries", "instructions", "entries/s", "MiB")
for numbers, limits, rates in (
    ((4, 8, 16, 32, 63), (262_144,), (100,)),
    ((63,), (MOST // 4, MOST), (100,)),
    ((63,), (MOST,), (1_000, 10_000, 100_000)),
):
    rows = []
    for q in numbers:
        for limit in limits:
            for hz in rates:
                options = ["--workers", 2, "--at", 100_000, "--block", 1, "--mutex", 1, "--entries", limit, "--hz", hz]
                ((took, memory),), _ = measure([gen(7, q, *options)])
                made, run = summed(gen(7, q, *options), "entries", "instructions")
                rows.append((made, took))
                row(f"7 {q}", limit, hz, made, run, made / took, memory)
    if len(limits) == 1:
        print(f"{'':>14}growth with entries {growth(rows):.2f}")

print("\nThe largest settings: 16 workers, 16,384 goroutines, a full journal, eight profiles of all of them.")
head("frames", "entries", "ns/entry", "MiB")
for frames in (2, 256):
    program(programs, "it.gp", "largest", frames)
    times = [20_000, *range(500_000, 3_500_000, 500_000)]
    options = ["--workers", 16, "--cells", 16384, "--room", 16384, "--entries", MOST]
    ((took, memory),), _ = measure([sim("it.gp", *options, *(word for at in times for word in ("--at", at)), "--at", "end")], status=FULL)
    row(frames, MOST, took / MOST * 1e9, memory)
