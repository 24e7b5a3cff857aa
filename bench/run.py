"""Times runs on threads: run.py GP PROGRAMS ROUNDS [BESIDE], in an empty folder; run.sh calls it. With another build of the program
in GP_OTHER, such as one whose reader takes the lock, what a sample costs stands beside what it costs there.

Times are the least of ROUNDS rounds in which `run`, `sim` and Go take turns: the time that passes, and the processor time of all
threads together. What a run on threads does differs from round to round, so entries and operations are those of the least time's
run, as its summary tells. `MiB` is the largest peak of memory, and no less than that of the Python that starts the program.
"""

import math
import os
import re
import subprocess
import sys
import time

from runs import head, program, row

gp, programs, rounds, beside = sys.argv[1], sys.argv[2], int(sys.argv[3]), sys.argv[4:]
MOST = 4_194_304


class Took:
    """The least time that a command took, what it used then, its summary, and the largest memory of all its runs."""

    def __init__(self):
        self.passed, self.used, self.memory, self.said = math.inf, math.inf, 0.0, ""

    def number(self, name):
        return int(re.search(rf"\b{name} (\d+)", self.said)[1])


def once(took, words, status, environment=None):
    with open("said", "w+", encoding="utf-8") as said:
        began = time.monotonic()
        process = subprocess.Popen(words, stdin=subprocess.DEVNULL, stdout=said, stderr=said, env={**os.environ, **(environment or {})})
        _, ended, usage = os.wait4(process.pid, 0)
        passed = time.monotonic() - began
        process.returncode = os.waitstatus_to_exitcode(ended)
        said.seek(0)
        text = said.read()
    if process.returncode != status:
        print(f"  {' '.join(words[1:])}: status {process.returncode} in place of {status} {text}")
    took.memory = max(took.memory, usage.ru_maxrss / 1024)
    if passed < took.passed:
        took.passed, took.used, took.said = passed, usage.ru_utime + usage.ru_stime, text


def measure(commands, status=0):
    """What each command took, each a list of words and an environment; in turns."""
    found = [Took() for _ in commands]
    for _ in range(rounds):
        for took, (words, environment) in zip(found, commands):
            once(took, [str(it) for it in words], status, environment)
    return found


print(f"processors {os.cpu_count()}, load {os.getloadavg()[0]:.1f}, rounds {rounds}")
for kind, asked, title in (
    ("shared", [], "Channels and mutexes alone, 64 goroutines. An operation is a shared point that was passed."),
    ("mixed", ["--at", 1000], "Calls, work, channels and mutexes, 64 goroutines, with one profile. An operation is a shared point or a work passed."),
):
    print(f"\n{title}")
    head("workers", "entries", "run, ms", "sim, ms", "run/sim", "Go, ms", "run ns/entry", "run cpu, ms", "Go cpu, ms", "MiB")
    operations = program(programs, "it.gp", kind, 64)[0]
    for workers in (1, 2, 4):
        options = ["it.gp", "--workers", workers, *asked, "--entries", MOST]
        commands = [([gp, "run", *options], None), ([gp, "sim", *options], None)]
        if beside:
            commands.append(([beside[0], kind, 64], {"GOMAXPROCS": str(workers)}))
        run, sim, *go = measure(commands)
        made = run.number("entries")
        go_passed, go_used = (go[0].passed, go[0].used) if go else (math.nan, math.nan)
        row(workers, made, run.passed * 1e3, sim.passed * 1e3, run.passed / sim.passed, go_passed * 1e3, run.passed / made * 1e9, run.used * 1e3, go_used * 1e3, run.memory)
    print(f"{'':>14}{operations} operations")

print("\nSamples: the mixed program with a sample at each instruction (`--hz 1000000`), less the same with next to none (`--hz 1`), by samples.")
print("A sample's time holds its Tick and its Run, what the worker does to offer it, and its part of `cpu.pb`.")
other = [os.environ["GP_OTHER"]] if os.environ.get("GP_OTHER") else []
head("workers", "samples", "lost", "run, ns", "run cpu, ns", "sim, ns", *(["other, ns", "other cpu, ns"] if other else []))
program(programs, "it.gp", "mixed", 64)
for workers in (1, 2, 4):
    options = ["it.gp", "--workers", workers, "--entries", MOST]
    ways = [[gp, "run"], [gp, "sim"], *([it, "run"] for it in other)]
    found = measure([([*way, *options, "--hz", hz], None) for way in ways for hz in (1_000_000, 1)])
    each = []
    for many, few in zip(found[::2], found[1::2]):
        more = max(many.number("ticks") - few.number("ticks"), 1)
        each += [(many.passed - few.passed) / more * 1e9, (many.used - few.used) / more * 1e9]
    row(workers, found[0].number("ticks"), found[0].number("lost"), each[0], each[1], each[2], *each[4:])

print("\nProfiles of 16,384 goroutines while four workers go on: a run with eight profiles, less one with none, by eight.")
head("workers", "run, ms", "sim, ms", "MiB")
program(programs, "it.gp", "largest", 2)
for workers in (1, 2, 4):
    options = ["it.gp", "--workers", workers, "--cells", 16384, "--room", 16384, "--entries", 1_000_000]
    asked = [word for at in range(50_000, 450_000, 50_000) for word in ("--at", at)]
    found = measure([([gp, command, *options, *more], None) for command in ("run", "sim") for more in (asked, [])], status=8)
    row(workers, (found[0].passed - found[1].passed) / 8 * 1e3, (found[2].passed - found[3].passed) / 8 * 1e3, found[0].memory)

# The judge of the stress prints a run's numbers only after it has replayed its journal and compared each file with it.
print("\nThe same, four profiles, 16,380 goroutines that wait and four that go on: what workers did between an Open and its Close.")
print("Each figure is that of one profile: of the run in the middle of all, and how much workers did in the run in which they did least.")
judge = os.environ.get("GP_JUDGE", "")
if not judge:
    print("without it: crates/gp_stress isn't built (`rt run` there)")
    sys.exit()
head("workers", "records", "by workers", "runs and ops", "least of them")
text = "chan never 0;chan c 64;func blocked {;recv never;};func busy {;loop 1000000 {;send c;recv c;};};"
text += "func main {;loop 16380 {;spawn blocked;};spawn busy;spawn busy;spawn busy;call busy;};"
for workers in (1, 2, 4):
    asked = " ".join(f"--at {at}" for at in range(50_000, 250_000, 50_000))
    words = f"gp run a.gp --workers {workers} --cells 16384 --room 16384 --entries 400000 {asked}"
    all_said = []
    for _ in range(rounds):
        judged = subprocess.run([judge], input=f"whole 0 0 0 {words} : text {text}\n", stdout=subprocess.PIPE, encoding="utf-8", check=True)
        all_said.append({name: int(it) / 4 for name, it in re.findall(r"(records|by workers|within) (\d+)", judged.stdout)})
    all_said.sort(key=lambda said: said["within"])
    middle = all_said[len(all_said) // 2]
    row(workers, int(middle["records"]), middle["by workers"], int(middle["within"]), int(all_said[0]["within"]))
