"""Feeds runs to the program gp_stress, and looks at what it tells of them: stress.py PROGRAM RUNS SEED. (checks/stress.sh says more.)"""
import collections
import itertools
import os
import random
import resource
import select
import statistics
import subprocess
import sys

SECONDS = 60  # a run that takes longer hangs
MANY = 1000  # among so many runs there are some with each of these
WANTED = "within", "by workers", "losses", "block", "mutex", "refused", "records", "ticks"


# ---------------------------------------------------------------- programs, as lists of lines

def function(name, *lines):
    return ["func %s {" % name, *lines, "}"]


def loop(count, *lines):
    return ["loop %d {" % count, *lines, "}"]


def work(rng):
    return "work %d" % rng.choice([1, 1, 2, 5, 10, 60, 300, 998, 999, 1000, 1001, 1500, 4000])


def label_sets(rng, count):
    pairs = ["team=red", "team=blue", "team=", "kind=1", "kind=2", "stage=ab", "zone=x.y"]
    return ["labels l%d %s" % (k, " ".join(rng.sample(pairs, rng.randrange(4)))) for k in range(count)]


def pipeline(rng):
    """Senders and receivers that fit; main waits for all, or leaves some behind."""
    count, stages = rng.randrange(1, 6), rng.randrange(1, 4)
    sets = rng.randrange(3)
    lines = ["chan c%d %d" % (k, rng.choice([0, 0, 1, 2, 3])) for k in range(stages)] + ["chan done %d" % rng.randrange(3)]
    lines += label_sets(rng, sets)
    makers = [k for k in range(stages)]
    body = ["spawn %s%d" % (kind, k) for k in makers for kind in "sr"]
    rng.shuffle(body)
    waits = 2 * stages if rng.random() < 0.7 else rng.randrange(2 * stages)
    lines += function("main", *body, *(loop(waits, "recv done") if waits else [work(rng)]))
    for k in makers:
        labelled = ["labels l%d" % rng.randrange(sets)] if sets and rng.random() < 0.6 else []
        lines += function("s%d" % k, *labelled, *loop(count, work(rng), "send c%d" % k), "send done")
        lines += function("r%d" % k, *loop(count, "recv c%d" % k, work(rng)), *labelled[:1], "send done")
    return lines


def contended(rng):
    """Goroutines that work under one of two mutexes, in a function that is called."""
    count = rng.randrange(2, 12)
    lines = ["mutex m", "mutex n", "chan done %d" % rng.choice([0, count])] + label_sets(rng, 2)
    lines += function("main", *loop(count, "spawn %s" % rng.choice("ab")), "lock m", work(rng), "unlock m", "labels l0",
                      *loop(count, "recv done"))
    for name in "ab":
        turns = [line for _ in range(rng.randrange(1, 4)) for line in (work(rng), "call in_%s" % rng.choice("mn"))]
        lines += function(name, "labels l%d" % rng.randrange(2), *loop(rng.randrange(1, 6), *turns), "send done")
    for name in "mn":
        lines += function("in_" + name, "lock " + name, work(rng), "unlock " + name)
    return lines


def crossed(rng):
    """Two mutexes that are taken in two orders, by few or by many."""
    count = rng.randrange(1, 5)
    lines = ["mutex m", "mutex n", "chan done 0"]
    lines += function("main", *loop(count, "spawn a", "spawn b"), *loop(2 * count, "recv done"))
    for name, first, second in ("a", "m", "n"), ("b", "n", "m"):
        lines += function(name, *loop(rng.randrange(1, 4), "lock " + first, work(rng), "lock " + second, work(rng), "unlock " + second,
                                      "unlock " + first), "send done")
    return lines


def stuck(rng):
    """Some that wait for ever, and main with them or not."""
    lines = ["chan c 0", "mutex m"] + label_sets(rng, 2)
    lines += function("main", "lock m", *loop(rng.randrange(1, 20), "labels l%d" % rng.randrange(2), "spawn f", "spawn g"), work(rng),
                      *rng.choice([["recv c", "recv c"], ["lock m"], []]), work(rng))
    lines += function("f", work(rng), rng.choice(["recv c", "lock m"]))
    lines += function("g", *loop(rng.randrange(1, 4), work(rng), "call h"), *rng.choice([["send c"], []]))
    lines += function("h", work(rng))
    return lines


def faulty(rng):
    """One of several unlocks a free mutex, sooner or later."""
    lines = ["mutex m", "chan done 9"]
    lines += function("main", *loop(rng.randrange(1, 9), "spawn f"), *rng.choice([[], ["spawn g"]]), *loop(9, work(rng), "recv done"))
    lines += function("f", *loop(rng.randrange(1, 5), work(rng), "lock m", work(rng), "unlock m"), "send done")
    lines += function("g", work(rng), work(rng), "unlock m", "unlock m")
    return lines


def deep(rng):
    """Calls inside each other, which samples and profiles cut or don't."""
    depth = rng.choice([3, 30, 31, 32, 33, 62, 63, 64, 65, 90])
    lines = ["chan done 3"] + label_sets(rng, 1) + function("main", *loop(3, "spawn f0"), "labels l0", "call f1", *loop(3, "recv done"))
    lines += function("f0", "call f1", "send done")
    for k in range(1, depth):
        inner = ["call f%d" % (k + 1)]
        if rng.random() < 0.1:
            inner = rng.choice([["work 1"] + inner, loop(rng.choice([1, 2]) if k > depth - 6 else 1, *inner)])
        lines += function("f%d" % k, *inner)
    return lines + function("f%d" % depth, *loop(rng.randrange(1, 6), work(rng), "labels l0"))


def nested(rng):
    """Loops in loops, with shared points in them."""
    def body(depth):
        kinds = ["send c", "recv c", work(rng), work(rng), "call f", "labels l0", "labels l1"]
        lines = [rng.choice(kinds) for _ in range(rng.randrange(1, 3))]
        return lines + (loop(rng.randrange(1, 5), *body(depth - 1)) if depth else [])
    lines = ["chan c 9", "mutex m"] + label_sets(rng, 2)
    lines += function("main", *loop(rng.randrange(1, 6), "spawn g"), *body(rng.randrange(1, 6)))
    lines += function("g", *body(rng.randrange(1, 4)))
    return lines + function("f", "lock m", *loop(rng.randrange(1, 4), work(rng)), "unlock m")


def soup(rng):
    """Statements as they come, in functions each of which calls and spawns later ones."""
    count = rng.randrange(1, 6)
    lines = ["chan c %d" % rng.choice([0, 1, 5]), "chan d %d" % rng.choice([0, 2]), "mutex m", "mutex n"] + label_sets(rng, 3)
    for k in range(count):
        later = list(range(k + 1, count))
        body = []
        for _ in range(rng.randrange(1, 9)):
            kinds = ["send c", "recv c", "send d", "recv d", "labels l%d" % rng.randrange(3), work(rng), work(rng)]
            if later:
                kinds += ["spawn f%d" % rng.choice(later), "spawn f%d" % rng.choice(later), "call f%d" % rng.choice(later)]
            name = rng.choice("mn")
            some = [rng.choice(kinds) for _ in range(rng.randrange(1, 3))]
            body += rng.choice([some, some, loop(rng.randrange(1, 9), *some), ["lock " + name, *some, "unlock " + name], ["unlock " + name]]
                               if rng.random() < 0.9 else [["lock " + name]])
        lines += function("main" if k == 0 else "f%d" % k, *body)
    return lines


def generated(rng):
    """The program that `gp gen N Q` makes."""
    n, q = rng.randrange(1 << 32), rng.randrange(1, 4)
    lines = ["chan done %d" % (16 * q)] + ["mutex m%d" % k for k in range(4)] + ["labels l%d kind=%d" % (j, j) for j in range(16)]
    lines += function("main", *loop(q, *("spawn k%d" % j for j in range(16))), *loop(16 * q, "recv done"))
    for j in range(16):
        lines += function("k%d" % j, "labels l%d" % j, *loop(4, "work %d" % (1000 + (31 * n + 17 * j) % 97), "call s%d" % j), "send done")
    for j in range(16):
        lines += function("s%d" % j, "lock m%d" % (j % 4), "work %d" % (10 + (7 * n + 5 * j) % 13), "unlock m%d" % (j % 4))
    return lines


PROGRAMS = [pipeline, pipeline, contended, contended, crossed, stuck, faulty, deep, nested, nested, soup, soup, soup, generated]


# ---------------------------------------------------------------- runs, as lines of gp_stress

def options(rng, workers):
    words = ["--workers", workers]
    for _ in range(rng.choice([0, 1, 1, 2, 3, 5, 8])):
        words += ["--at", rng.choice(["end", 0, rng.randrange(20), rng.randrange(500), rng.randrange(5000), rng.randrange(60000)])]
    if rng.random() < 0.25:
        words += ["--room", rng.choice([0, 1, 2, 3, 5, 9, 17])]
    if rng.random() < 0.15:
        words += ["--cells", rng.choice([1, 2, 3, 5, 9, 17])]
    words += ["--hz", rng.choice([1, 100, 1000, 1000, 5000, 10000, 40000])]
    if rng.random() < 0.6:
        words += ["--ring", rng.choice([16, 64, 256]), "--tags", rng.choice([1, 2, 8])]
    if rng.random() < 0.7:
        words += ["--block", 1, "--mutex", rng.choice([1, 1, 2, 3]), "--seed", rng.randrange(1 << 64)]
    words += ["--entries", rng.choice([16, 40, 300, 3000, 3000, 3000, 3000])]
    return words


def line_of(words, lines, failing=(0, 0, 0)):
    return "whole %d %d %d gp run a.gp %s : text %s\n" % (*failing, " ".join(map(str, words)), "".join(line + ";" for line in lines))


ONE = ["func main {", "work 1", "}"]

# Calls that make no run, and what is told of them.
REFUSED = [
    ("whole 0 0 0 gp run : text\n", "status 1 usage 1 2;"),
    ("whole 0 0 0 gp run a.gp --workers 17 : text\n", "status 1 usage 3 4;"),
    ("whole 0 0 0 gp run a.gp --picks 1 : text\n", "status 1 usage 2 3;"),
    (line_of([], ["func main {", "work 0", "}"]), "status 2 refused line 2 cause 4;"),
    (line_of([], ["mutex m", "mutex m", "func main {", "work 1", "}"]), "status 2 refused line 2 cause 3;"),
    (line_of([], ONE, (1, 0, 0)), "status 3 read fault;"),
]


def run_line(rng, at):
    """Run number `at`, and what has to be told of it, where that is known before."""
    if at % 25 == 24:
        return rng.choice(REFUSED)
    failing = (0, 0, 0)
    if at % 25 == 12:
        failing = (0, rng.randrange(1, 4), 0) if rng.random() < 0.5 else (0, 0, rng.randrange(1, 90))
    return line_of(options(rng, 1 + at % 16), rng.choice(PROGRAMS)(rng), failing), None


# ---------------------------------------------------------------- the program

class Program:
    """gp_stress, which answers a line by a line."""

    def __init__(self, path, most=None, stack=None):
        """With so many bytes of memory at most, and as many for the stack of each thread, if they are told."""
        def limit():
            if most:
                resource.setrlimit(resource.RLIMIT_AS, (most, most))
            if stack:
                resource.setrlimit(resource.RLIMIT_STACK, (stack, resource.getrlimit(resource.RLIMIT_STACK)[1]))

        # (with one heap for all threads, and what is free given back, it holds as much after each run)
        words = dict(os.environ, MALLOC_ARENA_MAX="1", MALLOC_MMAP_THRESHOLD_="131072", MALLOC_TRIM_THRESHOLD_="131072")
        self.process = subprocess.Popen([path], stdin=subprocess.PIPE, stdout=subprocess.PIPE, preexec_fn=limit, env=words)

    def answer(self, line):
        self.process.stdin.write(line.encode())
        self.process.stdin.flush()
        if not select.select([self.process.stdout], [], [], SECONDS)[0]:
            self.process.kill()
            return "nothing in %d seconds" % SECONDS
        return self.process.stdout.readline().decode().rstrip("\n")

    def memory(self):
        """Kibibytes that it holds."""
        with open("/proc/%d/status" % self.process.pid) as file:
            return next(int(row.split()[1]) for row in file if row.startswith("VmRSS:"))

    def end(self):
        self.process.stdin.close()
        return self.process.wait(SECONDS)


def numbers(answer):
    """The numbers of an answer by the words before them."""
    found, words = {}, []
    for word in answer.split():
        if word.isdigit() and words:
            found[" ".join(words)] = int(word)
            words = []
        else:
            words.append(word)
    return found


def fails(text):
    print("  " + text)
    return False


def stress(path, runs, seed):
    rng, program = random.Random(seed), Program(path)
    statuses, had, memory, right = collections.Counter(), collections.Counter(), [], True
    for at in itertools.count():
        # (on a busy machine threads come to run at once less often)
        if at >= runs and (runs < MANY or at >= 5 * runs or all(had[name] for name in WANTED)):
            break
        line, wanted = run_line(rng, at)
        answer = program.answer(line)
        told = numbers(answer)
        if "status" not in told or "WRONG" in answer or (wanted and answer != wanted):
            right = fails("run %d: %s, of the line\n%s" % (at, answer or "nothing", line))
            if "status" not in told:
                break
        statuses[told["status"]] += 1
        had.update(name for name, number in told.items() if number > 0)
        had["losses"] += told.get("ticks", 0) + 1 > told.get("taken", 1 << 60)
        memory.append(program.memory())
    status = program.end()
    if status != 0:
        right = fails("it ended with status %s" % status)
    return statuses, had, memory, right


def want_of_memory(path):
    """The statuses of a large run in ever more memory, up to the first that isn't 9."""
    words = ["--workers", 4, "--cells", 16384, "--entries", 4194304, "--ring", 1048576]
    statuses = []
    for most in 64, 96, 128, 192, 256, 512, 1024, 4096:
        program = Program(path, most << 20)
        statuses.append(numbers(program.answer(line_of(words, ONE))).get("status"))
        program.end()
        if statuses[-1] != 9:
            break
    return statuses


def want_in_a_loop(path):
    """The status of a run whose samples alone take more memory than there is, where the same run with next to none ends well. So what the
    run begins with is there, and it is a loop that wants memory; the others would go on for ten times as long, until the journal is full."""
    deep = function("main", "call f0")
    for k in range(60):
        deep += function("f%d" % k, "call f%d" % (k + 1))
    deep += function("f60", *loop(4, "work 1000000"))
    statuses = []
    for most in 48, 64, 96, 128, 192, 256:
        for rate in 1, 1000000:
            program = Program(path, most << 20)
            words = ["--workers", 2, "--cells", 16, "--hz", rate, "--entries", 4194304 if rate > 1 else 65536]
            statuses.append(numbers(program.answer(line_of(words, deep))).get("status"))
            program.end()
            if statuses[-1] == 9 and rate == 1:
                statuses.clear()
                break
        if statuses:
            break
    return statuses


def without_threads(path, rng, runs):
    """Runs where the system makes no thread, one, two or four at most: no more stacks fit into the memory that there is. The caller then
    acts for the actors that have none, in turn with its own, and each run has to come to what it comes to otherwise."""
    right, stack = True, 1 << 30
    for started in 0, 1, 2, 4:
        program = Program(path, stack * started + stack * 9 // 10, stack)
        for at in range(runs):
            line = line_of(options(rng, 1 + at % 16), rng.choice(PROGRAMS)(rng))
            answer = program.answer(line)
            if numbers(answer).get("status", 9) == 9 or "WRONG" in answer:
                right = fails("with %d threads at most: %s, of the line\n%s" % (started, answer or "nothing", line))
        if program.end() != 0:
            right = fails("with %d threads at most it ended with another status" % started)
    return right


def main(path, runs, seed):
    statuses, had, memory, right = stress(path, runs, seed)
    in_a_loop = want_in_a_loop(path)
    if in_a_loop != [0, 9]:
        right = fails("with few samples and with many a run ends with status %s in as much memory" % in_a_loop)
    right = without_threads(path, random.Random(seed), min(runs, 40)) and right
    ever_more = want_of_memory(path)
    if set(ever_more[:-1]) != {9} or ever_more[-1] != 0:
        right = fails("in ever more memory a run ends with status %s" % ever_more)
    statuses.update(ever_more[:-1])
    # (stacks of threads that are kept make a step now and then)
    quarter = max(1, len(memory) // 4)
    early, late = (int(statistics.median(it or [0])) for it in (memory[quarter:2 * quarter], memory[-quarter:]))
    print("  %d runs; of each status %s; memory %d KiB in the second quarter, %d in the last; runs with %s" % (
        sum(statuses.values()), ", ".join("%s: %d" % pair for pair in sorted(statuses.items(), key=str)), early, late,
        ", ".join("%s %d" % (name, had[name]) for name in WANTED)))
    if runs >= MANY:
        missing = [k for k in range(10) if not statuses[k]]
        if missing:
            right = fails("status %s never came" % missing)
        absent = [name for name in WANTED if not had[name]]
        if absent:
            right = fails("no run had %s" % absent)
        if late > early + 2048:
            right = fails("memory grew from %d to %d KiB" % (early, late))
    return 0 if right else 1


if __name__ == "__main__":
    sys.exit(main(sys.argv[1], int(sys.argv[2]), int(sys.argv[3])))
