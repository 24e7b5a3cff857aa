"""Writes the program files that sim.sh times.

    programs.py mixed GOROUTINES          workers of calls, work, channels and mutexes
    programs.py shared GOROUTINES         workers of channels and mutexes alone
    programs.py twice CALLS               `work 1` behind so many calls, the outermost functions calling twice
    programs.py row STATEMENTS            one function of so many statements `work 1`
    programs.py climb CALLS               a number sent and received behind so many calls, again and again
    programs.py wide KIBIBYTES            256 functions that each call the next one, in a file of so many kibibytes
    programs.py blocked GOROUTINES KIND   goroutines that all wait at last, with one stack (KIND is `same`) or as many
                                          stacks as goroutines (`distinct`)
    programs.py sampled FRAMES STACKS N   so many stacks of so many frames each, in turns, with N instructions in all
    programs.py largest FRAMES            16,384 goroutines, with stacks of up to FRAMES frames, that fill the largest
                                          journal

The program goes to standard output. To standard error goes one line with its numbers: for `mixed` the operations (shared
points and statements of work passed) and the instructions of a whole run, for `shared` the shared points, for `blocked` the
goroutines and the distinct stacks among them, for `sampled` the instructions, for `largest` the goroutines and the frames
of each stack, for the others the statements of the file.
"""

import sys

# A worker's round: three stretches of work, a mutex held for a while, and a number sent and one received. No stretch of
# work borders on another one, so each operation takes an entry of the journal or more. Workers never all wait: one that
# waits to receive has sent one more than it received, and one that waits to send just as many.
ROUND = ["work 20", "lock m{c}", "work 5", "unlock m{c}", "send c{c}", "work 3", "recv c{c}"]
ROUNDS = 256
CLASSES = 4

# The most goroutines, and the frames of a recorded stack.
CELLS = 16_384
FRAMES = 32


def function(name, statements):
    return [f"func {name} {{", *statements, "}"]


def instructions(statement):
    word, value = statement.split()
    return int(value) if word == "work" else 1


def mixed(goroutines):
    """Workers of four classes, each with a mutex and a channel of its own. `main` waits until all are done."""
    lines = [f"chan done {goroutines}"]
    lines += [f"chan c{c} 8" for c in range(CLASSES)]
    lines += [f"mutex m{c}" for c in range(CLASSES)]
    spawns = [f"spawn worker{j % CLASSES}" for j in range(goroutines)]
    lines += function("main", spawns + ["recv done"] * goroutines)
    for c in range(CLASSES):
        lines += function(f"worker{c}", [f"call many{c}"] * 16 + ["send done"])
        lines += function(f"many{c}", [f"call round{c}"] * (ROUNDS // 16))
        lines += function(f"round{c}", [statement.format(c=c) for statement in ROUND])
    # (the last send of each worker, and a spawn and a receive of `main` for each)
    operations = goroutines * (ROUNDS * len(ROUND) + 3)
    steps = goroutines * (ROUNDS * sum(map(instructions, ROUND)) + 3)
    return lines, f"{operations} {steps}"


def shared(goroutines):
    """The workers of `mixed` without work and without calls between their points."""
    lines = [f"chan done {goroutines}"]
    lines += [f"chan c{c} 8" for c in range(CLASSES)]
    lines += [f"mutex m{c}" for c in range(CLASSES)]
    lines += function("main", [f"spawn worker{j % CLASSES}" for j in range(goroutines)] + ["recv done"] * goroutines)
    for c in range(CLASSES):
        points = [f"lock m{c}", f"unlock m{c}", f"send c{c}", f"recv c{c}"]
        lines += function(f"worker{c}", points * ROUNDS + ["send done"])
    return lines, f"{goroutines * (4 * ROUNDS + 3)}"


def twice(calls):
    """Work behind so many calls that each point is far from the next one, and no shared point in 2^39 of them."""
    lines = function("main", [f"call f{calls - 1}"])
    for i in range(calls - 1, 0, -1):
        # (no trace has more than 2^40 points: only the outermost functions call twice)
        lines += function(f"f{i}", [f"call f{i - 1}"] * (2 if i > calls - 38 else 1))
    lines += function("f0", ["work 1"])
    return lines, f"{len(lines) - 2 * (calls + 1)}"


def row(statements):
    """The longest straight way that a file has: each slice ends within it."""
    return function("main", ["work 1"] * statements), f"{statements}"


def climb(calls):
    """Each point is reached by calls that are entered and left again."""
    lines = ["chan c 1"]
    lines += function("main", [f"call f{calls - 1}"] * 4096)
    for i in range(calls - 1, 0, -1):
        lines += function(f"f{i}", [f"call f{i - 1}"])
    lines += function("f0", ["send c", "recv c"])
    return lines, f"{4096 + calls}"


def wide(kibibytes):
    """Functions that call the next one, the callers first: a judgement of recursion and sizes that goes by rounds is slow."""
    count = 256
    statements = kibibytes * 1024 // count // 7
    lines = []
    for i in range(count):
        body = [f"call f{i + 1}" if i < count - 1 else "work 1"] + ["work 1"] * (statements - 1)
        lines += function(f"f{i}" if i else "main", body)
    return lines, f"{count * statements}"


def chain(count, last):
    """Functions d1, d2 .. that call each other, the first of them the last function."""
    lines = []
    for i in range(1, count + 1):
        lines += function(f"d{i}", [f"call {last if i == 1 else f'd{i - 1}'}"])
    return lines


def same(goroutines):
    """All goroutines but `main` wait at one line, behind the same calls."""
    lines = ["chan never 0"]
    lines += function("main", ["spawn f"] * (goroutines - 1) + ["recv never"])
    lines += function("f", [f"call d{FRAMES - 2}"])
    lines += chain(FRAMES - 2, "wait")
    lines += function("wait", ["recv never"])
    return lines, f"{goroutines} 2"


def distinct(goroutines):
    """All goroutines wait at different stacks: no two have both the outermost function and the innermost line in common.

    They are born in turns, one of each outermost function. All send into the same channels, line by line, and each
    channel has room for all of them but the last turn that comes there, which waits at that line for good. One worker,
    which serves the queue in its order, keeps the turns apart.
    """
    turns = 74
    others = goroutines - 1
    functions = -(-others // turns)
    lines = [f"chan c{i} {functions * (turns - i)}" for i in range(1, turns + 1)]
    lines += ["chan never 0"]
    spawns = [f"spawn f{k % functions}" for k in range(others)]
    lines += function("main", spawns + ["recv never"])
    for a in range(functions):
        lines += function(f"f{a}", [f"call d{FRAMES - 2}"])
    lines += chain(FRAMES - 2, "wait")
    lines += function("wait", [f"send c{i}" for i in range(1, turns + 1)])
    return lines, f"{goroutines} {goroutines}"


def largest(frames):
    """All goroutines that there may be, alive from early on to the end, that pass more points than a journal has entries."""
    others = CELLS - 1
    passes = ["send c", "recv c"] * 150
    lines = [f"chan begin {CELLS}", f"chan c {CELLS}", "chan never 0"]
    first = f"d{frames - 2}" if frames > 2 else "last"
    lines += function("main", [f"spawn {first}"] * others + ["send begin"] * CELLS + [f"call {first}"])
    lines += chain(frames - 2, "last")
    lines += function("last", ["recv begin", *passes, "recv never"])
    return lines, f"{CELLS} {frames}"


def sampled(frames, stacks, instructions):
    """One instruction at each line of a function behind calls, and again."""
    turns = instructions // stacks
    body = [f"loop {turns} {{", *["work 1"] * stacks, "}"]
    if frames == 1:
        return function("main", body), f"{turns * stacks}"
    first = f"d{frames - 2}" if frames > 2 else "last"
    lines = function("main", [f"call {first}"]) + chain(frames - 2, "last") + function("last", body)
    return lines, f"{turns * stacks}"


def main():
    kind, number = sys.argv[1], int(sys.argv[2])
    if kind == "mixed":
        lines, numbers = mixed(number)
    elif kind in ("shared", "twice", "row", "climb", "wide"):
        lines, numbers = {"shared": shared, "twice": twice, "row": row, "climb": climb, "wide": wide}[kind](number)
    elif kind == "blocked":
        lines, numbers = (same if sys.argv[3] == "same" else distinct)(number)
    elif kind == "sampled":
        lines, numbers = sampled(number, int(sys.argv[3]), int(sys.argv[4]))
    else:
        lines, numbers = largest(number)
    sys.stdout.write("\n".join(lines) + "\n")
    print(numbers, file=sys.stderr)


main()
