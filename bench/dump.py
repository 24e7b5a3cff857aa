"""Times `gp dump`: dump.py GP PROTO ROUNDS, in an empty folder; dump.sh calls it.

Times are processor time, user and system, the least of ROUNDS rounds in which all commands take turns. `MiB` is the largest peak of
memory. `growth` is the exponent of gp's time by the number of samples, over all rows: 1 is linear. A profile is made of samples
with twenty frames each, one of 20,000 locations at each depth, one value and, in every fourth one, a label.
"""

import math
import os
import random
import shutil
import subprocess
import sys

gp, proto, rounds = sys.argv[1], sys.argv[2], int(sys.argv[3])
FRAMES, LOCATIONS, FUNCTIONS = 20, 20_000, 2_000


def varint(number):
    digits = bytearray()
    while number > 127:
        digits.append(number & 127 | 128)
        number >>= 7
    digits.append(number)
    return bytes(digits)


def number(field, value):
    return varint(field << 3) + varint(value)


def piece(field, content):
    return varint(field << 3 | 2) + varint(len(content)) + content


def profile(samples):
    """The bytes of a profile with so many samples."""
    numbers = random.Random(samples)
    texts = ["", "samples", "count", "main.go", "kind", "read"] + [f"function{it}" for it in range(FUNCTIONS)]
    places = [varint(it + 1) for it in range(LOCATIONS)]
    label = piece(3, number(1, 4) + number(2, 5))
    parts = [piece(1, number(1, 1) + number(2, 2))]
    for at in range(samples):
        ids = b"".join(numbers.choices(places, k=FRAMES))
        parts.append(piece(2, piece(1, ids) + piece(2, varint(at % 100 + 1)) + (b"" if at % 4 else label)))
    for at in range(LOCATIONS):
        parts.append(piece(4, number(1, at + 1) + piece(4, number(1, at % FUNCTIONS + 1) + number(2, at % 500 + 1))))
    for at in range(FUNCTIONS):
        parts.append(piece(5, number(1, at + 1) + number(2, at + 6) + number(4, 3)))
    return b"".join(parts) + b"".join(piece(6, text.encode()) for text in texts)


def once(words, given):
    """Runs a command: its processor time in seconds, its peak memory in MiB, and its status."""
    with open(given, "rb") as source, open(os.devnull, "w", encoding="utf-8") as nowhere:
        process = subprocess.Popen(words, stdin=source, stdout=nowhere, stderr=nowhere)
        _, status, usage = os.wait4(process.pid, 0)
        process.returncode = os.waitstatus_to_exitcode(status)
        return usage.ru_utime + usage.ru_stime, usage.ru_maxrss / 1024, process.returncode


def commands(name):
    """The commands that are timed on a profile, those that are there."""
    found = {"gp dump": [gp, "dump", name]}
    if shutil.which("protoc"):
        found["protoc --decode"] = ["protoc", f"-I{os.path.dirname(proto)}", "--decode=perftools.profiles.Profile", os.path.basename(proto)]
        found["protoc --decode_raw"] = ["protoc", "--decode_raw"]
    if shutil.which("go"):
        found["go tool pprof -raw"] = ["go", "tool", "pprof", "-raw", name]
    return found


print(f"{'samples':>9} {'MB':>6} {'command':<20} {'seconds':>8} {'MiB':>6} {'gp by it':>9}")
times = []
for samples in (25_000, 50_000, 100_000, 200_000):
    name = f"{samples}.pb"
    with open(name, "wb") as to:
        to.write(profile(samples))
    found = {it: [math.inf, 0.0] for it in commands(name)}
    for _ in range(rounds):
        for it, words in commands(name).items():
            took, memory, status = once(words, name)
            if status:
                print(f"  {it}: status {status} in place of 0")
            found[it] = [min(found[it][0], took), max(found[it][1], memory)]
    for it, (took, memory) in found.items():
        ratio = f"{found['gp dump'][0] / took:9.2f}"
        print(f"{samples:>9} {os.path.getsize(name) / 1e6:6.1f} {it:<20} {took:8.3f} {memory:6.0f} {ratio}")
    times.append((math.log(samples), math.log(found["gp dump"][0])))
x, y = (sum(it) / len(times) for it in zip(*times))
print(f"growth of gp dump by samples: {sum((a - x) * (b - y) for a, b in times) / sum((a - x) ** 2 for a, _ in times):.2f}")
