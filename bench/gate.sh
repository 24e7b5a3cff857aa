#!/usr/bin/env bash
# gate.sh [NAME..]: what the gate costs from nothing, item by item, worst first. It prints a table and asserts nothing.
#
# An item is a crate's proof, the proof of its tests, or its must-fail edits. `rt ci --anew` is run once on a copy of the
# sources, so nothing that earlier runs on this machine kept is used, and once a second it is looked at what each of its
# processes has used. Minutes are those of processors, user and system, as the system counts them, so that other work on the
# machine makes little difference; what a process uses in its last second is lost. With names, the crates named and those
# below them are measured. It takes as long as the gate.
set -u
export LC_ALL=C
top=$(cd -P -- "$(dirname -- "${BASH_SOURCE[0]}")/.." && pwd)
room=$(mktemp -d) || exit 1
trap 'rm -rf -- "$room"' EXIT
mkdir -- "$room/repo" "$room/repo/.git" || exit 1
tar cf "$room/sources.tar" -C "$top" --exclude=out crates crates.txt HANDLES || exit 1
tar xf "$room/sources.tar" -C "$room/repo" && rm -f -- "$room/sources.tar" || exit 1

python3 - "$room/repo" "$@" <<'PROGRAM'
import os, re, subprocess, sys, time

repo, names = sys.argv[1], sys.argv[2:]
TICKS = os.sysconf("SC_CLK_TCK") * 60


def stat(process):
    """The parent of a process, the minutes that it has used, and when it began."""
    with open(f"/proc/{process}/stat", encoding="utf-8", errors="replace") as it:
        fields = it.read().rpartition(") ")[2].split()
    return int(fields[1]), (int(fields[11]) + int(fields[12])) / TICKS, fields[19]


def below(root):
    """The processes below one, each with its parent, its minutes and its begin."""
    found = {}
    for name in os.listdir("/proc"):
        if name.isdigit():
            try:
                found[int(name)] = stat(name)
            except (OSError, IndexError, ValueError):
                pass
    inside, grows = {root}, True
    while grows:
        more = {process for process, (parent, _, _) in found.items() if parent in inside} - inside
        inside |= more
        grows = bool(more)
    return {process: found[process] for process in inside if process in found}


def item_of(process):
    """The item for which a process of the prover works, by its words and its folder, or None."""
    try:
        with open(f"/proc/{process}/cmdline", encoding="utf-8", errors="replace") as it:
            words = it.read().split("\0")
        folder = os.readlink(f"/proc/{process}/cwd")
    except OSError:
        return None
    if "--crate-name" not in words:
        return None
    crate = words[words.index("--crate-name") + 1]
    is_edit = any("/rt-edit" in it for it in [folder, *words])
    return (crate, "edits") if is_edit else (crate, "tests") if "--test" in words else (crate, "proof")


log = open(f"{repo}/../log", "w+", encoding="utf-8", errors="replace")
run = subprocess.Popen(["rt", "ci", "--anew", *names], cwd=repo, stdout=log, stderr=subprocess.STDOUT)
used, items = {}, {}
while run.poll() is None:
    now = below(run.pid)
    for process, (parent, minutes, begin) in now.items():
        key = process, begin
        if key not in items:
            item = item_of(process)
            while item is None and parent in now:
                item = items.get((parent, now[parent][2])) or item_of(parent)
                parent = now[parent][0]
            items[key] = item or ("rt itself", "")
        used[key] = minutes
    time.sleep(1)
log.seek(0)
said = log.read().strip().splitlines()

totals = {}
for key, minutes in used.items():
    totals[items[key]] = totals.get(items[key], 0) + minutes


def text(crate, *folders):
    for folder in folders:
        for at, _, found in os.walk(f"{repo}/crates/{crate}/{folder}"):
            for name in found:
                if name.endswith((".rt", ".antt")):
                    with open(f"{at}/{name}", encoding="utf-8") as it:
                        yield it.read()


print(f"{'minutes':>8}  {'item':32} {'functions':>9} {'lines':>7} {'edits':>6}")
for (crate, kind), minutes in sorted(totals.items(), key=lambda it: -it[1]):
    functions = lines = edits = ""
    if kind == "edits":
        edits = len([it for it in os.listdir(f"{repo}/crates/{crate}/must-fail") if it.endswith(".edit")])
    elif kind:
        functions = sum(len(re.findall(r"^\s*(?:pub(?:\([a-z]+\))? )?(?:const )?fn ", it, re.M)) for it in text(crate, "src"))
        lines = sum(it.count("\n") for it in text(crate, "src", "specs", "proofs"))
    print(f"{minutes:8.1f}  {crate + ' ' + kind:32} {functions:>9} {lines:>7} {edits:>6}")
print(f"{sum(totals.values()):8.1f}  all")
print(said[-1] if said else "rt ci said nothing")
sys.exit(run.returncode)
PROGRAM
