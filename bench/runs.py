"""What the benches of runs share: programs that are written, and tables that are printed."""

import math
import subprocess
import sys


def program(programs, name, *words):
    """Writes a program by programs.py, and returns its numbers."""
    with open(name, "w", encoding="utf-8") as to:
        said = subprocess.run([sys.executable, programs, *map(str, words)], stdout=to, stderr=subprocess.PIPE, check=True)
    return [int(it) for it in said.stderr.split()]


def told(it):
    return it if isinstance(it, str) else str(it) if isinstance(it, int) else f"{it:.3g}" if math.isfinite(it) else "-"


def head(*columns):
    print("".join(f"{it:>14}" for it in columns))


def row(*columns):
    print("".join(f"{told(it):>14}" for it in columns), flush=True)
