#!/usr/bin/env bash
# sim.sh [ROUNDS]: what simulated runs cost, how that grows, and what the same operations cost in Go. It prints tables and
# asserts nothing.
#
# The program itself is timed (head.bash says which). Go is left out where it isn't installed. See sim.py for what the figures are.
. "$(dirname -- "${BASH_SOURCE[0]}")/head.bash" "$@"

build_beside
python3 -B "$here/sim.py" "$gp" "$here/programs.py" "$rounds" $beside
