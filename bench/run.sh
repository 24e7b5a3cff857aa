#!/usr/bin/env bash
# run.sh [ROUNDS]: what runs on threads cost, beside simulated runs of the same files and beside Go on as many threads. It prints
# tables and asserts nothing.
#
# The program itself is timed (head.bash says which). Go is left out where it isn't installed. See run.py for what the figures are.
. "$(dirname -- "${BASH_SOURCE[0]}")/head.bash" "$@"

build_beside
judge=$top/crates/gp_stress/out/gp_stress
[ -x "$judge" ] && export GP_JUDGE=$judge
python3 -B "$here/run.py" "$gp" "$here/programs.py" "$rounds" $beside
