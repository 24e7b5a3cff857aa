#!/usr/bin/env bash
# dump.sh [ROUNDS]: what `gp dump` costs on profiles of up to 200,000 samples with 20 frames, how that grows, and what pprof and
# protoc take for the same files. It prints a table and asserts nothing.
#
# The program itself is timed (head.bash says which). What isn't installed is left out. See dump.py for what the figures are.
. "$(dirname -- "${BASH_SOURCE[0]}")/head.bash" "$@"

python3 "$here/dump.py" "$gp" "$here/profile.proto" "$rounds"
