#!/usr/bin/env bash
# docs/pictures.sh [FOLDER]: makes the pictures that docs/TUTORIAL.md shows, by Go's pprof and graphviz from profiles that gp makes of
# the examples, and puts them into FOLDER, or into docs/pictures where none is named.
set -eu -o pipefail
top=$(cd -P -- "$(dirname -- "${BASH_SOURCE[0]}")/.." && pwd)
to=${1:-$top/docs/pictures}
mkdir -p -- "$to"
to=$(cd -P -- "$to" && pwd)
room=$(mktemp -d)
trap 'rm -rf -- "$room"' EXIT
cd -- "$room"
ln -s -- "$top/examples" examples

# picture NAME WORDS OPTIONS: the picture of a profile of an example, run with these words, by pprof with these options.
picture() {
  # (a deadlock's status isn't 0)
  "$top/gp" sim "examples/$1/$1.gp" $2 >/dev/null || [ $? = 6 ]
  # (what -svg makes has no size of its own, for a page, and a script)
  go tool pprof -dot $3 2>/dev/null | dot -Tsvg >"$to/$1.svg"
}

picture seven '--at 40000' cpu.pb
picture leak '--at end' '-lines goroutine.1.pb'
picture convoy '--workers 1 --block 1 --mutex 1' mutex.pb
picture consumer '--workers 1 --block 1 --mutex 1' block.pb
picture order '--seed 1 --at end' '-lines goroutine.1.pb'
picture hot '--workers 1' cpu.pb
picture teams '--workers 1' '-tagroot=team cpu.pb'
