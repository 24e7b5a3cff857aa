#!/usr/bin/env bash
# ring.sh [ROUNDS]: how many samples a second come through the ring between two threads, how many of those offered are lost, and how
# many nanoseconds an offer takes its writer. Beside it the ring of one thread behind a lock, and a buffered channel of Go with room for
# as many, whose sender loses what has no room too, or waits. It prints a table and asserts nothing. Each figure is the best of the
# rounds, what is lost that of the round in which most came.
#
# The program of the ring's tests drives it: one thread offers a million samples of four words, yields behind each that was lost, and
# closes; the other reads to the end, and yields where there is nothing. It is proved and built here over a copy of the sources, so the
# first call takes as long as the proofs of the crates below it, less what earlier runs on this machine kept. With a folder in GP_RING
# it is left there, and taken from there by the next call; with GP_GATE=passed it is the program that `rt ci` left. Go is left out where
# it isn't installed.
. "$(dirname -- "${BASH_SOURCE[0]}")/room.bash" "$@"
kept=${GP_RING:-$room/kept}
[ "${GP_GATE:-}" != passed ] || kept=$top/crates/gp_ring_tests/out
mkdir -p -- "$kept" || exit 1
kept=$(cd -P -- "$kept" && pwd)
# the crate of these tests and those below it, as crates.txt names them
crates=gp_ring_tests below=
while [ "$crates" != "$below" ]; do
  below=$crates
  crates=$(grep -E "^(${below// /|}):" "$top/crates.txt" | tr -s ': ' '\n' | grep '^gp_' | sort -u | tr '\n' ' ')
  crates=${crates% }
done

if ! [ -x "$kept/gp_ring_tests" ]; then
  repo=$room/repo
  mkdir -- "$repo" "$repo/.git" || exit 1
  (cd -- "$top" && tar cf - --exclude=out HANDLES $(printf 'crates/%s ' $crates)) | tar xf - -C "$repo" || exit 1
  grep -E "^(${crates// /|}):" "$top/crates.txt" >"$repo/crates.txt" || exit 1
  (cd -- "$repo/crates/gp_ring_tests" && rt run --jobs 1) >"$room/log" 2>&1
  if ! [ -x "$repo/crates/gp_ring_tests/out/gp_ring_tests" ]; then
    tail -n 30 -- "$room/log" >&2
    echo "ring.sh: the program that drives the ring could not be built" >&2
    exit 1
  fi
  cp -- "$repo/crates/gp_ring_tests/out/gp_ring_tests" "$kept/gp_ring_tests" || exit 1
fi

beside=
if command -v go >/dev/null; then
  (cd -- "$room" && go build -o ring "$here/ring.go") && beside=$room/ring && go version
else
  echo "without Go: it isn't installed"
fi

# Of a command with so many samples: the most that came in a second, in thousands; how many of a thousand were lost then; and the
# least nanoseconds that an offer took.
figures() {
  local most=0 share=0 least=0 came each said
  for ((round = 0; round < rounds; round++)); do
    said=$("$@") || return 1
    [[ $said =~ lost\ ([0-9]+),\ writes\ ([0-9]+)\ ns,\ whole\ ([0-9]+)\ ns ]] || return 1
    came=$(((samples - BASH_REMATCH[1]) * 1000000 / (BASH_REMATCH[3] + 1)))
    each=$((BASH_REMATCH[2] / samples))
    if [ "$round" -eq 0 ] || [ "$came" -gt "$most" ]; then
      most=$came
      share=$((BASH_REMATCH[1] * 1000 / samples))
    fi
    if [ "$round" -eq 0 ] || [ "$each" -lt "$least" ]; then
      least=$each
    fi
  done
  echo "$most $share $least"
}

samples=1000000
row='%8s %8s | %-9s %9s %11s %11s\n'
printf "$row" words tags '' 'came 1/ms' 'lost 1/1000' 'ns an offer'
for tags in 4 16 64 256 4096 16384 1048576; do
  words=$((tags * 4))
  for kind in ends locked 'Go' 'Go, waits'; do
    case $kind in
      Go*) [ -n "$beside" ] || continue ;;&
      Go) got=$(figures "$beside" "$samples" "$tags") ;;
      'Go, waits') got=$(figures "$beside" "$samples" "$tags" wait) ;;
      *) got=$(figures "$kept/gp_ring_tests" "$kind" "$words" "$tags" "$samples") ;;
    esac
    [ -n "$got" ] || exit 1
    printf "$row" "$words" "$tags" "$kind" $got
  done
done
