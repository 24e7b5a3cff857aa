#!/usr/bin/env bash
# Lets samples go through rings of the least sizes between two threads that pause at random, for ten seconds, or as many as its word
# says: each sample came or was counted lost once, in order, and the reader met the end. The program of the ring's tests does it, in
# both builds that `rt ci` left; where there is none it is proved and built first.
. "$(dirname -- "${BASH_SOURCE[0]}")/head.bash"

tests=$top/crates/gp_ring_tests
: >log
if [ "${GP_GATE:-}" != passed ]; then
  (cd -- "$tests" && rt run --jobs 1) >log 2>&1
fi
programs=()
for program in "$tests"/out/gp_ring_tests "$tests"/out/gp_ring_tests.by-rattle; do
  [ ! -x "$program" ] || programs+=("$program")
done
[ "${#programs[@]}" -gt 0 ] || fail "the program of the ring's tests isn't built: $(tail -n 5 -- log 2>&1)"

# crossing PROGRAM WORDS TAGS SEED: samples go through a ring of so many words and tags, with pauses by this seed.
crossing() {
  local program=$1 words=$2 tags=$3 seed=$4 said got
  said=$(timeout 60 "$program" ends "$words" "$tags" "$samples" "$seed" 2>&1)
  got=$?
  if [ "$got" = 0 ] && [[ $said =~ ^"two threads: $samples of $samples samples came or were lost, in order"$'\n'lost\ ([0-9]+), ]]; then
    went=$((went + samples))
    lost=$((lost + BASH_REMATCH[1]))
  else
    fail "$(basename -- "$program") ends $words $tags $samples $seed: status $got: $said"
  fi
}

samples=100000 went=0 lost=0 number=0
until=$((SECONDS + ${1:-10}))
while [ "$failures" = 0 ] && [ "$SECONDS" -lt "$until" ]; do
  for ring in '8 1' '8 2' '8 4' '16 1' '16 2' '16 4'; do
    for program in "${programs[@]}"; do
      [ "$failures" = 0 ] || break 2
      number=$((number + 1))
      # (seeds far from one another)
      crossing "$program" $ring $((number * 7046029254386353131 & 0x7fffffffffffffff))
    done
  done
done
echo "  $went samples between two threads, $lost of them counted lost"
[ "$failures" = 0 ]
