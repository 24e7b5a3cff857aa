#!/usr/bin/env bash
# lines.sh: for each crate, the lines of its code, of the definitions that a reader has to believe (specs/), of what is said
# of things kept in place and of laws that definitions need (specs/kept/, specs/laws/), and of its proofs, without blank lines.
set -u
cd -- "$(dirname -- "${BASH_SOURCE[0]}")/.." || exit 1
count() { find "$@" -type f \( -name '*.rt' -o -name '*.antt' \) -exec cat {} + 2>/dev/null | grep -c .; }
printf '| crate | code | definitions | kept in place | proofs |\n|---|---|---|---|---|\n'
all=(0 0 0 0)
for crate in $(sed -n 's/^\(gp_[a-z_]*\).*:.*/\1/p' crates.txt); do
  at=crates/$crate
  code=$(count "$at/src")
  definitions=$(count "$at/specs" -not -path '*/kept/*' -not -path '*/laws/*')
  kept=$(count "$at/specs" \( -path '*/kept/*' -o -path '*/laws/*' \))
  proofs=$(count "$at/proofs")
  printf '| `%s` | %s | %s | %s | %s |\n' "$crate" "$code" "$definitions" "$kept" "$proofs"
  all=($((all[0] + code)) $((all[1] + definitions)) $((all[2] + kept)) $((all[3] + proofs)))
done
printf '| all | %s | %s | %s | %s |\n' "${all[@]}"
