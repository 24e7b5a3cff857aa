#!/usr/bin/env bash
# Runs the program on the smallest file of each cause, as docs/FORMATS.md shows them, and looks at its exit status and at the
# line and the cause that it prints.
. "$(dirname -- "${BASH_SOURCE[0]}")/head.bash"

rows=0
# (a row is: nothing, the cause, its name, where it stands, the file, its line)
while IFS='|' read -r _ cause name _ file line _; do
  cause=${cause// /} name=${name// /} line=${line// /}
  [[ $cause =~ ^[0-9]+$ && $line =~ ^[0-9]+$ ]] || continue
  rows=$((rows + 1))
  [ "$cause" = "$rows" ] || fail "the causes of docs/FORMATS.md aren't in order at $cause"
  file=${file# \`}
  printf "${file%\` }" >cause.gp
  said=$("$gp" sim cause.gp --at 0 2>&1)
  got=$?
  [ "$got" = 2 ] || fail "$name: status $got in place of 2"
  [ "$said" = "refused line $line cause $cause" ] || fail "$name: '$said' in place of line $line, cause $cause"
done < <(grep -E '^\| [0-9]+ \| [A-Z][A-Za-z0-9]+ \| .* \| `.*` \| [0-9]+ \|$' "$top/docs/FORMATS.md")
[ "$rows" = 10 ] || fail "docs/FORMATS.md has files of $rows causes in place of 10"
exit $((failures > 0))
