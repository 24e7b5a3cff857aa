#!/usr/bin/env bash
# Makes the pictures of docs/TUTORIAL.md anew, where Go and graphviz are, and looks whether those in docs/pictures say the same. (Where
# a box stands may differ from one graphviz to another.)
. "$(dirname -- "${BASH_SOURCE[0]}")/head.bash"

# What a picture says, without the address that pprof names.
words_of() { grep -oE '>[^<>]+</text>' "$1" | grep -v 'https://' | sort; }

if ! { command -v go && go tool -n pprof && command -v dot; } >/dev/null 2>&1; then
  echo "skipped: no go, or no graphviz"
  exit 0
fi
"$top/docs/pictures.sh" made || fail "docs/pictures.sh failed"
[ "$(ls made)" = "$(ls "$top/docs/pictures")" ] || fail "docs/pictures.sh makes $(ls made | tr '\n' ' ')"
for picture in made/*.svg; do
  cmp -s <(words_of "$picture") <(words_of "$top/docs/pictures/${picture##*/}") || fail "${picture##*/} says something else than in docs/pictures"
  grep -q '</text>' "$picture" || fail "${picture##*/} has no words"
  [ "$(wc -c <"$picture")" -lt 50000 ] || fail "${picture##*/} has 50,000 bytes or more"
done

[ "$failures" = 0 ]
