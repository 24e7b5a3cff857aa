#!/usr/bin/env bash
# Looks at what stands beside the program for people, in the folder that this is started in: the man page, the completion for bash, the
# syntax for vim, the changes. They have the options, values and statuses of docs/COMMANDS.md, and what reads such files reads them
# without a warning, where it is there.
. "$(dirname -- "${BASH_SOURCE[0]}")/head.bash"

# rows HEADING: the first two cells of the rows of the first table under a heading of docs/COMMANDS.md.
rows() {
  awk -F ' *[|] *' -v heading="## $1" '/^## / { here = $0 == heading; next } here && seen && !/^[|]/ { exit }
    here && /^[|]/ && ++seen > 2 { gsub(/`/, ""); print $2 "\t" $3 "\t" $4 }' "$top/docs/COMMANDS.md"
}
rows Words >options
rows 'Exit statuses' >statuses
[ "$(wc -l <options)" -ge 12 ] && [ "$(wc -l <statuses)" -ge 11 ] || fail "docs/COMMANDS.md has no tables of options and statuses"

# The man page: each option with the ends of its range and its default, each status, and nothing else of their kind.
sed -e 's/\\-/-/g' "$top/docs/gp.1" >page
while IFS=$'\t' read -r option values default; do
  part=$(awk -v option="$option" '/^\.TP/ { here = 0 } $1 == ".BI" && $2 == option { here = 1 } here' page)
  [ -n "$part" ] || fail "docs/gp.1 has no option $option"
  # (a number in brackets says the same by a power)
  for number in $(sed 's/([^)]*)//g' <<<"$values $default" | grep -oE '[0-9][0-9,]*' | tr -d ,); do
    grep -qw -- "$number" <<<"$part" || fail "docs/gp.1 doesn't tell $number of $option"
  done
done <options
[ "$(grep -c '^\.BI --' page)" = "$(wc -l <options)" ] || fail "docs/gp.1 has other options than docs/COMMANDS.md"
sed -n '/^\.SH EXIT STATUS/,/^\.SH ENV/p' page | sed -n 's/^\.B \([0-9]*\)$/\1/p' >got
{ cut -f 1 statuses && echo 125; } | cmp -s - got || fail "docs/gp.1 has the statuses $(paste -sd, got)"
# Its examples, as they are typed: each ends well, or by the status that stands above it, and each text of a profile shows a sample.
ln -s -- "$gp" gp
ln -s -- "$top/examples" .
has_go=no
command -v go >/dev/null && go tool -n pprof >/dev/null 2>&1 && has_go=yes
shown=0 wanted=0
while IFS= read -r line; do
  case $line in
    *'(status '*) wanted=$(sed 's/.*(status \([0-9]*\)).*/\1/' <<<"$line") ;;
    'gp '* | 'go tool '*)
      [[ $line == gp* || $has_go = yes ]] || continue
      shown=$((shown + 1))
      PATH=$PWD:$PATH bash -c "$line" >said 2>told </dev/null
      got=$?
      [ "$got" = "$wanted" ] || fail "docs/gp.1: '$line' has status $got in place of $wanted: $(cat said told)"
      [[ $line != *dump* ]] || grep -q '^sample ' said || fail "docs/gp.1: '$line' shows no sample: $(cat said)"
      wanted=0
      ;;
  esac
done < <(sed -n '/^\.SH EXAMPLES/,/^\.SH SEE/p' page)
[ "$shown" -ge 7 ] || fail "docs/gp.1 has $shown examples"
if command -v groff >/dev/null && groff -man -Tutf8 </dev/null >/dev/null 2>&1; then
  warned=$(groff -man -ww -z -Tutf8 "$top/docs/gp.1" 2>&1)
  [ -z "$warned" ] || fail "groff warns of docs/gp.1: $warned"
  groff -man -Tutf8 "$top/docs/gp.1" | sed 's/\x1b\[[0-9;]*m//g; s/.\x08//g' >shown
  for text in 'gp run FILE' 'gp dump PROFILE' '--workers N' 'EXIT STATUS'; do grep -qF -- "$text" shown || fail "docs/gp.1 shows no '$text'"; done
else
  echo "skipped: no groff"
fi

# completes WORDS.. -- WANTED..: bash offers just these for the last of the words.
completes() {
  local words=()
  while [ "$1" != -- ]; do
    words+=("$1")
    shift
  done
  shift
  got=$("$BASH" -c '. "$1/tools/gp.bash"; shift; COMP_WORDS=("$@") COMP_CWORD=$(($# - 1)); _gp; printf "%s\n" "${COMPREPLY[@]}"' bash "$top" "${words[@]}" 2>&1 | sort | paste -sd ' ')
  [ "$got" = "$(printf '%s\n' "$@" | sort | paste -sd ' ')" ] || fail "'${words[*]}' is completed by '$got' in place of '$*'"
}
mkdir -p 'some/a folder' && : >some/a.gp && : >some/b.txt && : >some/c.pb && : >'some/d e.gp'
mapfile -t options < <(cut -f 1 options)
completes gp '' -- run sim gen dump --help --version
completes gp r -- run
completes ./gp sim some/ -- 'some/a folder/' some/a.gp 'some/d e.gp'
completes gp dump some/ -- 'some/a folder/' some/c.pb
completes gp dump some/c.pb '' --
completes gp sim some/a.gp '' -- "${options[@]}"
completes gp sim some/a.gp --a -- --at
completes gp sim some/a.gp --at 1 --seed 2 --
completes gp sim some/a.gp --at 1 --seed 2 --a -- --at
completes gp run some/a.gp --p --
completes gp run some/a.gp --r -- --ring --room
completes gp run some/a.gp --block '' -- 0 1
completes gp run some/a.gp --at e -- end
completes gp gen 7 '' --
completes gp gen 7 32 --wor -- --workers
completes tools/orders some/a.gp --se -- --seeds
completes orders some/a.gp --shrink --w -- --workers
completes orders some/a.gp --out some/ -- 'some/a folder'
completes orders some/ -- 'some/a folder/' some/a.gp 'some/d e.gp'

# What vim shows of each kind of word.
if command -v vim >/dev/null && vim --version 2>/dev/null | grep -q '+syntax'; then
  cat >all.gp <<'END_GP'
# two kinds
labels hot  kind=hot  team=red
chan jobs 8
func main {
	labels hot
	loop 3 {
		send jobs
	}
}
END_GP
  cat >shown.vim <<'END_VIM'
set nocompatible
let &runtimepath = $TOP . '/tools/vim,' . &runtimepath
filetype on
syntax on
edit all.gp
let places = [[1, 3], [2, 1], [2, 8], [2, 13], [2, 18], [3, 1], [3, 6], [3, 11], [4, 1], [4, 6], [5, 2], [6, 2], [6, 7], [7, 3], [7, 8]]
call writefile([&filetype] + map(places, {_, it -> synIDattr(synID(it[0], it[1], 1), 'name')}), 'kinds')
quitall!
END_VIM
  TOP=$top HOME=$PWD timeout 30 vim -u NONE -i NONE -es -S shown.vim </dev/null >/dev/null 2>&1
  printf '%s\n' goroutines gpComment gpLabels gpSet gpKey gpPair gpDeclaration '' gpNumber gpDeclaration gpFunction gpLabels gpLoop gpNumber gpStatement '' >wanted
  cmp -s kinds wanted || fail "vim shows '$(paste -sd, kinds)' in place of '$(paste -sd, wanted)'"
else
  echo "skipped: no vim with syntax"
fi

# The changes name tools and documents that are there.
grep -oE '`(docs|tools|checks|examples|bench)/[A-Za-z0-9_./-]+`' "$top/CHANGELOG.md" | tr -d '`' | while read -r file; do
  [ -e "$top/$file" ] || echo "$file"
done >gone
[ ! -s gone ] || fail "CHANGELOG.md names what isn't there: $(paste -sd ' ' gone)"

[ "$failures" = 0 ]
