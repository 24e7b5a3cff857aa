#!/usr/bin/env bash
# Runs the program on odd words and odd files, in the folder that this is started in, and compares its exit status and the line
# that it writes, to the byte. Nothing else is written, and nothing is put. What is expected is worked out by hand from
# docs/COMMANDS.md and docs/FORMATS.md. The launcher's page of help and its plain words are looked at too.
. "$(dirname -- "${BASH_SOURCE[0]}")/head.bash"
tried=0

# answers STATUS LINE WORDS..: the program's status, and all that it writes: this line, or nothing.
answers() {
  local wanted=$1 line=$2 before got
  shift 2
  tried=$((tried + 1))
  before=$(ls -A)
  "$gp" "$@" >said 2>told
  got=$?
  [ -z "$line" ] || printf '%s\n' "$line" >>line
  [ "$got" = "$wanted" ] || fail "gp $*: status $got in place of $wanted"
  cmp -s -- said line || fail "gp $*: it wrote '$(cat said)' in place of '$line'"
  : >line
  # (without words the launcher prints its page)
  [ $# = 0 ] || [ ! -s told ] || fail "gp $*: on the standard error: '$(cat told)'"
  [ "$(ls -A)" = "$before" ] || fail "gp $*: it left files behind"
}

# refused LINE TEXT: the line that comes of a file that holds this text (printf's escapes).
refused() {
  local before=$failures
  printf "$2" >odd.gp
  answers 2 "$1" sim odd.gp --at 0
  [ "$failures" = "$before" ] || echo "  (odd.gp holds '$2')"
}

printf 'func main {\nwork 1\n}\n' >a.gp
: >said
: >told
: >line
: >odd.gp

# The first word.
answers 1 'usage 0 1'
answers 1 'usage 0 1' ''
answers 1 'usage 0 1' simulate a.gp
answers 1 'usage 0 1' SIM a.gp
answers 1 'usage 0 1' -- sim a.gp
answers 1 'usage 0 1' 'sim a.gp'
answers 1 'usage 0 1' --help sim
answers 1 'usage 1 2' run
answers 1 'usage 2 3' run a.gp --picks 1
answers 1 'usage 4 5' run a.gp --room 1 --room 1

# The numbers of a program that is made.
answers 1 'usage 1 2' gen
answers 1 'usage 2 2' gen 7
answers 1 'usage 1 4' gen x 1
answers 1 'usage 1 4' gen 18446744073709551616 1
answers 1 'usage 2 4' gen 7 0
answers 1 'usage 2 4' gen 7 64
answers 1 'usage 3 3' gen 7 1 a.gp

# `dump` takes one word.
answers 1 'usage 1 2' dump
answers 1 'usage 1 6' dump ''
answers 1 'usage 1 6' dump -p
answers 1 'usage 2 6' dump p q

# FILE.
answers 1 'usage 1 2' sim
answers 1 'usage 1 6' sim ''
answers 1 'usage 1 6' sim -a.gp
answers 1 'usage 1 6' sim --at 0

# Options: unknown ones first, then repeated ones, then those without a value, then bad values.
answers 1 'usage 2 3' sim a.gp b.gp
answers 1 'usage 2 3' sim a.gp --rooms 1
answers 1 'usage 2 3' sim a.gp --room=1
answers 1 'usage 2 3' sim a.gp '--room 1'
answers 1 'usage 2 3' sim a.gp $'--room\n' 1
answers 1 'usage 2 3' sim a.gp ''
answers 1 'usage 3 2' sim a.gp --block
answers 1 'usage 4 3' sim a.gp --at 0 5
answers 1 'usage 4 5' sim a.gp --room 1 --room 1
answers 1 'usage 4 5' sim a.gp --room 1 --room
answers 1 'usage 18 5' sim a.gp --at 0 --at 0 --at 0 --at 0 --at 0 --at 0 --at 0 --at 0 --at x
answers 1 'usage 3 2' sim a.gp --at
answers 1 'usage 5 2' sim a.gp --at 0 --seed
answers 1 'usage 3 4' sim a.gp --at ''
answers 1 'usage 3 4' sim a.gp --at 1099511627777
answers 1 'usage 3 4' sim a.gp --at -1
answers 1 'usage 3 4' sim a.gp --at 1e3
answers 1 'usage 3 4' sim a.gp --at ' 1'
answers 1 'usage 3 4' sim a.gp --at END
answers 1 'usage 3 4' sim a.gp --workers 17
answers 1 'usage 3 4' sim a.gp --block 2
answers 1 'usage 3 4' sim a.gp --hz 3
answers 1 'usage 3 4' sim a.gp --ring 15
answers 1 'usage 3 4' sim a.gp --tags 0
answers 1 'usage 5 4' sim a.gp --block 1 --mutex 1000000001
answers 1 'usage 3 4' sim a.gp --workers ٣
answers 1 'usage 3 4' sim a.gp --seed 000000000000000000000
answers 1 'usage 3 4' sim a.gp --picks 1,,2
answers 1 'usage 5 4' sim a.gp --picks 1 --room x --picks 1
answers 1 'usage 3 4' sim a.gp --room --at 0
# (a long word whose last number is out of range; and a file isn't looked for before all words are read)
answers 1 'usage 3 4' sim a.gp --picks "$(yes 0 | head -n 60000 | paste -sd ,),4294967296"
answers 1 'usage 3 2' sim missing.gp --at
answers 11 '' sim a.gp --at $'\xff'

# Files that are no programs.
refused 'refused line 0 cause 10' ''
refused 'refused line 0 cause 10' 'func f {\nwork 1\n}\n'
refused 'refused line 2 cause 4' 'func main {\nwork 0\n}\n'
refused 'refused line 2 cause 4' 'func main {\nwork 4294967296\n}\n'
refused 'refused line 2 cause 4' 'func main {\nwork 99999999999999999999\n}\n'
refused 'refused line 2 cause 1' 'func main {\nwork 999999999999999999999\n}\n'
refused 'refused line 2 cause 1' 'func main {\nwork -1\n}\n'
refused 'refused line 2 cause 1' 'func main {\nWork 1\n}\n'
refused 'refused line 1 cause 1' 'work 1\n'
refused 'refused line 1 cause 1' '}\n'
refused 'refused line 2 cause 5' 'func main {\nwork 1\n'
refused 'refused line 1 cause 5' 'func main {'
refused 'refused line 1 cause 9' 'func main {\n}\n'
refused 'refused line 2 cause 2' 'func main {\nsend c\n}\n'
refused 'refused line 1 cause 7' 'func main {\ncall main\n}\n'
refused 'refused line 3 cause 6' 'func main {\nwork 1\n\xff\n}\n'
refused 'refused line 2 cause 3' 'mutex m\nmutex m\nfunc main {\nlock m\n}\n'
refused 'refused line 1 cause 4' 'chan c 65536\nfunc main {\nsend c\n}\n'
refused 'refused line 1 cause 6' '\x1f\x8b\x08'

# Files that are no profiles: a field 0, a compressed one, nothing, a text past the end, and one that isn't there. (Of a field 0 as
# many bytes are read as a profile may have, and of one more there are too many.)
no_profile() {
  printf "$2" >odd.gp
  answers 2 "$1" dump odd.gp
}
no_profile 'refused at 0 cause 4' '\0'
no_profile 'refused at 0 cause 3' '\x1f\x8b\x08'
no_profile 'refused at 0 cause 8' ''
no_profile 'refused at 2 cause 1' '\x32\x00\x32\x02a'
no_profile 'refused at 2 cause 8' '\x60\x01'
head -c 67108864 /dev/zero >odd.gp
answers 2 'refused at 0 cause 4' dump odd.gp
head -c 67108865 /dev/zero >odd.gp
answers 2 'refused long' dump odd.gp
answers 3 'read fault' dump missing.pb

# (of two files alike but for a digit, one has a mebibyte, and the other, refused, a byte more)
{
  echo 'func main {'
  yes 'work 1' | head -n 149793
  printf 'work 100000\n}\n'
} >odd.gp
answers 2 'refused long' sim odd.gp --at 0

# Files that can't be read.
answers 3 'read fault' sim missing.gp --at 0
answers 3 'read fault' run missing.gp --at 0
answers 3 'read fault' sim . --at 0
answers 3 'read fault' sim a.gp/b --at 0

# A full output: the status stays.
if [ -w /dev/full ]; then
  "$gp" sim missing.gp --at 0 >/dev/full
  [ $? = 3 ] || fail "on a full output: another status than 3"
  # (of a dump it is 4)
  printf '\x32\x00' >odd.gp
  "$gp" dump odd.gp >/dev/full
  [ $? = 4 ] || fail "a dump on a full output: another status than 4"
fi

# The page of help, for people: status 0 where it was asked for.
for word in --help -h help; do
  "$gp" "$word" >said 2>told
  [ $? = 0 ] || fail "gp $word: another status than 0"
  [ -s said ] && fail "gp $word: it wrote to the standard output"
  for part in 'gp run FILE' 'gp sim FILE' 'gp dump PROFILE' --workers '1 to 16' 262,144 deadlock COMMANDS.md; do
    grep -q -e "$part" told || fail "gp $word: its page has no '$part'"
  done
done
"$gp" >said 2>told
[ -s told ] || fail "gp without words: no page"

# plain LINE WORDS..: on a terminal a refusal is told in plain words too, in the last line.
plain() {
  local wanted=$1
  shift
  [ "$(script -qec "'$gp' $*" /dev/null </dev/null | tr -d '\r' | tail -n 1)" = "$wanted" ] || fail "gp $* on a terminal: not '$wanted'"
}
if script -qec true /dev/null </dev/null >/dev/null 2>&1; then
  printf 'func main {\nwork 1\nwork 1\nsend c\n}\n' >odd.gp
  plain 'line 4: a name that is not declared' sim odd.gp
  plain "word 2, '--rooms': an option that is not known" sim odd.gp --rooms 1
  plain 'behind the last word: a word is missing' sim odd.gp --room
  plain 'the file: it could not be opened or read' sim missing.gp
  printf '\x1f\x8b\x08' >odd.gp
  plain 'byte 0: a wire type that is not read' dump odd.gp
else
  echo "skipped: no terminal (no script)"
fi

[ "$tried" -ge 60 ] || fail "only $tried were tried"
[ "$failures" = 0 ]
