#!/usr/bin/env bash
# Runs programs on threads, with the program as it was built. What comes out of a run on threads differs from run to run; here stands
# what no schedule changes: statuses, instructions and births of programs that do all their work in every schedule, and that the
# profiles put agree with the summary and with one another. With a number as its word it goes on with so many runs of programs made
# by rules (not part of the gate), each under other options, and looks at the same things.
. "$(dirname -- "${BASH_SOURCE[0]}")/head.bash"

# files NAME..: exactly these were put, besides block.pb, cpu.pb and mutex.pb.
files() {
  local put wanted
  put=$(ls -- *.pb 2>/dev/null | sort | tr '\n' ' ')
  wanted=$(printf '%s\n' block.pb cpu.pb mutex.pb "$@" | sort | tr '\n' ' ')
  [ "$put" = "$wanted" ] || fail "it put '$put' in place of '$wanted'"
}

# run STATUS WORDS..: runs a file on threads; what it writes is in `said`.
run() {
  local wanted=$1 got
  shift
  rm -f -- *.pb
  said=$(timeout 60 "$gp" run "$@" 2>&1)
  got=$?
  [ "$got" = "$wanted" ] || fail "gp run $*: status $got in place of $wanted: $said"
}

# has LINE..: the summary has each of these lines.
has() {
  local line
  for line in "$@"; do
    grep -qx -- "$line" <<<"$said" || fail "no line '$line' in the summary '$said'"
  done
}

printf 'func main {\nwork 1\n}\n' >one.gp
printf 'mutex m\nchan d 2\nfunc main {\nspawn b\nspawn b\nlock m\nwork 1002\nunlock m\nrecv d\nrecv d\n}\nfunc b {\nlock m\nunlock m\nsend d\n}\n' >three.gp
printf 'chan c 0\nfunc main {\nspawn f\nrecv c\n}\nfunc f {\nrecv c\n}\n' >stuck.gp
printf 'mutex m\nfunc main {\nwork 3\nunlock m\n}\n' >fault.gp
printf 'func main {\nwork 20000\n}\n' >long.gp

# The words: a file is wanted, and picks are for `sim` alone.
said=$("$gp" run 2>&1)
[ "$?:$said" = '1:usage 1 2' ] || fail "gp run: '$said'"
said=$("$gp" run one.gp --picks 1 2>&1)
[ "$?:$said" = '1:usage 2 3' ] || fail "gp run one.gp --picks 1: '$said'"
files_before=$(ls)
said=$("$gp" run missing.gp 2>&1)
[ "$?:$said" = '3:read fault' ] || fail "gp run missing.gp: '$said'"
[ "$(ls)" = "$files_before" ] || fail "gp run missing.gp left files"

# One worker that nobody disturbs does what a simulated run does.
run 0 one.gp --workers 1 --at 0
has 'end main' 'entries 5' 'instructions 1' 'born 1 live 0' 'profiles 1 refused 0'
files goroutine.1.pb
mv goroutine.1.pb threads.1.keep
rm -f -- *.pb
"$gp" sim one.gp --workers 1 --at 0 >/dev/null
cmp -s goroutine.1.pb threads.1.keep || fail "run and sim put other bytes of the smallest profile"

# Every schedule ends by main, with all instructions run.
for ((i = 0; i < 100; i++)); do
  run 0 three.gp --workers 2
  has 'end main' 'instructions 1014' 'born 3 live 0'
  run 0 three.gp --workers 4 --at 3 --at end --block 1 --mutex 1
  has 'end main' 'instructions 1014' 'born 3 live 0' 'profiles 2 refused 0'
done
files goroutine.1.pb goroutine.2.pb

run 6 stuck.gp --workers 3 --at end
has 'end deadlock' 'instructions 1' 'born 2 live 2' 'profiles 1 refused 0'
files goroutine.1.pb
run 5 fault.gp --workers 2 --at end
has 'end fault 1' 'instructions 3' 'born 1 live 1'
run 5 stuck.gp --cells 1
has 'end fault 2' 'instructions 0' 'born 1 live 1'
run 8 long.gp --workers 16 --entries 16 --at end
has 'end full'
run 7 three.gp --workers 2 --at 3 --room 0
has 'end main' 'profiles 0 refused 1'
files

# A program of many goroutines: what it runs and bears is what the simulated run does.
made() {
  local n=$1 q=$2
  shift 2
  rm -f -- *.pb gen.gp
  "$gp" gen "$n" "$q" >summary 2>&1 || fail "gp gen $n $q: status $?"
  grep -E '^(end|instructions|born) ' summary >wanted
  run 0 gen.gp "$@"
  grep -E '^(end|instructions|born) ' <<<"$said" >got
  cmp -s wanted got || fail "gp run gen.gp $* (of $n $q): '$said'"
  local -a epochs=()
  local k profiles
  profiles=$(sed -n 's/^profiles \([0-9]*\) refused .*/\1/p' <<<"$said")
  for ((k = 1; k <= profiles; k++)); do epochs+=("goroutine.$k.pb"); done
  files "${epochs[@]}"
  sums "$profiles" <<<"$said"
}

# The numbers of the profiles put are those of the summary, as the program's own text of them tells.
sums() {
  local profiles=$1 born samples lost block mutex k live said_of
  said_of=$(cat)
  read -r born _ < <(sed -n 's/^born \([0-9]*\) live \([0-9]*\)$/\1 \2/p' <<<"$said_of")
  read -r samples lost < <(sed -n 's/^ticks [0-9]* samples \([0-9]*\) lost \([0-9]*\)$/\1 \2/p' <<<"$said_of")
  block=$(sed -n 's/^block //p' <<<"$said_of")
  mutex=$(sed -n 's/^mutex //p' <<<"$said_of")
  for ((k = 1; k <= profiles; k++)); do
    live=$("$gp" dump "goroutine.$k.pb" | awk '$1 == "sample" { n += $2 } END { print n + 0 }')
    [ "$live" -le "$born" ] || fail "goroutine.$k.pb shows $live goroutines of $born"
  done
  [ "$("$gp" dump cpu.pb | awk '$1 == "sample" { n += $2 } END { print n + 0 }')" = "$((samples + lost))" ] || fail "cpu.pb doesn't have $samples samples and $lost lost"
  [ "$("$gp" dump block.pb | awk '$1 == "sample" { n += $2; d += $3 } END { printf "%.0f %.0f\n", n, d }')" = "$block" ] || fail "block.pb isn't 'block $block'"
  [ "$("$gp" dump mutex.pb | awk '$1 == "sample" { n += $2; d += $3 } END { printf "%.0f %.0f\n", n, d }')" = "$mutex" ] || fail "mutex.pb isn't 'mutex $mutex'"
}

made 7 4 --workers 2 --at 1000 --at 20000 --at end --block 1 --mutex 1 --hz 10000
made 11 8 --workers 4 --at 1000 --at 1000 --block 1 --mutex 3 --hz 100000 --ring 64 --tags 8

# many more, each under options of its own
for ((i = 0; i < ${1:-0}; i++)); do
  made "$i" $((1 + i % 8)) --workers $((1 + i % 16)) --at $((i * 37)) --at $((i * 91)) --at end --block $((i % 2)) --mutex $((i % 5)) --hz $((10 ** (1 + i % 5))) --ring $((16 << (i % 6))) --tags $((1 + i % 9))
done

[ "$failures" = 0 ]
