#!/usr/bin/env bash
# Searches over orders, in the folder that this is started in: a deadlock that some orders meet is found, and told with its stacks; the
# command that is printed repeats just that run, and so do the numbers of a shorter list lead there; a program without one passes, and
# what gp refuses is handed on. (bench/orders.sh measures how long it takes.)
. "$(dirname -- "${BASH_SOURCE[0]}")/head.bash"
if ! command -v python3 >/dev/null; then
  echo "skipped: no python3"
  exit 0
fi

# orders STATUS WORDS..: what it prints is in `said`.
orders() {
  local wanted=$1 got
  shift
  "$top/tools/orders" "$@" >said 2>told
  got=$?
  [ "$got" = "$wanted" ] || fail "orders $*: status $got in place of $wanted: $(cat told)"
}

# says TEXT..: the last call printed each of these.
says() {
  local text
  for text in "$@"; do grep -qE -- "$text" said || fail "it doesn't print '$text' but '$(cat said)'"; done
}

# repeats FOLDER COMMAND: the command ends as the run whose profiles are kept there, and puts the same files.
repeats() {
  local kept=$1 file got
  rm -f -- *.pb
  bash -c "$2" >summary 2>/dev/null
  got=$?
  cmp -s summary "$kept/summary" || fail "'$2' writes '$(cat summary)'"
  [ "$(ls -- *.pb)" = "$(cd -- "$kept" && ls -- *.pb)" ] || fail "'$2' puts $(ls -- *.pb)"
  for file in *.pb; do cmp -s "$file" "$kept/$file" || fail "'$2' puts another $file"; done
  return "$got"
}

mkdir tmp && export TMPDIR=$PWD/tmp

# Two mutexes, taken in two orders.
cat >two.gp <<'END_GP'
mutex a
mutex b
chan done 2
func main {
  spawn left
  spawn right
  loop 2 {
    recv done
  }
}
func left {
  work 50
  lock a
  call inner
  unlock a
  send done
}
func inner {
  work 20
  lock b
  unlock b
}
func right {
  work 50
  lock b
  work 20
  lock a
  unlock a
  unlock b
  send done
}
END_GP
orders 10 two.gp
says '^100 orders of two.gp, seeds 1 to 100, in ' '^ +0  main +[0-9]+ +[0-9]+  two.orders/main$' '^ +6  deadlock +[0-9]+ +[0-9]+  two.orders/deadlock$' \
  '^      inner  two.gp:20  lock b$' '^      left   two.gp:14  call inner$' '^      right  two.gp:27  lock a$' '^      main  two.gp:8  recv done$'
awk '$2 == "main" || $2 == "deadlock" { n += $3 } END { exit n != 100 }' said || fail "the table hasn't 100 orders"
cmp -s said two.orders/orders.txt || fail "what is kept isn't what was printed"
repeats two.orders/main "$(cat two.orders/main/command)"
[ $? = 0 ] || fail "the kept command of main: another status than 0"
repeats two.orders/deadlock "$(grep -A 1 'the same run again:' said | tail -n 1)"
[ $? = 6 ] || fail "the printed command: another status than 6"
# The first seed of each end is the first: each one before it ends otherwise.
first=$(awk '$2 == "deadlock" { print $4 }' said)
for ((seed = 1; seed < first; seed++)); do
  [ "$("$gp" sim two.gp --seed "$seed" | head -n 1)" = 'end main' ] || fail "seed $seed comes to no end of main"
done

# A shorter list of numbers, with any seed behind it; and what an earlier call left is replaced.
orders 10 two.gp --shrink --seeds 8
command=$(sed -n '/whatever the seed/ { n; p; }' said)
picks=$(grep -oE -- '--picks [0-9,]+' <<<"$command")
[ "$(tr , '\n' <<<"$picks" | wc -l)" -le 20 ] || fail "the shorter list has $(tr , '\n' <<<"$picks" | wc -l) numbers"
for seed in 42 1000 1001; do
  [ "$("$gp" sim two.gp --at end $picks --seed "$seed" | head -n 1)" = 'end deadlock' ] || fail "$picks with seed $seed comes to no deadlock"
  cmp -s goroutine.1.pb two.orders/deadlock/goroutine.1.pb || fail "$picks with seed $seed comes to other stacks"
done
bash -c "$command" >/dev/null
[ $? = 6 ] || fail "'$command': another status than 6"

# A fault that some orders meet, in a file with blanks in its path, from a folder beside it.
mkdir -p 'a b/c d' 'a b/in'
printf 'mutex m\nchan c 0\nfunc main {\nspawn f\nwork 30\nlock m\nrecv c\n}\nfunc f {\nwork 30\nunlock m\nsend c\n}\n' >'a b/in/fa ult.gp'
cd 'a b/c d' || exit 1
orders 10 '../in/fa ult.gp' --seeds 20 --workers 2 --out ../'o o'
says '  fault 1 ' '  main ' "^  1 at \`unlock m\`\$" '^      f  ../in/fa ult.gp:11  unlock m$'
repeats '../o o/fault-1' "$(cat '../o o/fault-1/command')"
[ $? = 5 ] || fail "the kept command of a fault: another status than 5"
cd ../..

# A program that comes to its end in each order; one that is too long for the journal.
printf 'mutex m\nchan d 2\nfunc main {\nspawn b\nspawn b\nlock m\nwork 20\nunlock m\nrecv d\nrecv d\n}\nfunc b {\nlock m\nunlock m\nsend d\n}\n' >fine.gp
orders 0 fine.gp --seeds 10 --from 18446744073709551500 --shrink
says '^ +0  main +10 +18446744073709551500  fine.orders/main$'
[ "$(ls fine.orders | paste -sd,)" = main,orders.txt ] || fail "it keeps $(ls fine.orders)"
printf 'func main {\nwork 100000\n}\n' >long.gp
orders 0 long.gp --entries 16 --seeds 3
says '  full ' 'an order that ended full tells nothing of what comes after'

# What gp refuses is handed on with its status; other words are told, and what isn't this tool's is left alone.
orders 2 /dev/null
orders 3 missing.gp
orders 1 two.gp --workers 17
grep -q 'usage 3 4' told || fail "gp's line isn't told: '$(cat told)'"
for words in '' 'two.gp three.gp' 'two.gp --seeds' 'two.gp --seeds 0' 'two.gp --seeds x' 'two.gp --picks 1' 'two.gp --seed 3' 'two.gp --jobs 0' -- '--shrink'; do
  orders 1 $words
  [ -s told ] || fail "orders $words: nothing is told"
done
mkdir own && : >own/mine
orders 1 two.gp --out own
[ "$(ls own)" = mine ] || fail "a folder of another is changed"
orders 0 --help
says '--shrink'
# An output of which somebody reads a part alone changes nothing; one that can't be written, and a folder, are told by one line.
"$top/tools/orders" two.gp --seeds 8 2>told | head -n 1 >said
[ "${PIPESTATUS[0]}" = 10 ] && [ ! -s told ] && [ "$(wc -l <two.orders/orders.txt)" -gt 8 ] || fail "behind head: '$(cat told)'"
if [ -w /dev/full ]; then
  "$top/tools/orders" two.gp --seeds 8 >/dev/full 2>told
  [ "$?:$(cat told)" = '4:orders: the output: No space left on device' ] || fail "on a full output: '$(cat told)'"
fi
orders 4 two.gp --seeds 8 --out own/mine/none
[ "$(wc -l <told)" = 1 ] && grep -q '^orders: own/mine/none' told || fail "a folder that can't be made: '$(cat told)'"
[ -z "$(ls -A tmp)" ] || fail "left behind is $(ls -A tmp)"

[ "$failures" = 0 ]
