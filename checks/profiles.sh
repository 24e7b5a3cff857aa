#!/usr/bin/env bash
# Runs the program on every example, in the folder that this is started in, and looks at its exit status, at the summary that it
# writes (what it refuses is in refusals.sh) and at the files that it puts: byte by byte where the bytes are known, and through Go's
# pprof and protoc where they are there. What is expected is worked out by hand from the rules of the machine, or by a program that
# was written apart from gp.
. "$(dirname -- "${BASH_SOURCE[0]}")/head.bash"

# run STATUS FILES WORDS..: runs the program, which puts just these files (names in one word) besides block.pb, cpu.pb and mutex.pb, and
# writes its summary; or it puts just these files and writes nothing, where not all files of a run are put.
run() {
  local wanted=$1 files=$2 before got put
  shift 2
  case $wanted in
    0 | 5 | 6 | 7 | 8) files="block.pb cpu.pb ${files:+$files }mutex.pb" ;;
  esac
  rm -f -- goroutine.*.pb block.pb cpu.pb gen.gp mutex.pb 2>/dev/null
  before=$(ls -A)
  said=$("$gp" "$@" 2>&1)
  got=$?
  put=$(comm -13 <(printf '%s\n' "$before") <(ls -A) | tr '\n' ' ')
  [ "$got" = "$wanted" ] || fail "gp $*: status $got in place of $wanted"
  [ "${put% }" = "$files" ] || fail "gp $*: it put '${put% }' in place of '$files'"
  case $wanted in
    0 | 7) told "$*" '^end main$' ;;
    5) told "$*" '^end fault [12]$' ;;
    6) told "$*" '^end deadlock$' ;;
    8) told "$*" '^end full$' ;;
    *) [ -z "$said" ] || fail "gp $*: it wrote '$said'" ;;
  esac
}

# told WORDS END: the program wrote a summary whose first line fits.
told() {
  local form
  form='entries N|instructions N|born N live N|ticks N samples N lost N|profiles N refused N|block N N|mutex N N'
  [[ ${said%%$'\n'*} =~ $2 ]] || fail "gp $1: the first line that it wrote is '${said%%$'\n'*}'"
  [ "$(tail -n +2 <<<"$said" | sed -E 's/[0-9]+/N/g' | paste -sd '|')" = "$form" ] || fail "gp $1: no summary is '$said'"
}

# summary LINE..: the last summary has each of these lines.
summary() {
  local line
  for line in "$@"; do
    grep -qx -- "$line" <<<"$said" || fail "no line '$line' in the summary '$said'"
  done
}

# raw FILE PATTERN: pprof's raw print of a profile has a line that fits.
raw() {
  [ "$has_go" = yes ] || return
  go tool pprof -raw "$1" 2>/dev/null | grep -Eq -- "$2" || fail "pprof -raw $1 shows no line '$2'"
}

# What pprof shows of a profile: a line a sample, in their order, with its values and its frames, from the leaf on.
# (Some versions write a column behind the line number.)
shown() {
  go tool pprof -raw "$1" 2>/dev/null | awk '
    /^[A-Z]/ { part = $1; next }
    part == "Samples:" && /^ *[0-9][0-9 ]*: [0-9 ]*$/ { samples[++n] = $0 }
    part == "Locations" && /^ *[0-9]+: / {
      place = $(NF - 1)
      if (place ~ /:[0-9]+:[0-9]+$/) sub(/:[0-9]+$/, "", place)
      frame[$1 + 0] = $(NF - 2) "@" place
    }
    END {
      for (i = 1; i <= n; i++) {
        split(samples[i], half, ":")
        many = split(half[1], values, " ")
        line = values[1]
        for (k = 2; k <= many; k++) line = line " " values[k]
        many = split(half[2], part_of, " ")
        for (k = 1; k <= many; k++) line = line " " frame[part_of[k]]
        print line
      }
    }'
}

# samples FILE SAMPLE..: pprof shows just these samples, in this order, each as `VALUES NAME@FILE:LINE..`, values with a blank between.
samples() {
  local file=$1 wanted got
  shift
  [ "$has_go" = yes ] || return
  wanted=$(printf '%s\n' "$@")
  got=$(shown "$file")
  [ "$got" = "$wanted" ] || fail "pprof shows of $file: '$got' in place of '$wanted'"
}

# waits FILE SAMPLE..: these are the samples of a block or mutex profile, each with how many waits there were and how many
# nanoseconds they took; pprof knows the two values and takes the second, the delay, unless it's told otherwise.
waits() {
  local file=$1
  samples "$@"
  raw "$file" '^contentions/count delay/nanoseconds$'
  top_of "$file" '^Type: delay$'
}

# ticks PERIOD SAMPLE..: these are the samples of cpu.pb, each with how many there were and how many nanoseconds they stand for;
# pprof knows the two values and the period, and takes the second value.
ticks() {
  local period=$1
  shift
  samples cpu.pb "$@"
  raw cpu.pb '^samples/count cpu/nanoseconds$'
  raw cpu.pb "^Period: $period\$"
  top_of cpu.pb '^Type: cpu$'
}

# top_of FILE PATTERN..: `pprof -top` of a profile has a line for each that fits.
top_of() {
  local file=$1 printed pattern
  shift
  [ "$has_go" = yes ] || return
  printed=$(go tool pprof -top "$file" 2>/dev/null)
  for pattern in "$@"; do
    grep -Eq -- "$pattern" <<<"$printed" || fail "pprof -top $file shows no line '$pattern'"
  done
}

# callers_of FUNCTION FILE PATTERN..: `pprof -peek` of a function has a line for each that fits.
callers_of() {
  local function=$1 file=$2 printed pattern
  shift 2
  [ "$has_go" = yes ] || return
  printed=$(go tool pprof -peek "^$function\$" "$file" 2>/dev/null)
  for pattern in "$@"; do
    grep -Eq -- "$pattern" <<<"$printed" || fail "pprof -peek $function of $file shows no line '$pattern'"
  done
}

# tags FILE KEY PATTERN..: of this key pprof shows a line for each value that fits, in this order, and no other.
tags() {
  local file=$1 key=$2 shown_values pattern line
  shift 2
  [ "$has_go" = yes ] || return
  shown_values=$(go tool pprof -tags "$file" 2>/dev/null | awk -v key="$key:" '$1 == key { on = 1; next } /^ *$/ { on = 0 } on')
  [ "$(grep -c . <<<"$shown_values")" = $# ] || fail "pprof -tags $file shows of $key: '$shown_values'"
  for pattern in "$@"; do
    line=${shown_values%%$'\n'*} shown_values=${shown_values#*$'\n'}
    tr -d ':' <<<"$line" | grep -Eq -- "$pattern" || fail "pprof -tags $file shows of $key '$line' in place of '$pattern'"
  done
}

# decoded FILE PATTERN: protoc's print of the message, on one line, has a part that fits.
decoded() {
  [ "$has_protoc" = yes ] || return
  protoc --decode_raw <"$1" | tr -s ' \n' ' ' | grep -Eq -- "$2" || fail "protoc --decode_raw $1 shows no '$2'"
}

# texts FILE TEXT..: the texts of a profile are the usual ones and then just these, in this order.
texts() {
  local file=$1 pattern
  shift
  pattern=$(printf ' 6: "%s"' '' goroutine count "$@")
  decoded "$file" "${pattern//./\\.} 11 \{"
}

want go golang-go
want protoc protobuf-compiler
has_go=no
has_protoc=no
command -v go >/dev/null && go tool -n pprof >/dev/null 2>&1 && has_go=yes
command -v protoc >/dev/null && has_protoc=yes
[ "$has_go" = yes ] || echo "skipped: no go"
[ "$has_protoc" = yes ] || echo "skipped: no protoc"

# The smallest program: 76 known bytes.
printf 'func main {\nwork 1\n}\n' >a.gp
run 0 goroutine.1.pb sim a.gp --at 0
cat >wanted.hex <<'END'
0a040801100212060a010112010122080801220408011002
2a0a080110031803200428013200
3209676f726f7574696e653205636f756e7432046d61696e3204612e6770
5a04080110026001
END
[ "$(od -An -v -tx1 goroutine.1.pb | tr -d ' \n')" = "$(tr -d '\n' <wanted.hex)" ] || fail "goroutine.1.pb of a.gp has other bytes"
summary 'entries 5' 'instructions 1' 'born 1 live 0' 'ticks 0 samples 0 lost 0' 'profiles 1 refused 0' 'block 0 0' 'mutex 0 0'
raw goroutine.1.pb '^ *1: 1 *$'
raw goroutine.1.pb '^ *1: 0x0 M=1 main a\.gp:2(:0)? '
samples goroutine.1.pb '1 main@a.gp:2'
decoded goroutine.1.pb '^1 \{ 1: 1 2: 2 \} '
decoded goroutine.1.pb ' 4 \{ 1: 1 4 \{ 1: 1 2: 2 \} \} '
texts goroutine.1.pb main a.gp

# Its block profile and its mutex profile, without a sample: 62 known bytes each.
cat >wanted.hex <<'END'
0a04080110020a0408031004
3200320b636f6e74656e74696f6e733205636f756e74
320564656c6179320b6e616e6f7365636f6e6473
5a04080110026001
END
for file in block.pb mutex.pb; do
  [ "$(od -An -v -tx1 "$file" | tr -d ' \n')" = "$(tr -d '\n' <wanted.hex)" ] || fail "$file of a.gp has other bytes"
  waits "$file" ''
done

# A CPU profile of one sample: 110 known bytes.
printf 'func main {\nwork 20000\n}\n' >a.gp
run 0 '' sim a.gp --workers 1
summary 'entries 60' 'ticks 1 samples 1 lost 0'
cat >wanted.hex <<'END'
0a04080110020a0408031004120a0a010112050180ade2042208080122040801
10022a0a080110051805200628013200320773616d706c65733205636f756e74
3203637075320b6e616e6f7365636f6e647332046d61696e3204612e6770
5080dac4095a04080310046080ade204
END
[ "$(od -An -v -tx1 cpu.pb | tr -d ' \n')" = "$(tr -d '\n' <wanted.hex)" ] || fail "cpu.pb of a.gp has other bytes"
ticks 10000000 '1 10000000 main@a.gp:2'
# What docs/COMMANDS.md tells of pprof: it reads a compressed one as well, and what it says of these files is harmless.
if [ "$has_go" = yes ]; then
  gzip -n <cpu.pb >cpu.pb.gz
  [ "$(wc -c <cpu.pb.gz)" != "$(wc -c <cpu.pb)" ] && cmp -s <(shown cpu.pb.gz) <(shown cpu.pb) || fail "pprof shows of a compressed cpu.pb something else"
  gunzip <cpu.pb.gz | cmp -s - cpu.pb || fail "a compressed cpu.pb is another when it's unpacked"
  rm cpu.pb.gz
  says() {
    local text=$1
    shift
    (cd "$place" && go tool pprof "$@" 2>&1) | grep -qF -- "$text" || fail "pprof $* doesn't say '$text'"
  }
  place=. says 'Main binary filename not available.' -top cpu.pb
  place=. says 'Showing nodes accounting for 0' -top block.pb
  place=/ says 'could not find file' -list . "$PWD/cpu.pb"
  place=/ says '1:func main {' -source_path="$PWD" -list . "$PWD/cpu.pb"
  place=. says '1:func main {' -list . cpu.pb
fi
printf 'func main {\nwork 1\n}\n' >a.gp

# A file of a mebibyte.
{
  echo 'func main {'
  yes 'work 1' | head -n 149793
  printf 'work 10000\n}\n'
} >whole.gp
run 0 goroutine.1.pb sim whole.gp --at 0

# A profile that can't be put, since a folder has its name.
rm -f -- goroutine.1.pb
mkdir goroutine.1.pb
run 4 '' sim a.gp --at 0
rmdir goroutine.1.pb

# A profile that can't be put, since the device is full. What stood under its name stays, and nothing else is left.
on_full_device() {
  mount -t tmpfs -o size=64k gp full 2>/dev/null || return 125
  cp -- a.gp full/ && cd -- full && echo old >goroutine.1.pb || return 125
  dd if=/dev/zero of=rest bs=4096 2>/dev/null
  "$1" sim a.gp --at 0
  echo "$?" $(LC_ALL=C ls -A) $(cat goroutine.1.pb)
}
mkdir full
said=$(export -f on_full_device && unshare -m bash -c 'on_full_device "$1"' check "$gp" 2>&1)
if [ $? != 0 ]; then
  echo "skipped: no full device (it wants a mount namespace, and so root)"
else
  [ "$said" = '4 a.gp goroutine.1.pb rest old' ] || fail "on a full device: '$said' in place of '4 a.gp goroutine.1.pb rest old'"
fi
rmdir full

# A run that ends by a fault (a free mutex is unlocked), and one that ends with a full journal.
printf 'mutex m\nfunc main {\nwork 3\nunlock m\n}\n' >unlocked.gp
run 5 goroutine.1.pb sim unlocked.gp --workers 1 --at end
samples goroutine.1.pb '1 main@unlocked.gp:4'
printf 'func main {\nwork 20000\n}\n' >long.gp
run 8 goroutine.1.pb sim long.gp --workers 1 --entries 16 --at end
samples goroutine.1.pb '1 main@long.gp:2'

# A profile above 64 KiB: 2,000 goroutines, of which no two stand at one stack.
if command -v python3 >/dev/null; then
  python3 "$top/bench/programs.py" blocked 2000 distinct >distinct.gp 2>/dev/null || fail "no program of 2,000 goroutines"
  run 6 goroutine.1.pb sim distinct.gp --workers 1 --cells 2000 --entries 4194304 --at end
  [ "$(wc -c <goroutine.1.pb)" -gt 65536 ] || fail "the profile of 2,000 stacks has at most 64 KiB"
  [ "$has_go" = no ] || [ "$(shown goroutine.1.pb | sort -u | wc -l)" = 2000 ] || fail "pprof shows other than 2,000 stacks"
else
  echo "skipped: no large profile (no python3)"
fi

# Every example, by the paths that the documents show. FILE stands in the profile as it was written. (What the folders of examples
# are to give is in their expected.txt, for documents.sh; three of them are looked into here too.)
ln -s -- "$top/examples" examples
seen=0
for file in examples/*.gp examples/{convoy/convoy,consumer/consumer,hot/hot}.gp; do
  seen=$((seen + 1))
  case $file in
    examples/first.gp)
      run 0 goroutine.1.pb sim "$file" --at 0
      [ "$(wc -c <goroutine.1.pb)" -eq 89 ] || fail "the profile of $file hasn't 89 bytes"
      samples goroutine.1.pb "1 main@$file:2"
      texts goroutine.1.pb main "$file"
      ;;
    examples/spawn.gp)
      # at clock 1 `main` has passed its spawn, and nobody else has run
      run 0 goroutine.1.pb sim "$file" --workers 1 --at 1 --room 2
      samples goroutine.1.pb "1 f@$file:6" "1 main@$file:3"
      texts goroutine.1.pb f "$file" main
      # two are live, and there is room for one
      run 7 '' sim "$file" --workers 1 --at 1 --room 1
      ;;
    examples/chain.gp)
      # forty frames, of which the 32 next to the leaf are kept
      run 0 goroutine.1.pb sim "$file" --workers 1 --at 0
      stack=1
      names=("c39" "$file")
      for ((i = 39; i >= 8; i--)); do
        stack+=" c$i@$file:$((3 * i + 2))"
        [ "$i" = 39 ] || names+=("c$i")
      done
      samples goroutine.1.pb "$stack"
      texts goroutine.1.pb "${names[@]}"
      ;;
    examples/woken.gp)
      # `f` is woken between the Open and its record, and is shown where it stood at the Open
      run 0 goroutine.1.pb sim "$file" --workers 1 --at 1001 --picks 1,0,0,0,1,1
      samples goroutine.1.pb "1 f@$file:9" "1 main@$file:5"
      texts goroutine.1.pb f "$file" main
      ;;
    examples/mutex.gp)
      # `main` passes two spawns, its lock and 997 instructions of work in its first slice, then both that were born come to
      # their lock and wait, and the rest of its work is one run, which goes on past the instant to clock 1,005
      run 0 goroutine.1.pb sim "$file" --workers 1 --at 1001
      samples goroutine.1.pb "2 b@$file:13" "1 main@$file:8"
      texts goroutine.1.pb b "$file" main
      # who waited, and by whose unlock each went on: the unlock of `main` at clock 1,005 is of one that has waited since 1,000, that
      # of the first `b` at 1,007 of one since 1,000; `main` waits from 1,006 to 1,008 for the first send
      run 0 '' sim "$file" --workers 1 --block 1 --mutex 1
      waits mutex.pb "1 7000 b@$file:14" "1 5000 main@$file:8"
      waits block.pb "2 12000 b@$file:13" "1 2000 main@$file:9"
      # of one in three both are kept, each for three; of one in two and of one in sixteen neither
      run 0 '' sim "$file" --workers 1 --mutex 3
      waits mutex.pb "3 21000 b@$file:14" "3 15000 main@$file:8"
      waits block.pb ''
      for fraction in 2 16; do
        run 0 '' sim "$file" --workers 1 --mutex "$fraction"
        waits mutex.pb ''
      done
      ;;
    examples/convoy/convoy.gp)
      # by a simulator that was written apart: all 400 locks of `change` are waited for
      run 0 '' sim "$file" --workers 1 --block 1 --mutex 1
      waits mutex.pb "399 35846000 change@$file:35 quick@$file:26" "1 2001000 slow@$file:20"
      waits block.pb "400 37847000 change@$file:33 quick@$file:26" "3 15706000 main@$file:13"
      top_of mutex.pb '^ *35\.85ms 94\.71% 94\.71% +35\.85ms 94\.71% +change$' '^ *2ms +5\.29% +100% +2ms +5\.29% +slow$'
      top_of block.pb '^ *37\.85ms .* change$' '^ *15\.71ms .* main$'
      ;;
    examples/consumer/consumer.gp)
      # by the same: 32 of the 100 sends wait for room, and the consumer waits for the first item alone
      run 0 '' sim "$file" --workers 1 --block 1 --mutex 1
      waits mutex.pb ''
      waits block.pb "1 22200000 main@$file:10" "32 4345000 deliver@$file:21 producer@$file:16" "1 20000 consumer@$file:26"
      top_of block.pb '^ *22\.20ms .* main$' '^ *4\.34ms .* deliver$'
      ;;
    examples/hot/hot.gp)
      # of 127 ticks 120 fall into `scan`, three quarters of them behind `search`
      run 0 '' sim "$file" --workers 1
      summary 'instructions 1270002' 'ticks 127 samples 127 lost 0'
      ticks 10000000 "30 300000000 scan@$file:29 load@$file:16 main@$file:8" "4 40000000 load@$file:15 main@$file:8" \
        "90 900000000 scan@$file:29 search@$file:22 main@$file:10" "3 30000000 search@$file:23 main@$file:10"
      top_of cpu.pb '^ *1200ms 94\.49% 94\.49% +1200ms 94\.49% +scan$' '^ *40ms .* 340ms 26\.77% +load$' '^ *30ms .* 930ms 73\.23% +search$'
      callers_of scan cpu.pb '900ms 75\.00% \| +search$' '300ms 25\.00% \| +load$'
      tags cpu.pb task '930.* search' '340.* load'
      ;;
    examples/lost.gp)
      # by a simulator that was written apart: of 2,007 ticks 347 find no room
      run 0 '' sim "$file" --workers 4 --hz 1000000 --ring 16 --tags 4
      summary 'instructions 2012' 'ticks 2007 samples 1660 lost 347'
      ticks 1000 "3 3000 main@$file:8" "1649 1649000 busy@$file:16" "4 4000 main@$file:11" \
        '347 347000 runtime/pprof.lostProfileEvent@:0' "4 4000 busy@$file:17"
      top_of cpu.pb '^ *347us 17\.29% .* runtime/pprof\.lostProfileEvent$'
      # the usual ring has room for all
      run 0 '' sim "$file" --workers 4 --hz 1000000
      summary 'ticks 2007 samples 2007 lost 0'
      ;;
    examples/service.gp)
      # all requests are answered, and whoever answers waits for the next one: three for reads, two for writes
      run 6 goroutine.1.pb sim "$file" --at end
      samples goroutine.1.pb "3 reader@$file:34" "2 writer@$file:42" "1 main@$file:29"
      texts goroutine.1.pb reader "$file" kind read tier front writer write main
      tags goroutine.1.pb kind '3.0 .* read' '2.0 .* write'
      tags goroutine.1.pb tier '5.0 .* front'
      ;;
    examples/deadlock.gp)
      run 6 goroutine.1.pb sim "$file" --workers 1 --at end
      samples goroutine.1.pb "1 f@$file:7" "1 main@$file:4"
      texts goroutine.1.pb f "$file" main
      ;;
    *) fail "$file has no expected frames in ${BASH_SOURCE[0]##*/}" ;;
  esac
done
[ "$seen" -gt 0 ] || fail "no example was run"

# A program made by rules, whose instructions follow from them: every file of its run is read, and shows the functions that it has.
run 0 'gen.gp goroutine.1.pb' gen 7 32 --workers 2 --at 100000 --block 1 --mutex 1
summary 'instructions 2196608' 'born 513 live 0' 'profiles 1 refused 0' 'ticks 219 samples 219 lost 0'
[ "$(wc -l <gen.gp)" = 252 ] || fail "gen.gp hasn't 252 lines"
top_of goroutine.1.pb '^Type: goroutine$' '^ *26 +6\.24% +6\.24% +26 +6\.24% +k0$'
top_of cpu.pb '^Type: cpu$' 'Total samples = 2\.19s' '^ *0\.22s 10\.05% 10\.05% +0\.22s 10\.05% +k10$'
top_of block.pb '^Type: delay$' ' of 672\.32s total$' '^ *47\.91s +7\.13% +7\.13% +47\.91s +7\.13% +s10$'
top_of mutex.pb '^Type: delay$' ' of 671\.16s total$' '^ *47\.97s +7\.15% +7\.15% +47\.97s +7\.15% +s10$'
tags cpu.pb kind ' 10$' ' 1$' ' 8$' ' 14$' . . . . . . . . . . . .
# Its file is a program like others: run by its name, it does the same.
mv -- gen.gp made.gp
kept=$said
run 0 goroutine.1.pb sim made.gp --workers 2 --at 100000 --block 1 --mutex 1
[ "$said" = "$kept" ] || fail "gp sim of a generated file writes '$said' in place of '$kept'"

[ "$failures" = 0 ]
