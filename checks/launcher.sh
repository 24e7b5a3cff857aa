#!/usr/bin/env bash
# Runs the launcher of a repository of few crates, in the folder that this is started in, with a command rt that proves nothing and
# does what it is told: what is built, in which order, side by side and once; what a call says that waits, and one whose parts fail;
# that a call which is ended ends what it started, and the next one goes on where it was.
# Signals that whoever started this ignores would be ignored in all that it starts.
if [ -z "${GP_SIGNALS:-}" ]; then
  GP_SIGNALS=default exec env --default-signal=HUP,INT,TERM bash "${BASH_SOURCE[0]}" "$@"
fi
. "$(dirname -- "${BASH_SOURCE[0]}")/head.bash"
unset GP_GATE
here=$PWD
export STUB=$here/stub

mkdir -p repo/docs bin stub
cp -- "$gp" repo/gp
cp -- "$top/docs/COMMANDS.md" repo/docs/
echo 'Handles allowed: none.' >repo/HANDLES
printf '%s\n' '# crates' 'low:' 'left: low' 'right: low' 'aside: low' 'gp_prog: left right' >repo/crates.txt
for name in low left right aside gp_prog; do
  mkdir -p "repo/crates/$name/src"
  echo "// $name" >"repo/crates/$name/src/lib.rt"
done

# It logs what begins and ends, fails where a file fail.NAME says with which status, and waits while there is a file hold.NAME.
cat >bin/rt <<'STUB_END'
#!/usr/bin/env bash
case $1 in
  version)
    [ ! -e "$STUB/no-version" ] || { echo 'no such kit'; exit 3; }
    echo 'a kit of nothing'
    exit
    ;;
  ci)
    echo "asked of $(ls crates | paste -sd ' '): $(sort crates.txt | paste -sd ';')" >>"$STUB/log"
    [ ! -e "$STUB/fail.gate" ] || exit 1
    mkdir -p crates/gp_prog/out && printf '#!/bin/sh\necho "the gate ran $*"\nexit 5\n' >crates/gp_prog/out/gp_prog
    exit
    ;;
esac
name=${PWD##*/}
echo "begin $name" >>"$STUB/log"
[ ! -e out/incremental/kept ] || echo "again $name" >>"$STUB/log"
mkdir -p out/incremental && : >out/incremental/kept
echo "$$" >"$STUB/pid.$name"
for one in $(sed -n "s/^$name: *//p" ../../crates.txt); do
  [ "$(cat "../$one/out/rlib/stamp")" = "$one" ] || exit 99
done
while [ -e "$STUB/hold.$name" ]; do sleep 0.02; done
if [ -e "$STUB/fail.$name" ]; then
  echo "the proof of $name is wrong"
  read -r status <"$STUB/fail.$name"
  [ "$status" != 137 ] || kill -KILL $$
  exit "$status"
fi
case $1 in
  lib) mkdir -p out/rlib && echo "$name" >out/rlib/stamp ;;
  run) printf '#!/bin/sh\necho "ran $*"\nexit 4\n' >out/gp_prog && chmod 755 out/gp_prog ;;
esac
echo "end $name" >>"$STUB/log"
STUB_END
# A tar and a cp that fail where they are told to.
for tool in tar cp; do
  printf '#!/bin/sh\n[ ! -e "$STUB/no-%s" ] || case "$*" in $(cat "$STUB/no-%s")) echo "%s: no room" >&2; exit 2 ;; esac\nexec %s "$@"\n' \
    "$tool" "$tool" "$tool" "$(command -v "$tool")" >"bin/$tool"
done
chmod 755 bin/*
PATH=$here/bin:$PATH

# anew: the sources were edited, and the log is empty.
edits=0
anew() {
  rm -f -- stub/*
  edits=$((edits + 1))
  echo "// $edits" >>repo/crates/low/src/lib.rt
  : >stub/log
}

# call STATUS WORDS..: calls the launcher; what it writes is in `said` and `told`.
call() {
  local wanted=$1 got
  shift
  timeout 60 ./repo/gp "$@" >said 2>told
  got=$?
  [ "$got" = "$wanted" ] || fail "gp $*: status $got in place of $wanted: $(cat told)"
}

# tells TEXT..: the last call told each of these.
tells() {
  local text
  for text in "$@"; do grep -qF -- "$text" told || fail "it doesn't tell '$text' but '$(cat told)'"; done
}

# logged LINE..: exactly these lines are in the log, in whatever order.
logged() { [ "$(sort stub/log)" = "$(printf '%s\n' "$@" | sort)" ] || fail "logged is '$(paste -sd, stub/log)' in place of '$*'"; }

# until_true COMMAND..: waits for this to be so, but not for ever.
until_true() {
  local tries
  for ((tries = 0; tries < 1000; tries++)); do
    "$@" && return
    sleep 0.02
  done
  fail "it never came to: $*"
  return 1
}

is_logged() { grep -qx -- "$1" stub/log; }
is_told() { grep -q -- "$1" "$2"; }
is_left_alone() { [ -s stub/pid.left ] && [ -s repo/out/build/libs/right/sum ] && [ ! -e repo/out/build/own.right ]; }
is_gone() { ! kill -0 "$1" 2>/dev/null; }
all=({begin,end}\ {low,left,right,gp_prog})

# From nothing: each crate below the program once, in the order of the layers, and the program's words, output and status as they are.
anew
call 0 --version
[ "$(cat said)" = $'program none: it is not built yet of these sources\nkit a kit of nothing' ] || fail "--version of nothing: '$(cat said)'"
call 4 run 'a  b'
[ "$(cat said)" = 'ran run a  b' ] || fail "the program wrote '$(cat said)'"
logged "${all[@]}"
[ "$(head -n 1 stub/log)$(tail -n 1 stub/log)" = 'begin lowend gp_prog' ] || fail "the order was '$(paste -sd, stub/log)'"
[ "$(ls repo/out | paste -sd,)" = gp,gp.lock,gp.sum ] || fail "in out/ stand $(ls repo/out)"
call 0 --version
wanted="program $here/repo/out/gp,checksum $(sha256sum <repo/out/gp | cut -d ' ' -f 1),kit a kit of nothing"
[ "$(paste -sd, said)" = "$wanted" ] || fail "--version: '$(cat said)'"
# Again, and where a source was edited that it doesn't stand on: nothing is built, and nothing told.
: >stub/log
echo '// more' >>repo/crates/aside/src/lib.rt
call 4
logged ''
call 4 x
[ ! -s told ] || fail "nothing was to be told but '$(cat told)'"

# After an edit. Two crates that don't stand on each other are at work at once; a second call waits and says so; a third one that is
# ended while it waits leaves the first alone; each crate is built once.
anew
touch stub/hold.left stub/hold.right
./repo/gp x >said.1 2>told.1 &
first=$!
if [ "$(nproc)" -gt 1 ] && [ "$(awk '/^MemAvailable:/ { print int($2 / 3145728) }' /proc/meminfo)" -gt 1 ]; then
  until_true is_logged 'begin left' && until_true is_logged 'begin right'
else
  echo "skipped: two crates at once (one processor, or little memory)"
fi
./repo/gp y >said.2 2>told.2 &
second=$!
./repo/gp z >said.3 2>told.3 &
third=$!
until_true is_told 'another call is building the program; waiting for it' told.2
until_true is_told 'another call is building the program; waiting for it' told.3
kill -TERM "$third"
wait "$third"
[ $? = 143 ] || fail "a call that waited and was ended: another status than 143"
rm stub/hold.*
wait "$first"
[ "$?$(cat said.1)" = '4ran x' ] || fail "the first call: '$(cat said.1 told.1)'"
wait "$second"
[ "$?$(cat said.2)" = '4ran y' ] || fail "the second call: '$(cat said.2 told.2)'"
[ ! -s said.3 ] || fail "the third call: '$(cat said.3)'"
logged "${all[@]}"

# A call that is ended ends what it started, leaves no lock, and the next one goes on where it was; so it does after one that was
# killed, and could leave nothing in order.
anew
touch stub/hold.left
for signal in TERM:143 HUP:129 INT:130 KILL:137; do
  : >stub/pid.left
  if [ "$signal" != INT:130 ]; then
    ./repo/gp x >said 2>told &
  elif command -v python3 >/dev/null; then
    # (bash starts what runs beside it with INT ignored)
    python3 -c 'import os, signal, sys
signal.signal(signal.SIGINT, signal.SIG_DFL)
os.execv(sys.argv[1], sys.argv[1:])' "$here/repo/gp" x >said 2>told &
  else
    continue
  fi
  first=$!
  until_true is_left_alone
  kill -"${signal%:*}" "$first"
  { wait "$first"; } 2>/dev/null
  [ $? = "${signal#*:}" ] || fail "ended by ${signal%:*}: another status than ${signal#*:}"
  if [ "$signal" = KILL:137 ]; then
    kill -KILL "$(cat stub/pid.left)"
    until_true flock -n repo/out/gp.lock true
    continue
  fi
  until_true is_gone "$(cat stub/pid.left)"
  tells 'what was built stays in'
  flock -n repo/out/gp.lock true || fail "ended by ${signal%:*}, it leaves a lock"
  [ "$(ls repo/out repo/out/build | paste -sd,)" = repo/out:,build,gp,gp.lock,gp.sum,,repo/out/build:,begun,libs ] ||
    fail "ended by ${signal%:*}, it leaves $(ls repo/out repo/out/build)"
done
rm -f stub/hold.left
: >stub/log
call 4 x
tells '2 of 4 crates are built already, and it goes on from there' 'crate 3 of 4: left'
logged 'begin left' 'again left' 'end left' 'begin gp_prog' 'end gp_prog'
[ ! -e repo/out/build ] || fail "a build that is done leaves $(ls repo/out/build)"

# What fails is told as what it is, be it a copy or the kit, and how that ended; once it is mended, the next call goes on from there.
anew
rm -rf repo/out
: >repo/out
call 125 x
tells 'cannot write'
rm repo/out
touch stub/no-version
call 125 x
tells 'rt version failed with status 3: no such kit'
rm stub/no-version
echo '*crates.txt*' >stub/no-tar
call 125 x
tells 'tar: no room' 'cannot copy the sources to'
echo '*own.low*' >stub/no-tar
call 125 x
tells 'tar: no room' 'of crate low, copying the sources failed with status 2'
rm stub/no-tar
echo 7 >stub/fail.left
call 125 x
tells 'the proof of left is wrong' 'could not be proved and built: of crate left, rt lib failed with status 7' "stands in $here/repo/out/gp.log"
[ ! -s said ] || fail "it wrote '$(cat said)'"
grep -qx 'the proof of left is wrong' repo/out/gp.log || fail "no log of what failed"
echo 137 >stub/fail.left
call 125 x
tells 'of crate left, rt lib was killed; memory may have been short'
rm stub/fail.left
echo '*libs/low*' >stub/no-cp
call 125 x
tells 'cp: no room' 'copying the libraries below it failed with status 2'
rm stub/no-cp
echo 5 >stub/fail.gp_prog
call 125 x
tells 'of crate gp_prog, rt run failed with status 5'
rm stub/fail.gp_prog
echo '*build/gp*' >stub/no-cp
call 125 x
tells 'cp: no room' 'cannot write'
rm stub/no-cp
# (a library that was made from other sources isn't taken)
echo '// other' >>repo/crates/left/src/lib.rt
: >stub/log
call 4 x
tells '2 of 4 crates are built already'
logged 'begin left' 'end left' 'begin gp_prog' 'end gp_prog'

# Where a gate left a program, rt ci is asked first, of the program's crates alone; where it doesn't pass, all is built. With GP_GATE the
# program that the gate left is run as it is.
anew
rm -rf repo/out
mkdir repo/crates/gp_prog/out && printf '#!/bin/sh\necho "left $*"\nexit 7\n' >repo/crates/gp_prog/out/gp_prog
: >repo/crates/gp_prog/out/gp_prog.by-rattle && chmod 755 repo/crates/gp_prog/out/*
call 5 x
tells 'asking rt ci for what it proved of these sources'
[ "$(cat said)" = 'the gate ran x' ] || fail "of what the gate proved: '$(cat said)'"
asked='asked of gp_prog left low right: gp_prog: left right;left: low;low:;right: low'
logged "$asked"
[ "$(ls repo/out | paste -sd,)" = gp,gp.lock,gp.sum ] || fail "in out/ stand $(ls repo/out)"
anew
touch stub/fail.gate
call 4 x
logged "$asked" "${all[@]}"
rm -rf repo/out
GP_GATE=passed call 7 y
[ "$(cat said)$(cat told)" = 'left y' ] && [ ! -e repo/out ] || fail "with GP_GATE: '$(cat said told)'"
GP_GATE=passed call 0 --version
grep -qxF "program $here/repo/crates/gp_prog/out/gp_prog" said || fail "--version with GP_GATE: '$(cat said)'"
rm -rf repo/crates/gp_prog/out

# In a checkout that can't be written, a program that was built runs, and one that wasn't is told. (Whoever is root writes everywhere.)
anew
call 4 x
if [ "$(id -u)" != 0 ] || setpriv --bounding-set=-all --inh-caps=-all true 2>/dev/null; then
  bare=()
  [ "$(id -u)" != 0 ] || bare=(setpriv --bounding-set=-all --inh-caps=-all)
  chmod 555 repo repo/out
  chmod 444 repo/out/*.*
  "${bare[@]}" ./repo/gp x >said 2>told
  [ "$?$(cat said)" = '4ran x' ] || fail "in a checkout that can't be written: '$(cat said told)'"
  echo '// more' >>repo/crates/low/src/lib.rt
  "${bare[@]}" ./repo/gp x >said 2>told
  [ "$?" = 125 ] && tells 'cannot write' || fail "in a checkout that can't be written, with other sources: '$(cat said told)'"
  chmod 755 repo repo/out
  rm -rf repo/out
  chmod 555 repo
  "${bare[@]}" ./repo/gp x >said 2>told
  [ "$?" = 125 ] && tells 'cannot write' || fail "in a checkout that can't be written, from nothing: '$(cat said told)'"
  chmod 755 repo
else
  echo "skipped: a checkout that can't be written (whoever is root writes everywhere, and there is no setpriv)"
fi

mkdir -p only
for tool in readlink dirname; do ln -sf -- "$(command -v "$tool")" only/; done
said=$(PATH=$here/only "$BASH" repo/gp x 2>&1)
[ "$?$said" = "125gp: the Rattle kit's command rt isn't there" ] || fail "without rt: '$said'"

# A shell that isn't bash, and bash as sh.
for shell in sh dash zsh 'busybox sh'; do
  command -v "${shell% *}" >/dev/null || continue
  said=$($shell repo/gp x 2>&1)
  [ "$?:${said:0:30}" = '125:gp: this is a script for bash,' ] || fail "$shell gp: '$said'"
done

[ "$failures" = 0 ]
