#!/usr/bin/env bash
# gp WORDS..: runs the proved program with these words, in the folder of whoever calls.
#
# A copy of the program stands in out/ beside this script, with a checksum of all that it was made from. Where the
# checksum is no longer that of the sources, the program is proved and built anew, of copies in out/build, so that neither
# a running gate nor an edit meanwhile comes in between. Crates that don't stand on each other are built side by side, as
# many at once as processors and memory allow. Where this script is ended, it ends what it started; what was built by then
# stays, and the next call goes on from there. With GP_GATE=passed the program that `rt ci` left is run as it is, and
# nothing is kept: .ci/run says so, right after the gate.
#
# What the program writes and its exit status are handed on untouched. For people there is a page of help, and on a terminal a
# line in plain words behind a refusal; both are made of the tables of docs/COMMANDS.md, and go to the standard error.
case ${BASH_VERSION:-none}:${BASH##*/} in
  none:* | *:sh | [123].* | 4.[0-3].*)
    echo "gp: this is a script for bash, 4.4 or later: call it as ./gp or as bash gp" >&2
    exit 125
    ;;
esac
set -u -o pipefail
top=$(dirname -- "$(readlink -f -- "${BASH_SOURCE[0]}")")
kept=$top/out
build=$kept/build
is_building=
waiting=
failed=
declare -A groups=() built=() sums=()

tell() { printf 'gp: %s\n' "$*" >&2; }

stop() {
  tell "$*"
  exit 125
}

# The crates that the program stands on, and itself: a line for each, with those of them that it stands on. Those with the
# longest chain of crates above them come first, and so each behind those that it stands on.
crates_of() {
  awk -F: '!/^#/ && NF > 1 { split($1, head, " "); name[++n] = head[1]; below[head[1]] = $2 }
    END { height["gp_prog"] = highest = more = 1
      while (more && highest <= n) { more = 0
        for (i = 1; i <= n; i++) { one = name[i]; if (!(one in height)) continue
          m = split(below[one], all, " ")
          for (j = 1; j <= m; j++) if (all[j] in below && height[all[j]] < height[one] + 1) {
            height[all[j]] = height[one] + 1; more = 1
            if (height[all[j]] > highest) highest = height[all[j]] } } }
      if (!("gp_prog" in below) || highest > n) exit 1
      for (h = highest; h > 0; h--) for (i = 1; i <= n; i++) if (height[name[i]] == h) {
        line = name[i]
        m = split(below[name[i]], all, " ")
        for (j = 1; j <= m; j++) if (all[j] in below) line = line " " all[j]
        print line } }' "$1/crates.txt"
}

# The checksum of the kit and of these folders and files of a repository. What checks leave (out/) doesn't count.
sum_in() {
  local where=$1
  shift
  (
    cd -- "$where" || exit
    printf '%s\n' "$kit"
    find "$@" -name out -prune -o -type f -print0 | LC_ALL=C sort -z | xargs -0 sha256sum --
  ) | sha256sum
}

# The checksum of the kit and of all that the program is made from.
sum_of() {
  local crates
  crates=$(crates_of "$1" | awk '{ print "crates/" $1 }') || return
  # (no name of a crate has a blank)
  sum_in "$1" crates.txt HANDLES $crates
}

# Whether the copy that is kept was made from sources with this checksum.
is_kept() { [ -e "$kept/gp" ] && [ "$(cat -- "$kept/gp.sum" 2>/dev/null)" = "$1" ]; }

# How many crates are built at once: as many as there are processors, and as have three gigabytes of memory each.
at_once() {
  local processors memory
  processors=$(nproc 2>/dev/null) || processors=1
  memory=$(awk '/^MemAvailable:/ { print int($2 / 3145728) }' /proc/meminfo 2>/dev/null) || memory=
  [ "${memory:-1}" -lt "$processors" ] && processors=${memory:-1}
  [ "$processors" -gt 0 ] && printf '%s\n' "$processors" || printf '1\n'
}

# Starts a command under a name, in a process group of its own, which doesn't hold the lock.
start() {
  local name=$1
  shift
  set -m
  { "$@"; printf '%s\n' "$?" >"$build/ends.$name" && mv -- "$build/ends.$name" "$build/ended.$name"; } >"$build/log.$name" 2>&1 </dev/null 9>&- &
  groups[$name]=$!
  set +m
}

# Whether one of those that were started has a process left.
is_one_left() {
  local name
  for name in "${!groups[@]}"; do kill -0 -- "-${groups[$name]}" 2>/dev/null && return; done
  return 1
}

# Ends what was started and still runs, by force where it takes more than ten seconds.
end_all() {
  local name tenths=0
  for name in "${!groups[@]}"; do kill -TERM -- "-${groups[$name]}" 2>/dev/null; done
  while is_one_left && [ "$tenths" -lt 100 ]; do
    sleep 0.1
    tenths=$((tenths + 1))
  done
  for name in "${!groups[@]}"; do
    kill -KILL -- "-${groups[$name]}" 2>/dev/null
    wait "${groups[$name]}" 2>/dev/null
  done
  groups=()
}

# Waits until one of those that run has ended, and takes each such one from them. Fails where one has failed.
wait_for_one() {
  local name
  wait -n 2>/dev/null
  for name in "${!groups[@]}"; do
    [ ! -e "$build/ended.$name" ] && kill -0 "${groups[$name]}" 2>/dev/null && continue
    wait "${groups[$name]}" 2>/dev/null
    unset "groups[$name]"
    if [ "$(cat -- "$build/ended.$name" 2>/dev/null)" != 0 ]; then
      failed=$name
      return 1
    fi
    built[$name]=1
  done
}

# What has failed of a crate, in words.
failure_of() {
  local step status
  step=$(cat -- "$build/step.$1" 2>/dev/null) || step='its build'
  status=$(cat -- "$build/ended.$1" 2>/dev/null) || status=
  case $status in
    '') printf '%s was ended' "$step" ;;
    137) printf '%s was killed; memory may have been short' "$step" ;;
    *) printf '%s failed with status %s' "$step" "$status" ;;
  esac
}

# Copies what the program is made from, without what checks leave, into a folder that isn't there yet; rt wants a .git there.
copy_sources() {
  mkdir -- "$2" "$2/.git" && (cd -- "$1" && tar cf - --exclude=out crates crates.txt HANDLES) | tar xf - -C "$2"
}

# What rt ci passed of the very same sources it takes from the kit by checksums, and builds and runs the program again. It's asked of the
# program's crates alone, since else it would run the tests of all the others first.
ask_gate() {
  local own=$build/own.gate name below
  mkdir -- "$own" "$own/.git" "$own/crates" && cp -- "$build/repo/HANDLES" "$own/" || return
  while read -r name below; do
    cp -R -- "$build/repo/crates/$name" "$own/crates/" &&
      awk -F: -v name="$name" '{ split($1, head, " ") } head[1] == name' "$build/repo/crates.txt" >>"$own/crates.txt" || return
  done < <(crates_of "$build/repo")
  cd -- "$own" && timeout --foreground 240 rt ci
}

# Proves a crate with so many jobs, and builds its library or the program. The kit keeps others out of the folders of a crate
# and of those below it while it works, so each crate is built in copies of its own, and what it leaves goes to where the others
# find it. (A library is never written to, so links do.) What goes on is told in a file, for the case that it fails.
make() {
  local name=$1 jobs=$2 own=$build/own.$1 one status
  step() { printf '%s\n' "$*" >"$build/step.$name"; }
  step 'copying the sources'
  copy_sources "$build/repo" "$own" || return
  mkdir -- "$own/crates/$name/out" || return
  [ ! -d "$build/begun/$name" ] || mv -- "$build/begun/$name" "$own/crates/$name/out/incremental" || return
  step 'copying the libraries below it'
  for one in "${!built[@]}"; do
    mkdir -p -- "$own/crates/$one/out" || return
    cp -al -- "$build/libs/$one/rlib" "$own/crates/$one/out/" || cp -a -- "$build/libs/$one/rlib" "$own/crates/$one/out/" || return
  done
  cd -- "$own/crates/$name" || return
  if [ "$name" = gp_prog ]; then
    # (without words it reads nothing, writes its refusal, and ends with status 1)
    step 'rt run'
    rt run --jobs "$jobs"
    status=$?
    [ -e out/gp_prog ] || return $((status > 0 ? status : 1))
    step 'keeping the program'
    mv -- out/gp_prog "$build/gp" || return
  else
    step 'rt lib'
    rt lib --jobs "$jobs" || return
    step 'keeping its library'
    rm -rf -- "$build/libs/$name" && mkdir -p -- "$build/libs/$name" && mv -- out/rlib "$build/libs/$name/rlib" &&
      printf '%s\n' "${sums[$name]}" >"$build/libs/$name/sum" || return
  fi
  rm -rf -- "$own"
}

# Whether each of these crates is built.
are_built() {
  local name
  for name in "$@"; do [ -n "${built[$name]:-}" ] || return; done
}

# Finds the libraries of an earlier call that were made from just these sources: of crates as `crates_of` gives them.
find_built() {
  local name below one
  while read -r name below; do
    sums[$name]=$(
      for one in $below; do printf '%s\n' "${sums[$one]}"; done
      sum_in "$build/repo" crates.txt HANDLES "crates/$name"
    ) || return
    [ "$(cat -- "$build/libs/$name/sum" 2>/dev/null)" = "${sums[$name]}" ] && built[$name]=1
  done
  return 0
}

# Proves and builds the crates in $build/repo, each once, when those are built that it stands on. Those that can begin at once
# share the processors that are free.
build_all() {
  local crates name below most count at free left share
  local -A begun=() jobs=()
  local ready=()
  crates=$(crates_of "$build/repo") || stop "cannot read crates.txt"
  find_built <<<"$crates" || stop "cannot read the sources that were copied to $build"
  count=$(wc -l <<<"$crates")
  most=$(at_once)
  at=${#built[@]}
  tell "proving and building the program, $most crates at once; this is done once, and takes a while"
  [ "$at" = 0 ] || tell "$at of $count crates are built already, and it goes on from there"
  while :; do
    free=$most ready=()
    for name in "${!groups[@]}"; do free=$((free - jobs[$name])); done
    while read -r name below; do
      [ -z "${begun[$name]:-}${built[$name]:-}" ] && are_built $below && ready+=("$name")
    done <<<"$crates"
    left=${#ready[@]}
    for name in "${ready[@]}"; do
      [ "$free" -gt 0 ] || break
      share=$(((free + left - 1) / left))
      free=$((free - share)) left=$((left - 1))
      begun[$name]=1 jobs[$name]=$share
      at=$((at + 1))
      tell "crate $at of $count: $name"
      start "$name" make "$name" "$share"
    done
    [ "${#groups[@]}" -gt 0 ] || return 0
    wait_for_one || return
  done
}

# Leaves of a build that isn't done the libraries, and what the kit kept of each crate that it was at.
set_aside() {
  local one name
  for one in "$build"/own.*; do
    name=${one##*/own.}
    [ -d "$one/crates/$name/out/incremental" ] && mkdir -p -- "$build/begun" && rm -rf -- "$build/begun/$name" &&
      mv -- "$one/crates/$name/out/incremental" "$build/begun/$name"
  done 2>/dev/null
  rm -rf -- "$build"/{own,log,step,ends,ended}.* "$build/repo" "$build/gp"
}

# Gives the launcher a program of its own, made from sources with this checksum.
take() {
  cp -- "$1" "$kept/gp.$$" && chmod 755 "$kept/gp.$$" && rm -f -- "$kept/gp.sum" || stop "cannot write $kept"
  mv -f -- "$kept/gp.$$" "$kept/gp" && printf '%s\n' "$2" >"$kept/gp.sum.$$" && mv -f -- "$kept/gp.sum.$$" "$kept/gp.sum" || stop "cannot write $kept"
}

# Proves and builds the program from a copy of the sources. Where a gate left a program here, rt ci is asked first.
prepare() {
  local sum
  is_building=1
  mkdir -p -- "$build" && set_aside || stop "cannot write $build"
  copy_sources "$top" "$build/repo" || stop "cannot copy the sources to $build"
  sum=$(sum_of "$build/repo") || stop "cannot read the sources that were copied to $build"
  if [ -e "$top/crates/gp_prog/out/gp_prog.by-rattle" ]; then
    tell "asking rt ci for what it proved of these sources; this is done once"
    start gate ask_gate
    wait_for_one || end_all
  fi
  if [ -n "${built[gate]:-}" ]; then
    mv -- "$build/own.gate/crates/gp_prog/out/gp_prog" "$build/gp"
  elif ! build_all; then
    end_all
    tail -n 20 -- "$build/log.$failed" >&2
    cp -- "$build/log.$failed" "$kept/gp.log" && tell "all that was said stands in $kept/gp.log"
    stop "the program could not be proved and built: of crate $failed, $(failure_of "$failed")"
  fi
  [ -e "$build/gp" ] || stop "the kit left no program"
  take "$build/gp" "$sum"
  rm -rf -- "$build"
  is_building=
}

# Ends what was started, and leaves nothing behind but what is built.
leave() {
  trap '' HUP INT TERM
  [ -z "$waiting" ] || kill "$waiting" 2>/dev/null
  end_all
  if [ -n "$is_building" ]; then
    set_aside
    rmdir -- "$build" 2>/dev/null || tell "what was built stays in $build, and the next call goes on from there"
  fi
  rm -f -- "$kept/gp.$$" "$kept/gp.sum.$$"
}

# The rows of the first table under this heading of docs/COMMANDS.md: their cells, with tabs between, without backquotes.
rows_of() {
  awk -F ' *[|] *' -v heading="## $1" '
    /^## / { here = $0 == heading; next }
    here && seen && !/^[|]/ { exit }
    here && /^[|]/ && ++seen > 2 { line = $2; for (i = 3; i < NF; i++) line = line "\t" $i; gsub(/`/, "", line); print line }' "$top/docs/COMMANDS.md"
}

# The second cell of the row that begins with this cell.
cell() { rows_of "$1" | awk -F '\t' -v key="$2" '$1 == key { print $2; exit }'; }

# The page for people.
show_help() {
  cat <<'END'
gp runs a program of a small goroutine machine, and writes profiles of it that pprof opens. What they show is proved.

  gp run FILE [options]      runs FILE on threads
  gp sim FILE [options]      runs FILE in an order that numbers choose, the same each time
  gp gen N Q [options]       makes a program by rules, as gen.gp, and does the same with it
  gp dump PROFILE            prints what a profile of pprof's format means
  gp --version               prints the program's checksum, and the line of the kit
  gp --help                  prints this page

options, each a word and its value (where it isn't given: the value in brackets):
END
  rows_of Words | awk -F '\t' '{ printf "  %-10s %s (%s)\n", $1, $2, $3 }'
  printf '\nexit statuses:\n'
  rows_of 'Exit statuses' | awk -F '\t' '{ printf "  %-10s %s\n", $1, $2 }'
  printf '\n%s\n' "$top/docs/COMMANDS.md has all words, statuses and lines, $top/README.md the rest."
}

# What a refusal's line says, in plain words. The words behind it are those that the program was called with.
in_plain_words() {
  local said=$1 place cause what
  shift
  case $said in
    'usage '*)
      read -r _ place cause <<<"$said"
      what=$(cell 'Causes of status 1' "$cause")
      if [ "$place" -lt "$#" ]; then place="word $place, '${*:place + 1:1}'"; else place='behind the last word'; fi
      ;;
    'refused line '*)
      read -r _ _ place _ cause <<<"$said"
      what=$(cell 'Causes of status 2' "$cause")
      if [ "$place" = 0 ]; then place='the file'; else place="line $place"; fi
      ;;
    'refused at '*)
      read -r _ _ place _ cause <<<"$said"
      what=$(cell 'Causes in a profile' "$cause")
      place="byte $place"
      ;;
    *)
      what=$(cell Lines "$said")
      place='the file'
      ;;
  esac
  [ -z "$what" ] || printf '%s: %s\n' "$place" "$what" >&2
}

# Which program it is, by its checksum, and the kit: for people and for tools.
show_version() {
  local sum
  if [ -x "$1" ]; then
    sum=$(sha256sum -- "$1") || stop "cannot read $1"
    printf 'program %s\nchecksum %s\n' "$1" "${sum%% *}"
  else
    printf 'program none: it is not built yet of these sources\n'
  fi
  printf 'kit %s\n' "$2"
}

# Runs a program in place of this script. On a terminal its first line is kept, to be told in plain words where it refuses.
launch() {
  local program=$1 said status
  shift
  [ -t 1 ] && [ -t 2 ] || exec "$program" "$@"
  exec 3>&1
  said=$(
    "$program" "$@" | LC_ALL=C awk '{ print >"/dev/fd/3" } NR == 1'
    exit "${PIPESTATUS[0]}"
  )
  status=$?
  # (without words the page of help says enough)
  [ $# = 0 ] || case $status in 1 | 2 | 3) in_plain_words "$said" "$@" ;; esac
  exit "$status"
}

asks_version=
if [ $# = 0 ]; then
  show_help >&2
elif [ $# = 1 ]; then
  case $1 in
    --help | -h | help)
      show_help >&2
      exit
      ;;
    --version) asks_version=1 ;;
  esac
fi
if [ "${GP_GATE:-}" = passed ] && [ -x "$top/crates/gp_prog/out/gp_prog" ]; then
  [ -z "$asks_version" ] || {
    show_version "$top/crates/gp_prog/out/gp_prog" "$(rt version 2>/dev/null || echo none)"
    exit
  }
  launch "$top/crates/gp_prog/out/gp_prog" "$@"
fi
command -v rt >/dev/null || stop "the Rattle kit's command rt isn't there"
kit=$(rt version 2>&1) || stop "rt version failed with status $?: $kit"
sum=$(sum_of "$top") || stop "cannot read the sources"
if [ -n "$asks_version" ]; then
  if is_kept "$sum"; then show_version "$kept/gp" "$kit"; else show_version '' "$kit"; fi
  exit
fi
if ! is_kept "$sum"; then
  mkdir -p -- "$kept" && : >>"$kept/gp.lock" && exec 9>>"$kept/gp.lock" || stop "cannot write $kept"
  trap leave EXIT
  trap 'exit 129' HUP
  trap 'exit 130' INT
  trap 'exit 143' TERM
  if ! flock -n 9; then
    tell "another call is building the program; waiting for it"
    flock 9 &
    waiting=$!
    wait "$waiting" || stop "cannot lock $kept/gp.lock"
    waiting=
  fi
  # (another call may have made it while this one waited)
  is_kept "$sum" || prepare
  leave
  trap - EXIT HUP INT TERM
  exec 9>&-
fi
launch "$kept/gp" "$@"
