#!/usr/bin/env bash
# Runs programs without races by gp and, as programs in Go, by Go's own runtime, in the folder that this is started in: the goroutine
# profile at the end, the block profile and the mutex profile of the two name the same stacks with the same counts, and the same
# labels. Whoever waits in these programs waits for a tenth of a second, so that it's no matter of chance; where a machine is so busy
# that it is one, a program is run again, twice at most.
. "$(dirname -- "${BASH_SOURCE[0]}")/head.bash"
want go golang-go
for tool in python3 go; do
  if ! command -v "$tool" >/dev/null; then
    echo "skipped: no $tool"
    exit 0
  fi
done
export HOME=${HOME:-$PWD}

# What `gp dump` writes of a profile, as a line for each stack with labels: the count, and the frames that lie in the program's file,
# by the names that they have there. (Go's own frames and goroutines aren't in that file.)
cat >stacks.py <<'END_PY'
import collections, os, re, sys

dump, file, go = sys.argv[1:]
names = dict(re.findall(r"^func (\w+)\(\) \{ // (\S+)$", open(go).read(), re.M)) if go else {}
sums = collections.Counter()
for line in open(dump, encoding="utf-8"):
    if line.startswith("sample "):
        values, frames, labels = (part.split() for part in line[7:].split(" |"))
        shown = []
        for frame in frames:
            name, place = re.sub(r"\\x(..)", lambda it: chr(int(it[1], 16)), frame).split("@")
            path, number = place.rsplit(":", 1)
            if os.path.abspath(path) == os.path.abspath(file):
                shown.append(f"{names[name.removeprefix('main.')] if go else name}:{number}")
        if shown:
            sums[" ".join(shown) + " | " + " ".join(sorted(labels))] += int(values[0])
for stack in sorted(sums):
    print(sums[stack], stack)
END_PY

# both NAME STATUS KIND..: what the two make of NAME.gp is the same, in profiles of these kinds.
both() {
  local name=$1 wanted=$2 kind got again
  shift 2
  rm -f -- *.pb
  "$gp" sim "$name.gp" --at end --block 1 --mutex 1 >/dev/null
  got=$?
  [ "$got" = "$wanted" ] || fail "gp sim $name.gp: status $got in place of $wanted"
  mv -- goroutine.1.pb goroutine.pb
  for kind in "$@"; do
    "$gp" dump "$kind.pb" >dumped && python3 stacks.py dumped "$name.gp" '' >"$name.$kind.wanted"
  done
  python3 "$top/tools/gp2go" "$name.gp" >"$name.go" && go build -o "$name.run" "$name.go" || { fail "$name.gp is no program in Go"; return; }
  for again in yes yes no; do
    timeout 60 "./$name.run" >said 2>&1
    got=$?
    [ "$got" = "$wanted" ] || fail "$name in Go: status $got in place of $wanted: $(cat said)"
    for kind in "$@"; do
      gunzip -c "$kind.pb.gz" >"go.pb" && "$gp" dump go.pb >dumped && python3 stacks.py dumped "$name.gp" "$name.go" >"$name.$kind.got"
    done
    cat "$name".*.wanted >wanted
    cat "$name".*.got >got
    cmp -s wanted got && return
    [ "$again" = no ] || sleep 1
  done
  fail "$name: in place of what gp shows Go shows: $(diff wanted got)"
}

cp -- "$top/examples/service.gp" "$top/examples/deadlock.gp" .
both service 6 goroutine
both deadlock 6 goroutine block mutex
[ "$(wc -l <service.goroutine.got)" = 3 ] || fail "service.gp: other than three stacks"

# Waits for a receiver, for a sender, for room, for a mutex one after another, behind calls.
cat >waits.gp <<'END_GP'
chan c 0
chan q 2
chan done 9
mutex m
func main {
	spawn consumer
	loop 3 {
		work 100000
		send c
	}
	spawn filler
	work 100000
	loop 4 {
		call take
	}
	lock m
	loop 3 {
		spawn user
	}
	work 100000
	unlock m
	loop 3 {
		recv done
	}
}
func consumer {
	loop 3 {
		recv c
	}
}
func filler {
	loop 3 {
		send q
	}
	call last
}
func last {
	send q
}
func take {
	work 100000
	recv q
}
func user {
	call hold
	send done
}
func hold {
	lock m
	work 100000
	unlock m
}
END_GP
both waits 0 block mutex
cat >wanted.block <<'END_WANTED'
1 filler:33 |
1 last:38 filler:35 |
3 consumer:28 |
3 hold:49 user:45 |
3 main:23 |
END_WANTED
[ "$(sort waits.block.wanted | sed 's/ $//')" = "$(sort wanted.block)" ] || fail "gp's block profile of waits.gp is '$(cat waits.block.wanted)'"
[ "$(sort waits.mutex.wanted | sed 's/ $//')" = $'1 main:21 |\n2 hold:51 user:45 |' ] || fail "gp's mutex profile of waits.gp is '$(cat waits.mutex.wanted)'"

# Goroutines that are left behind calls, with labels of odd texts; names that Go doesn't take, and one name for all kinds.
cat >names.gp <<'END_GP'
chan range 0
mutex range
labels range  team=red   path=/a"b\c=d  ключ=значение
labels sync   team=blue  team=green
func main {
	lock range
	labels range
	loop 3 {
		spawn range
	}
	labels sync
	loop 2 {
		spawn a.b
	}
	spawn work
	work 100000
	call a_b
}
func range {
	call go
}
func go {
	loop 2 {
		recv range
	}
}
func a.b {
	call go
}
func a_b {
	recv range
}
func work {
	lock range
}
END_GP
both names 6 goroutine block mutex
[ "$(wc -l <names.goroutine.got)" = 4 ] || fail "names.gp: other than four stacks"

# One that ends just as it is looked whether all wait.
printf 'func main {\nwork 5300\n}\n' >short.gp
python3 "$top/tools/gp2go" short.gp >short.go && go build -o short.run short.go || fail "short.gp is no program in Go"
for ((i = 0; i < 30; i++)); do
  said=$(./short.run 2>&1)
  [ "$?:$said" = '0:end main' ] || fail "short in Go: '$said'"
done

# An output of which somebody reads a part alone is no fault, and one that can't be written is told by one line.
python3 "$top/tools/gp2go" waits.gp 2>told | head -n 1 >said
[ "${PIPESTATUS[0]}:$(grep -vc '^gp2go: ' told)" = 0:0 ] || fail "behind head: '$(cat told)'"
if [ -w /dev/full ]; then
  python3 "$top/tools/gp2go" waits.gp >/dev/full 2>told
  [ "$?:$(cat told)" = '1:gp2go: the output: No space left on device' ] || fail "on a full output: '$(cat told)'"
fi

# What isn't a program is refused.
printf 'func main {\nwait 1\n}\n' >odd.gp
python3 "$top/tools/gp2go" odd.gp >said 2>told
[ "$?$(cat told)" = "1gp2go: odd.gp: line 2 isn't one of a program that gp runs" ] || fail "odd.gp: '$(cat told)'"
python3 "$top/tools/gp2go" missing.gp >said 2>told
[ "$?:$(wc -l <told):$(wc -c <said)" = 1:1:0 ] || fail "missing.gp: '$(cat told)'"

[ "$failures" = 0 ]
