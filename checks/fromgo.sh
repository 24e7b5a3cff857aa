#!/usr/bin/env bash
# Makes programs of goroutine dumps, in the folder that this is started in, and runs them in several orders and on threads: each time
# the goroutine profile has the dump's stacks of functions, as many of each, with their labels, both by gp's own text of it and by
# pprof. The dumps are texts that stand here, gp's own profiles, and, where Go is, those of a small service in all forms that Go writes.
. "$(dirname -- "${BASH_SOURCE[0]}")/head.bash"
if ! command -v python3 >/dev/null; then
  echo "skipped: no python3"
  exit 0
fi
want go golang-go
has_go=no
command -v go >/dev/null && go tool -n pprof >/dev/null 2>&1 && has_go=yes
[ "$has_go" = yes ] || echo "skipped: no go"
export HOME=${HOME:-$PWD}

# stacks.py dump|raw [PROGRAM] <TEXT: the stacks of a profile, as `gp dump` or `pprof -raw` show them: for each its count, its functions
# from the root on, and its labels. Of a program that fromgo made, functions have the names of the dump again, and `main` is left out.
cat >stacks.py <<'END_PY'
import collections, re, sys

how, names = sys.argv[1], {}
if len(sys.argv) > 2:
    names = {new: old for old, new in re.findall(r"^# (.*)\nfunc (\S+) \{$", open(sys.argv[2], encoding="utf-8").read(), re.M)}
text, sums = sys.stdin.read(), collections.Counter()


def plain(it):
    return re.sub(r"\\x(..)", lambda it: chr(int(it[1], 16)), it)


def add(count, frames, labels):
    frames = [names.get(name, re.sub(r"\.\.\d+$", "", name)) for name in reversed(frames)]
    if not (names or len(sys.argv) > 2) or frames != ["main"]:
        sums[" ".join(frames) + " | " + " ".join(sorted(labels))] += count


if how == "dump":
    for line in text.splitlines():
        if line.startswith("sample "):
            values, frames, labels = line[7:].split(" |")
            add(int(values), [plain(it.split("@")[0]) for it in frames.split()], [plain(it) for it in labels.split()])
else:
    part, samples, places = "", [], collections.defaultdict(list)
    for line in text.splitlines():
        if line in ("Samples:", "Locations", "Mappings"):
            part = line
        elif part == "Samples:" and re.match(r" +\d+: [\d ]*$", line):
            count, ids = line.split(":")
            samples.append((int(count), [int(it) for it in ids.split()], []))
        elif part == "Samples:" and samples:
            samples[-1][2].extend(f"{key}={value}" for key, value in re.findall(r"(\S+):\[([^\]]*)\]", line))
        elif part == "Locations":
            head = re.match(r" +(\d+): 0x[0-9a-f]+ (?:M=\d+ )?", line)
            number = int(head[1]) if head else number
            places[number].append(re.sub(r" \S+:\d+(:\d+)?( s=\d+)?$", "", line[head.end() :] if head else line.strip()).strip())
    for count, ids, labels in samples:
        add(count, [name for it in ids for name in places[it]], labels)
for stack in sorted(sums):
    print(sums[stack], stack.rstrip())
END_PY

# round DUMP WANTED: the program of a dump comes to these stacks, whoever acts first.
round() {
  local dump=$1 wanted=$2 options order
  python3 "$top/tools/fromgo" "$dump" >made.gp 2>told || { fail "$dump is refused: $(cat told)"; return; }
  options=$(sed -n 's/^# gp sim FILE //p' made.gp)
  for order in 'sim --workers 1' 'sim --workers 16 --seed 3' 'run --workers 4'; do
    rm -f goroutine.1.pb
    "$gp" ${order%% *} made.gp ${order#* } $options >said
    [ $? = 6 ] || fail "$dump: gp $order $options: not status 6 but '$(cat said)'"
    "$gp" dump goroutine.1.pb | python3 stacks.py dump made.gp >got
    cmp -s got "$wanted" || fail "$dump: gp $order shows other stacks: $(diff "$wanted" got | head -n 6)"
  done
  if [ "$has_go" = yes ]; then
    go tool pprof -raw goroutine.1.pb 2>/dev/null | python3 stacks.py raw made.gp >got
    cmp -s got "$wanted" || fail "$dump: pprof shows other stacks: $(diff "$wanted" got | head -n 6)"
  fi
}

# tells TEXT..: the last program told this of what was changed or left out, and has it in its head.
tells() {
  local text
  for text in "$@"; do
    grep -qF -- "$text" told && grep '^# ' made.gp | grep -qF -- "$text" || fail "it isn't told that '$text', but '$(cat told)'"
  done
}

# A text with debug=1: a function with two ways on and a wait of its own, one that calls itself, two that call each other, labels.
cat >one.txt <<'END_TEXT'
goroutine profile: total 17
5 @ 0x43aed6 0x40690c 0x4066b8 0x6e2a25 0x46b3c1
# labels: {"kind":"read", "tier":"front \"end\""}
#	0x6e2a24	svc.(*Store).Get+0x44	/svc/store.go:34
#	0x6e2a24	svc.handle+0x10	/svc/svc.go:20
#	0x6e2a24	net/http.(*conn).serve+0x1	/usr/lib/go/src/net/http/server.go:1

4 @ 0x43aed6
#	0x6e2a24	svc.(*Store).lock+0x44	/svc/store.go:14
#	0x6e2a24	svc.(*Store).Get+0x48	/svc/store.go:36
#	0x6e2a24	svc.handle+0x10	/svc/svc.go:20
#	0x6e2a24	net/http.(*conn).serve+0x1	/usr/lib/go/src/net/http/server.go:1

3 @ 0x43aed6
#	0x6e2a24	svc.(*Store).lock+0x44	/svc/store.go:14
#	0x6e2a24	svc.(*Store).Put+0x48	/svc/store.go:56
#	0x6e2a24	svc.handle+0x10	/svc/svc.go:20
#	0x6e2a24	net/http.(*conn).serve+0x1	/usr/lib/go/src/net/http/server.go:1

2 @ 0x43aed6
#	0x6e2a24	svc.walk+0x44	/svc/tree.go:5
#	0x6e2a24	svc.visit+0x44	/svc/tree.go:9
#	0x6e2a24	svc.walk+0x44	/svc/tree.go:5
#	0x6e2a24	svc.init.0.func1+0x44	/svc/tree.go:2

2 @ 0x43aed6
#	0x6e2a24	svc.lock[...]+0x44	/svc/lock.go:9
#	0x6e2a24	svc.visit+0x44	/svc/tree.go:9

1 @ 0x43aed6
#	0x6e2a24	net/http.(*conn).serve+0x3	/usr/lib/go/src/net/http/server.go:9
END_TEXT
cat >one.wanted <<'END_TEXT'
4 net/http.(*conn).serve svc.handle svc.(*Store).Get svc.(*Store).lock |
5 net/http.(*conn).serve svc.handle svc.(*Store).Get | kind=read tier=front_"end"
3 net/http.(*conn).serve svc.handle svc.(*Store).Put svc.(*Store).lock |
1 net/http.(*conn).serve |
2 svc.init.0.func1 svc.walk svc.visit svc.walk |
2 svc.visit svc.lock[...] |
END_TEXT
round one.txt one.wanted
tells 'more than once stand: svc.walk (2 times)' 'changed or cut: 1 label '
grep -qx 'func net_http.conn.serve {' made.gp || fail "no function net_http.conn.serve"

# A text with debug=2, as it comes behind what a crash prints.
cat >two.txt <<'END_TEXT'
SIGQUIT: quit
PC=0x46b3c1 m=0 sigcode=0

goroutine 0 [idle]:
runtime.futex()
	/usr/lib/go/src/runtime/sys_linux_amd64.s:560 +0x21

goroutine 1 [chan receive, 5 minutes]:
main.main()
	/svc/main.go:29 +0x1d

goroutine 18 gp=0xc000002380 m=nil [select, locked to thread]:
main.(*pool[...]).get(0xc00001c0a8, {0xc000100000?, 0x1})
	/svc/main.go:34 +0x44
main.main.func1()
	/svc/main.go:12 +0x1
created by main.main in goroutine 1
	/svc/main.go:12 +0x8f

goroutine 19 [select]:
main.(*pool[...]).get(...)
	/svc/main.go:34 +0x44
main.main.func1()
	/svc/main.go:12 +0x1
created by main.main in goroutine 1
	/svc/main.go:12 +0x8f

goroutine 20 [sleep]:
time.Sleep(0x1)
	/usr/lib/go/src/runtime/time.go:195 +0x135
...additional frames elided...
created by main.main
	/svc/main.go:12 +0x8f

goroutine 21 [running]:
	goroutine running on other thread; stack unavailable
created by main.main
	/svc/main.go:12 +0x8f
END_TEXT
printf '%s\n' '1 main.main |' '2 main.main.func1 main.(*pool[...]).get |' '1 time.Sleep |' >two.wanted
round two.txt two.wanted
tells 'cut in the dump itself: 1 stack' 'left out: goroutines without a stack'

# gp's own profiles: of a service, and of a stack of forty frames, of which 32 are there.
for words in 'service.gp --at end' 'chain.gp --workers 1 --at 0'; do
  "$gp" sim "$top/examples/"$words >/dev/null
  mv goroutine.1.pb own.pb
  "$gp" dump own.pb | python3 stacks.py dump | grep -vx '1 main |' >own.wanted
  round own.pb own.wanted
  gzip -c own.pb >own.pb.gz
  python3 "$top/tools/fromgo" own.pb.gz 2>/dev/null | cmp -s - <(sed 's/ own\.pb,/ own.pb.gz,/' made.gp) || fail "a compressed profile gives another program"
done

# What doesn't fit is told, and the rest is a program: functions, goroutines, names, frames, labels, and ways that no gates can part.
python3 - <<'END_PY'
def put(name, stacks):
    with open(name, "w", encoding="utf-8") as it:
        it.write("goroutine profile: total 1\n")
        for count, frames, labels in stacks:
            it.write(f"{count} @ 0x1\n" + labels + "".join(f"#\t0x1\t{frame}+0x4\t/x/y.go:12\n" for frame in reversed(frames)) + "\n")


put("functions.txt", [(2 if i < 200 else 1, ["svc.root", f"svc.f{i}"], "") for i in range(300)])
put("cells.txt", [(5000 - i, [f"svc.root{i % 2}", f"svc.f{i}"], "") for i in range(4)])
put("names.txt", [(1, ["пакет.функция", "a" * 70 + "." + "b" * 70, "a" * 71 + "." + "b" * 70, "1.x", "main"], ""), (2, ["a/b.c"], ""), (3, ["a_b.c"], "")])
put("frames.txt", [(2, [f"svc.f{i}" for i in range(40)], ""), (1, ["svc.f39"], "")])
many = ", ".join(f'"key{i}":"{"v" * 80}"' for i in range(20))
put("labels.txt", [(1, ["svc.f"], f'# labels: {{"n":"{i}"}}\n') for i in range(300)] + [(2, ["svc.g"], f"# labels: {{{many}}}\n")])
put("ways.txt", [(2, [f"svc.r{r}", f"svc.{'pq'[m]}{r}", f"svc.{leaf}"], "") for r in (1, 2) for m in (0, 1) for leaf in ({1: ("ad", "bc"), 2: ("ac", "bd")}[r][m])])
END_PY
check_fit() {
  python3 "$top/tools/fromgo" "$1" >made.gp 2>told || fail "$1 is refused: $(cat told)"
  "$gp" sim made.gp $(sed -n 's/^# gp sim FILE //p' made.gp) >said
  [ $? = 6 ] || fail "$1: gp refuses its program: '$(cat said)'"
  grep -qx "born $2 live $2" said || fail "$1: not $2 goroutines: '$(cat said)'"
}
check_fit functions.txt 455
tells 'left out: 46 goroutines with the rarest stacks (256 functions are the most)'
check_fit cells.txt 16384
tells 'left out: 3611 goroutines with the rarest stacks (16383 are the most)'
check_fit names.txt 7
grep -qx '# пакет.функция' made.gp || fail "a changed name isn't told"
[ "$(grep -c '^func ' made.gp)" = 8 ] || fail "names.txt: other than eight functions"
check_fit frames.txt 4
tells 'more than 32 frames: 2 goroutines'
check_fit labels.txt 303
tells 'changed or cut: 21 labels' 'without their labels: 47 goroutines (255 sets are the most)'
check_fit ways.txt 17
"$gp" dump goroutine.1.pb | python3 stacks.py dump made.gp >got
[ "$(wc -l <got) $(cut -d ' ' -f 1 got | sort -u)" = '8 2' ] || fail "ways.txt: '$(cat got)'"

# What is no dump of goroutines is refused by one line.
"$gp" sim "$top/examples/first.gp" >/dev/null
printf 'no dump\n' >odd.txt
: >empty.txt
printf '\x1f\x8b\x08' >odd.gz
head -c 70 own.pb >cut.pb
for odd in cpu.pb odd.txt empty.txt odd.gz cut.pb missing .; do
  python3 "$top/tools/fromgo" "$odd" >said 2>told
  [ "$?:$(wc -l <told):$(wc -c <said)" = 1:1:0 ] && grep -q '^fromgo: ' told || fail "$odd: '$(cat told)'"
done

# An output of which somebody reads a part alone is no fault, and one that can't be written is told by one line.
python3 "$top/tools/fromgo" own.pb 2>told | head -n 1 >said
[ "${PIPESTATUS[0]}:$(grep -vc '^fromgo: ' told)" = 0:0 ] || fail "behind head: '$(cat told)'"
if [ -w /dev/full ]; then
  python3 "$top/tools/fromgo" own.pb >/dev/full 2>told
  [ "$?:$(cat told)" = '1:fromgo: the output: No space left on device' ] || fail "on a full output: '$(cat told)'"
fi

# The dumps of a real service, in each form that Go writes.
if [ "$has_go" = yes ]; then
  cat >service.go <<'END_GO'
package main

import (
	"context"
	"os"
	"runtime/pprof"
	"sync"
	"time"
)

var (
	store sync.Mutex
	never = make(chan int)
)

type handler interface{ serve(path string) }

type handlerFunc func(path string)

func (f handlerFunc) serve(path string) { f(path) }

func layer(next handler) handler {
	return handlerFunc(func(path string) { next.serve(path) })
}

type tree struct{}

func (t *tree) walk(depth int) {
	if depth == 0 {
		<-never
	}
	t.walk(depth - 1)
}

type pool[T any] struct{ items chan T }

func (p *pool[T]) get() T { return <-p.items }

func query(ctx context.Context, locks bool) {
	if locks {
		store.Lock()
	}
	select {
	case <-never:
	case <-ctx.Done():
	}
}

func handle(path string) {
	pprof.Do(context.Background(), pprof.Labels("route", path, "tier", "front"), func(ctx context.Context) {
		switch path {
		case "/lock":
			query(ctx, true)
		case "/select":
			query(ctx, false)
		case "/pool":
			(&pool[int]{make(chan int)}).get()
		default:
			new(tree).walk(4)
		}
	})
}

func main() {
	store.Lock()
	jobs, full := make(chan int), make(chan int)
	for i := 0; i < 9; i++ {
		go func() {
			for range jobs {
			}
		}()
		go func() { full <- i }()
		go time.Sleep(time.Hour)
	}
	service := layer(layer(handlerFunc(handle)))
	for i := 0; i < 3; i++ {
		for _, path := range []string{"/lock", "/select", "/select", "/pool", "/tree"} {
			go service.serve(path)
		}
	}
	time.Sleep(300 * time.Millisecond)
	for debug, name := range []string{"service.pb.gz", "service.1.txt", "service.2.txt"} {
		to, _ := os.Create(name)
		pprof.Lookup("goroutine").WriteTo(to, debug)
		to.Close()
	}
}
END_GO
  go build -o service.run service.go && ./service.run || fail "no dumps of a service"
  # The texts leave out frames of the runtime (and `main` stands where it writes the dump, which is another place in each).
  cat >as_text.py <<'END_PY'
import collections, sys

sums = collections.Counter()
for line in sys.stdin:
    count, stack = line.rstrip("\n").split(" ", 1)
    frames, labels = (it.split() for it in (stack + " ").split(" | "))
    if sys.argv[1] == "2":
        frames, labels = [it for it in frames if not it.startswith("runtime.")], []
    while frames[-1].startswith("runtime."):
        frames.pop()
    if "main.main" not in frames:
        sums[" ".join(frames) + " | " + " ".join(labels)] += int(count)
for stack in sorted(sums):
    print(sums[stack], stack.rstrip())
END_PY
  gunzip -c service.pb.gz >service.pb
  "$gp" dump service.pb | python3 stacks.py dump >whole
  go tool pprof -raw service.pb.gz 2>/dev/null | python3 stacks.py raw | cmp -s - whole || fail "pprof and gp dump show other stacks of the service"
  round service.pb.gz whole
  tells 'more than once stand: '
  [ "$(wc -l <whole)" -ge 8 ] || fail "the service has $(wc -l <whole) stacks"
  for debug in 1 2; do
    python3 as_text.py "$debug" <whole >text.wanted
    python3 "$top/tools/fromgo" "service.$debug.txt" >made.gp 2>told || fail "service.$debug.txt is refused: $(cat told)"
    "$gp" sim made.gp --at end --seed 5 >/dev/null
    "$gp" dump goroutine.1.pb | python3 stacks.py dump made.gp | grep -v ' main\.main ' >got
    cmp -s got text.wanted || fail "service.$debug.txt: $(diff text.wanted got | head -n 6)"
  done
fi

[ "$failures" = 0 ]
