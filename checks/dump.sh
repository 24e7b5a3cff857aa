#!/usr/bin/env bash
# Dumps profiles that Go's own runtime/pprof made, in the folder that this is started in, and compares each dump with what
# `go tool pprof -raw` shows of the same file: types, period, and samples in order, each with its values, its frames, inlined ones
# among them, and its labels. As many samples are told as the file holds; pprof then shows those with equal locations as one. Then a
# profile with single bytes changed is dumped a thousand times: it is read, or refused by one line, and never takes a second.
. "$(dirname -- "${BASH_SOURCE[0]}")/head.bash"

want go golang-go
if ! command -v go >/dev/null || ! go tool -n pprof >/dev/null 2>&1; then
  echo "skipped: no go"
  exit 0
fi
HOME=${HOME:-$PWD} go build -o dumper "$top/checks/dump.go" || exit 1

./dumper make || fail "Go made no profiles"
for kind in goroutine heap cpu block mutex; do
  go tool pprof -symbolize=none -raw "$kind.pb" >raw 2>/dev/null || fail "pprof doesn't read $kind.pb"
  ./dumper lines <raw >wanted
  "$gp" dump "$kind.pb" >said || fail "gp dump $kind.pb: status $?"
  ./dumper plain "$kind.pb" <said >got || fail "gp dump $kind.pb: other samples than the file holds"
  grep -q '^sample ' wanted || fail "pprof shows no sample of $kind.pb"
  grep -q '^duration ' said || fail "gp dump $kind.pb tells no duration"
  cmp -s -- wanted got || fail "gp dump $kind.pb: in place of what pprof shows: $(diff wanted got | head -n 6)"
done
# (a thousand calls of the program itself, since the launcher takes longer than it does)
./dumper change "$("$gp" --version | sed -n 's/^program //p')" goroutine.pb 1000 || fail "a changed profile isn't read or refused"

[ "$failures" = 0 ]
