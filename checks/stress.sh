#!/usr/bin/env bash
# Runs programs made by rules on threads, as many as its first word says (1000 without one), under 1 to 16 workers and other options, by
# the program `gp_stress`, as both compilers make it. It holds each run against its journal, replayed by the rules of the machine alone:
# records, samples, numbers, each file, the summary, the status. Here stands that nothing was wrong, that each status came, that the runs
# had what they are for (workers that go on within a profile, losses, waits ..), that memory doesn't grow over the runs,
# that runs come to the same where the system makes no thread or few, and that all loops end where one wants memory. A second word is the
# seed of the programs.
. "$(dirname -- "${BASH_SOURCE[0]}")/head.bash"
if ! command -v python3 >/dev/null; then
  echo "skipped: no python3"
  exit 0
fi
stress=$top/crates/gp_stress/out/gp_stress
if ! [ -x "$stress" ]; then
  if [ "${GP_GATE:-}" = passed ]; then
    fail "the gate left no $stress"
    exit 1
  fi
  echo "skipped: gp_stress isn't built (rt ci gp_stress does it)"
  exit 0
fi
python3 "$top/checks/stress.py" "$stress" "${1:-1000}" "${2:-1}" || failures=1
if [ -x "$stress.by-rattle" ]; then
  python3 "$top/checks/stress.py" "$stress.by-rattle" "${1:-1000}" "$((${2:-1} + 1))" || failures=1
fi

[ "$failures" = 0 ]
