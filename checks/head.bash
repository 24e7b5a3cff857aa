# What the checks begin with: `top`, the repository; `gp`, its launcher; `fail TEXT..`, which tells what is wrong and counts it in
# `failures`; `want TOOL PACKAGE`. They run in the folder that they are started in, and may run beside one another.
set -u
export LC_ALL=C
top=$(cd -P -- "$(dirname -- "${BASH_SOURCE[0]}")/.." && pwd)
gp=$top/gp
failures=0

fail() {
  echo "  $*"
  failures=$((failures + 1))
}

# In CI a tool that isn't there may be installed, by one check at a time; a user's machine is left as it is.
want() {
  [ "${CI:-}" = true ] && ! command -v "$1" || return 0
  (
    flock 8
    command -v "$1" && exit
    timeout 120 apt-get update
    timeout 120 apt-get install -y "$2"
  ) 8<"$top/checks/head.bash"
} >/dev/null 2>&1

# The launcher may have to prove and build first, and says so.
"$gp" sim >/dev/null
[ $? != 125 ] || exit 1
