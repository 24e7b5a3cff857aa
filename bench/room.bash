# What benches begin with, as `. room.bash "$@"`: `here`, their folder; `top`, the repository; `rounds`, their one word, or 5; `room`, an
# empty folder that goes when they end.
set -u
export LC_ALL=C
here=$(cd -P -- "$(dirname -- "${BASH_SOURCE[0]}")" && pwd)
top=${here%/*}
rounds=${1:-5}
if [ $# -gt 1 ] || ! [[ $rounds =~ ^[1-9][0-9]*$ ]]; then
  echo "usage: ${0##*/} [ROUNDS]" >&2
  exit 1
fi
room=$(mktemp -d) || exit 1
trap 'rm -rf -- "$room"' EXIT
