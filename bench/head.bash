# What the benches of the program begin with, as `. head.bash "$@"`: all of room.bash, and `gp`, the program itself, not the launcher,
# which compares checksums of the sources at each call; it is called once first, so that the program is proved and built. With
# GP_GATE=passed it is the program that `rt ci` left. They go on in their empty folder.
. "$(dirname -- "${BASH_SOURCE[0]}")/room.bash" "$@"

if [ "${GP_GATE:-}" = passed ]; then
  gp=$top/crates/gp_prog/out/gp_prog
else
  "$top/gp" >/dev/null </dev/null
  [ $? != 125 ] || exit 1
  gp=$top/out/gp
fi
gp=$(readlink -f -- "$gp")
if ! [ -x "$gp" ]; then
  echo "${0##*/}: the program isn't built" >&2
  exit 1
fi
cd -- "$room" || exit 1

# Builds the same programs in Go, as `beside`, which stays empty where Go isn't installed.
build_beside() {
  beside=
  if command -v go >/dev/null; then
    go build -o beside "$here/beside.go" && beside=$room/beside && go version
  else
    echo "without Go: it isn't installed"
  fi
}
