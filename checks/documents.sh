#!/usr/bin/env bash
# Runs the command lines that README.md, docs/TUTORIAL.md and examples/*/expected.txt show, in the folder that this is started in, and
# compares what comes out on the standard output (blanks at a line's end aside). Then it looks whether what the documents name is there.
#
# In a document such lines stand in a fence "console": a command behind "$ ", and what comes out below it. In a fence "console differs" a
# run on threads has a part, which comes out another way each time: there numbers and blanks may be others, and the fence is tried until
# its lines come out, up to twenty times. A file expected.txt is such a fence, without the marks.
. "$(dirname -- "${BASH_SOURCE[0]}")/head.bash"
documents=$(cd -- "$top" && ls README.md docs/*.md)

# A folder for each fence of a document, with its form and a pair of files for each command.
cut_up() {
  awk -v to="$2" -v whole="$3" '
    function begin(form) { folder = sprintf("%s/%03d", to, ++fences); at = 0; system("mkdir -p " folder); print form >(folder "/form"); close(folder "/form") }
    BEGIN { if (whole) begin("console") }
    !whole && /^```console/ { begin(substr($0, 4)); next }
    /^```/ { folder = ""; next }
    folder == "" { next }
    /^[$] / { at++; print substr($0, 3) >sprintf("%s/%02d.command", folder, at); printf "" >sprintf("%s/%02d.wanted", folder, at); next }
    at { print >sprintf("%s/%02d.wanted", folder, at) }' "$1"
}

# What tells the texts of a fence from one another.
told() {
  if [ "$1" = 'console differs' ]; then
    sed -E 's/[0-9]+([.][0-9]+)?/N/g; s/[[:blank:]]+/ /g; s/ $//'
  else
    sed -E 's/[[:blank:]]+$//'
  fi
}

# A fence of a document.
try() {
  local document=$1 folder=$2 form command wanted got what=
  form=$(cat -- "$folder/form")
  for command in "$folder"/*.command; do
    # (a picture wants graphviz too)
    case $(cat -- "$command") in
      *-svg*) [ "$has_dot" = yes ] || continue ;;
      *'go tool'*) [ "$has_go" = yes ] || continue ;;
    esac
    tried=$((tried + 1))
    wanted=$(told "$form" <"${command%.command}.wanted")
    got=$(bash -- "$command" 2>said </dev/null | told "$form")
    [ "$got" = "$wanted" ] || what+="  $document: '$(cat -- "$command")' gives '$got' ($(cat said)) in place of '$wanted'"$'\n'
  done
  [ -z "$what" ] || { printf '%s' "$what" >wrong; return 1; }
}

has_go=no
has_dot=no
command -v go >/dev/null && go tool -n pprof >/dev/null 2>&1 && has_go=yes
[ "$has_go" = yes ] && command -v dot >/dev/null && has_dot=yes
[ "$has_go" = yes ] || echo "skipped: no go"
[ "$has_dot" = yes ] || echo "skipped: no graphviz"
ln -s -- "$gp" gp
ln -s -- "$top/docs" "$top/examples" .
# (a tool looks for the launcher beside its own folder)
cp -r -- "$top/tools" tools

for document in README.md docs/TUTORIAL.md $(cd -- "$top" && ls examples/*/expected.txt); do
  rm -rf fences && mkdir fences
  case $document in
    *.txt) cut_up "$top/$document" fences whole ;;
    *) cut_up "$top/$document" fences '' ;;
  esac
  tried=0
  for folder in fences/*/; do
    [ -e "$folder/form" ] || continue
    case $(cat -- "$folder/form") in
      console) times=1 ;;
      # (where nothing runs on threads, to try again would change nothing but the time that is told)
      'console differs') grep -qsF 'gp run' "$folder"/*.command && times=20 || times=1 ;;
      *) fail "$document: a fence of another form: $(cat -- "$folder/form")" && continue ;;
    esac
    until try "$document" "$folder"; do
      times=$((times - 1))
      [ "$times" -gt 0 ] || { fail "$(cat wrong)" && break; }
    done
  done
  [ "$tried" -gt 0 ] || fail "$document shows no command"
done

# Each folder of examples has a program and what is expected of it.
for folder in "$top"/examples/*/; do
  name=$(basename -- "$folder")
  [ -e "$folder/$name.gp" ] && [ -e "$folder/expected.txt" ] || fail "examples/$name has no $name.gp, or no expected.txt"
done

# The paths that the documents name in backquotes, and those that they link to.
for document in $documents; do
  for path in $(grep -oE '`(\./)?(docs|examples|checks|bench|tools|\.ci)/[A-Za-z0-9_./-]*`' "$top/$document" | tr -d '`'); do
    [ -e "$top/$path" ] || fail "$document names $path, which isn't there"
  done
  for path in $(grep -oE '\]\([^)#:]+\)' "$top/$document" | sed 's/^](//; s/)$//'); do
    [ -e "$top/$(dirname -- "$document")/$path" ] || fail "$document links to $path, which isn't there"
  done
done

# The options that they name are gp's or those of a tool, or of another program's where that is called in the same line.
{
  grep -oE '^\| `--[a-z]+`' "$top/docs/COMMANDS.md"
  printf '%s\n' --help --version
  command -v python3 >/dev/null && for tool in orders gp2go fromgo; do python3 "$top/tools/$tool" --help; done
} | grep -oE -- '--[a-z]+' | sort -u >options
(cd -- "$top" && grep -hvE 'protoc|go tool|rt |sed ' $documents CHANGELOG.md) | grep -oE '(^|[^-A-Za-z0-9])--[a-z]+' |
  grep -oE -- '--[a-z]+' | sort -u >named
command -v python3 >/dev/null && for option in $(comm -13 options named); do fail "a document names an option $option, which isn't there"; done

# What README.md says before what is proved goes on two screens of fifty lines, and docs/COMMANDS.md begins with the usual commands and
# with what to do for each status.
lines=$(sed '/^## What is proved/,$d' "$top/README.md" | wc -l)
[ "$lines" -le 100 ] || fail "README.md has $lines lines before what is proved"
[ "$(grep -E '^## ' "$top/docs/COMMANDS.md" | head -n 1)" = '## Exit statuses' ] || fail "docs/COMMANDS.md doesn't begin with the statuses"
[ "$(sed '/^## /,$d' "$top/docs/COMMANDS.md" | grep -cE '^(\./gp (run|sim)|go tool pprof) ')" = 3 ] || fail "docs/COMMANDS.md doesn't begin with three commands"

# The names of crates, definitions, clauses and calls that docs/PROVED.md has in backquotes.
(cd -- "$top" && find crates crates.txt checks bench gp -name out -prune -o -type f -print0 | xargs -0 grep -ohIE '[A-Za-z_][A-Za-z0-9_]*') |
  sort -u >names
for name in $(grep -oE '`[A-Za-z][A-Za-z0-9_]*`' "$top/docs/PROVED.md" | tr -d '`' | sort -u); do
  grep -qx -- "$name" names || fail "docs/PROVED.md names $name, which isn't there"
done
for path in $(grep -oE '`specs/[A-Za-z]+[.]antt`' "$top/docs/PROVED.md" | tr -d '`' | sort -u); do
  ls -- "$top"/crates/*/"$path" >/dev/null 2>&1 || fail "docs/PROVED.md names $path, which isn't there"
done

[ "$failures" = 0 ]
