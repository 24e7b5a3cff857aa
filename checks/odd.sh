#!/usr/bin/env bash
# Tries odd inputs, in the folder that this is started in: files by odd names and of another kind, odd texts of programs and names in them,
# options at their ends, each one twice, folders in which something stands in the way, odd outputs, want of memory, calls that are killed
# and calls beside one another. Each has a status and a first line by docs/COMMANDS.md and docs/FORMATS.md, and is answered within ten
# seconds; what is put is whole. (refusals.sh has words and bytes that are refused.)
. "$(dirname -- "${BASH_SOURCE[0]}")/head.bash"
tried=0
here=$PWD
# (what goes before the program, where it's to be called otherwise)
as=()

# try STATUS LINE WORDS..: the program's status, and the first line that it writes.
try() {
  local wanted=$1 line=$2 got words
  shift 2
  words="$*"
  tried=$((tried + 1))
  timeout 10 "${as[@]}" "$gp" "$@" >said 2>told
  got=$?
  [ "$got" = "$wanted" ] && [ "$(head -n 1 said)" = "$line" ] && [ ! -s told ] && return
  fail "gp ${words:0:200}: status $got, '$(head -n 1 said)$(cat told)' in place of status $wanted, '$line'"
}

# program STATUS LINE TEXT: the same of `sim` of a file with this text (printf's escapes).
program() {
  local before=$failures
  printf "$3" >odd.gp
  try "$1" "$2" sim odd.gp --at 0
  [ "$failures" = "$before" ] || echo "  (odd.gp holds '${3:0:200}')"
}

# stands NAME..: these stand here and nothing else, besides what `try` keeps, and those of them that are profiles are whole.
stands() {
  local name wanted
  wanted=$(printf '%s\n' "$@" | sort | paste -sd ,)
  [ "$(ls -A | grep -vx -e said -e told | paste -sd ,)" = "$wanted" ] || fail "here stand $(ls -A | paste -sd ,) in place of $wanted"
  for name in "$@"; do
    [[ ! -f $name || $name != *.pb ]] || "$gp" dump "$name" >/dev/null || fail "of $name a part stands here"
  done
}

# many COUNT TEXT: this text so many times, with the number in place of each @.
many() {
  local at
  for ((at = 1; at <= $1; at++)); do printf '%s' "${2//@/$at}"; done
}

# word LETTER COUNT
word() { printf "%$2s" | tr ' ' "$1"; }

one='func main {\nwork 1\n}\n'
printf "$one" >a.gp

# Names of files and folders. (A profile tells the name as it is, with escapes.)
for name in 'a b.gp' $'a\nb.gp' $'a\tb.gp' 'ключ.gp' 'a#:=@|\.gp' "it's \"q\" \$(x) *.gp" "$(word x 255)" '--at' '%s%n.gp' './/././a.gp' '~'; do
  [ -e "$name" ] || cp -- a.gp "./$name"
  case $name in
    -*) try 1 'usage 1 6' sim "$name" && try 0 'end main' sim "./$name" --at 0 ;;
    *) try 0 'end main' sim "$name" --at 0 ;;
  esac
done
try 0 'end main' sim 'a#:=@|\.gp' --at 0
"$gp" dump goroutine.1.pb | grep -qxF 'sample 1 | main@a\x23\x3a\x3d\x40\x7c\x5c.gp:2 |' || fail "the name of an odd file is told otherwise"
name=$'\xff.gp'
cp -- a.gp "$name" 2>/dev/null && try 11 '' sim "$name"
try 3 'read fault' sim "$(word x 256)"
try 3 'read fault' sim "$(many 3000 ./)a.gp"
try 3 'read fault' sim a.gp/
try 3 'read fault' sim a.gp/.
try 3 'read fault' sim ..
try 3 'read fault' sim /
try 1 'usage 1 6' sim ''
try 3 'read fault' sim ' '
mkdir -p 'a folder/in it'
cp a.gp 'a folder/in it/'
try 0 'end main' sim 'a folder/in it/../in it//a.gp'
try 0 'end main' sim "$PWD/a.gp"
ln -s a.gp link.gp
ln -s missing.gp lost.gp
ln -s loop.gp loop.gp
try 0 'end main' sim link.gp
try 3 'read fault' sim lost.gp
try 3 'read fault' sim loop.gp
try 2 'refused line 0 cause 10' sim /dev/null
try 2 'refused long' sim /dev/zero
try 0 'end main' sim /dev/stdin <a.gp
try 0 'end main' sim <(cat a.gp)
try 3 'read fault' dump .
try 2 'refused at 0 cause 8' dump /dev/null
mkfifo pipe.gp
cat a.gp >pipe.gp &
try 0 'end main' sim pipe.gp

# Files of another kind: a profile as a program, a program as a profile, compressed ones, UTF-16, zeros.
try 0 'end main' sim a.gp
try 2 'refused line 2 cause 1' sim cpu.pb
try 2 'refused at 0 cause 3' dump a.gp
for name in a.gp cpu.pb; do gzip -n <"$name" >"$name.gz"; done
try 2 'refused line 1 cause 6' sim a.gp.gz
try 2 'refused at 0 cause 3' dump cpu.pb.gz
gunzip <cpu.pb.gz >plain.pb
try 0 'type samples count' dump plain.pb
program 2 'refused line 1 cause 6' '\xff\xfef\0u\0n\0c\0'
program 2 'refused line 1 cause 1' 'f\0u\0n\0c\0'
program 2 'refused line 1 cause 1' '\0\0\0\n'

# Each cause in a profile: cut, a number of more than 64 bits, a wire type, a field number, a text, two that name what isn't there, and
# no string table.
profile() {
  printf "$2" >odd.pb
  try 2 "$1" dump odd.pb
}
profile 'refused at 2 cause 1' '\x32\x00\x0a\x7f'
profile 'refused at 2 cause 2' '\x32\x00\x08\xff\xff\xff\xff\xff\xff\xff\xff\xff\x02'
profile 'refused at 2 cause 3' '\x32\x00\x0b'
profile 'refused at 2 cause 4' '\x32\x00\x00'
profile 'refused at 2 cause 5' '\x32\x00\x32\x01\xff'
profile 'refused at 6 cause 6' '\x32\x00\x0a\x02\x08\x05'
profile 'refused at 4 cause 7' '\x32\x00\x22\x00'
profile 'refused at 3 cause 8' '\x32\x01a'
# (the least that is one)
printf '\x32\x00' >odd.pb
try 0 'period - - 0' dump odd.pb

# A file by a name that is put: it's read before, and the profile stands in its place.
for name in cpu.pb goroutine.1.pb block.pb mutex.pb; do
  cp a.gp "$name"
  try 0 'end main' sim "$name" --at 0
  "$gp" dump "$name" >/dev/null || fail "$name isn't the profile"
done
cp a.gp gen.gp
try 0 'end main' gen 0 1
try 0 'end main' sim gen.gp

# Without a request no goroutine profile is put; one that isn't reached is served at the end, and shows nobody where all are done; and what
# an earlier call put stays until it is put again.
put() { ls | grep '\.pb$' | paste -sd ,; }
mkdir earlier && cd earlier || exit 1
try 0 'end main' sim ../a.gp
[ "$(put)" = block.pb,cpu.pb,mutex.pb ] || fail "without a request there are $(put)"
try 0 'end main' sim ../a.gp --at 0 --at 1099511627776
"$gp" dump goroutine.1.pb | grep -qx 'sample 1 | main@../a.gp:2 |' || fail "the profile at the begin doesn't show main"
"$gp" dump goroutine.2.pb | grep -q '^sample ' && fail "a profile at the end shows somebody where all are done"
cp goroutine.2.pb ../kept.pb
rm goroutine.1.pb
try 0 'end main' sim ../a.gp --at end
[ "$(put)" = block.pb,cpu.pb,goroutine.1.pb,goroutine.2.pb,mutex.pb ] && cmp -s goroutine.2.pb ../kept.pb || fail "a profile of an earlier call doesn't stay"
cd "$here" || exit 1

# A call that is killed, be it while it puts files, leaves whole ones, and maybe one by another name, which may be removed.
mkdir killed && cd killed || exit 1
for ((i = 0; i < 150; i += 5)); do
  tried=$((tried + 1))
  rm -f ./*
  "$gp" gen 7 16 --at 1000 --at 20000 --block 1 --mutex 1 >/dev/null 2>&1 &
  call=$!
  sleep "$(printf '0.%04d' "$i")"
  kill -KILL "$call" 2>/dev/null
  { wait "$call"; } 2>/dev/null
  for name in *; do
    case $name in
      gen.gp) [ "$(cd .. && "$gp" sim killed/gen.gp --entries 16 | head -n 1)" = 'end full' ] || fail "a call that was killed leaves a part of gen.gp" ;;
      *.pb) "$gp" dump "$name" >/dev/null || fail "a call that was killed leaves a part of $name" ;;
      '*' | *.[0-9]*.tmp) ;;
      *) fail "a call that was killed leaves $name" ;;
    esac
  done
done
cd "$here" || exit 1

# Texts.
program 0 'end main' 'func main {\nwork 1\n}'
program 0 'end main' 'func main {\r\nwork 1\r\n}\r\n'
program 0 'end main' '\t func\tmain  { \n  work\t1 \n\t}\t\n'
program 0 'end main' '\n\n#\n # x\n#\xd0\xba\nfunc main {\n\n# }\nwork 1\n}\n\n'
program 2 'refused line 1 cause 1' '\xef\xbb\xbffunc main {\nwork 1\n}\n'
program 2 'refused line 1 cause 1' 'func main {\rwork 1\r}\r'
program 2 'refused line 1 cause 1' 'func main { work 1 }\n'
program 2 'refused line 1 cause 1' 'func main{\nwork 1\n}\n'
program 2 'refused line 1 cause 1' 'func main\n{\nwork 1\n}\n'
program 2 'refused line 2 cause 1' 'func main {\nwork 1 # one\n}\n'
program 2 'refused line 2 cause 1' 'func main {\nwork\n}\n'
program 2 'refused line 2 cause 1' 'func main {\nwork 1 1\n}\n'
program 2 'refused line 2 cause 1' 'func main {\nwork +1\n}\n'
program 2 'refused line 2 cause 1' 'func main {\nwork 1.0\n}\n'
program 2 'refused line 2 cause 1' 'func main {\nwork 0x1\n}\n'
program 2 'refused line 2 cause 1' 'func main {\nwork 1e3\n}\n'
program 2 'refused line 2 cause 1' 'func main {\nwork \xd9\xa3\n}\n'
program 2 'refused line 2 cause 1' 'func main {\nwork\xc2\xa01\n}\n'
program 2 'refused line 2 cause 1' 'func main {\nwork 1\0\n}\n'
program 2 'refused line 2 cause 1' 'func main {\nwork 1\f\n}\n'
program 0 'end main' 'func main {\nwork 00000000000000000001\n}\n'
program 2 'refused line 2 cause 1' 'func main {\nwork 000000000000000000001\n}\n'
program 2 'refused line 2 cause 4' 'func main {\nloop 0 {\nwork 1\n}\n}\n'
program 2 'refused line 4 cause 1' 'func main {\nwork 1\n}\n}\n'
program 2 'refused line 2 cause 1' 'func main {\nfunc f {\nwork 1\n}\n}\n'
program 2 'refused line 2 cause 1' 'func main {\nchan c 1\n}\n'
program 2 'refused line 1 cause 1' 'loop 1 {\n}\n'
program 2 'refused line 2 cause 5' 'func main {\nloop 1 {\n'
program 2 'refused line 1 cause 9' 'func main {\nloop 1 {\n}\n}\n'
program 2 'refused line 4 cause 6' "$one\xc0\x80\n"
program 2 'refused line 2 cause 6' "#\n# \xed\xa0\x80\n$one"

# Names in them.
program 0 'end main' 'chan chan 1\nmutex mutex\nlabels labels labels=labels\nfunc main {\ncall func\n}\nfunc func {\nlabels labels\nsend chan\nlock mutex\ncall work\n}\nfunc work {\nwork 1\n}\n'
program 0 'end main' 'chan x 1\nmutex x\nlabels x\nfunc main {\ncall x\n}\nfunc x {\nlabels x\nsend x\nlock x\n}\n'
program 0 'end main' 'func main {\ncall _\ncall a..b.\n}\nfunc _ {\nwork 1\n}\nfunc a..b. {\nwork 1\n}\n'
program 0 'end main' "func main {\ncall $(word x 64)\n}\nfunc $(word x 64) {\nwork 1\n}\n"
program 2 'refused line 1 cause 1' "func $(word x 65) {\nwork 1\n}\n"
program 2 'refused line 1 cause 1' 'func 1x {\nwork 1\n}\n'
program 2 'refused line 1 cause 1' 'func .x {\nwork 1\n}\n'
program 2 'refused line 1 cause 1' 'func a-b {\nwork 1\n}\n'
program 2 'refused line 1 cause 1' 'func \xd1\x84 {\nwork 1\n}\n'
program 2 'refused line 2 cause 2' 'func main {\ncall Main\n}\n'
program 2 'refused line 3 cause 2' 'mutex m\nfunc main {\nsend m\n}\n'
program 2 'refused line 4 cause 3' 'func main {\nwork 1\n}\nfunc main {\nwork 1\n}\n'
program 2 'refused line 1 cause 7' 'func main {\ncall f\n}\nfunc f {\ncall g\n}\nfunc g {\ncall main\n}\n'
program 0 'end main' 'func main {\nspawn main\nspawn main\n}\n'
program 0 'end main' "labels x $(word k 64)=$(word v 64) empty= twice=1 twice=2 a==b\nfunc main {\nlabels x\nwork 1\n}\n"
program 2 'refused line 1 cause 4' "labels x $(word k 65)=v\n"
program 2 'refused line 1 cause 4' "labels x k=$(word v 65)\n"
program 2 'refused line 1 cause 1' 'labels x =v\n'
program 2 'refused line 1 cause 1' 'labels x k\n'
program 0 'end main' "labels x$(many 16 ' k@=v')\n$one"
program 2 'refused line 1 cause 4' "labels x$(many 17 ' k@=v')\n$one"

# As much as there may be, and one more.
program 0 'end main' "$(many 255 'func f@ {\nwork 1\n}\n')$one"
program 2 'refused line 769 cause 4' "$(many 256 'func f@ {\nwork 1\n}\n')$one"
program 0 'end main' "$(many 1024 'chan c@ 65535\n')$(many 1024 'mutex m@\n')$(many 255 'labels l@\n')$one"
program 2 'refused line 1025 cause 4' "$(many 1025 'chan c@ 0\n')$one"
program 2 'refused line 1025 cause 4' "$(many 1025 'mutex m@\n')$one"
program 2 'refused line 256 cause 4' "$(many 256 'labels l@\n')$one"
program 0 'end main' "func main {\n$(many 8 'loop 2 {\n')work 1\n$(many 8 '}\n')}\n"
program 2 'refused line 10 cause 4' "func main {\n$(many 9 'loop 1 {\n')work 1\n$(many 9 '}\n')}\n"
program 2 'refused line 1 cause 8' 'func main {\nloop 4294967295 {\nwork 256\n}\nwork 257\n}\n'
{
  printf 'func main {\ncall f1\n}\n'
  for ((i = 1; i < 255; i++)); do printf 'func f%d {\ncall f%d\n}\n' "$i" "$((i + 1))"; done
  printf 'func f255 {\nwork 1\n}\n'
} >deep.gp
try 0 'end main' sim deep.gp --at 0
printf 'func main {\nloop 4294967295 {\nwork 256\n}\nwork 256\n}\n' >odd.gp
try 8 'end full' sim odd.gp --entries 16

# Words at the ends of their ranges.
try 0 'end main' sim a.gp --workers 16 --room 16384 --hz 1000000 --block 1 --mutex 1000000000 --cells 16384 --entries 4194304 --ring 1048576 --tags 1048576
try 0 'end main' sim a.gp --workers 1 --room 1 --hz 1 --block 0 --mutex 0 --cells 1 --entries 16 --ring 16 --tags 1 --at 1099511627776
try 0 'end main' sim a.gp --seed 18446744073709551615 --picks 4294967295
try 0 'end main' sim a.gp --picks 00000000000000000001,0
try 7 'end main' sim a.gp --room 0 --at 0
try 0 'end main' sim a.gp $(many 8 ' --at end')
try 1 'usage 3 4' sim a.gp --picks ,
try 1 'usage 3 4' sim a.gp --picks 1,
try 1 'usage 3 4' sim a.gp --picks '1, 2'
try 1 'usage 3 4' sim a.gp --entries 15
try 1 'usage 3 4' sim a.gp --cells 0
try 1 'usage 3 4' sim a.gp --hz 0
try 0 'end main' gen 18446744073709551615 1
try 0 'end main' gen 00 063 --entries 4194304
try 1 'usage 1 4' gen -1 1
try 1 'usage 3 3' gen 7 1 ''
# (the system passes 131,072 bytes in one word at most, where it's Linux with pages of four kibibytes)
try 0 'end main' sim a.gp --picks "$(yes 1 | head -n 65000 | paste -sd ,)"

# Numbers of four hundred digits.
long=$(word 7 400)
for option in --at --seed --room --workers --entries; do try 1 'usage 3 4' sim a.gp "$option" "$long"; done
try 1 'usage 3 4' sim a.gp --picks "1,$long"
try 1 'usage 1 4' gen "$long" 1
program 2 'refused line 2 cause 1' "func main {\nwork $long\n}\n"
program 2 'refused line 2 cause 1' "func main {\nloop $long {\nwork 1\n}\n}\n"
program 2 'refused line 1 cause 1' "chan c $long\n$one"

# Words that people try, and each option twice.
for words in -v version 'help run' '-h sim'; do try 1 'usage 0 1' $words; done
for words in 'sim -' 'sim -- a.gp' 'run --help' 'run -h' 'dump -'; do try 1 'usage 1 6' $words; done
for words in 'sim a.gp --help' 'sim a.gp a.gp' 'run a.gp -w 4' 'run a.gp > out'; do try 1 'usage 2 3' $words; done
for option in workers room hz block mutex cells entries ring tags seed picks; do
  value=1
  case $option in entries | ring) value=16 ;; esac
  try 1 'usage 4 5' sim a.gp "--$option" "$value" "--$option" "$value"
  try 1 'usage 5 5' gen 7 1 "--$option" "$value" "--$option" "$value"
  [ "$option" = picks ] || try 1 'usage 4 5' run a.gp "--$option" "$value" "--$option" "$value"
done

# Folders in which something stands in the way: what is put before it is whole, and nothing is put behind it.
before=()
for name in goroutine.1.pb cpu.pb block.pb mutex.pb; do
  mkdir -p way && cd way || exit 1
  rm -rf ./*
  mkdir "$name"
  try 4 '' sim ../a.gp --at 0
  stands "${before[@]}" "$name"
  before+=("$name")
  rmdir "$name"
  # a link, be it lost, and a pipe are replaced, and what a link leads to isn't touched
  echo old >kept
  ln -s kept "$name"
  try 0 'end main' sim ../a.gp --at 0
  [ "$(cat kept)" = old ] && [ ! -L "$name" ] || fail "a link by the name $name isn't replaced"
  rm "$name" && ln -s missing "$name"
  try 0 'end main' sim ../a.gp --at 0
  rm "$name" && mkfifo "$name"
  try 0 'end main' sim ../a.gp --at 0
  [ -f "$name" ] || fail "a pipe by the name $name isn't replaced"
  cd "$here" || exit 1
done
# what a call that was killed has left stays, and is in nobody's way, up to a thousand of them
cd way || exit 1
rm -f ./*
for ((i = 0; i < 999; i++)); do : >"cpu.pb.$i.tmp"; done
try 0 'end main' sim ../a.gp
: >cpu.pb.999.tmp
rm cpu.pb
try 4 '' sim ../a.gp
[ "$(ls | grep -c 'cpu\.pb\..*\.tmp')" = 1000 ] && [ ! -e cpu.pb ] || fail "files of earlier calls are gone"
rm -f ./*
cd "$here" || exit 1
mkdir $'odd\n"folder" \xff' && cd $'odd\n"folder" \xff' && try 0 'end main' sim ../a.gp --at 0
cd "$here" || exit 1
mkdir gone && cd gone && rmdir ../gone
tried=$((tried + 1))
"$gp" sim "$here/a.gp" >/dev/null 2>&1
[ $? = 4 ] || fail "in a folder that is gone: another status than 4"
cd "$here" || exit 1
mkdir made && cd made && mkdir gen.gp || exit 1
try 4 '' gen 7 1
stands gen.gp
cd "$here" || exit 1
# (whoever is root writes and reads everywhere, unless without what makes root more than others)
[ "$(id -u)" != 0 ] || as=(setpriv --bounding-set=-all --inh-caps=-all)
if "${as[@]}" true 2>/dev/null; then
  mkdir shut && cp cpu.pb shut/ && chmod 555 shut && cd shut || exit 1
  # (what it says goes elsewhere)
  tried=$((tried + 1))
  "${as[@]}" "$gp" sim ../a.gp >"$here/said" 2>&1
  [ "$?$(cat "$here/said")" = 4 ] || fail "in a folder that may not be written to: '$(cat "$here/said")' in place of status 4"
  stands cpu.pb
  cd "$here" && chmod 755 shut || exit 1
  chmod 000 a.gp
  try 3 'read fault' sim a.gp
  chmod 644 a.gp
  mkdir hidden && cp a.gp hidden/ && chmod 600 hidden
  try 3 'read fault' sim hidden/a.gp
  chmod 755 hidden
  # (a file that may not be written to is replaced, as the folder may be)
  chmod 444 cpu.pb
  try 0 'end main' sim a.gp
else
  echo "skipped: folders and files that may not be written or read (whoever is root may, and there is no setpriv)"
fi
as=()

# How it is called, and where its output goes.
# ends STATUS COMMAND: the status of a command in which "$0" is the launcher.
ends() {
  local got
  tried=$((tried + 1))
  timeout 10 "$BASH" -c "$2" "$gp" >/dev/null 2>&1
  got=$?
  [ "$got" = "$1" ] || fail "'$2': status $got in place of $1"
}
ln -s "$gp" 'a link'
ends 0 './"a link" sim a.gp'
ends 0 'PATH=${0%/*}:$PATH gp sim a.gp'
ends 0 'cd "a folder" && ../"a link" sim ../a.gp'
ends 0 '"$0" sim a.gp <&-'
ends 0 '"$0" sim a.gp 2>&-'
ends 4 '"$0" sim a.gp >&-'
ends 3 '"$0" sim missing.gp >&-'
ends 4 '"$0" sim a.gp | true; exit "${PIPESTATUS[0]}"'
[ ! -w /dev/full ] || ends 4 '"$0" sim a.gp >/dev/full'
ends 0 'env -i PATH="$PATH" ${GP_GATE+GP_GATE="$GP_GATE"} "$0" sim a.gp'
ends 0 'LC_ALL=tr_TR.UTF-8 LANG=xx "$0" sim a.gp'
ends 0 'IFS=/ CDPATH=/ BASH_ENV=/dev/null "$0" sim a.gp'
ends 0 'umask 777; "$0" sim a.gp'
ends 126 '"$0" sim a.gp --picks "$(yes 1 | head -n 100000 | paste -sd ,)"'
chmod -f 644 ./*.pb
# a limit of a file's length, where it's told and doesn't kill
mkdir small && cd small && cp ../a.gp . || exit 1
ends 4 "trap '' XFSZ; ulimit -f 0; \"\$0\" sim a.gp --at 0"
stands a.gp
cd "$here" || exit 1

# Want of memory: nothing is written.
program=$("$gp" --version | sed -n 's/^program //p')
mkdir narrow && cd narrow || exit 1
tried=$((tried + 1))
said=$(ulimit -v 100000 && "$program" sim ../a.gp --cells 16384 --entries 4194304 2>&1)
[ "$?:$said" = 9: ] || fail "with too little memory: '$said' in place of status 9"
stands ''
cd "$here" || exit 1

# Calls beside one another, in one folder: all end well, and each file is one of theirs, whole.
mkdir beside && cd beside || exit 1
calls=()
for ((i = 0; i < 8; i++)); do
  "$gp" sim ../a.gp --at 0 --block 1 --seed "$i" >/dev/null 2>&1 &
  calls+=("$!")
done
for call in "${calls[@]}"; do
  tried=$((tried + 1))
  wait "$call" || fail "of calls beside one another one ends with status $?"
done
stands block.pb cpu.pb goroutine.1.pb mutex.pb
cd "$here" || exit 1

[ "$tried" -ge 260 ] || fail "only $tried were tried"
[ "$failures" = 0 ]
