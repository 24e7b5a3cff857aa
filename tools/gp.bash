# Completion of bash for gp and tools/orders: `. tools/gp.bash`, or a link to this file in a folder of bash-completion.

# The options of a command of gp, but for those that were given.
_gp_options() {
  local options='--workers --at --room --hz --block --mutex --cells --entries --ring --tags --seed --picks' word given=" ${*:2} "
  for word in $options; do
    case $1:$word in run:--picks | orders:--picks | orders:--seed) continue ;; esac
    [ "$word" != --at ] && [[ $given == *" $word "* ]] || printf '%s\n' "$word"
  done
}

# The values of an option that can be listed.
_gp_values() {
  case $1 in
    --at) echo end ;;
    --block) echo 0 1 ;;
    --hz) echo 1 10 100 1000 10000 100000 1000000 ;;
    --workers) echo {1..16} ;;
  esac
}

# Files that end so, and folders.
_gp_files() {
  local file
  while IFS= read -r file; do
    if [ -d "$file" ]; then COMPREPLY+=("$file/"); elif [[ $file == *.$1 ]]; then COMPREPLY+=("$file"); fi
  done < <(compgen -f -- "$2")
  compopt -o filenames -o nospace 2>/dev/null
  [ "${#COMPREPLY[@]}" != 1 ] || [ -d "${COMPREPLY[0]}" ] || compopt +o nospace 2>/dev/null
}

_gp() {
  local now=${COMP_WORDS[COMP_CWORD]} before=${COMP_WORDS[COMP_CWORD - 1]} command=${COMP_WORDS[1]} first=3 own=
  COMPREPLY=()
  if [ "${COMP_WORDS[0]##*/}" = orders ]; then
    command=orders first=2 own='--seeds --from --jobs --out --shrink'
  elif [ "$COMP_CWORD" = 1 ]; then
    mapfile -t COMPREPLY < <(compgen -W 'run sim gen dump --help --version' -- "$now")
    return
  fi
  case $command:$COMP_CWORD in
    run:2 | sim:2 | orders:1) _gp_files gp "$now" ;;
    dump:2) _gp_files pb "$now" ;;
    run:* | sim:* | orders:* | gen:[4-9] | gen:[1-9][0-9])
      [ "$command" != gen ] || first=4
      # (names and values come in turns, but for --shrink)
      if [[ $before == --* && $before != --shrink ]]; then
        if [ "$before" = --out ]; then mapfile -t COMPREPLY < <(compgen -d -- "$now"); else
          mapfile -t COMPREPLY < <(compgen -W "$(_gp_values "$before")" -- "$now")
        fi
      else
        mapfile -t COMPREPLY < <(compgen -W "$own $(_gp_options "$command" "${COMP_WORDS[@]:first:COMP_CWORD-first}")" -- "$now")
      fi
      ;;
  esac
}
complete -F _gp gp orders
