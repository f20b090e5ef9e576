# shellcheck shell=bash
# Completion of ink_board's words in bash: the modes, and for each mode its flags, each offered once; behind `<` jobs and folders before other files.
# To have it, write into ~/.bashrc, with the repository's path:
#     source /path/to/ink_board/docs/completion/ink_board.bash

# The flags that a mode takes, and without a mode those of all.
_ink_board_flags() {
  case $1 in
    '') echo --seed --journal --json --bounds --image ;;
    run) echo --journal --json --bounds --image ;;
    print | sweep | audit | radio | plan) ;;
    station) echo --journal --json ;;
    soak) echo --seed --journal --json --bounds ;;
  esac
}

# The modes that take all of these flags.
_ink_board_modes() {
  local mode flag
  for mode in run print sweep audit radio station plan soak; do
    for flag in "$@"; do
      [[ " $(_ink_board_flags "$mode") " == *" $flag "* ]] || continue 2
    done
    echo "$mode"
  done
}

# The jobs and folders that begin like this. Where there are some, no other file is offered behind `<`.
_ink_board_jobs() {
  compgen -f -X '!*.job' -- "$1"
  compgen -d -- "$1"
}

_ink_board() {
  local current=${COMP_WORDS[COMP_CWORD]} previous=${COMP_WORDS[COMP_CWORD - 1]}
  COMPREPLY=()
  case $previous in
    '<' | '>' | '>>' | '>|' | '<>') # no word of the command, but the name of a file
      compopt -o filenames 2>/dev/null
      [[ $previous != '<' ]] || mapfile -t COMPREPLY < <(_ink_board_jobs "$current")
      ((${#COMPREPLY[@]} > 0)) || mapfile -t COMPREPLY < <(compgen -f -- "$current")
      return
      ;;
    --seed | =) return ;; # a number
  esac

  # what the other words ask for already
  local mode='' used=() index
  for ((index = 1; index < ${#COMP_WORDS[@]}; index++)); do
    ((index == COMP_CWORD)) && continue
    case ${COMP_WORDS[index]} in
      '<' | '>' | '>>' | '>|' | '<>') ((index++)) ;;
      run | print | sweep | audit | radio | station | plan | soak) mode=${COMP_WORDS[index]} ;;
      --seed=*) used+=(--seed) ;;
      --journal | --json | --bounds | --image | --seed) used+=("${COMP_WORDS[index]}") ;;
    esac
  done

  local offered=() flag
  if [[ -z $mode && $current != -* ]]; then
    mapfile -t offered < <(_ink_board_modes "${used[@]}")
  else
    for flag in $(_ink_board_flags "$mode"); do
      [[ " ${used[*]} " == *" $flag "* || -z $(_ink_board_modes "${used[@]}" "$flag") ]] || offered+=("$flag")
    done
  fi
  mapfile -t COMPREPLY < <(compgen -W "${offered[*]}" -- "$current")
}

complete -F _ink_board ink_board
