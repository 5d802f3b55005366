# shellcheck shell=bash
# bash completion of kifu: the words, which kifu itself tells, then flags and names of files
_kifu() {
  local current=${COMP_WORDS[COMP_CWORD]}
  if [ "$COMP_CWORD" = 1 ]; then
    mapfile -t COMPREPLY < <(compgen -W "$("$1" help --words 2>/dev/null) --help --version" -- "$current")
  elif [ "${COMP_WORDS[1]}" = help ]; then
    mapfile -t COMPREPLY < <(compgen -W "$("$1" help --words 2>/dev/null)" -- "$current")
  elif [[ $current == -* ]]; then
    mapfile -t COMPREPLY < <(compgen -W '-o --force --in-place --plain --partial --skip-bom --help' -- "$current")
  else
    compopt -o filenames 2>/dev/null
    mapfile -t COMPREPLY < <(compgen -f -- "$current")
  fi
}
complete -F _kifu kifu
