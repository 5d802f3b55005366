# shellcheck shell=bash
# Sourced by `kifu`, in the repository and where it is installed: help, files and exit statuses. Who sources it sets
#   share    the folder with help.txt and VERSION
#   program  the program
# and has functions
#   ready      makes sure that the program is there
#   word_NAME  of a word that the program does not know: sets in `run` and `words` what is to be run, or ends

# ---- what is said

# Says a line on standard error and ends with a status.
give_up() {
  printf 'kifu: %s\n' "$2" >&2
  exit "$1"
}

refuse() { give_up 1 "refused: $1"; }
misuse() { give_up 2 "usage: $1"; }

# A name or a word as the program tells it: as it is, or where it holds control characters or is not UTF-8 as the shell reads it, $'a\x0ab'.
shown() {
  local LC_ALL=C name=$1 hidden='[[:cntrl:]]' quoted='' i byte code
  [[ $name != *[![:ascii:]]* ]] || printf '%s' "$name" | iconv -f UTF-8 -t UTF-8 >/dev/null 2>&1 || hidden='[![:print:]]'
  # shellcheck disable=SC2053
  if [[ $name != *$hidden* ]]; then
    printf '%s' "$name"
    return
  fi
  for ((i = 0; i < ${#name}; i++)); do
    byte=${name:i:1}
    # shellcheck disable=SC2053
    if [[ $byte == $hidden || $byte == [\'\\] ]]; then
      printf -v code '%d' "'$byte"
      printf -v byte '\\x%02x' $((code & 255))
    fi
    quoted+=$byte
  done
  printf "\$'%s'" "$quoted"
}

# What a command said when it failed ends in the reason, behind the last colon.
reason() { printf '%s' "${1##*: }"; }

# Prints a text, or says why it cannot. Who has closed a pipe is not told: `| head -1` is no mistake.
print() {
  local said status
  [ -z "$is_out_closed" ] || refuse 'standard output is closed'
  { said=$({ printf '%s\n' "$1" >&3; } 2>&1); } 3>&1
  status=$?
  [ "$status" -lt 128 ] || exit "$status"
  [ "$status" = 0 ] || refuse "standard output: $(reason "$said")"
}

# A closed stream is noted and put to /dev/null, so that no file opened later gets its number.
open_streams() {
  is_in_closed='' is_out_closed=''
  { : 9<&0; } 2>/dev/null || { is_in_closed=1 && exec </dev/null; }
  { : 9>&1; } 2>/dev/null || { is_out_closed=1 && exec >/dev/null; }
  { : 9>&2; } 2>/dev/null || exec 2>/dev/null
}

# ---- help, from help.txt: a part `== USE` for each word, whose first line tells it in one, and around them what all have in common

# The words, in the order of help.txt.
all_words() {
  local line
  while IFS= read -r line; do
    case $line in '== '*) line=${line#== } && printf '%s\n' "${line%% *}" ;; esac
  done <"$share/help.txt"
}

is_word() { [[ $'\n'$(all_words)$'\n' == *$'\n'"$1"$'\n'* ]]; }

# What all words have in common, and a row for each.
overview() {
  local line use='' is_common=1
  while IFS= read -r line; do
    case $line in
      '== '*) use=${line#== } is_common='' ;;
      ==) is_common=1 ;;
      *)
        if [ -n "$use" ]; then printf '  %-36s %s\n' "$use" "$line"; fi
        if [ -n "$is_common" ]; then printf '%s\n' "$line"; fi
        use=''
        ;;
    esac
  done <"$share/help.txt"
}

# A word's own part.
help_of() {
  local line is_own=''
  while IFS= read -r line; do
    case $line in
      "== $1" | "== $1 "*) is_own=1 && printf 'kifu %s\n' "${line#== }" ;;
      ==*) is_own='' ;;
      *) [ -z "$is_own" ] || printf '%s\n' "$line" ;;
    esac
  done <"$share/help.txt"
}

no_such_word() {
  [ -n "$1" ] || misuse 'a word is missing; kifu help tells the words'
  misuse "no such word: $(shown "$1"); kifu help tells the words"
}

# kifu help [WORD]; --words is for the completion
tell_help() {
  [ $# -le 1 ] || misuse 'kifu help [WORD]'
  case ${1-} in
    '') print "$(overview)" ;;
    --words) print "$(all_words)" ;;
    --help | -h) print "$(help_of help)" ;;
    *)
      is_word "$1" || no_such_word "$1"
      print "$(help_of "$1")"
      ;;
  esac
}

# ---- the words given

# Sets what the launcher itself does, out, is_forced and is_in_place, and in words all else, which the program gets.
take_words() {
  out='' is_forced='' is_in_place='' words=()
  while [ $# -gt 0 ]; do
    case $1 in
      -o)
        [ -z "$out" ] || misuse '-o stands twice'
        case ${2-} in '' | -) misuse '-o needs the name of a file' ;; esac
        out=$2
        shift
        ;;
      --force) is_forced=1 ;;
      --in-place) is_in_place=1 ;;
      *) words+=("$1") ;;
    esac
    shift
  done
}

# Whether these go with the word and with one another.
try_flags() {
  case $word in
    block | restate | block-put | block-cut | install) [ -z "$out" ] || misuse "$word is told its place without -o (kifu help $word)" ;;
  esac
  case $word in
    tidy | put | cut) ;;
    *) [ -z "$is_in_place" ] || misuse '--in-place goes with tidy, put and cut' ;;
  esac
  [ -z "$is_in_place" ] || [ -z "$out" ] || misuse '--in-place and -o do not go together'
  [ -z "$is_forced" ] || [ -n "$out" ] || misuse '--force goes with -o FILE'
}

# Sorts the words into names and flags; - is a name.
sort_words() {
  local each
  names=() flags=()
  for each in "$@"; do
    case $each in
      --*) flags+=("$each") ;;
      *) names+=("$each") ;;
    esac
  done
}

# ---- running

# Runs it and sets status, and is_refused where it gave no whole answer. A program has no exit status of its own: the marks of what it says on
# standard error tell it.
answer() {
  local said
  { said=$("${run[@]}" "$@" 2>&1 >&3 3>&-); } 3>&1
  status=$?
  # with -o or --in-place its standard output is that file
  if [ -n "$place" ]; then said=${said//'kifu: refused: standard output:'/"kifu: refused: $(shown "$place"):"}; fi
  [ -z "$said" ] || printf '%s\n' "$said" >&2
  case $'\n'$said in
    *$'\nkifu: usage'*) status=2 is_refused=1 ;;
    *$'\nkifu: refused'*) status=1 is_refused=1 ;;
    *$'\nkifu: unread'*) status=1 ;;
    *) [ "$status" = 0 ] || is_refused=1 ;;
  esac
}

# Each file by itself, headed by its name; one that is refused does not stop the others, and the worst status is told.
answer_each() {
  local name worst=0
  for name in "${names[@]}"; do
    print "$(shown "$name"):"
    answer "$word" "$name" "${flags[@]}"
    [ "$status" -le "$worst" ] || worst=$status
    case $status in 0 | 1) ;; *) break ;; esac
  done
  status=$worst
}

# What the word asks for, to standard output.
answer_all() {
  sort_words "${words[@]:1}"
  case $word in
    check | list) if [ "${#names[@]}" -gt 1 ]; then answer_each && return; fi ;;
  esac
  answer "${words[@]}"
}

# ---- files

# Makes the file new beside a place, into which an answer goes first, so that the place itself never holds half of one.
make_beside() {
  local said
  said=$(mktemp -- "${1%/*}/.kifu.XXXXXX" 2>&1) || refuse "$(shown "$place"): $(reason "$said")"
  new=$said
  trap 'rm -f -- "$new"' EXIT
}

# Gives it the owner and the mode of what it replaces, or the mode of a new file.
dress() {
  if [ -e "$1" ]; then
    chown --reference="$1" -- "$new" 2>/dev/null
    chmod --reference="$1" -- "$new"
  else
    chmod "$(printf '%o' $((0666 & ~$(umask))))" -- "$new"
  fi
}

# PLACE HOW: moves it there, with -n only where nothing stands.
put_in_place() {
  local said
  dress "$1"
  said=$(mv "$2" -T -- "$new" "$1" 2>&1) || refuse "$(shown "$place"): $(reason "$said")"
  [ ! -e "$new" ] || refuse "$(shown "$place"): File exists; --force replaces it"
}

# The answer into the file that place names, or into what that leads to if it is a link; nothing is left of one that is
# not whole.
answer_into() {
  local real
  # with its last byte, which may be a line break
  IFS= read -rd '' real < <(readlink -mz -- "$place")
  make_beside "$real"
  answer_all >"$new"
  [ -n "$is_refused" ] || put_in_place "$real" "$1"
}

# -o FILE
answer_to_file() {
  place=$out
  [ ! -e "$out" ] || [ -f "$out" ] || refuse "$(shown "$out"): not an ordinary file; > writes to it"
  if [ -n "$is_forced" ]; then
    answer_into -f
  else
    [ ! -e "$out" ] || refuse "$(shown "$out"): File exists; --force replaces it"
    answer_into -n
  fi
}

# --in-place. A name that is missing or a folder is left to the program, which says so.
answer_in_place() {
  sort_words "${words[@]:1}"
  place=${names[0]-}
  [ "$place" != - ] || misuse '--in-place needs a file, and - is standard input'
  if [ -z "$place" ] || [ ! -e "$place" ] || [ -d "$place" ]; then
    place=''
    answer_all
    return
  fi
  [ -f "$place" ] || refuse "$(shown "$place"): not an ordinary file, so it cannot be edited in place"
  [ -w "$place" ] || refuse "$(shown "$place"): Permission denied"
  answer_into -f
}

# ---- the whole

# WORD ..: makes the program ready and does what is asked.
obey() {
  word=$1
  take_words "$@"
  try_flags
  [ -z "$is_out_closed" ] || [ -n "$out$is_in_place" ] || refuse 'standard output is closed'
  if [ -n "$is_in_closed" ] && [[ " ${words[*]} " == *' - '* ]]; then refuse 'standard input is closed'; fi
  if declare -F "word_$word" >/dev/null; then
    "word_$word"
  else
    ready
    run=("$program")
  fi
  place='' status=0 is_refused=''
  if [ -n "$is_in_place" ]; then
    answer_in_place
  elif [ -n "$out" ]; then
    answer_to_file
  else
    answer_all
  fi
  exit "$status"
}

main() {
  local each
  open_streams
  [ $# != 0 ] || misuse "a word is missing"$'\n\n'"$(overview)"
  case $1 in
    help | --help | -h) tell_help "${@:2}" && exit ;;
    --version) print "kifu $(<"$share/VERSION")" && exit ;;
  esac
  is_word "$1" || no_such_word "$1"
  for each in "${@:2}"; do
    case $each in --help | -h) tell_help "$1" && exit ;; esac
  done
  obey "$@"
}
