# shellcheck shell=bash
# Sourced by the repository's `kifu`, which sets root: proves and builds the program and the library, unless what is kept was made of these sources.
# A crate is proved once all that it needs is, each by a call of its own, which tells how far it is. Two such calls side by side would wait for one
# another, since rt keeps the libraries below a crate for itself; it gives the processors to the proofs of one crate.

# what the launcher keeps, all of it inside target/
kept=$root/target/kifu
program=$kept/program

not_built() {
  clear_line
  give_up 3 "not built: $1"
}

# ---- whether it is made

# what lies in a crate's folder and is no source: what rt leaves there, and edits
no_source=(-regex 'crates/[^/]*/\(out\|must-fail\)' -prune -o)

# A digest of all that rt's stamps go by; rt takes seconds to compare its stamps, and is asked only where this differs.
sources() {
  (cd "$root" && find crates crates.txt "${no_source[@]}" -type f -print0 | LC_ALL=C sort -z | xargs -0 sha256sum | sha256sum)
}

# Which files these are, with rt, and when each was last changed in any way. Where that is as it was noted, nothing need be read to know the digest.
changes() {
  local rt
  rt=$(command -v rt)
  (cd "$root" && find -L crates crates.txt ${rt:+"$rt"} "${no_source[@]}" -type f -printf '%p %i %s %C@\n' 2>/dev/null | sha256sum)
}

# Sets digest, and kit: none where there is no rt, and then a program that is built runs all the same.
look() {
  local noted=() seen
  seen=$(changes)
  [ ! -r "$kept/noted" ] || mapfile -t noted <"$kept/noted"
  if [ "$seen" = "${noted[0]-}" ] && [ "${#noted[@]}" = 3 ]; then
    digest=${noted[1]} kit=${noted[2]}
    return
  fi
  digest=$(sources)
  kit=$(rt version 2>/dev/null)
  # a clone that cannot be written goes without
  { printf '%s\n' "$seen" "$digest" "$kit" >"$kept/noted"; } 2>/dev/null
  return 0
}

# PRODUCT: whether it is kept, and of these sources and this kit.
is_made() {
  local of='' by=''
  [ -e "$kept/$1" ] && [ -e "$kept/$1.of" ] || return
  { read -r of && read -r by; } <"$kept/$1.of"
  [ "$of" = "$digest" ] && { [ -z "$kit" ] || [ "$by" = "$kit" ]; }
}

# PRODUCT: makes program, kif.wasm or libkif.a where that is not so. The digest is taken again when it is made, since sources may change meanwhile.
make() {
  look
  if is_made "$1"; then return; fi
  # `wait -p`
  [ "${BASH_VERSINFO[0]}${BASH_VERSINFO[1]}" -ge 51 ] || not_built "bash 5.1 or later is needed, and this is $BASH_VERSION"
  [ -n "$kit" ] || not_built 'rt, the command of the Rattle kit, is missing or does not run (README.md says which kit is needed)'
  make_folders
  take_lock
  trap clean EXIT
  while look && ! is_made "$1"; do build "$1"; done
  clean
  trap - EXIT
  exec {lock}>&-
}

ready() { make program; }

# ---- the folders and the lock

make_folders() {
  local said
  said=$(mkdir -p -- "$kept/log" "$kept/tmp" 2>&1 && { : >>"$kept/lock"; } 2>&1) ||
    not_built "$root/target cannot be written: $(reason "$said")"
}

# One build at a time. What is started inherits the lock, so that it is free only when nothing writes to target/ any more.
take_lock() {
  exec {lock}>>"$kept/lock"
  flock -n "$lock" && return
  printf 'kifu: waiting for another kifu, which proves and builds\n' >&2
  flock "$lock"
}

# Takes away what a build needs only while it runs. A process that was just started still has the traps of this one, and must leave it.
clean() { [ "$BASHPID" != "$$" ] || rm -rf -- "$kept/tmp" "$kept"/*.new 2>/dev/null; }

# ---- which crates, and in which order

# Sets needs, the crates of the repository that each needs: crates.txt without the libraries of the kit.
read_crates() {
  local line name each kit_too
  while IFS= read -r line; do
    line=${line%%#*}
    # behind the name may stand what kind of crate it is
    name=${line%%[: ]*}
    [[ $line != *:* ]] || needs[$name]=${line#*:}
  done <"$root/crates.txt"
  for name in "${!needs[@]}"; do
    kit_too=${needs[$name]} needs[$name]=''
    for each in $kit_too; do
      [ -z "${needs[$each]+stands}" ] || needs[$name]+="$each "
    done
  done
}

# NAME: puts it into order, behind all that it needs.
put_in_order() {
  local each
  [[ " ${order[*]} " != *" $1 "* ]] || return 0
  for each in ${needs[$1]}; do put_in_order "$each"; done
  order+=("$1")
}

# ---- a crate's check

# NAME: starts its check, and sets pid. It has a session of its own, by which all that it starts can be ended, and makes its temporary folders inside
# target/.
start() {
  local folder=$root/crates/$1 command=(rt lib)
  [ "$1" != "${order[-1]}" ] || folder=$root/$last_in command=("${last[@]}")
  (cd "$folder" && TMPDIR=$kept/tmp exec setsid "${command[@]}") >"$kept/log/$1" 2>&1 </dev/null &
  pid=$!
  began=$SECONDS
}

# STATUS: a signal.
break_off() {
  [ "$BASHPID" = "$$" ] || exit "$1"
  kill -TERM -- "-$pid" 2>/dev/null || kill -TERM "$pid" 2>/dev/null
  wait "$pid" 2>/dev/null
  clear_line
  exit "$1"
}

# NAME STATUS: what becomes of a check that ended.
take_ended() {
  local said
  said=$(<"$kept/log/$1")
  # a program was also run, and the status is then its own
  if [ "$2" != 0 ] && [[ $'\n'$said != *$'\nrt: running out/'* ]]; then
    [[ $said != *'No space left on device'* ]] || not_built "no space is left for $root/target"
    not_built "$1 was not proved; $kept/log/$1 says why"
  fi
  proved=$((proved + 1))
  # what was proved before is no news
  case $said in '' | 'rt: nothing has changed since '*) ;; *) tell_proved "$1" ;; esac
}

# ---- what is told meanwhile, on standard error: on a terminal a line that changes, else a line a crate

is_terminal() { [ -t 2 ]; }

clear_line() { if is_terminal; then printf '\r\033[K' >&2; fi; }

announce() {
  [ -z "$is_announced" ] || return
  is_announced=1
  clear_line
  printf 'kifu: proving and building first, which takes some minutes\n' >&2
}

tell_proved() {
  announce
  is_terminal || printf 'kifu: %d of %d: %s, %d s\n' "$proved" "${#order[@]}" "$1" "$((SECONDS - began))" >&2
}

# NAME
tell_running() {
  local line
  line="kifu: $proved of ${#order[@]} proved, $((SECONDS - start_time)) s; $1 $((SECONDS - began)) s"
  printf '\r%s\033[K' "${line:0:79}" >&2
}

# NAME: waits until its check ends, and sets status. Every second it is seen whether there is anything to prove, and on a terminal the line changes.
wait_for() {
  local ended
  while true; do
    if is_terminal; then tell_running "$1"; fi
    if [ -z "$tick" ]; then
      sleep 1 {lock}>&- &
      tick=$!
    fi
    wait -n -p ended "$pid" "$tick"
    status=$?
    [ "$ended" = "$tick" ] || return 0
    tick=''
    [ ! -s "$kept/log/$1" ] || announce
  done
}

# ---- the whole

# NAME FOLDER COMMAND..: proves all that it needs, then runs the command in the folder.
prove() {
  local name pid began status tick=''
  local -A needs
  local -a order=() last=("${@:3}")
  local last_in=$2 proved=0 is_announced='' start_time=$SECONDS
  read_crates
  put_in_order "$1"
  trap 'break_off 130' INT
  trap 'break_off 143' TERM
  trap 'break_off 129' HUP
  for name in "${order[@]}"; do
    start "$name"
    wait_for "$name"
    take_ended "$name" "$status"
  done
  trap - INT TERM HUP
  clear_line
}

# FILE PRODUCT: keeps what was made, by a rename, and then says of what.
keep() {
  local said
  said=$({ cp -- "$1" "$kept/$2.new" && rm -f -- "$kept/$2.of" && mv -f -- "$kept/$2.new" "$kept/$2" &&
    printf '%s\n%s\n' "$digest" "$kit" >"$kept/$2.of"; } 2>&1) || not_built "$kept/$2: $(reason "$said")"
}

# Keeps the program that `rt ci` proved and built of these sources, for the gate.
take_program() {
  look
  make_folders
  take_lock
  keep "$root/crates/kifu/out/kifu" program
  clean
}

# PRODUCT: proves and builds it.
build() {
  # again, since another build may have taken them away
  make_folders
  case $1 in
    program) prove kifu crates/kifu rt run && keep "$root/crates/kifu/out/kifu" program ;;
    kif.wasm) prove kif . oracle/compile-proved kif wasm && keep "$root/target/wasm/kif.wasm" kif.wasm ;;
    libkif.a) prove kif . oracle/compile-proved kif native && keep "$root/target/native/libkif.a" libkif.a ;;
  esac
}
