# shellcheck shell=bash
# Sourced by the repository's `kifu`: puts the tool and the library below a prefix, where they need no repository.

# help.txt as the manual page kifu(1).
manual() {
  printf '.TH KIFU 1 "" "kifu %s"\n.SH NAME\nkifu \\- check, tidy and edit shogi records in the KIF format\n' "$(<"$share/VERSION")"
  awk '
    # a line of text: no mark of roff in it, and a hyphen that can be typed
    function text(line) {
      gsub(/\\/, "\\e", line)
      gsub(/-/, "\\-", line)
      return line ~ /^[.\x27]/ ? "\\&" line : line
    }
    # lines that are indented are shown as they stand
    function fill(is_filled) {
      if (is_filled != is_filling) print is_filled ? ".fi" : ".nf"
      is_filling = is_filled
    }
    BEGIN { is_filling = 1; print ".SH DESCRIPTION" }
    /^== / { fill(1); if (!is_listed++) print ".SH WORDS"; print ".SS \"kifu " text(substr($0, 4)) "\""; next }
    /^==$/ { fill(1); print ".SH FLAGS AND EXIT STATUS"; next }
    /^$/ { fill(1); print ".PP"; next }
    { fill($0 !~ /^ /); print text($0) }' "$share/help.txt"
}

# What pkg-config is to know of the library.
package() {
  printf 'prefix=%s\nlibdir=${prefix}/lib\nincludedir=${prefix}/include\n\n' "$1"
  printf 'Name: kif\nDescription: a proved reader, writer and editor of shogi records in the KIF format\nVersion: %s\n' "$(<"$share/VERSION")"
  printf 'Libs: -L${libdir} -lkif\nCflags: -I${includedir}\n'
}

# MODE FILE PLACE: puts a file at a place below the prefix, and says so.
put() {
  local said place=$top/$3
  said=$(install -D -m "$1" -- "$2" "$place" 2>&1) || refuse "$(shown "$place"): $(reason "$said")"
  print "$place"
}

# kifu install PREFIX
word_install() {
  local prefix top
  [ "${#words[@]}" = 2 ] || misuse 'kifu install PREFIX'
  case ${words[1]} in '' | -*) misuse 'kifu install PREFIX' ;; esac
  prefix=$(realpath -ms -- "${words[1]}")
  top=${DESTDIR-}$prefix
  make program
  make libkif.a
  put 755 "$share/installed" bin/kifu
  put 755 "$kept/program" libexec/kifu/program
  for each in front.bash help.txt VERSION; do put 644 "$share/$each" "share/kifu/$each"; done
  put 644 "$kept/libkif.a" lib/libkif.a
  put 644 "$root/include/kif.h" include/kif.h
  put 644 <(package "$prefix") lib/pkgconfig/kif.pc
  put 644 <(manual) share/man/man1/kifu.1
  put 644 "$share/completion.bash" share/bash-completion/completions/kifu
  exit
}
