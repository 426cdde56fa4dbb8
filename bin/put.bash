# What bin/install, bin/install-library and bin/uninstall share, over bin/build.bash: the command line, the list of what
# is installed, and `put_all`, which installs what `put` noted, all of it or nothing.
# shellcheck shell=bash disable=SC2154
# of each file that is to be installed its mode, where it is now, and its place below "$prefix"; of a link the mode is
# `link`, and where it is now what it leads to
modes=()
sources=()
places=()

# Takes the words of a script that wants one PREFIX: sets "$given" to it and "$prefix" to where that is, or tells the
# usage and ends.
take_prefix() {
  local script=$1
  shift
  case ${1:-} in
    -h | --help) print_help "$script"; exit 0 ;;
    /*) [ $# -eq 1 ] || { tell "usage: bin/${script##*/} PREFIX"; exit 2; } ;;
    *) tell "usage: bin/${script##*/} PREFIX, a path that begins with /"; exit 2 ;;
  esac
  given=${1%/}
  prefix=${DESTDIR:-}$given
}

# Prints what stands at the head of a script.
print_help() { awk 'NR > 1 && !/^#/ { exit } NR > 1 { sub(/^# ?/, ""); print }' "$1"; }

# Notes a file that is to be installed with this mode at a place below "$prefix".
put() {
  modes+=("$1")
  sources+=("$2")
  places+=("$3")
}

# Notes what is installed of the program, which is this file.
put_program() {
  put 755 "$1" bin/heavy
  put 644 "$top/man/heavy.1" share/man/man1/heavy.1
  put 644 "$top/completions/heavy.bash" share/bash-completion/completions/heavy
  put 644 "$top/completions/_heavy" share/zsh/vendor-completions/_heavy
  put 644 "$top/completions/heavy.fish" share/fish/vendor_completions.d/heavy.fish
}

# The files that README.md names, itself among them, for whoever has no clone: pages, examples, scripts for several machines.
pages() {
  (cd "$top" && find README.md CHANGELOG.md CONTRIBUTING.md SECURITY.md docs examples bench/README.md python/README.md \
    -type f -not -path '*/__pycache__/*' | LC_ALL=C sort)
}

# The mode that an installed file has: a script can be run by all.
mode_of() { if [ -x "$1" ]; then echo 755; else echo 644; fi; }

# Notes what is installed of the library for C, which was made in this folder.
put_library() {
  put 644 "$top/include/heavy.h" include/heavy.h
  put 644 "$1/libheavy.a" lib/libheavy.a
  put 755 "$1/libheavy.so.1" lib/libheavy.so.1
  put link libheavy.so.1 lib/libheavy.so
  put 644 "$1/heavy.pc" lib/pkgconfig/heavy.pc
}

# Makes a folder and those above it, and notes in "$made" which were not there.
make_folder() {
  [ ! -d "$1" ] || return 0
  make_folder "$(dirname "$1")" && mkdir "$1" && made+=("$1")
}

# Puts the files beside their places, as NAME.new, and keeps what is there, as NAME.old.
put_beside() {
  local at place
  for at in "${!places[@]}"; do
    place="$prefix/${places[at]}"
    [ ! -d "$place" ] || { tell "$place is a folder"; return 1; }
    make_folder "$(dirname "$place")" || return 1
    if [ "${modes[at]}" = link ]; then
      ln -sf "${sources[at]}" "$place.new" || return 1
    else
      cp "${sources[at]}" "$place.new" && chmod "${modes[at]}" "$place.new" || return 1
    fi
    rm -f "$place.old"
    if [ -e "$place" ] || [ -L "$place" ]; then cp -pP "$place" "$place.old" || return 1; fi
  done
}

# Leaves everything as it was before `put_all`.
undo() {
  local at place
  for place in "${places[@]/#/$prefix/}"; do rm -f "$place.new"; done
  for at in "${!moved[@]}"; do rm -f "${moved[at]}"; done
  for place in "${places[@]/#/$prefix/}"; do
    if [ -e "$place.old" ] || [ -L "$place.old" ]; then mv -f "$place.old" "$place"; fi
  done
  for ((at = ${#made[@]} - 1; at >= 0; at--)); do find "${made[at]}" -maxdepth 0 -empty -delete; done
  tell "nothing was installed"
}

# Installs what `put` noted, and tells each file; where that fails, or is interrupted, all is as before.
put_all() (
  made=() moved=()
  trap undo EXIT
  trap 'exit 129' HUP
  trap 'exit 130' INT
  trap 'exit 143' TERM
  put_beside || exit 1
  for place in "${places[@]/#/$prefix/}"; do
    moved+=("$place")
    mv -f "$place.new" "$place" || exit 1
  done
  trap - EXIT HUP INT TERM
  for place in "${places[@]/#/$prefix/}"; do
    rm -f "$place.old"
    printf '%s\n' "$place"
  done
)
