# What bin/heavy, bin/install and bin/install-library share: `build_heavy` builds the program `heavy`, at "$built",
# where its sources are newer than what was built, and tells on standard error how far it is. Crates of which none
# stands on another are proved side by side. A build that is interrupted ends its provers.
# shellcheck shell=bash
top=$(cd "$(dirname "$(readlink -f "${BASH_SOURCE[0]}")")/.." && pwd)
program="$top/crates/heavy_cli"
built="$program/out/heavy_cli"
# for each crate the lines of its longest chain of crates upwards; and for each that is being proved, the process group
# that does it, and its jobs
declare -A chain=() provers=() jobs=()
# the crates that are proved, those that were told, and the one that failed
proved=()
told=()
failed=
# how many processors the provers take, if not all
most_jobs=
# what takes long: on how many processors, its seconds by the clock, and those of one processor. A first build was timed last
# with nothing beside it; what the tests use besides it, and all scripts of tests/, are estimates by docs/GATE.md's budget
first_build=(4 711 2406)
build_for_tests=(4 240 540)
all_scripts=(4 600 780)

tell() { printf 'heavy: %s\n' "$*" >&2; }

# A crate and those that it stands on, the lowest first, by crates.txt.
crates_of() {
  awk -F: -v name="$1" '
    function visit(name, words, count, i) {
      if (!(name in below) || name in seen) return
      seen[name] = 1
      count = split(below[name], words, " ")
      for (i = 1; i <= count; i++) visit(words[i])
      print name
    }
    /^[a-z]/ { split($1, head, " "); below[head[1]] = $2 }
    END { visit(name) }' "$top/crates.txt"
}

# What crates.txt says of a crate: what kind of library it is, where that is said, and what it stands on.
kind_of() { sed -n "s/^$1 \(.*\):.*/\1/p" "$top/crates.txt"; }
stands_on() { sed -n "s/^$1\( [a-z]*\)\{0,1\}://p" "$top/crates.txt"; }

# The folder of the toolchain.
toolchain() { dirname "$(rt doc | awk 'END { print $NF }')"; }

# Sets "$words" to what the compiler reads of a crate: its root, the libraries below it, the logic, and what kind it is.
# The paths of the crate's own files begin in its folder.
words_of() {
  local crate below rlibs kit root=src/lib.rt
  kit=$(toolchain)
  [ -f "$top/crates/$1/$root" ] || root=src/main.rt
  words=(--crate-name "$1" "$root" -L "dependency=$kit/rlibs")
  mapfile -t below < <(crates_of "$1")
  for crate in "${below[@]:0:${#below[@]}-1}"; do words+=(-L "dependency=$top/crates/$crate/out/rlib"); done
  for crate in std $(stands_on "$1"); do
    rlibs=$kit/rlibs
    ! is_among "$crate" "${below[@]}" || rlibs=$top/crates/$crate/out/rlib
    words+=(--extern "$crate=$rlibs/$crate.rlib")
  done
  words+=(--antt-project "$kit/rattle/logic/antt-project.json" --logic-built "$kit/logic_built" --links "$1=")
}

# Whether a source of these crates is newer than the file that was built of them, or there is no such file.
is_stale() {
  local file=$1
  shift
  local folders=("${@/#/$top/crates/}")
  [ ! -f "$file" ] || [ -n "$(find "$top/crates.txt" "${folders[@]}" -name out -prune -o -newer "$file" -type f \
    \( -name '*.rt' -o -name '*.antt' -o -name crates.txt \) -print -quit)" ]
}

# What tells when a library was built.
mark_of() { printf '%s\n' "$top/crates/$1/out/rlib/$1.rlib/format"; }

# Whether a library is proved as its sources are, over those below it as they are now. These have to be proved.
is_proved() {
  local name crates
  mapfile -t crates < <(crates_of "$1")
  ! is_stale "$(mark_of "$1")" "${crates[@]}" || return 1
  for name in "${crates[@]}"; do [ ! "$(mark_of "$name")" -nt "$(mark_of "$1")" ] || return 1; done
}

# The program of a crate.
program_of() { printf '%s\n' "$top/crates/$1/out/$1"; }

# Gives all libraries and programs dates that rise from the lowest crate on, as each is built after those below it: a gate
# that takes them from an earlier run over the same files leaves them in any order.
date_built() {
  local name
  while IFS=' :' read -r name _; do touch -c "$(mark_of "$name")" "$(program_of "$name")"; done < "$top/crates.txt"
}

# The version, which stands in the program's sources alone.
version_of_program() {
  local version
  version=$(sed -n 's/^const VERSION: &str = "\(.*\)";$/\1/p' "$top/crates/heavy_arguments/src/arguments.rt")
  printf '%s\n' "${version:?the program has no version}"
}

minutes_and_seconds() { printf '%d:%02d min' $(($1 / 60)) $(($1 % 60)); }

# How long what was timed so is likely to take here, three numbers for each part of it. More processors than it was timed on
# gain nothing for sure.
likely() {
  local here seconds=0
  here=$(nproc)
  while [ $# -gt 0 ]; do
    if [ "$here" -ge "$1" ]; then seconds=$((seconds + $2)); else seconds=$((seconds + $3 / here)); fi
    shift 3
  done
  printf 'about %d min on %d processor%s' $(((seconds + 30) / 60)) "$here" "$([ "$here" -eq 1 ] || echo s)"
}

# Ends all provers.
end_provers() {
  local name
  for name in "${!provers[@]}"; do kill -KILL -- "-${provers[$name]}" 2> /dev/null || true; done
  for name in "${!provers[@]}"; do wait "${provers[$name]}" 2> /dev/null || true; done
  provers=()
}

# Ends the build with all processes of it, and this script by the status.
end_build() {
  trap - HUP INT TERM
  end_provers
  tell_over "interrupted; what is proved so far is kept for the next build"
  exit "$1"
}

# A line of its own, over the one that tells how far the build is.
tell_over() {
  [ ! -t 2 ] || printf '\r\033[K' >&2
  tell "$1"
}

# Whether a word is among others.
is_among() { [[ " ${*:2} " == *" $1 "* ]]; }

# The longest chain of crates from each of these upwards, in lines of code, and its name; the longest first.
by_chain() {
  local name
  for name in "$@"; do
    find "$top/crates/$name/src" -name '*.rt' -exec cat {} + | awk -v name="$name" 'END { print name, NR }'
  done | awk '
    function chain(name, above, longest) {
      for (above in lines)
        if (index(below[above] " ", " " name " ") && chain(above) > longest) longest = chain(above)
      return lines[name] + longest
    }
    NR == FNR { split($0, halves, ":"); split(halves[1], head, " "); below[head[1]] = halves[2]; next }
    { lines[$1] = $2 }
    END { for (name in lines) print chain(name), name }' "$top/crates.txt" - | sort -k 1,1nr -k 2
}

# Whether a crate can wait: one that is not proved has a chain of more than twice its lines.
can_wait() {
  local name
  for name in "${crates[@]}"; do
    is_among "$name" "${proved[@]}" || [ "${chain[$name]}" -le $((2 * chain[$1])) ] || return 0
  done
  return 1
}

# Whether all crates that are told before this one, whose chains are as long or longer, are proved.
is_first() {
  local name
  for name in "${crates[@]}"; do
    [ "$name" != "$1" ] || return 0
    is_among "$name" "${proved[@]}" || return 1
  done
}

# The least of these numbers.
least_of() { printf '%s\n' "$@" | sort -n | head -n 1; }

# How many provers memory has room for, at 2 GB each.
room_in_memory() {
  awk '/^MemAvailable:/ { room = int($2 / 2000000) } END { print (room > 1 ? room : 1) }' /proc/meminfo
}

# Whether all below this crate is proved, and the crate is not begun.
is_ready() {
  local name
  ! is_among "$1" "${proved[@]}" "${!provers[@]}" || return 1
  for name in $(crates_of "$1"); do is_among "$name" "$1" "${proved[@]}" || return 1; done
}

# Starts to prove a crate with so many jobs, as a process group of its own. A crate that can wait has what processors
# the others leave.
start_prover() {
  local words=("$top/bin/prove-crate" "$1" "$2")
  ! can_wait "$1" || words=(nice "${words[@]}")
  : > "$top/crates/$1/build.log"
  set -m
  (exec "${words[@]}") > "$top/crates/$1/build.log" 2>&1 < /dev/null 9>&- &
  set +m
  provers[$1]=$!
  jobs[$1]=$2
}

# How many jobs the provers of crates that can't wait have.
jobs_at_work() {
  local name all=0
  for name in "${!provers[@]}"; do can_wait "$name" || all=$((all + jobs[$name])); done
  printf '%s\n' "$all"
}

# Starts those of these crates that are ready, while a processor is free and memory has room. They share the processors
# evenly with those that can wait, which have one each: several jobs take more of the processors in all. The crate with
# the longest chain above it has two, where there are so many.
start_ready() {
  local name idle share most free=$room ready=() waiting=()
  for name in "$@"; do
    ! is_ready "$name" || if can_wait "$name"; then waiting+=("$name"); else ready+=("$name"); fi
  done
  for name in "${!provers[@]}"; do free=$((free - jobs[$name])); done
  idle=$((cores - $(jobs_at_work)))
  share=$((${#ready[@]} + ${#waiting[@]}))
  for name in "${ready[@]}"; do
    most=$(((idle + share - 1) / share))
    if [ "$most" -lt 2 ] && is_first "$name"; then most=2; fi
    most=$(least_of "$most" "$idle" "$free")
    [ "$most" -ge 1 ] || break
    start_prover "$name" "$most"
    free=$((free - most)) idle=$((idle - most)) share=$((share - 1))
  done
  for name in "${waiting[@]}"; do
    if [ "$free" -lt 1 ] || [ "${#provers[@]}" -ge "$cores" ]; then return 0; fi
    start_prover "$name" 1
    free=$((free - 1))
  done
}

# Notes which provers have ended, and the crate of one that failed.
note_ended() {
  local name
  for name in "${!provers[@]}"; do
    kill -0 "${provers[$name]}" 2> /dev/null && continue
    if wait "${provers[$name]}"; then proved+=("$name"); else failed=$name; fi
    unset "provers[$name]"
  done
}

# Tells how far the crates are: on a terminal by one line that is written over, else by a line for each crate.
tell_progress() {
  local name far='' number=0 time
  time=$(minutes_and_seconds $((SECONDS - start)))
  for name in "${crates[@]}"; do
    number=$((number + 1))
    if ! is_among "$name" "${!provers[@]}" || [ ! -s "$top/crates/$name/build.log" ]; then continue; fi
    far+=", $name"
    if [ -t 2 ] || is_among "$name" "${told[@]}"; then continue; fi
    told+=("$name")
    tell "proving $name, crate $number of ${#crates[@]}, $time"
  done
  [ ! -t 2 ] || printf '\r\033[K%.79s' "heavy: $time, ${#proved[@]} of ${#crates[@]} crates proved$far" >&2
}

# Proves these crates, each after those below it, until all are proved or one fails.
prove() {
  local cores room all=$((${#proved[@]} + $#))
  cores=${most_jobs:-$(nproc)}
  room=$(room_in_memory)
  while [ -z "$failed" ] && [ "${#proved[@]}" -lt "$all" ]; do
    start_ready "$@"
    tell_progress
    sleep 0.2
    note_ended
  done
  end_provers
}

# Waits until this file is held by no other, if there is flock, and first tells so.
wait_for() {
  command -v flock > /dev/null || return 0
  flock --nonblock "$1" || tell "$2; waiting for its end"
  until flock --nonblock "$1"; do sleep 0.5; done
}

# Proves those of these libraries that are not proved, while no rt works in their folders, which every rt holds in this
# order too.
prove_libraries() {
  local name folder held=() left=()
  for name in $(printf '%s\n' "$@" | LC_ALL=C sort); do
    exec {folder}< "$top/crates/$name"
    wait_for "$folder" "another rt works in crates/$name"
    held+=("$folder")
  done
  for name in "$@"; do
    if is_ready "$name" && is_proved "$name"; then proved+=("$name"); else left+=("$name"); fi
  done
  prove "${left[@]}"
  for folder in "${held[@]}"; do exec {folder}<&-; done
}

# Proves what a crate stands on, as it is now. It leaves in "$crates" the crate and those below it, and tells no failure.
prove_below() {
  local lines name sorted=()
  proved=() told=() failed=
  mapfile -t crates < <(crates_of "$1")
  while read -r lines name; do chain[$name]=$lines sorted+=("$name"); done < <(by_chain "${crates[@]}")
  crates=("${sorted[@]}")
  prove_libraries "${crates[@]:0:${#crates[@]}-1}"
}

# Tells which crate failed, where one did, and the last lines that its prover wrote.
tell_failed() {
  [ -n "$failed" ] || return 0
  tell_over "the build failed; the last lines of $top/crates/$failed/build.log:"
  tail -n 20 "$top/crates/$failed/build.log" >&2
  return 1
}

# Proves a crate that no other stands on, over what it stands on, and builds it, as this file.
prove_and_build() {
  local crates start=$SECONDS
  prove_below "$1"
  [ -n "$failed" ] || prove "$1"
  if [ -z "$failed" ] && [ ! -f "$2" ]; then failed=$1; fi
  tell_failed || return 1
  touch "$2"
  tell_over "built in $(minutes_and_seconds $((SECONDS - start)))"
}

# Builds this file of that crate, where its sources are newer, unless another build did meanwhile. First it tells the
# rest of its words, a line each, in which @TIME@ is how long a first build takes.
build() {
  local crates line name=$1 file=$2
  mapfile -t crates < <(crates_of "$name")
  is_stale "$file" "${crates[@]}" || return 0
  command -v rt > /dev/null || { tell "the toolchain's command, rt, is not on the path"; return 1; }
  trap 'end_build 129' HUP
  trap 'end_build 130' INT
  trap 'end_build 143' TERM
  exec 9> "$program/build.lock"
  wait_for 9 "another build runs in $top"
  if is_stale "$file" "${crates[@]}"; then
    for line in "${@:3}"; do tell "${line/@TIME@/$(likely "${first_build[@]}")}"; done
    prove_and_build "$name" "$file" || return 1
  fi
  exec 9>&-
  trap - HUP INT TERM
}

build_heavy() {
  build heavy_cli "$built" "proving and building the program, once and after each change of its sources" \
    "a first build takes @TIME@; crates/*/build.log have its lines"
}

# Builds the program of a crate that the tests run.
build_program() {
  if [ "$1" = heavy_cli ]; then
    build_heavy
  else
    build "$1" "$(program_of "$1")" "proving and building $1 for the tests; crates/*/build.log have its lines"
  fi
}
