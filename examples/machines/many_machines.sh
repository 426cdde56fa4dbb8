#!/bin/sh
# The report of `heavy report` over the records of parts that lie on many machines, each of which ssh reaches and has `heavy`
# on its path. GNU parallel runs each round on all parts side by side. A part whose machine can't be reached is tried up to
# three times.
#
# usage: many_machines.sh [OPTION]... K HOST:PATH...
#
# An option is one of `heavy report` that says how records are read or which rows are printed; -k N stands for K.
set -eu
usage="usage: many_machines.sh [OPTION]... K HOST:PATH..."
# shellcheck source=examples/machines/options.sh
. "$(dirname "$(readlink -f "$0")")/options.sh"
[ $# -ge 1 ] || refused
for part; do
  case $part in -* | :*) refused ;; *:*) ;; *) refused ;; esac
done
try_options
room=$(mktemp -d)
trap 'rm -rf "$room"' EXIT
# read by the shell of each job, whatever the name of the folder
export room
host='{= s/:.*//s =}'
# quoted by Q for the shell of the other machine
# shellcheck disable=SC2016
path='{= s/^[^:]*://s; $_ = Q($_) =}'

# Runs a command up to three times, from a file to a file: ssh ends with 255 where a machine can't be reached, and what ends
# with 1 (a device) or 4 (memory) can pass too. What a try wrote is gone when the next begins.
cat > "$room/tried" << 'END'
from=$1
to=$2
shift 2
for _ in 1 2 3; do
  status=0
  "$@" < "$from" > "$to" || status=$?
  case $status in 1 | 4 | 255) ;; *) break ;; esac
done
exit "$status"
END
# shellcheck disable=SC2016
tried='sh "$room"/tried'

# read by the shell of each job, and handed to the shell of the other machine
export summarise="heavy summarise $of_summarise<"
parallel --halt now,fail=1 "$tried /dev/null \"\$room\"/{#}.heavy ssh $host \"\$summarise\" $path" ::: "$@" < /dev/null
heavy merge "$room"/*.heavy > "$room/all.merged"

# on the machine of a part: the summary is kept while it is needed, and its checksum is compared first
sum=$(sha256sum < "$room/all.merged" | cut -c -64)
# shellcheck disable=SC2016
given='all=$(mktemp) && trap "rm -f \"$all\"" EXIT && cat > "$all" && { echo "'$sum'  $all" | sha256sum --check --quiet || exit 3; }'
export condense="$given && heavy condense $of_condense\"\$all\" <"
parallel --halt now,fail=1 "$tried \"\$room\"/all.merged \"\$room\"/{#}.condensed ssh $host \"\$condense\" $path" ::: "$@"
cat "$room"/*.condensed | eval "heavy confirm $of_confirm\"\$room/all.merged\""
