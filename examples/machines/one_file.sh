#!/bin/sh
# The report of `heavy report` over one large file, whose parts are read side by side by GNU parallel: each part is
# summarised, the summaries are merged, each part is condensed by what was merged, and that is confirmed.
#
# usage: one_file.sh [OPTION]... K FILE
#
# An option is one of `heavy report` that says how records are read or which rows are printed; -k N stands for K.
# parallel cuts at line feeds, so no field of FILE may hold one. With --header each part is read behind FILE's first line.
set -eu
usage="usage: one_file.sh [OPTION]... K FILE"
# shellcheck source=examples/machines/options.sh
. "$(dirname "$(readlink -f "$0")")/options.sh"
[ $# -eq 1 ] || refused
try_options
file=$1
# parallel makes no part of an empty file, and cuts no pipe
[ -s "$file" ] || { eval "heavy report $of_report" < "$file"; exit; }
room=$(mktemp -d)
trap 'rm -rf "$room"' EXIT
# read by the shell of each job, whatever the name of the folder
export room
export summarise="heavy summarise $of_summarise"
export condense="heavy condense $of_condense\"\$room\"/all.merged"

# Runs a command on each part. A header may have empty lines before it.
in_parts() {
  parallel --halt now,fail=1 --pipepart --block -1 ${has_header:+--header '[\r\n]*[^\r\n]+[\r\n]'} -a "$file" "$1"
}

# shellcheck disable=SC2016
in_parts 'sh -c "$summarise" > "$room"/{#}.heavy'
if [ -e "$room/1.heavy" ]; then
  heavy merge "$room"/*.heavy > "$room/all.merged"
else
  # parallel makes no part of a header alone either
  eval "$summarise" < /dev/null > "$room/all.merged"
fi
# shellcheck disable=SC2016
in_parts 'sh -c "$condense"' > "$room/condensed"
eval "heavy confirm $of_confirm\"\$room/all.merged\"" < "$room/condensed"
