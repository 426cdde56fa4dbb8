# shellcheck shell=sh
# shellcheck disable=SC2034 # what it sets is for the script that reads it
# The scripts beside this file read it by `.`, after they have set `usage`. It takes the options and K away, leaves the parts
# in "$@", and shares the options out among the program's commands, as words for a shell:
#
#   of_report     all
#   of_summarise  the number of counters, and how records are read
#   of_condense   how records are read
#   of_confirm    which rows are printed, and the number of decimals: condensed parts are rows `key,weight`
#   has_header    yes where the first record names the columns, else nothing

refused() {
  echo "${usage:?}" >&2
  exit 2
}

# Ends the script where the program refuses an option. Of no records there are no rows.
try_options() {
  eval "heavy report $of_report" < /dev/null
}

# Prints words as a shell reads them.
quoted() {
  for word; do
    printf "'%s' " "$(printf %s "$word" | sed "s/'/'\\\\''/g")"
  done
}

k='' rows='' decimals='' of_condense='' has_header=''
while [ $# -gt 0 ]; do
  count=1
  case $1 in
    -k | --k | -t | --threshold | -n | --top | -d | --delimiter | --key | --weight | --decimals | --until | --prefix | --bad-as) count=2 ;;
    -[ktnd]?* | --k=* | --threshold=* | --top=* | --delimiter=* | --key=* | --weight=* | --decimals=* | --until=* | --prefix=* | --bad-as=*) ;;
    -H | --header | --allow-zero | --share | --no-quotes | --squeeze | --lines | --json) ;;
    -H*)
      # other letters behind one that takes no value
      letters=${1#-H}
      shift
      set -- -H "-$letters" "$@"
      continue
      ;;
    --)
      shift
      break
      ;;
    -*) refused ;;
    *) break ;;
  esac
  [ $# -ge $count ] || refused
  option=$(if [ $count = 2 ]; then quoted "$1" "$2"; else quoted "$1"; fi)
  case $1 in
    -k* | --k | --k=*) k=$k$option ;;
    -t* | --threshold* | -n* | --top* | --share) rows=$rows$option ;;
    --decimals*) decimals=$decimals$option ;;
    -H | --header) of_condense=$of_condense$option has_header=yes ;;
    *) of_condense=$of_condense$option ;;
  esac
  shift $count
done
if [ -z "$k" ]; then
  [ $# -gt 0 ] || refused
  k=$(quoted --k "$1")
  shift
fi
of_condense=$of_condense$decimals
of_summarise=$k$of_condense
of_report=$of_summarise$rows
# by an option of records, a key outside its bounds is refused: a part was changed between the rounds
of_confirm="$rows$decimals--delimiter , "
