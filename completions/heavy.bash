# bash completion of heavy; installed as share/bash-completion/completions/heavy
_heavy() {
  local cur=${COMP_WORDS[COMP_CWORD]} prev=${COMP_WORDS[COMP_CWORD-1]} options=
  local commands='report top summarise table merge ask list describe condense confirm help'
  COMPREPLY=()
  if ((COMP_CWORD == 1)); then
    mapfile -t COMPREPLY < <(compgen -W "$commands -h --help -V --version" -- "$cur")
    return
  fi
  case $prev in
    --method) mapfile -t COMPREPLY < <(compgen -W 'mg ss' -- "$cur"); return ;;
    --output) mapfile -t COMPREPLY < <(compgen -W 'csv tsv json' -- "$cur"); return ;;
    --tree) mapfile -t COMPREPLY < <(compgen -W 'balanced chain' -- "$cur"); return ;;
    -k | --k | -t | --threshold | -n | --top | -d | --delimiter | --key | --weight | --bad-as | --decimals | --until | --prefix | --workers | --memory | --pieces | --width | --depth | --seed) return ;;
  esac
  case ${COMP_WORDS[1]} in
    report) options='-k --k -t --threshold -n --top --share --output --names -o --out --once --explain --progress -h --help -d --delimiter -H --header --key --weight --allow-zero --bad-as --decimals --until --prefix --no-quotes --squeeze --lines --json --workers --memory --pieces --tree --width --depth --seed' ;;
    top) options='--share --output --names -o --out --workers --memory --explain --progress -h --help -d --delimiter -H --header --key --weight --allow-zero --bad-as --decimals --until --prefix --no-quotes --squeeze --lines --json' ;;
    summarise) options='-k --k --method --workers -o --out --explain --progress -h --help -d --delimiter -H --header --key --weight --allow-zero --bad-as --decimals --until --prefix --no-quotes --squeeze --lines --json' ;;
    table) options='--width --depth --seed --workers -o --out --explain --progress -h --help -d --delimiter -H --header --key --weight --allow-zero --bad-as --decimals --until --prefix --no-quotes --squeeze --lines --json' ;;
    merge) options='-o --out --explain -h --help' ;;
    ask) options='--decimals --output --names -o --out --explain -h --help' ;;
    list) options='--decimals --output --names -o --out --explain -h --help' ;;
    describe) options='--output --names -o --out --explain -h --help' ;;
    condense) options='--output --names -o --out --workers --explain --progress -h --help -d --delimiter -H --header --key --weight --allow-zero --bad-as --decimals --until --prefix --no-quotes --squeeze --lines --json' ;;
    confirm) options='-t --threshold -n --top --share --output --names -o --out --workers --explain --progress -h --help -d --delimiter -H --header --key --weight --allow-zero --bad-as --decimals --until --prefix --no-quotes --squeeze --lines --json' ;;
    help) mapfile -t COMPREPLY < <(compgen -W "$commands" -- "$cur"); return ;;
  esac
  case $cur in
    -*) mapfile -t COMPREPLY < <(compgen -W "$options" -- "$cur") ;;
    *)
      compopt -o filenames 2> /dev/null
      mapfile -t COMPREPLY < <(compgen -f -- "$cur")
      ;;
  esac
}
complete -F _heavy heavy
