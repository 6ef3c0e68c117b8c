# Completions of race and its companions for bash. Made by tools/completions from the help. Do not edit.

_race() {
  local word=${COMP_WORDS[COMP_CWORD]} before=${COMP_WORDS[COMP_CWORD-1]} command=${1##*/}
  if [[ $command == race && $COMP_CWORD -gt 1 && ${COMP_WORDS[1]} == @(order|check|verify|replay|serialise|list|fix|missing) ]]; then
    command="race ${COMP_WORDS[1]}"
  fi
  COMPREPLY=()
  case $command in
  'race')
    case $word in -*) mapfile -t COMPREPLY < <(compgen -W "-h --help -V --version" -- "$word"); return ;; esac
    mapfile -t COMPREPLY < <(compgen -W "order check verify replay serialise list fix missing" -- "$word") ;;
  'race order')
    case $before in
      --makefile) mapfile -t COMPREPLY < <(compgen -f -- "$word"); return ;;
      --listing) mapfile -t COMPREPLY < <(compgen -f -- "$word"); return ;;
      --root) mapfile -t COMPREPLY < <(compgen -d -- "$word"); return ;;
      --base) mapfile -t COMPREPLY < <(compgen -f -- "$word"); return ;;
      --includes) mapfile -t COMPREPLY < <(compgen -f -- "$word"); return ;;
    esac
    case $word in -*) mapfile -t COMPREPLY < <(compgen -W "--makefile --listing --root --base --posix-base --includes --quiet -h --help" -- "$word"); return ;; esac
    mapfile -t COMPREPLY < <(compgen -f -- "$word") ;;
  'race check')
    case $before in
      --makefile) mapfile -t COMPREPLY < <(compgen -f -- "$word"); return ;;
      --listing) mapfile -t COMPREPLY < <(compgen -f -- "$word"); return ;;
      --root) mapfile -t COMPREPLY < <(compgen -d -- "$word"); return ;;
      --base) mapfile -t COMPREPLY < <(compgen -f -- "$word"); return ;;
      --includes) mapfile -t COMPREPLY < <(compgen -f -- "$word"); return ;;
      --footprints) mapfile -t COMPREPLY < <(compgen -f -- "$word"); return ;;
      --tasks) mapfile -t COMPREPLY < <(compgen -f -- "$word"); return ;;
    esac
    case $word in -*) mapfile -t COMPREPLY < <(compgen -W "--makefile --listing --root --base --posix-base --includes --quiet --footprints --strict --tasks --print-proof --short -h --help" -- "$word"); return ;; esac
    mapfile -t COMPREPLY < <(compgen -f -- "$word") ;;
  'race verify')
    case $before in
      --makefile) mapfile -t COMPREPLY < <(compgen -f -- "$word"); return ;;
      --listing) mapfile -t COMPREPLY < <(compgen -f -- "$word"); return ;;
      --root) mapfile -t COMPREPLY < <(compgen -d -- "$word"); return ;;
      --base) mapfile -t COMPREPLY < <(compgen -f -- "$word"); return ;;
      --includes) mapfile -t COMPREPLY < <(compgen -f -- "$word"); return ;;
      --footprints) mapfile -t COMPREPLY < <(compgen -f -- "$word"); return ;;
      --tasks) mapfile -t COMPREPLY < <(compgen -f -- "$word"); return ;;
      --proof) mapfile -t COMPREPLY < <(compgen -f -- "$word"); return ;;
    esac
    case $word in -*) mapfile -t COMPREPLY < <(compgen -W "--makefile --listing --root --base --posix-base --includes --quiet --footprints --strict --tasks --proof --short -h --help" -- "$word"); return ;; esac
    mapfile -t COMPREPLY < <(compgen -f -- "$word") ;;
  'race replay')
    case $before in
      --makefile) mapfile -t COMPREPLY < <(compgen -f -- "$word"); return ;;
      --listing) mapfile -t COMPREPLY < <(compgen -f -- "$word"); return ;;
      --root) mapfile -t COMPREPLY < <(compgen -d -- "$word"); return ;;
      --base) mapfile -t COMPREPLY < <(compgen -f -- "$word"); return ;;
      --includes) mapfile -t COMPREPLY < <(compgen -f -- "$word"); return ;;
      --footprints) mapfile -t COMPREPLY < <(compgen -f -- "$word"); return ;;
      --log) mapfile -t COMPREPLY < <(compgen -f -- "$word"); return ;;
      --limit) COMPREPLY=(); return ;;
    esac
    case $word in -*) mapfile -t COMPREPLY < <(compgen -W "--makefile --listing --root --base --posix-base --includes --quiet --footprints --strict --log --limit --tie -h --help" -- "$word"); return ;; esac
    mapfile -t COMPREPLY < <(compgen -f -- "$word") ;;
  'race serialise')
    case $before in
      --makefile) mapfile -t COMPREPLY < <(compgen -f -- "$word"); return ;;
      --listing) mapfile -t COMPREPLY < <(compgen -f -- "$word"); return ;;
      --root) mapfile -t COMPREPLY < <(compgen -d -- "$word"); return ;;
      --base) mapfile -t COMPREPLY < <(compgen -f -- "$word"); return ;;
      --includes) mapfile -t COMPREPLY < <(compgen -f -- "$word"); return ;;
      --footprints) mapfile -t COMPREPLY < <(compgen -f -- "$word"); return ;;
      --log) mapfile -t COMPREPLY < <(compgen -f -- "$word"); return ;;
      --limit) COMPREPLY=(); return ;;
    esac
    case $word in -*) mapfile -t COMPREPLY < <(compgen -W "--makefile --listing --root --base --posix-base --includes --quiet --footprints --strict --log --limit --tie -h --help" -- "$word"); return ;; esac
    mapfile -t COMPREPLY < <(compgen -f -- "$word") ;;
  'race list')
    case $before in
      --makefile) mapfile -t COMPREPLY < <(compgen -f -- "$word"); return ;;
      --listing) mapfile -t COMPREPLY < <(compgen -f -- "$word"); return ;;
      --root) mapfile -t COMPREPLY < <(compgen -d -- "$word"); return ;;
      --base) mapfile -t COMPREPLY < <(compgen -f -- "$word"); return ;;
      --includes) mapfile -t COMPREPLY < <(compgen -f -- "$word"); return ;;
      --footprints) mapfile -t COMPREPLY < <(compgen -f -- "$word"); return ;;
      --tasks) mapfile -t COMPREPLY < <(compgen -f -- "$word"); return ;;
    esac
    case $word in -*) mapfile -t COMPREPLY < <(compgen -W "--makefile --listing --root --base --posix-base --includes --quiet --footprints --strict --tasks -h --help" -- "$word"); return ;; esac
    mapfile -t COMPREPLY < <(compgen -f -- "$word") ;;
  'race fix')
    case $before in
      --makefile) mapfile -t COMPREPLY < <(compgen -f -- "$word"); return ;;
      --listing) mapfile -t COMPREPLY < <(compgen -f -- "$word"); return ;;
      --root) mapfile -t COMPREPLY < <(compgen -d -- "$word"); return ;;
      --base) mapfile -t COMPREPLY < <(compgen -f -- "$word"); return ;;
      --includes) mapfile -t COMPREPLY < <(compgen -f -- "$word"); return ;;
      --footprints) mapfile -t COMPREPLY < <(compgen -f -- "$word"); return ;;
      --tasks) mapfile -t COMPREPLY < <(compgen -f -- "$word"); return ;;
    esac
    case $word in -*) mapfile -t COMPREPLY < <(compgen -W "--makefile --listing --root --base --posix-base --includes --quiet --footprints --strict --tasks --print-proof -h --help" -- "$word"); return ;; esac
    mapfile -t COMPREPLY < <(compgen -f -- "$word") ;;
  'race missing')
    case $before in
      --makefile) mapfile -t COMPREPLY < <(compgen -f -- "$word"); return ;;
      --listing) mapfile -t COMPREPLY < <(compgen -f -- "$word"); return ;;
      --root) mapfile -t COMPREPLY < <(compgen -d -- "$word"); return ;;
      --base) mapfile -t COMPREPLY < <(compgen -f -- "$word"); return ;;
      --includes) mapfile -t COMPREPLY < <(compgen -f -- "$word"); return ;;
      --footprints) mapfile -t COMPREPLY < <(compgen -f -- "$word"); return ;;
      --tasks) mapfile -t COMPREPLY < <(compgen -f -- "$word"); return ;;
    esac
    case $word in -*) mapfile -t COMPREPLY < <(compgen -W "--makefile --listing --root --base --posix-base --includes --quiet --footprints --strict --tasks -h --help" -- "$word"); return ;; esac
    mapfile -t COMPREPLY < <(compgen -f -- "$word") ;;
  'race-confirm')
    case $before in
      --runs) COMPREPLY=(); return ;;
      --schedule) COMPREPLY=(); return ;;
      --prepare) COMPREPLY=(); return ;;
      --keep) mapfile -t COMPREPLY < <(compgen -d -- "$word"); return ;;
      --race) mapfile -t COMPREPLY < <(compgen -f -- "$word"); return ;;
    esac
    case $word in -*) mapfile -t COMPREPLY < <(compgen -W "-h --help --runs --schedule --prepare --keep --race -V --version" -- "$word"); return ;; esac
    mapfile -t COMPREPLY < <(compgen -d -- "$word") ;;
  'race-explain')
    case $word in -*) mapfile -t COMPREPLY < <(compgen -W "-h --help -V --version" -- "$word"); return ;; esac
    mapfile -t COMPREPLY < <(compgen -W "$(race-explain 2>/dev/null | sed 's/  .*//')" -- "$word") ;;
  'race-record')
    case $before in
      -o|--output) mapfile -t COMPREPLY < <(compgen -d -- "$word"); return ;;
      --race) mapfile -t COMPREPLY < <(compgen -f -- "$word"); return ;;
      --top) mapfile -t COMPREPLY < <(compgen -d -- "$word"); return ;;
      --from) mapfile -t COMPREPLY < <(compgen -f -- "$word"); return ;;
      --setup) COMPREPLY=(); return ;;
      --orders) COMPREPLY=(); return ;;
    esac
    case $word in -*) mapfile -t COMPREPLY < <(compgen -W "-h --help -o --output --race --top --warm --fresh --from --setup --keep-trace --footprints --strict --orders --once --missing -V --version" -- "$word"); return ;; esac
    mapfile -t COMPREPLY < <(compgen -c -- "$word") ;;
  'race-report')
    case $before in
      --format) mapfile -t COMPREPLY < <(compgen -W "github gitlab html json patch sarif text" -- "$word"); return ;;
      -o|--output) mapfile -t COMPREPLY < <(compgen -f -- "$word"); return ;;
      --baseline) mapfile -t COMPREPLY < <(compgen -f -- "$word"); return ;;
      --race) mapfile -t COMPREPLY < <(compgen -f -- "$word"); return ;;
    esac
    case $word in -*) mapfile -t COMPREPLY < <(compgen -W "-h --help --format -o --output --baseline --all --race -V --version" -- "$word"); return ;; esac
    mapfile -t COMPREPLY < <(compgen -d -- "$word") ;;
  esac
}
complete -o filenames -F _race race race-confirm race-explain race-record race-report
