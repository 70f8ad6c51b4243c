# bash completion of eoscheck; made by tools/pages.py.
_eoscheck() {
  local word=${COMP_WORDS[COMP_CWORD]} before=${COMP_WORDS[COMP_CWORD - 1]}
  # bash takes --name=value for three words
  [ "$word" = = ] && word=
  [ "$before" = = ] && before=${COMP_WORDS[COMP_CWORD - 2]}
  COMPREPLY=()
  if [ "$COMP_CWORD" -eq 1 ]; then
    mapfile -t COMPREPLY < <(compgen -W 'check dump chain explain draw init coordinator fold simulate shrink help -h --help -V --version' -- "$word")
    return
  fi
  case ${COMP_WORDS[1]} in
  check)
    case $before in
    --workers)
      mapfile -t COMPREPLY < <(compgen -W '' -- "$word")
      return ;;
    --report)
      mapfile -t COMPREPLY < <(compgen -f -- "$word")
      return ;;
    --page)
      mapfile -t COMPREPLY < <(compgen -f -- "$word")
      return ;;
    --expect)
      mapfile -t COMPREPLY < <(compgen -W 'transactions= inputs= outputs=' -- "$word")
      return ;;
    esac
    case $word in
    -*) mapfile -t COMPREPLY < <(compgen -W '--workers --json --all --quiet --progress --report --page --force --strict --expect -h --help' -- "$word") ;;
    *) mapfile -t COMPREPLY < <(compgen -d -- "$word") ;;
    esac ;;
  dump)
    case $before in
    --as)
      mapfile -t COMPREPLY < <(compgen -W 'outputs transactions offsets' -- "$word")
      return ;;
    --from)
      mapfile -t COMPREPLY < <(compgen -W '' -- "$word")
      return ;;
    --to)
      mapfile -t COMPREPLY < <(compgen -W '' -- "$word")
      return ;;
    esac
    case $word in
    -*) mapfile -t COMPREPLY < <(compgen -W '--headers --decode --as --from --to -h --help' -- "$word") ;;
    *) mapfile -t COMPREPLY < <(compgen -f -- "$word") ;;
    esac ;;
  chain)
    case $before in
    esac
    case $word in
    -*) mapfile -t COMPREPLY < <(compgen -W '-h --help' -- "$word") ;;
    *) mapfile -t COMPREPLY < <(compgen -f -- "$word") ;;
    esac ;;
  explain)
    case $before in
    --code)
      mapfile -t COMPREPLY < <(compgen -W '' -- "$word")
      return ;;
    --fault)
      mapfile -t COMPREPLY < <(compgen -W '' -- "$word")
      return ;;
    --workers)
      mapfile -t COMPREPLY < <(compgen -W '' -- "$word")
      return ;;
    esac
    case $word in
    -*) mapfile -t COMPREPLY < <(compgen -W '--code --fault --workers -h --help' -- "$word") ;;
    *) mapfile -t COMPREPLY < <(compgen -d -- "$word") ;;
    esac ;;
  draw)
    case $before in
    --fault)
      mapfile -t COMPREPLY < <(compgen -W '' -- "$word")
      return ;;
    --around)
      mapfile -t COMPREPLY < <(compgen -W '' -- "$word")
      return ;;
    esac
    case $word in
    -*) mapfile -t COMPREPLY < <(compgen -W '--fault --around -h --help' -- "$word") ;;
    *) mapfile -t COMPREPLY < <(compgen -d -- "$word") ;;
    esac ;;
  init)
    case $before in
    --app)
      mapfile -t COMPREPLY < <(compgen -W '' -- "$word")
      return ;;
    --ends)
      mapfile -t COMPREPLY < <(compgen -f -- "$word")
      return ;;
    esac
    case $word in
    -*) mapfile -t COMPREPLY < <(compgen -W '--version1 --app --ends --ends-from-logs -h --help' -- "$word") ;;
    *) mapfile -t COMPREPLY < <(compgen -d -- "$word") ;;
    esac ;;
  coordinator)
    case $before in
    --partitions)
      mapfile -t COMPREPLY < <(compgen -W '' -- "$word")
      return ;;
    esac
    case $word in
    -*) mapfile -t COMPREPLY < <(compgen -W '--partitions -h --help' -- "$word") ;;
    *) mapfile -t COMPREPLY < <(compgen -W '' -- "$word") ;;
    esac ;;
  fold)
    case $before in
    --verify)
      mapfile -t COMPREPLY < <(compgen -d -- "$word")
      return ;;
    --manifest)
      mapfile -t COMPREPLY < <(compgen -f -- "$word")
      return ;;
    --out)
      mapfile -t COMPREPLY < <(compgen -d -- "$word")
      return ;;
    esac
    case $word in
    -*) mapfile -t COMPREPLY < <(compgen -W '--verify --manifest --out -h --help' -- "$word") ;;
    *) mapfile -t COMPREPLY < <(compgen -d -- "$word") ;;
    esac ;;
  simulate)
    case $before in
    --seed)
      mapfile -t COMPREPLY < <(compgen -W '' -- "$word")
      return ;;
    --events)
      mapfile -t COMPREPLY < <(compgen -W '' -- "$word")
      return ;;
    --applications)
      mapfile -t COMPREPLY < <(compgen -W '' -- "$word")
      return ;;
    --inputs)
      mapfile -t COMPREPLY < <(compgen -W '' -- "$word")
      return ;;
    --outputs)
      mapfile -t COMPREPLY < <(compgen -W '' -- "$word")
      return ;;
    --transaction-logs)
      mapfile -t COMPREPLY < <(compgen -W '' -- "$word")
      return ;;
    --segment-records)
      mapfile -t COMPREPLY < <(compgen -W '' -- "$word")
      return ;;
    --batch-records)
      mapfile -t COMPREPLY < <(compgen -W '' -- "$word")
      return ;;
    --lose)
      mapfile -t COMPREPLY < <(compgen -W '' -- "$word")
      return ;;
    --repeat)
      mapfile -t COMPREPLY < <(compgen -W '' -- "$word")
      return ;;
    --abandon)
      mapfile -t COMPREPLY < <(compgen -W '' -- "$word")
      return ;;
    --members)
      mapfile -t COMPREPLY < <(compgen -W '' -- "$word")
      return ;;
    --restart-broker)
      mapfile -t COMPREPLY < <(compgen -W '' -- "$word")
      return ;;
    --restart-coordinator)
      mapfile -t COMPREPLY < <(compgen -W '' -- "$word")
      return ;;
    --abort)
      mapfile -t COMPREPLY < <(compgen -W '' -- "$word")
      return ;;
    --time-out)
      mapfile -t COMPREPLY < <(compgen -W '' -- "$word")
      return ;;
    --add-partition)
      mapfile -t COMPREPLY < <(compgen -W '' -- "$word")
      return ;;
    --late-complete)
      mapfile -t COMPREPLY < <(compgen -W '' -- "$word")
      return ;;
    --elect)
      mapfile -t COMPREPLY < <(compgen -W '' -- "$word")
      return ;;
    --switch)
      mapfile -t COMPREPLY < <(compgen -W 'keep-duplicates no-fence no-bump lose-marker swap-marker hide-listing ignore-generation' -- "$word")
      return ;;
    --switch-at)
      mapfile -t COMPREPLY < <(compgen -W '' -- "$word")
      return ;;
    --mishap)
      mapfile -t COMPREPLY < <(compgen -W '' -- "$word")
      return ;;
    --collect)
      mapfile -t COMPREPLY < <(compgen -W '' -- "$word")
      return ;;
    --history)
      mapfile -t COMPREPLY < <(compgen -f -- "$word")
      return ;;
    --labels)
      mapfile -t COMPREPLY < <(compgen -f -- "$word")
      return ;;
    --schedule)
      mapfile -t COMPREPLY < <(compgen -f -- "$word")
      return ;;
    --count)
      mapfile -t COMPREPLY < <(compgen -W '' -- "$word")
      return ;;
    --every)
      mapfile -t COMPREPLY < <(compgen -W '' -- "$word")
      return ;;
    esac
    case $word in
    -*) mapfile -t COMPREPLY < <(compgen -W '--seed --events --applications --inputs --outputs --transaction-logs --segment-records --batch-records --chain --lose --repeat --abandon --members --restart-broker --restart-coordinator --abort --time-out --add-partition --late-complete --elect --links --switch --switch-at --no-tail --mishap --stop-anywhere --collect --history --labels --schedule --count --swarm --every --progress -h --help' -- "$word") ;;
    *) mapfile -t COMPREPLY < <(compgen -d -- "$word") ;;
    esac ;;
  shrink)
    case $before in
    --fault)
      mapfile -t COMPREPLY < <(compgen -W '' -- "$word")
      return ;;
    esac
    case $word in
    -*) mapfile -t COMPREPLY < <(compgen -W '--fault -h --help' -- "$word") ;;
    *) mapfile -t COMPREPLY < <(compgen -d -- "$word") ;;
    esac ;;
  esac
}
complete -o filenames -F _eoscheck eoscheck
