# Completion of the words of tableau-tools in bash, made by docs/completions.
_tableau_tools() {
  local word=${COMP_WORDS[COMP_CWORD]} before=${COMP_WORDS[COMP_CWORD - 1]} command=${COMP_WORDS[1]}
  local words='' files='' place=0 at
  COMPREPLY=()
  # how many arguments are before the word
  for ((at = 2; at < COMP_CWORD; at++)); do
    case $command,${COMP_WORDS[at]} in
      table,--by | table,--tick | chart,--by | chart,--cores | chart,--vcpus | chart,--from | chart,--to | chart,--width | chart,--tick | diff,--by | diff,--tick | report,--old | export,--tick | export,--first-cpu | export,--cpus | export,--map | judge,--window | judge,--plan | host,--cores | host,--tick | fit,--cores | fit,--tick | place,--hosts | place,--cores | place,--kinds | place,--stay | place,--host | place,--tick) ((at++)) ;;
      *,-?*) ;;
      *) ((place++)) ;;
    esac
  done
  if [ "$COMP_CWORD" -eq 1 ]; then
    words='table chart diff report export judge sections host fit place --help --version'
  else
    case $command,$before in
      table,--by) words='vcpu vm' ;;
      chart,--by) words='core vcpu' ;;
      diff,--by) words='vcpu vm' ;;
      report,--old) files=yes ;;
      export,--map) files=yes ;;
      judge,--plan) files=yes ;;
      place,--kinds) files=yes ;;
      place,--stay) files=yes ;;
      table,--tick | chart,--cores | chart,--vcpus | chart,--from | chart,--to | chart,--width | chart,--tick | diff,--tick | export,--tick | export,--first-cpu | export,--cpus | judge,--window | host,--cores | host,--tick | fit,--cores | fit,--tick | place,--hosts | place,--cores | place,--host | place,--tick) ;;
      *)
        case $command,$word in
          table,-*) words='--by --json --csv --tick --help' ;;
          chart,-*) words='--text --by --cores --vcpus --from --to --width --tick --help' ;;
          diff,-*) words='--by --json --csv --tick --help' ;;
          report,-*) words='--old --help' ;;
          export,-*) words='--tick --first-cpu --cpus --full --map --help' ;;
          judge,-*) words='--window --plan --json --help' ;;
          sections,-*) words='--help' ;;
          host,-*) words='--cores --tick --empty --help' ;;
          fit,-*) words='--cores --tick --no-split --empty --help' ;;
          place,-*) words='--hosts --cores --kinds --stay --host --documents --summary --spread --no-split --tick --empty --help' ;;
          *)
            case $command,$place in
              table,0) files=yes ;;
              chart,0) files=yes ;;
              diff,0) files=yes ;;
              diff,1) files=yes ;;
              report,0) files=yes ;;
              export,0) words='csv chrome json rtds deadline cgroup libvirt scx judge' ;;
              export,1) files=yes ;;
              judge,0) files=yes ;;
              judge,1) files=yes ;;
              sections,*) files=yes ;;
            esac
            ;;
        esac
        ;;
    esac
  fi
  if [ -n "$words" ]; then
    mapfile -t COMPREPLY < <(compgen -W "$words" -- "$word")
  elif [ -n "$files" ]; then
    mapfile -t COMPREPLY < <(compgen -f -- "$word")
  fi
}
complete -o filenames -F _tableau_tools tableau-tools
