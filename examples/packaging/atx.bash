# Completion of atx's words in bash: put it into /usr/share/bash-completion/completions/atx, or read it by `. atx.bash`.
_atx() {
  local word=${COMP_WORDS[COMP_CWORD]} before=${COMP_WORDS[COMP_CWORD-1]}
  local commands='cell check replay audit journal make tick coordinator participant initiator help'
  local options
  case $before in
    --journal) COMPREPLY=($(compgen -f -- "$word")); return ;;
    --state) options='None Registering Active Preparing Prepared PreparedSuccess Committing Aborting Completing Done' ;;
    --listen) options='127.0.0.1:9001' ;;
    --base | --to | --hex) options='http://' ;;
    --path | --seed | --steps | --turns) return ;;
    *)
      case ${COMP_WORDS[1]} in
        cell) options='--state --help' ;;
        check) options='--path --help' ;;
        replay) options='--settle --bytes --help' ;;
        audit) options='--help' ;;
        journal) options="--hex --help $(compgen -f -- "$word")" ;;
        make) options='--seed --steps --help' ;;
        tick) options='--to --help' ;;
        coordinator | participant | initiator) options='--listen --base --journal --turns --log --status --tick-from-anywhere --help' ;;
        help) options=$commands ;;
        *) options="$commands --help --version" ;;
      esac
      ;;
  esac
  [ "$COMP_CWORD" -eq 1 ] && options="$commands --help --version"
  COMPREPLY=($(compgen -W "$options" -- "$word"))
}
complete -F _atx atx ./atx
