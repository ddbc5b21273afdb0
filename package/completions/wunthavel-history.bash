# Completion of wunthavel-history for bash: an action, then a folder and --sha256.
_wunthavel_history() {
  local word=${COMP_WORDS[COMP_CWORD]} action=${COMP_WORDS[1]}
  COMPREPLY=()
  if ((COMP_CWORD == 1)); then
    mapfile -t COMPREPLY < <(compgen -W 'create run check recover help --help --version' -- "$word")
    return
  fi
  case $action in
    create | run | check | recover)
      if [[ $word == -* ]]; then
        mapfile -t COMPREPLY < <(compgen -W '--sha256 --help' -- "$word")
      else
        compopt -o filenames
        mapfile -t COMPREPLY < <(compgen -d -- "$word")
      fi
      ;;
    help) mapfile -t COMPREPLY < <(compgen -W 'create run check recover' -- "$word") ;;
  esac
}
complete -F _wunthavel_history wunthavel-history
