# Completions of snowbench for bash. Made by tools/completions from tools/commands.txt: change that.
_snowbench() {
  local word=${COMP_WORDS[COMP_CWORD]} before=${COMP_WORDS[COMP_CWORD-1]} command=${COMP_WORDS[1]} options=""
  COMPREPLY=()
  if [ "$COMP_CWORD" -eq 1 ] || { [ "$COMP_CWORD" -eq 2 ] && [ "$command" = help ]; }; then
    mapfile -t COMPREPLY < <(compgen -W 'work run session stem filter check compare page report lsp help doctor --version --help' -- "$word")
    return
  fi
  case $command in
    work) options='--external --watch --color --no-pager --families --rows --text --from --stop --help' ;;
    run) options='--external --strict --as --help' ;;
    session) options='--external --strict --help' ;;
    stem) options='--external --help' ;;
    filter) options='--external --help' ;;
    check) options='--external --help' ;;
    compare) options='--external --rows --markdown --help' ;;
  esac
  case $before:$word in
    --external:*) ;;
    *:-*) mapfile -t COMPREPLY < <(compgen -W "$options" -- "$word") ;;
    *) case $command in work|run|session|stem|filter|check|compare|page|report) mapfile -t COMPREPLY < <(compgen -f -- "$word") ;; esac ;;
  esac
}
complete -o filenames -F _snowbench snowbench
