# Completion for the command daidalus, in bash.
_daidalus() {
  local word=${COMP_WORDS[COMP_CWORD]} before=${COMP_WORDS[COMP_CWORD - 1]} task=${COMP_WORDS[1]} options
  COMPREPLY=()
  if [ "$COMP_CWORD" -eq 1 ]; then
    mapfile -t COMPREPLY < <(compgen -W "replay exercise judge" -- "$word")
    return
  fi
  case $before in
  --config | --states)
    compopt -o filenames 2>/dev/null || true
    mapfile -t COMPREPLY < <(compgen -f -- "$word")
    return
    ;;
  --workers | --ahead | --seed | --moments) return ;;
  esac
  case $task in
  replay) options="--config --workers --ahead" ;;
  exercise) options="--config --seed --moments --workers" ;;
  judge) options="--config --states --workers" ;;
  *) return ;;
  esac
  mapfile -t COMPREPLY < <(compgen -W "$options" -- "$word")
}
complete -F _daidalus daidalus ./daidalus
