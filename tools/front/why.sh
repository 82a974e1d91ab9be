# shellcheck shell=bash disable=SC2154,SC2034
# What the script daidalus, which sources this file, says of the program's end and of command words. The program alone decides
# which words are accepted.

# Whether a word asks for help: WORDS..
has_help() {
  local word
  for word in "$@"; do [[ $word != --help && $word != -h ]] || return 0; done
  return 1
}

# Prints the value of an option: NAME WORDS..
value_of() {
  local name=$1
  shift
  while [ $# -gt 0 ]; do
    case $1 in
    "--$name") printf '%s' "${2-}" && return ;;
    "--$name="*) printf '%s' "${1#*=}" && return ;;
    esac
    shift
  done
}

# Whether a text is a whole number in a range: TEXT LEAST MOST
is_number() {
  local digits
  [[ $1 =~ ^\+?0*([0-9]{1,10})$ ]] || return
  digits=${BASH_REMATCH[1]}
  [ "$digits" -ge "$2" ] && [ "$digits" -le "$3" ]
}

# Prints what is wrong with an option's value, or nothing if it is accepted: NAME VALUE
fault_of_value() {
  case $1 in
  workers) is_number "$2" 1 16 || echo "--$1 must be 1 to 16, not $(printf %q "$2")" ;;
  ahead) is_number "$2" 0 1024 || echo "--$1 must be 0 to 1024, not $(printf %q "$2")" ;;
  seed) is_number "$2" 0 4294967295 || echo "--$1 must be 0 to 4294967295, not $(printf %q "$2")" ;;
  moments) is_number "$2" 1 10000 || echo "--$1 must be 1 to 10000, not $(printf %q "$2")" ;;
  esac
}

# Prints the first fault of the words after the task: TAKEN NEEDED WORDS.. (TAKEN and NEEDED are lists of options)
fault_of_options() {
  local taken=" $1 " needed=$2 seen=' ' word name value fault
  shift 2
  while [ $# -gt 0 ]; do
    word=$1 name=${1%%=*} name=${name#--}
    shift
    [ "$word" = -- ] && [ $# -eq 0 ] && break
    [[ $word == --* && $taken == *" $name "* ]] || { echo "the word $(printf %q "$word") is not allowed there" && return; }
    [[ $seen == *" $name "* ]] && echo "--$name is given twice" && return
    seen+="$name "
    if [[ $word == *=* ]]; then
      value=${word#*=}
    else
      [[ $# -gt 0 && $1 != -?* ]] || { echo "--$name has no value${1:+ ($(printf %q "$1") is not one)}" && return; }
      value=$1
      shift
    fi
    fault=$(fault_of_value "$name" "$value")
    [ -z "$fault" ] || { echo "$fault" && return; }
  done
  for name in $needed; do
    [[ $seen == *" $name "* ]] || { echo "--$name is missing" && return; }
  done
  echo "these command words are not accepted"
}

# Prints the first fault of the command words: WORDS..
fault_of_words() {
  local word
  for word in "$@"; do
    printf %s "$word" | iconv -f UTF-8 -t UTF-8 >/dev/null 2>&1
    [ $? -ne 1 ] || { echo "the word $(printf %q "$word") is not UTF-8" && return; }
  done
  case ${1-} in
  replay) fault_of_options "config workers ahead" "config" "${@:2}" ;;
  exercise) fault_of_options "config seed moments workers" "config seed moments" "${@:2}" ;;
  judge) fault_of_options "config states workers" "config states" "${@:2}" ;;
  '') echo "there is no command word" ;;
  *) echo "the word $(printf %q "$1") is not replay, exercise or judge" ;;
  esac
}

# Prints the code of a refused configuration, if its file can be read once more: FILE
code_of() { [ ! -f "$1" ] || "$program" replay "--config=$1" </dev/null 2>/dev/null | sed -n 's/^config / with code /p'; }

# Prints a file's name in a form that can be pasted: FILE
shown() { if [ -n "$1" ]; then printf %q "$1"; else echo "a file without a name"; fi; }

# Prints which of these files cannot be read, or all of them if each can be read: FILE ..
unreadable() {
  local file found=()
  for file in "$@"; do [ -r "$file" ] && [ ! -d "$file" ] || found+=("$file"); done
  [ ${#found[@]} -gt 0 ] || found=("$@")
  echo "$(shown "${found[0]}")${found[1]+ or $(shown "${found[1]}")}"
}

# Says in one line why the program ended with a status from 1 to 9, and which section of docs/FORMATS.md says more: STATUS WORDS..
explain() {
  local status=$1 section=Statuses why config states files named
  shift
  config=$(value_of config "$@")
  states=$(value_of states "$@")
  named=$(shown "$config")
  case $status in
  1)
    # (a comparison itself says where the report differs)
    [ "$1" = replay ] || return
    why="lines of the states are refused: tools/check $named STATES says why" section='Faults of lines'
    ;;
  2) why="$(fault_of_words "$@"); daidalus --help lists what is accepted" section='Command words' ;;
  3) why="the configuration $named is refused$(code_of "$config"): tools/check $named says why" section=Configuration ;;
  4) why="standard input could not be read to its end" ;;
  5)
    # (a pipe accepts no more only if its reader has gone)
    [ ! -p /dev/fd/1 ] || return
    why="standard output could not be written"
    ;;
  6) why="there was not enough memory to start" ;;
  7)
    files=("$config")
    [ "$1" != judge ] || files+=("$states")
    why="$(unreadable "${files[@]}") cannot be read"
    ;;
  8) why="standard input has more than 2^40 bytes" ;;
  9) why="the states $(shown "$states") have more than 65536 bytes: judge parts that begin with a moment (after a line format if there was one), each with its report" section='Command words' ;;
  esac
  say "status $status: $why (docs/FORMATS.md, \"$section\")"
}
