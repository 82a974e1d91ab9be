# shellcheck shell=bash disable=SC2154,SC2034
# How the script daidalus, which sources this file, proves and builds the program.

log=$home/out/build.log
install="install the toolchain (docs/CONTRIBUTING.md), or add its folder bin to the PATH"

# Prints the lines of the log by which tools/prove says that it has ended a crate.
ended_crates() { grep -xF "${crates[@]/#/-eproved }" "$log"; }

# Reports each crate that has ended since the last call. On a terminal one line is rewritten.
tell_progress() {
  local ended
  mapfile -t ended < <(ended_crates)
  while [ "$told" -lt "${#ended[@]}" ]; do
    last=${ended[told]#proved } told=$((told + 1))
    [ -t 2 ] || say "crate $told of at most ${#crates[@]}: $last, done at $(date +%T) (since $began)"
  done
  [ ! -t 2 ] || printf '\r\033[Kdaidalus: crate %d of at most %d%s, %d min %02d s since %s' \
    "$told" "${#crates[@]}" "${last:+: $last}" $((SECONDS / 60)) $((SECONDS % 60)) "$began" >&2
}

stop_building() {
  trap '' INT TERM HUP QUIT USR1 USR2
  [ ! -t 2 ] || printf '\n' >&2
  [ -z "$builder" ] || hand_on TERM "$builder"
  wait
  fail "stopped before the program was built. Call again: what is proved is kept, and the rest is gone on with"
}

fail_building() { fail "the program was not built: ${1:-tools/prove could not go on}. What was said of it is in $log"; }

# Proves the program and all crates below it, links it, and records from which sources it is made.
build_here() {
  local sources told=0 last='' began status
  sources=$(sum_of_sources)
  began=$(date +%T) SECONDS=0
  rm -f "$made" "$record" "$choice" && : >"$log"
  say "${unfit:+$unfit: }proving and building the program first, from $began on: up to ${#crates[@]} crates, which takes minutes (the first time ten to thirty on four processors)"
  (trap - INT QUIT && exec "$top/tools/prove" daa_program) </dev/null >>"$log" 2>&1 &
  builder=$!
  [ -z "$asked" ] || stop_building
  while kill -0 "$builder" 2>/dev/null; do
    tell_progress
    sleep 0.5
  done
  tell_progress
  wait "$builder" 2>/dev/null
  status=$?
  [ ! -t 2 ] || printf '\n' >&2
  [ "$status" -eq 0 ] || fail_building "$(sed -n 's/^prove: //p' "$log" | tail -n 1)"
  [ "$sources" = "$(sum_of_sources)" ] || fail_building "a source was changed meanwhile; call again"
  note_program "$sources"
  say "built after $((SECONDS / 60)) min $((SECONDS % 60)) s"
}

# Prints what can be run instead if no program can be built.
otherwise() {
  case $unfit in
  "the sources are not"*) echo "; the program that was made from the earlier sources can still be run: $(printf %q "$kept")" ;;
  *) echo "; tools/replay (with Node) and tools/reference (with Python) write the same bytes" ;;
  esac
}

# Builds the program from the sources as they are now, unless another call has done so in the meantime.
build() {
  local lock sources
  [ -z "$asked" ] || stop_building
  [ -n "$(type -P rt)" ] || fail "$unfit, and there is no rt on the PATH to prove and build one: $install$(otherwise)"
  { mkdir -p "$home/out" && [ -w "$home/out" ]; } 2>/dev/null ||
    fail "${unfit:-no program is built yet}, and $home/out cannot be written: call it in your own copy (cp -r $(printf %q "$top") COPY && chmod -R u+w COPY)"
  # (this call and the processes that it starts hold the lock until they end, however they end)
  exec {lock}<"$self"
  if ! flock -n "$lock"; then
    say "another call is building the program: waiting for it"
    flock "$lock" &
    builder=$!
    [ -z "$asked" ] || stop_building
    wait "$builder"
  fi
  sources=$(sum_of_sources)
  is_made "$sources" || build_here
  exec {lock}<&-
  builder='' program=$made
}

# The reader's own check: proves and builds the program, and says whether the kept program is the same, byte for byte.
prove() {
  local sources
  [ -n "$(type -P rt)" ] || fail "there is no rt on the PATH to prove with: $install"
  sources=$(sum_of_sources)
  is_made "$sources" || build
  if cmp -s "$made" "$kept"; then
    echo "same: $file is, byte for byte, what was proved and built here from these sources"
  elif is_kept "$sources"; then
    echo "differs: $file is not what was proved and built here from the same sources, $(printf %q "$made")"
    return 1
  else
    echo "differs: $unfit; what was proved and built here is $(printf %q "$made")"
    return 1
  fi
}
