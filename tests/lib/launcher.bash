# What tests/suites/launcher and tests/suites/terminal share: a room, a script with words and a session, and judgements. They set `top` and `room`.
# shellcheck shell=bash disable=SC2034,SC2154
passed=0 failed=0 status=""

# Judges one test: a title, then a condition.
is() {
  local title=$1
  shift
  if "$@"; then
    passed=$((passed + 1))
  else
    failed=$((failed + 1))
    echo "FAILED ${0##*/}: $title (status $status, $(head -c 200 "$room/err" | tr '\n' '|'))"
  fi
}
# Runs ./snowbench: its status, and what it writes in out and err. (This shell says nothing of a signal that ends it.)
snowbench() {
  { timeout 300 "$top/snowbench" "$@" >"$room/out" 2>"$room/err"; } 2>/dev/null
  status=$?
}
# Whether it ended with this status, and wrote these texts (a text that is not given is not looked at).
ended() {
  [ "$status" -eq "$1" ] && { [ $# -lt 2 ] || [ "$(cat "$room/out")" = "$2" ]; } && { [ $# -lt 3 ] || [ "$(cat "$room/err")" = "$3" ]; }
}
ended_telling() {
  [ "$status" -eq "$1" ] && grep -q "$2" "$room/err"
}
# Waits for a condition, minutes at most: other work on the machine can make a step long. It says so if it waited in vain.
soon() {
  local end=$((SECONDS + ${PATIENCE:-240}))
  until "$@"; do
    if [ "$SECONDS" -ge "$end" ]; then
      echo "${0##*/}: waited in vain for $*"
      return 1
    fi
    sleep 0.02
  done
}
# Whether no program of these tests runs any more, and no file of it is there. (The environment of a program has TMPDIR.)
nothing_is_left() {
  local there
  [ -z "$(ls -A "$TMPDIR")" ] || return
  for there in /proc/[0-9]*; do
    if [ "$(readlink "$there/exe")" = "$SNOWBENCH_PROGRAM" ] && grep -qas "$TMPDIR" "$there/environ"; then return 1; fi
  done 2>/dev/null
}
# Whether a program of these tests runs.
runs() {
  ! nothing_is_left
}

script=$room/script.sbl words=$room/words
echo "externals ( stem other ) define stem as ( [ 'un' ] delete ) define other as true" >"$script"
printf 'undo\ndo\n' >"$words"
session=$room/session
{ cat "$script"; printf '%s\n' . undo . 'add do'; } >"$session"
