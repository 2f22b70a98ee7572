# shellcheck shell=bash
# Read by tools/check-flushlist: two packs of one list at the same time, and packs that are killed, or whose list is replaced.
# shellcheck disable=SC2154,SC2015,SC2034  # FLUSHLIST is set there, parts is read there; wrong does not return

# What a pack says where another list has its list's name.
replaced="two.list: does not answer yes to every key of the text: another program wrote it, or its bytes changed; pack again"

# begin TEXT LIST NAME: starts a pack, which writes to NAME.out and NAME.err, and sets pid
begin() {
  "$FLUSHLIST" pack "$1" "$2" >"$3.out" 2>"$3.err" &
  pid=$!
}

# Sets state to that of a process that we started, as one letter, or to nothing where it has ended. It starts no program, so as to be quick.
look_at() { # PID
  state=
  { read -r state <"/proc/$1/stat"; } 2>/dev/null || return 0
  state=${state##*) }
  state=${state%% *}
}

# Starts a pack and stops it while its part is there: the part is made, and its list has not got its name. One that is too quick is
# tried again. before.list is what the list was before.
stop_at_part() { # TEXT LIST
  local try state=
  for ((try = 0; try < 3000; try++)); do
    cp "$2" before.list
    begin "$1" "$2" first
    until compgen -G "$2.part-*" >/dev/null; do
      look_at "$pid"
      [[ -n $state && $state != Z ]] || break
    done
    kill -STOP "$pid" 2>/dev/null || true
    until look_at "$pid" && [[ -z $state || $state = [TZ] ]]; do :; done
    if [ "$state" = T ] && compgen -G "$2.part-*" >/dev/null; then
      tried=$((tried + 1))
      return
    fi
    kill -CONT "$pid" 2>/dev/null || true
    wait "$pid" || true
  done
  wrong "no pack was seen to write a part beside its list"
}

# told NAME LINE: the pack that wrote to NAME.out and NAME.err said just this line
told() {
  [ "$(cat "$1.out")" = "$2" ] && [ ! -s "$1.err" ] || wrong "the $1 of two packs said '$(cat "$1.out" "$1.err")'"
}

# One pack stands still with half a list, while another packs the same list from end to end. Each list is whole when it gets the name.
second_while_first_stands() {
  stop_at_part one.txt two.list
  same two.list before.list "a pack that was not finished"
  parts=1
  says "two.list: keys 3000, fingerprints 4096, attempt 1" "" pack other.txt two.list
  parts=0
  same two.list other.list "the second of two packs"
  kill -CONT "$pid"
  wait "$pid"
  told first "two.list: keys 4000, fingerprints 5632, attempt 1"
  same two.list one.list "the first of two packs"
  [ "$(parts_left)" = 0 ] || wrong "the first of two packs left a part"
}

# A pack that is killed leaves its part, and the list as it was.
killed() {
  stop_at_part other.txt two.list
  kill -KILL "$pid"
  wait "$pid" 2>/dev/null || true
  same two.list before.list "a pack that was killed"
  parts=1
  says "two.list: keys 3000, fingerprints 4096, attempt 1" "" pack other.txt two.list
  parts=0
  same two.list other.list "a pack after one that was killed"
  rm two.list.part-*
}

# Two packs race, many times. The list is one of the two, whole, and its own pack has told success: the last to give its list the name reads
# that list back. The other was told too, or said that its list was replaced.
race() {
  local round first winner loser
  for ((round = 0; round < 40; round++)); do
    rm -f two.list
    begin one.txt two.list one
    first=$pid
    begin other.txt two.list other
    wait "$first" "$pid" || wrong "one of two packs ended with status $?"
    if cmp -s two.list one.list; then
      winner=one loser=other
    else
      same two.list other.list "two packs at once"
      winner=other loser=one
    fi
    grep -q '^two.list: keys' $winner.out && [ ! -s $winner.err ] || wrong "the pack of the list that is there told no success"
    grep -q '^two.list: keys' $loser.out || [ "$(cat $loser.err)" = "$replaced" ] || wrong "the other of two packs said '$(cat $loser.err)'"
    [ "$(parts_left)" = 0 ] || wrong "two packs at once left a part"
    tried=$((tried + 2))
  done
}

# Another program puts its own list where a pack has written, so that this list gets the name. Read back, it does not hold the keys, and
# success is not told.
another_list_read_back() {
  local part
  stop_at_part one.txt two.list
  part=$(compgen -G 'two.list.part-*')
  cp other.list foreign
  mv foreign "$part"
  kill -CONT "$pid"
  wait "$pid"
  [ ! -s first.out ] && [ "$(cat first.err)" = "$replaced" ] || wrong "of another list a pack said '$(cat first.out first.err)'"
  same two.list other.list "a pack whose part was replaced"
  [ "$(parts_left)" = 0 ] || wrong "a pack whose part was replaced left a part"
}

two_packs() {
  seq 4000 >one.txt
  seq 5001 8000 >other.txt
  says "one.list: keys 4000, fingerprints 5632, attempt 1" "" pack one.txt one.list
  says "other.list: keys 3000, fingerprints 4096, attempt 1" "" pack other.txt other.list
  cp one.list two.list
  second_while_first_stands
  killed
  another_list_read_back
  race
}
