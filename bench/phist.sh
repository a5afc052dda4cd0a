#!/usr/bin/env bash
# Time and memory of phist against those of `check` on the same history, at 10,000 and 100,000 entries: a program calls
# getpid in a loop, and a script reads its status again and again. Prints the seconds of both, their ratio, and the
# greatest memory of both, for the history in words and for its lanes.
#
# Words are a proclab and a phist, to be measured in place of the proved ones of this state.
set -eu
. "$(dirname "${BASH_SOURCE[0]}")/measure.bash"
built=$(cd "$(dirname "${BASH_SOURCE[0]}")/.." && pwd)/crates
programs_of "${1-$built/proclab/out/proclab}" "${2-$built/phist/out/phist}"
both=$(mktemp)
measured=$(mktemp)
trap 'rm -f "$input" "$output" "$both" "$measured"' EXIT

# used STATUS IN PROGRAM WORD..: the least seconds of some runs, which are to end so, and their KiB
used() {
  local wanted=$1 in=$2 try status
  shift 2
  for ((try = 0; try < tries; try++)); do
    status=0
    /usr/bin/time -f '%e %M' -o "$measured" "$@" <"$in" >"$output" || status=$?
    [ "$status" = "$wanted" ] || { echo "status $status of $*" >&2; return 1; }
    tail -n 1 "$measured"
  done | sort -n | head -n 1
}

for turns in 10000 100000; do
  looking_at_a_loop "$turns" >"$input"
  "${programs[0]}" run <"$input" >"$output" || true
  { cat "$input"; echo %history; cat "$output"; } >"$both"
  judged=$(used 0 "$both" "${programs[0]}" check)
  for work in '' lanes; do
    told=$(used 0 "$both" "${programs[1]}" $work)
    awk -v n="$turns" -v c="$judged" -v t="$told" -v w="${work:-words}" 'BEGIN {
      split(c, judged, " "); split(t, told, " ")
      printf "%d entries: check %s s, %d KiB; %s %s s, %d KiB; ratio %.2f\n", n, judged[1], judged[2], w, told[1],
        told[2], (judged[1] > 0 ? told[1] / judged[1] : 0)
    }'
  done
done
