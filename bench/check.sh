#!/usr/bin/env bash
# Time and memory of `check` against those of the `run` whose history it judges, at 10,000 and 100,000 entries: a program
# calls getpid in a loop, and a script reads its status again and again. `run` writes its history to a file, and `check`
# reads the scenario and that file. Prints the seconds of both and their ratio, the greatest memory of both, and by how
# much time and memory of `check` are more than at the first size, beside the ratio of the sizes.
#
# Words are programs to compare, as in turns.sh.
set -eu
. "$(dirname "${BASH_SOURCE[0]}")/measure.bash"
programs_of "$@"
both=$(mktemp)
judgement=$(mktemp)
measured=$(mktemp)
trap 'rm -f "$input" "$output" "$both" "$judgement" "$measured"' EXIT

# used STATUS PROGRAM WORD IN OUT: the seconds and the KiB of a run, which is to end so
used() {
  local status=0
  /usr/bin/time -f '%e %M' -o "$measured" "$2" "$3" <"$4" >"$5" || status=$?
  [ "$status" = "$1" ] || { echo "status $status of $2 $3" >&2; return 1; }
  tail -n 1 "$measured"
}

# least LINE LINE: the one with less seconds; the first may be empty
least() { printf '%s\n' "$@" | grep . | sort -n | head -n 1; }

declare -A first=()
smallest=10000
for turns in "$smallest" 100000; do
  looking_at_a_loop "$turns" >"$input"
  declare -A run=() check=()
  for ((try = 0; try < tries; try++)); do
    for program in "${programs[@]}"; do
      run[$program]=$(least "${run[$program]-}" "$(used 3 "$program" run "$input" "$output")")
      { cat "$input"; echo %history; cat "$output"; } >"$both"
      check[$program]=$(least "${check[$program]-}" "$(used 0 "$program" check "$both" "$judgement")")
      [ "$(cat "$judgement")" = "legal $turns" ] || { echo "not legal" >&2; exit 1; }
    done
  done
  for program in "${programs[@]}"; do
    : "${first[$program]:=${check[$program]}}"
    awk -v n="$turns" -v m="$smallest" -v r="${run[$program]}" -v c="${check[$program]}" -v f="${first[$program]}" \
      -v p="$program" '
      function ratio(a, b) { return b > 0 ? a / b : 0 }
      BEGIN {
        split(r, ran, " "); split(c, judged, " "); split(f, before, " ")
        printf "%d entries: run %s s, %d KiB; check %s s, %d KiB; ", n, ran[1], ran[2], judged[1], judged[2]
        printf "check to run %.2f; check to its first %.2f, ", ratio(judged[1], ran[1]), ratio(judged[1], before[1])
        printf "and %.2f in memory, of %.2f  %s\n", ratio(judged[2], before[2]), n / m, p
      }'
  done
done
