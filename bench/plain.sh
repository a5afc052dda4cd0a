#!/usr/bin/env bash
# The proved program against plain Rust: plain/ makes the same run as proclab, keeps the same history and writes the
# same bytes, which are compared. Prints the seconds of both and their ratio: for `run -q`, which keeps the history, and
# for `run`, which also writes it, on the loop of turns.sh at 10,000, 30,000 and 100,000 turns; and for `run` on the
# script of first-path.sh at a quarter, a half and the whole of 1 MiB.
#
# A word is a program to time in place of the proved program of this state. It needs rustc on the path.
set -eu
here=$(dirname "${BASH_SOURCE[0]}")
. "$here/measure.bash"
programs_of "$@"
tries=7 # runs of milliseconds

yardstick=$(mktemp)
trap 'rm -f "$input" "$output" "$yardstick"' EXIT
# in one unit, as the proved program is
rustc --edition 2021 -C opt-level=3 -C codegen-units=1 -o "$yardstick" "$here/plain/main.rs"
programs=("${programs[0]}" "$yardstick")

# compare UNIT SIZE..: times both programs at each size
compare() {
  local unit=$1 size
  shift
  for size in "$@"; do
    scenario "$size" >"$input"
    cmp <("${programs[0]}" "${words[@]}" <"$input") <("$yardstick" "${words[@]}" <"$input")
    least_times
    awk -v n="$size" -v u="$unit" -v w="${words[*]}" -v a="${least[${programs[0]}]}" -v b="${least[$yardstick]}" \
      'BEGIN { printf "%s, %d %s: %.4f s, in plain Rust %.4f s, ratio %.2f\n", w, n, u, a, b, a / b }'
  done
}

scenario() { countdown "$1"; }
ends=(3) # the turns do not suffice
words=(run -q)
compare turns 10000 30000 100000
words=(run)
compare turns 10000 30000 100000

scenario() { long_script "$1"; }
ends=(0)
compare bytes 262144 524288 1048576
