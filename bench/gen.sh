#!/usr/bin/env bash
# Time of the run of what `proclab gen N` writes, for N of 16, 32 and 64: a program with N children, all of them traced
# by `truss -f -c -s !CLD`. `run -q` writes what truss printed and not the history. The program that is timed first
# writes the scenarios. Prints the entries, seconds, the most memory, and the ratios of all three to those at 16, beside
# which stands the ratio of the numbers.
#
# Words are programs to compare, as in turns.sh.
set -eu
. "$(dirname "${BASH_SOURCE[0]}")/measure.bash"
programs_of "$@"

scenario() { "${programs[0]}" gen "$1"; }

# entries: how many the run has
entries() {
  "${programs[0]}" run <"$input" | sed -n '1s/^history //p'
}

first_entries=
for children in 16 32 64; do
  scenario "$children" >"$input"
  count=$(entries)
  : "${first_entries:=$count}"
  awk -v n="$children" -v e="$count" -v f="$first_entries" \
    'BEGIN { printf "%d children: %d entries, ratio %.2f of %.2f\n", n, e, e / f, n / 16 }'
done
measure children 16 32 64
