#!/usr/bin/env bash
# Time of a run against the number of children, for 1,000, 2,000 and 4,000 of them, each of which ends at once. In the first
# measure the process waits for each child before it forks the next, which is seventeen turns and a copy of the space a
# child; in the second it forks them all and then waits for all, so that thousands of zombies stand. `run -q` keeps the
# history and does not write it. Prints seconds and their ratios.
#
# Words are programs to compare, as in turns.sh.
set -eu
. "$(dirname "${BASH_SOURCE[0]}")/measure.bash"
programs_of "$@"

# parent LINES: a process that runs these lines, and whose children end
parent() {
  printf 'turns 100000\nprogram parent\nset r5, 1\n%s\nset r1, 0\nsys exit\nchild:\nset r1, 0\nsys exit\nend\nspawn parent\n' "$1"
}

# times COUNT LABEL LINES: these lines so often; r4 counts
times() {
  printf 'set r4, %s\n%s:\n%s\nsub r4, r5\njnz r4, %s\n' "$1" "$2" "$3" "$2"
}

fork=$'sys fork\njz r0, child'
wait=$'set r1, 0\nsys wait'

scenario() { parent "$(times "$1" again "$fork"$'\n'"$wait")"; }
measure "children, one at a time" 1000 2000 4000

scenario() { parent "$(times "$1" more "$fork"; times "$1" reap "$wait")"; }
measure "children, all at once" 1000 2000 4000
