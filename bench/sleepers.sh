#!/usr/bin/env bash
# Time of a run against the number of processes that are asleep: 100, 1,000 and 4,000 of them, and one that goes round in a
# loop for 20,000 turns. In the first measure they sleep in pause, in the second in sleep, until a moment that does not
# come. `run -q` keeps the history and does not write it. Prints seconds and their ratios; a kernel that looks at who is
# asleep at each turn takes forty times as long for 4,000 as for 100, and the best takes as long but for making them.
#
# Words are programs to compare, as in turns.sh.
set -eu
. "$(dirname "${BASH_SOURCE[0]}")/measure.bash"
programs_of "$@"
ends=(3) # nobody ends

# asleep LINES COUNT: so many processes run these lines, and one goes round
asleep() {
  printf 'turns 20000\nprogram sleeper\n%s\nend\nprogram looper\nagain:\nnop\njmp again\nend\n' "$1"
  yes 'spawn sleeper' | head -n "$2"
  echo 'spawn looper'
}

scenario() { asleep 'sys pause' "$1"; }
measure "asleep in pause" 100 1000 4000

scenario() { asleep $'set r1, 100000000\nsys sleep' "$1"; }
measure "asleep in sleep" 100 1000 4000
