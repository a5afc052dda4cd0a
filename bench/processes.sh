#!/usr/bin/env bash
# Time of a run against the number of processes that take turns: 1,000, 2,000 and 4,095 of them, each of which runs for 24
# turns, so that the turns grow with the processes. `run -q` keeps the history and does not write it. Prints seconds and
# their ratios; a kernel that looks at every process at each turn is quadratic here.
#
# Words are programs to compare, as in turns.sh.
set -eu
. "$(dirname "${BASH_SOURCE[0]}")/measure.bash"
programs_of "$@"
ends=(3) # nobody ends

# scenario PROCESSES: each goes round in a loop
scenario() {
  printf 'turns %s\nprogram p\nagain:\nnop\njmp again\nend\n' $((24 * $1))
  yes 'spawn p' | head -n "$1"
}

measure processes 1000 2000 4095
