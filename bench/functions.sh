#!/usr/bin/env bash
# Time of a run under truss with calls of functions (-u) against the number of its entries: a program calls two functions
# in a loop, and truss shows each call, for 10,000, 30,000 and 100,000 entries. A call of a function costs its constant
# number of calls of truss: lifted, stepped, shown, planted again. Prints seconds and their ratios; a truss that goes
# through what it has reported, or through the memory, at each call is quadratic here.
#
# Words are programs to compare, as in turns.sh.
set -eu
. "$(dirname "${BASH_SOURCE[0]}")/measure.bash"
programs_of "$@"
ends=(3) # the entries do not suffice

# scenario ENTRIES: a loop that calls for ever
scenario() {
  printf 'turns %s\nprogram p\nset r1, 1\nset r2, 2\nagain:\ncall go\ncall on\njmp again\ngo:\nadd r1, r2\nret\non:\nnop\nret\nend\n' "$1"
  printf 'truss -u p:go+on p\n'
}

measure entries 10000 30000 100000
