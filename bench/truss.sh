#!/usr/bin/env bash
# Time of a run under truss against the number of its entries: a program makes system calls in a loop, and truss shows
# each with its text, for 10,000, 30,000 and 100,000 entries. `run -q` writes what truss printed and not the history. Prints
# seconds and their ratios; a truss that goes through what it has reported at each step is quadratic here.
#
# Words are programs to compare, as in turns.sh.
set -eu
. "$(dirname "${BASH_SOURCE[0]}")/measure.bash"
programs_of "$@"
ends=(3) # the entries do not suffice

# scenario ENTRIES: a loop that writes to a file for ever
scenario() {
  printf 'turns %s\nfile f ""\nprogram p\ntext n "f"\ntext m "hello, world"\nset r1, n\nset r2, 1\nsys open\n' "$1"
  printf 'again:\nset r1, 0\nset r2, m\nset r3, 12\nsys write\nset r1, 0\nset r2, 0\nset r3, 0\nsys lseek\njmp again\nend\ntruss p\n'
}

measure entries 10000 30000 100000
