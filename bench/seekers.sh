#!/usr/bin/env bash
# Time of a run in which as many processes go round in a loop as call lseek in one: 250, 500 and 1,000 of each, with 60
# turns for each pair. After a call on files those that sleep at pipes are looked at; nobody does here, so that a kernel
# which then looks at every process that has made no call yet is quadratic.
#
# Words are programs to compare, as in turns.sh.
set -eu
. "$(dirname "${BASH_SOURCE[0]}")/measure.bash"
programs_of "$@"
ends=(3) # nobody ends

# scenario PAIRS: so many of each
scenario() {
  printf 'turns %s\nfile f ""\n' $((60 * $1))
  printf 'program l\na:\nnop\njmp a\nend\n'
  printf 'program w\ntext n "f"\nset r1, n\nset r2, 1\nsys open\n'
  printf 'a:\nset r1, 0\nset r2, 0\nset r3, 0\nsys lseek\njmp a\nend\n'
  yes 'spawn l' | head -n "$1"
  yes 'spawn w' | head -n "$1"
}

measure pairs 250 500 1000
