#!/usr/bin/env bash
# Time of a run against the size of the space that fork copies: a process with a heap of 2, 64 and 128 pages, and of 200,
# of which 72 are mapped beside it since the heap ends there, makes 60 children, one at a time, each of which ends at
# once. `run -q` keeps the history and does not write it. Prints seconds and their ratios; where pages are shared after
# fork, the time is about the same at each size.
#
# Words are programs to compare, as in turns.sh.
set -eu
. "$(dirname "${BASH_SOURCE[0]}")/measure.bash"
programs_of "$@"

# beyond PAGES: maps what has no room in the heap
beyond() {
  [ "$1" -le 128 ] || printf 'set r1, %d\nset r2, 6\nsys mmap' $((4096 * ($1 - 128)))
}

# scenario PAGES: the break is moved so far; r4 counts
scenario() {
  cat <<END
turns 100000
program parent
set r1, $((0x100000 + 4096 * ($1 < 128 ? $1 : 128)))
sys brk
$(beyond "$1")
set r4, 60
set r5, 1
again:
sys fork
jz r0, child
set r1, 0
sys wait
sub r4, r5
jnz r4, again
set r1, 0
sys exit
child:
set r1, 0
sys exit
end
spawn parent
END
}

measure pages 2 64 128 200
