#!/usr/bin/env bash
# Time of a run against its turns, where bytes go through a pipe: a child writes 1,024 bytes at a time, and its parent reads
# 512, for 10,000, 30,000 and 100,000 turns. The pipe is soon full, and then the writer sleeps until there is room. `run -q`
# keeps the history and does not write it. Prints seconds and their ratios.
#
# Words are programs to compare, as in turns.sh.
set -eu
. "$(dirname "${BASH_SOURCE[0]}")/measure.bash"
programs_of "$@"
ends=(3) # the turns do not suffice

# scenario TURNS: the ends of the pipe are the descriptors 0 and 1
scenario() {
  cat <<END
turns $1
program pair
space ends 16
space bytes 1024
set r1, ends
sys pipe
set r2, bytes
sys fork
jz r0, writer
set r1, 0
set r3, 512
reader:
sys read
jmp reader
writer:
set r1, 1
set r3, 1024
more:
sys write
jmp more
end
spawn pair
END
}

measure turns 10000 30000 100000
