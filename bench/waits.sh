#!/usr/bin/env bash
# Time of a run against the number of children of a process that waits for one of them: 500, 1,000, 2,000 and 4,000.
# Whether a wait is over is a question to its children. In the first measure each child calls kill in a loop, with signal
# 0 to its parent, some 5,000 times in all: each kill asks the question again, and no child ends. A kernel that goes over the
# children for it takes eight times as long for 4,000 as for 500; the best takes as long but for making them. For 4,000 it
# was 0.12 s on a machine that had other work, and 3.2 s while the kernel went over all that live. In the second the
# children end one by one, the youngest first, and the parent waits for each: 0.19 s, and 3.7 s before. `run -q` keeps the
# history and does not write it. Prints seconds and their ratios.
#
# Words are programs to compare, as in turns.sh.
set -eu
. "$(dirname "${BASH_SOURCE[0]}")/measure.bash"
programs_of "$@"
ends=(0 3) # those that kill never end

# family COUNT TURNS LINES: a process that forks so many children, which run these lines, and waits for all of them; its
# lwp moves until all are there
family() {
  cat <<END
turns $2
program parent
set r4, $1
set r5, 1
more:
sys fork
jz r0, child
sub r4, r5
jnz r4, more
set r4, $1
reap:
set r1, 0
sys wait
sub r4, r5
jnz r4, reap
set r1, 0
sys exit
child:
$3
end
spawn parent
schedule 1/1*$((6 * $1 + 6))
END
}

# youngest_first COUNT: each child ends, and then the parent takes what it left
youngest_first() {
  seq $(($1 + 1)) -1 2 | sed 's|.*|&/1*5 1/1*9|' | xargs -n 100 echo schedule
}

scenario() { family "$1" $((10 * $1 + 20000)) $'set r1, 1\nset r2, 0\nagain:\nsys kill\njmp again'; }
measure "children that kill" 500 1000 2000 4000

scenario() { family "$1" 100000 $'set r1, 0\nsys exit'; youngest_first "$1"; }
measure "children that end youngest first" 500 1000 2000 4000
