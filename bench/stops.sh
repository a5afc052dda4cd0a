#!/usr/bin/env bash
# Time of a run against the number of times that a script stops, reads and runs a process of 64 lwps. In the first
# measure 63 lwps are suspended, so that a stop is one turn and 10,000 stops fit into a history: each reads `status`. In the
# second 63 lwps sleep, so that each of them stops too, and 1,400 stops fit: each reads `lstatus`, 16,904 bytes. `run -q`
# keeps the history and does not write it. Prints seconds and their ratios.
#
# Words are programs to compare, as in turns.sh.
set -eu
. "$(dirname "${BASH_SOURCE[0]}")/measure.bash"
programs_of "$@"

# lwps LINES: a program whose lwp 1 makes 63 more, which pause, and runs these lines before it goes round in a loop
lwps() {
  cat <<END
turns 100000
program p
set r6, 63
set r5, 1
set r1, sleeper
set r2, 0x700100
more:
sys lwp_create
sub r6, r5
jnz r6, more
$1
loop:
nop
jmp loop
sleeper:
sys pause
end
spawn p
END
}

# suspends: lwp 1 suspends the lwps 64 to 2
suspends() {
  printf 'set r4, 64\nnext:\nmov r1, r4\nsys lwp_suspend\nsub r4, r5\njlt r5, r4, next\n'
}

# stops COUNT FILE LENGTH: a script that stops the process so often, after the lwps were made, and then ends it
stops() {
  printf 'script\nopen c 1 ctl w\nopen s 1 %s r\n' "$2"
  yes "write c dstop wstop
read s 0 $3
write c run" | head -n $((3 * $1))
  printf 'kill 1 9\nend\nschedule 1/1*1000\n'
}

scenario() { lwps "$(suspends)"; stops "$1" status 368; }
measure "stops of one lwp" 2500 5000 10000

scenario() { lwps ''; stops "$1" lstatus 16904; }
measure "stops of 64 lwps" 350 700 1400
