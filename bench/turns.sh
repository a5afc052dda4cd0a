#!/usr/bin/env bash
# Time of a run against the number of its turns: a program counts down in a loop of two instructions, with no
# controller, for 10,000, 30,000 and 100,000 turns. `run -q` keeps the history and does not write it. Prints seconds and
# their ratios.
#
# Words are programs to compare, such as one of an older state: each is run three times at each size, in turn, and its
# least time counts. Without words the proved program of this state is timed.
set -eu
. "$(dirname "${BASH_SOURCE[0]}")/measure.bash"
programs_of "$@"
ends=(3) # the turns do not suffice

scenario() { countdown "$1"; }
measure turns 10000 30000 100000
