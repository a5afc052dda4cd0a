#!/usr/bin/env bash
# Time of a run against the size of its scenario: a process is stopped, and a script of 16 opens reads its status and
# writes to it as often as a quarter, a half and the whole of 1 MiB hold, with 100,000 turns; at last it is run. The
# time is that of reading the scenario, running it and writing its history to a file. Prints seconds and their ratios.
#
# Words are programs to compare, as in turns.sh.
set -eu
. "$(dirname "${BASH_SOURCE[0]}")/measure.bash"
programs_of "$@"
words=(run)
ends=(0 3) # 3 where the turns do not suffice

scenario() { long_script "$1"; }
measure bytes 262144 524288 1048576
