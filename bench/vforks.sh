#!/usr/bin/env bash
# Time of vfork and exec beside that of fork and exec: a process that has 1 MiB mapped makes 1,000, 2,000 and 4,000
# children, one at a time, each of which runs a small program that ends. fork copies the space for each of them, and
# vfork lends it. `run -q` keeps the history and does not write it. Prints the seconds of both at each size, the ratios
# to those at the first size beside that of the sizes, and the ratio of vfork to fork.
#
# Words are programs to compare, as in turns.sh.
set -eu
. "$(dirname "${BASH_SOURCE[0]}")/measure.bash"
programs_of "$@"

# scenario CALL CHILDREN: one text, one data and one stack page, and 253 that are mapped; r4 counts
scenario() {
  cat <<END
turns 100000
program parent
text name "small"
set r1, 1036288
set r2, 6
sys mmap
set r4, $2
set r5, 1
again:
sys $1
jz r0, child
set r1, 0
sys wait
sub r4, r5
jnz r4, again
set r1, 0
sys exit
child:
set r1, name
sys exec
end
program small
sys exit
end
spawn parent
END
}

declare -A seconds=() first=()
smallest=1000
for size in "$smallest" 2000 4000; do
  for call in fork vfork; do
    scenario "$call" "$size" >"$input"
    least_times
    for program in "${programs[@]}"; do
      seconds[$call $program]=${least[$program]}
      : "${first[$call $program]:=${least[$program]}}"
    done
  done
  for program in "${programs[@]}"; do
    awk -v n="$size" -v m="$smallest" -v f="${seconds[fork $program]}" -v v="${seconds[vfork $program]}" \
      -v first_f="${first[fork $program]}" -v first_v="${first[vfork $program]}" -v p="$program" '
      function ratio(a, b) { return b > 0 ? a / b : 0 }
      BEGIN {
        printf "%d children: fork and exec %.3f s, ratio %.2f of %.2f; ", n, f, ratio(f, first_f), n / m
        printf "vfork and exec %.3f s, ratio %.2f of %.2f; vfork to fork %.2f  %s\n", v, ratio(v, first_v), n / m, ratio(v, f), p
      }'
  done
done
