# Sourced by the measures beside it; it does nothing by itself. A measure sets `programs` by `programs_of`, and may set
# `words`, with which a program is run, and `ends`, the statuses that a run may end with. It has a function
# `scenario SIZE`, which writes the input of a size; what two measures write stands here. They need GNU time.

words=(run -q)
ends=(0)
tries=3
input=$(mktemp)
output=$(mktemp)
trap 'rm -f "$input" "$output"' EXIT

# programs_of WORD..: the programs to time, or without words the proved program of this state
programs_of() {
  local program
  programs=("$@")
  [ "$#" -gt 0 ] || programs=("$(cd "$(dirname "${BASH_SOURCE[0]}")/.." && pwd)/crates/proclab/out/proclab")
  for program in "${programs[@]}"; do
    [ -x "$program" ] || { echo "no program $program: run ./build" >&2; return 1; }
  done
}

# timed PROGRAM: the seconds that a run takes for the input; what it writes goes to the output
timed() {
  local start end status=0
  start=$(date +%s.%N)
  "$1" "${words[@]}" <"$input" >"$output" || status=$?
  end=$(date +%s.%N)
  [[ " ${ends[*]} " = *" $status "* ]] || { echo "status $status of $1" >&2; return 1; }
  awk -v a="$start" -v b="$end" 'BEGIN { printf "%.4f", b - a }'
}

# least_times: the least time of some runs of each program for the input, in `least`; the programs take turns
least_times() {
  local try program
  declare -gA least=()
  for ((try = 0; try < tries; try++)); do
    for program in "${programs[@]}"; do
      least[$program]=$(printf '%s\n' ${least[$program]-} "$(timed "$program")" | sort -n | head -n 1)
    done
  done
}

# peak PROGRAM: the most memory of a run for the input, in KiB; it is the same each time
peak() {
  /usr/bin/time -q -f %M "$1" "${words[@]}" <"$input" 2>&1 >/dev/null | tail -n 1
}

# measure UNIT SIZE..: times each program at each size, and tells the most memory that it has. Beside the ratios of both
# to those at the first size stands the ratio of the sizes; where they are linear the first two are not above it.
measure() {
  local unit=$1 size program kib
  local -A first=() first_kib=()
  shift
  local smallest=$1
  for size in "$@"; do
    scenario "$size" >"$input"
    least_times
    for program in "${programs[@]}"; do
      kib=$(peak "$program")
      : "${first[$program]:=${least[$program]}}" "${first_kib[$program]:=$kib}"
      awk -v n="$size" -v u="$unit" -v m="$smallest" -v s="${least[$program]}" -v f="${first[$program]}" \
        -v k="$kib" -v fk="${first_kib[$program]}" -v p="$program" 'BEGIN {
          printf "%d %s: %.3f s, ratio %.2f of %.2f; ", n, u, s, (f > 0 ? s / f : 0), n / m
          printf "%d KiB, ratio %.2f  %s\n", k, k / fk, p
        }'
    done
  done
}

# countdown TURNS: a program counts down in a loop of two instructions, which has more turns than these
countdown() {
  cat <<END
turns $1
program p
set r1, 1000000
set r2, 1
again:
sub r1, r2
jnz r1, again
set r1, 0
sys exit
end
spawn p
END
}

# long_script BYTES: a scenario of about so many bytes, with 100,000 turns: a process is stopped, and a script of 16
# opens reads its status and writes to it in turn; at last it is run
long_script() {
  awk -v most="$1" 'BEGIN {
    text = "turns 100000\nprogram p\nsys getpid\nsys exit\nend\nspawn p\nscript\n"
    text = text "open v0 1 ctl w\nwrite v0 dstop\nwrite v0 wstop\n"
    for (k = 1; k < 16; k++) text = text "open v" k " 1 " (k % 2 ? "status r" : "ctl w") "\n"
    last = "write v0 run\nend\n"
    size = length(text) + length(last)
    printf "%s", text
    for (k = 0; ; k++) {
      line = k % 2 == 0 ? "read v1 0 344\n" : "write v0 dstop\n"
      size += length(line)
      if (size > most) break
      printf "%s", line
    }
    printf "%s", last
  }'
}

# looking_at_a_loop TURNS: more turns than these of a program that calls getpid in a loop, and a read of its status for
# every twentieth
looking_at_a_loop() {
  printf 'turns %s\nprogram p\nagain:\nsys getpid\nset r1, 1\njnz r1, again\nend\nspawn p\nscript\n' "$1"
  echo 'open a 1 status r'
  yes 'read a 0 368' | head -n $(($1 / 20))
  echo end
}
