#!/usr/bin/env bash
# What the gate costs from nothing: processor seconds of each crate for its proofs, its tests and its must-fail edits,
# and their sums in minutes. The last commit is measured, in a copy that has no work of its own, by `rt ci`, which
# takes nothing that earlier runs on this machine have kept.
#
# Processors differ: one was met that takes 2.2 times the time of another for each proof. So the whole is told as a
# multiple of the proof of pr_num too, which is made in the same run and stands below all others, and the bound is one of
# that: 39, which is 300 minutes of the slowest processor, where this proof takes 461 seconds as the gate makes it, and
# 137 of the fastest, where it takes 210.
# It ends with status 1 where the whole takes more; where GATE_BOUND is given, more than so many minutes. Best nothing
# else runs beside it, since then each part takes longer.
#
# Words are a command that is measured in the copy instead, such as `.ci/run` or `sh -c "cd crates/pr_num && rt check"`;
# it is held to no bound, and of what it takes from earlier runs nothing is seen.
#
# The processor time of the command and of all that it starts is exact. Its parts are read twice a second from /proc for
# each run of the prover, so what a run takes after the last reading is in the row `other`, with what is no prover.
# A crate that has edits is proved once more for them: that counts as edits.
set -eu
proofs_of_pr_num=39
top=$(cd "$(dirname "${BASH_SOURCE[0]}")/.." && pwd)
work=$(mktemp -d)
trap 'rm -rf "$work"' EXIT
git clone -q "$top" "$work/copy"
cd "$work/copy"
if [ $# = 0 ]; then
  set -- rt ci
  # (a kit that keeps nothing between runs has no --anew)
  if rt help 2>&1 | grep -q -e --anew; then set -- rt ci --anew; fi
else
  proofs_of_pr_num=0
  unset GATE_BOUND
fi

# kind_of FOLDER WORDS: what a run of the prover in this folder, with these words, is for
kind_of() {
  case "$1 $2" in
    *rt-edit-*) echo edits ;;
    *" --test "*) echo tests ;;
    *) echo proofs ;;
  esac
}

# crate_of WORD..: the crate that these words of the prover name
crate_of() {
  while [ $# -gt 0 ]; do
    [ "$1" != --crate-name ] || { echo "$2"; return; }
    shift
  done
  echo other
}

declare -A crates kinds ticks

# is_ours PID: whether the measured command started it, or started what did
is_ours() {
  local line fields pid=$1
  while [ "$pid" -gt 1 ]; do
    read -r line <"/proc/$pid/stat" || return 1
    read -ra fields <<<"${line##*) }"
    [ "${fields[3]}" != "$session" ] || return 0
    pid=${fields[1]}
  done
  return 1
}

# read_run PID STAT: the ticks of a run of the prover, from its line in /proc
read_run() {
  local fields run=$1 words folder
  read -ra fields <<<"${2##*) }"
  run="$run.${fields[19]}"
  if [ -z "${crates[$run]-}" ]; then
    is_ours "$1" || return 0
    mapfile -d '' -t words <"/proc/$1/cmdline" || return 0
    folder=$(readlink "/proc/$1/cwd") || return 0
    crates[$run]=$(crate_of "${words[@]}")
    kinds[$run]=$(kind_of "$folder" "${words[*]} ")
  fi
  ticks[$run]=$((fields[11] + fields[12]))
}

# read_runs: the same of all that there are now
read_runs() {
  local file line
  for file in /proc/[0-9]*/stat; do
    { read -r line <"$file"; } 2>/dev/null || continue
    [[ $line != *"(rattle)"* && $line != *"(antt-kernel)"* ]] || read_run "${file//[!0-9]/}" "$line" 2>/dev/null
  done
}

# measured COMMAND..: runs it, with the processor seconds of all that it starts in the file `spent`
measured() {
  local TIMEFORMAT='%U %S'
  { time "$@" >"$work/said" 2>&1; } 2>"$work/spent"
}

export -f measured
export work
setsid bash -c 'measured "$@"' gate "$@" &
session=$!
while kill -0 "$session" 2>/dev/null; do
  read_runs
  sleep 0.5
done
status=0
wait "$session" || status=$?

per_second=$(getconf CLK_TCK)
for run in "${!ticks[@]}"; do echo "${crates[$run]} ${kinds[$run]} ${ticks[$run]}"; done | sort |
  awk -v per_second="$per_second" -v spent="$(cat "$work/spent")" -v minutes="${GATE_BOUND:-0}" -v proofs="$proofs_of_pr_num" '
    function row(name, proofs, tests, edits, sum) { printf "%-18s %8d %8d %8d %8d\n", name, proofs, tests, edits, sum }
    { seconds = $3 / per_second; all[$2] += seconds; seen += seconds
      if (!($1 in sum)) crate[++count] = $1
      sum[$1] += seconds; took[$1, $2] += seconds }
    END {
      split(spent, part, " "); total = part[1] + part[2]
      printf "%-18s %8s %8s %8s %8s\n", "crate", "proofs", "tests", "edits", "sum"
      for (i = 1; i <= count; i++) {
        name = crate[i]
        row(name, took[name, "proofs"], took[name, "tests"], took[name, "edits"], sum[name])
      }
      row("other", 0, 0, 0, total - seen)
      row("all", all["proofs"], all["tests"], all["edits"], total)
      printf "%.0f processor minutes", total / 60
      printf ": proofs %.0f, tests %.0f, edits %.0f", all["proofs"] / 60, all["tests"] / 60, all["edits"] / 60
      printf ", other %.0f\n", (total - seen) / 60
      unit = took["pr_num", "proofs"]
      if (unit) printf "%.1f times the proof of pr_num, which took %.0f seconds\n", total / unit, unit
      bound = minutes ? 60 * minutes : proofs * unit
      if (!bound) exit 0
      over = total > bound
      printf "%s %.0f processor minutes%s\n", over ? "more than the bound, which is" : "at most", bound / 60,
        minutes ? "" : ", " proofs " times that proof"
      exit over
    }' || over=1
if [ "$status" != 0 ]; then
  tail -20 "$work/said" >&2
  exit "$status"
fi
exit "${over-0}"
