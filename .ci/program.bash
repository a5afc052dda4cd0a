# Sourced by proclab, which phist is too, by build and by .ci/own; it does nothing by itself. It says where a proved
# program stands, and whether that is of this state.

top=$(cd "$(dirname "${BASH_SOURCE[0]}")/.." && pwd)

# program_of NAME: where the proved program of a name stands
program_of() {
  printf '%s' "$top/crates/$1/out/$1"
}

program=$(program_of proclab)

# is_current: whether the proved program is there, and no source has changed since the text that it was made from
is_current() {
  [ -x "$program" ] && [ -z "$(find "$top/crates.txt" "$top/crates" -name out -prune -o -type f \
    \( -name '*.rt' -o -name '*.antt' -o -name crates.txt \) -newer "$program" -print -quit)" ]
}
