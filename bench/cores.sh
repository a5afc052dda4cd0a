#!/usr/bin/env bash
# Time of gcore of a process, and of `core pmap` of what gcore printed, against the size of its space: a heap of 32, 64
# and 128 pages, as far as brk goes. `run -q` keeps the history and writes the core alone. A plain program, in
# Python, writes and reads the same bytes in hex: the time of that does not count its start. Prints the seconds of each,
# the ratio of time to that at the first size beside the ratio of the sizes, and the ratio to the plain program.
#
# A word is a program to time in place of the proved program of this state.
set -eu
. "$(dirname "${BASH_SOURCE[0]}")/measure.bash"
programs_of "$@"
program=${programs[0]}
tries=7
core=$(mktemp)
trap 'rm -f "$input" "$output" "$core"' EXIT

block() {
  cat <<END
program p
set r1, $((0x100000 + 4096 * $1))
sys brk
sys pause
end
END
}

# scenario PAGES: the break is moved so far, and the process sleeps
scenario() {
  block "$1"
  printf 'spawn p\ntool gcore 1\n'
}

# plain: writes the bytes of a core in hex as gcore does, reads them back, and prints the seconds of each
plain() {
  python3 - "$core" "$tries" <<'END'
import sys, time

lines = open(sys.argv[1], "rb").read().split(b"\n")
head = next(k for k, line in enumerate(lines) if line.startswith(b"core "))
many = (int(lines[head][5:]) + 1023) // 1024
text = b"".join(line + b"\n" for line in lines[head : head + 1 + many])
data = b"".join(bytes.fromhex(line.decode()) for line in lines[head + 1 : head + 1 + many])


def write(data):
    parts = [b"core %d\n" % len(data)]
    for at in range(0, len(data), 1024):
        parts.append(data[at : at + 1024].hex().encode() + b"\n")
    with open("/dev/null", "wb") as sink:
        sink.write(b"".join(parts))
    return b"".join(parts)


def read(path):
    lines = open(path, "rb").read().split(b"\n")
    return b"".join(bytes.fromhex(line.decode()) for line in lines[head + 1 : head + 1 + many])


def least(call, argument):
    times = []
    for _ in range(int(sys.argv[2])):
        start = time.perf_counter()
        call(argument)
        times.append(time.perf_counter() - start)
    return min(times)


assert write(data) == text and read(sys.argv[1]) == data
print(len(data), "%.5f %.5f" % (least(write, data), least(read, sys.argv[1])))
END
}

first_gcore= first_core= first_bytes=
for pages in 32 64 128; do
  words=(run -q) ends=(0 3) # the process may sleep on
  scenario "$pages" >"$input"
  least_times
  gcore=${least[$program]}
  cp "$output" "$core"
  { block "$pages"; echo '%core'; sed -n '/^core /,$p' "$core"; } >"$input"
  words=(core pmap) ends=(0)
  least_times
  shown=${least[$program]}
  read -r bytes plain_write plain_read <<<"$(plain)"
  : "${first_gcore:=$gcore}" "${first_core:=$shown}" "${first_bytes:=$bytes}"
  awk -v p="$pages" -v b="$bytes" -v g="$gcore" -v c="$shown" -v w="$plain_write" -v r="$plain_read" \
    -v fg="$first_gcore" -v fc="$first_core" -v fb="$first_bytes" 'BEGIN {
      printf "%d pages, %d bytes: gcore %.4f s, ratio %.2f of %.2f, plain %.4f s, ratio %.2f\n", p, b, g, g / fg, b / fb, w, g / w
      printf "%d pages, %d bytes: core pmap %.4f s, ratio %.2f of %.2f, plain %.4f s, ratio %.2f\n", p, b, c, c / fc, b / fb, r, c / r
    }'
done
