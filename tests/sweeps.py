"""What the tests share that refuse memory or threads: two scenarios, the library that refuses memory, the runs under it,
and whether a text is one of a legal history."""
import os
import re
import struct
import subprocess
import tempfile

from checks import PROVED, TOP

# A script that sets all that a process can have, in a process of several lwps with a handler and queued signals, which
# has forked before anybody else moves.
MANY_THINGS = """turns 400
file notes "some bytes"
program p
text path, "notes"
space buffer, 64
set r1, 33
set r2, handler
sys sigaction
set r1, other
set r2, 0x700800
sys lwp_create
set r1, other
set r2, 0x700c00
sys lwp_create
set r1, path
set r2, 2
sys open
set r1, buffer
sys pipe
set r1, 8192
set r2, 6
sys mmap
set r1, 0x102000
sys brk
sys fork
set r1, 0
sys wait
sys getpid
mov r1, r0
set r2, 33
set r3, 9
sys sigqueue
sys sigqueue
set r1, 0
sys exit
handler:
sys sigreturn
other:
set r1, 3
sys sleep
sys lwp_exit
end
spawn p
script
open c 1 ctl w
open s 1 status r
open a 1 as r
open w 1 watch r
open l 1/1 lwpctl w
write c stop watch 0x80040 8 2 watch 0x80048 8 1
write c agent 0 0 0 0 0 0 0 0 0x701000 0 0x10000
write l kill 34 kill 34 kill 35
write c write 0x80040 0011223344 read 0x80040 8
read a 0x80000 100
read w 0 100
read s 0 400
list
poll c s
kill 1 36
close l
spawn p held
write c run
write c set rlc
interrupt 0
until 2
close c
end
tool pfiles 1
tool pmap 1
tool psig 1
tool pflags 1
schedule 1/1*52
"""

# A lender whose space comes back twice: its first borrower execs. Its second one lends the space on and is killed by the
# borrower of that, which has the first lender's space then, and ends.
LENDINGS = """turns 400
program other
space more, 4096
sys getpid
set r1, 3
sys exit
end
program lender
text path, "other"
space kept, 8
set r6, kept
set r1, 0x102000
sys brk
sys vfork
jz r0, execs
set r1, kept
sys wait
sys vfork
jz r0, lends_on
set r1, 0
sys wait
ld r1, r6, 0
sys exit
execs:
st r0, r6, 0
set r1, path
sys exec
lends_on:
sys vfork
jz r0, kills
pause:
sys pause
jmp pause
kills:
sys getppid
mov r1, r0
set r2, 9
sys kill
set r3, 5
st r3, r6, 0
set r1, 6
sys exit
end
spawn lender
truss -f -s !CLD -p 1
script
open s 1 status r
open a 1 as r
open m 1 map r
until 2
read s 0 400
read a 0x80000 16
read m 0 400
poll s
end
tool pmap 2
tool pstack 1
"""


def make_library(room):
    """Compiles the library that refuses, into this folder."""
    source = os.path.join(TOP, "tests/refused-memory.c")
    subprocess.run(["cc", "-shared", "-fPIC", "-O2", "-o", os.path.join(room, "refuse.so"), source], check=True)


class Sweep:
    """The runs of one input, each with another request refused."""

    def __init__(self, program, words, data, room):
        self.command = [program] + words
        self.data = data
        self.room = room

    def run(self, number, onwards):
        """A run: its status or None, what it wrote, and how often it asked for memory."""
        with tempfile.NamedTemporaryFile(dir=self.room) as counted:
            counted.write(bytes(8))
            counted.flush()
            env = {"LD_PRELOAD": os.path.join(self.room, "refuse.so"), "COUNTED": counted.name, "REFUSED": str(number)}
            env.update({"ONWARDS": "1"} if onwards else {})
            try:
                ran = subprocess.run(self.command, input=self.data, capture_output=True, timeout=120, env=env)
            except subprocess.TimeoutExpired:
                return None, b"", 0
            return ran.returncode, ran.stdout + ran.stderr, struct.unpack("q", open(counted.name, "rb").read())[0]


def is_legal_front(scenario, out, whole=False):
    """Whether what was written is the front of the text of a legal history, as it may be told of some entries; or all of
    its entries, where it is to be whole."""
    head = re.match(rb"history (\d+)\n", out)
    if not head:
        return not whole and (b"history 100000\n".startswith(out) or re.fullmatch(rb"history \d*", out) is not None)
    lines = re.match(rb"(\d+ .*\n)*", out[head.end():]).group(0)
    count = lines.count(b"\n")
    if whole and count != int(head.group(1)):
        return False
    entries = b"history %d\n" % count + lines
    judged = subprocess.run([PROVED, "check"], input=scenario + b"%history\n" + entries, capture_output=True)
    return judged.stdout == b"legal %d\n" % count


def some(count, most):
    """The numbers from 1 to this one; of more than so many that many, the first and the last third of them one by one."""
    if count <= most:
        return list(range(1, count + 1))
    part = (most + 2) // 3
    step = (count - 2 * part) / part
    middle = {int(part + step * k) for k in range(1, part)}
    return sorted(set(range(1, part + 1)) | middle | set(range(count - part + 1, count + 1)))
