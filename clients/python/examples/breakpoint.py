"""A debugger with one breakpoint: it plants bpt, prints the stack each time the program comes there, steps over it, and
goes on. Run it as: python3 clients/python/examples/breakpoint.py"""

import sys
from pathlib import Path

sys.path.insert(0, str(Path(__file__).resolve().parents[1]))

from pdrive import BPT, INSTRUCTION, TEXT, Process, Session

SCENARIO = """
program p
set r1, 0
set r2, 3
set r3, 1
again:
call count
jlt r1, r2, again
set r1, 0
sys exit
count:
add r1, r3
ret
end
"""

#: `count` is the instruction of number 7, counted from 0.
COUNT = TEXT + 7 * INSTRUCTION


def go_on_over(process: Process, address: int, saved: bytes) -> None:
    """Steps over the breakpoint: the instruction is put back for one step, and the breakpoint is planted again."""
    control = process.control
    control.write_memory(address, saved)
    control.step()
    control.wait_stop()
    control.write_memory(address, BPT)
    control.run("PRCFAULT")


def main() -> int:
    with Session(SCENARIO) as session:
        process = session.spawn("p", held=True)
        control = process.control
        control.wait_stop()
        saved = control.read_memory(COUNT, INSTRUCTION)
        control.trace_faults("FLTBPT+FLTTRACE")
        control.write_memory(COUNT, BPT)
        control.run()
        while True:
            session.poll([control])
            if process.psinfo().zombie:
                break
            status = process.status()
            frames = " <- ".join(f"{address:#x}" for address in process.stack())
            print(f"{status.why} {status.what}: r1 = {status.lwp.regs.r1}, stack {frames}")
            go_on_over(process, COUNT, saved)
        print(f"exit status {process.psinfo().wait_status >> 8}")
    print(f"{len(session.history.entries)} entries, status {session.history.status}")
    return 0


if __name__ == "__main__":
    sys.exit(main())
