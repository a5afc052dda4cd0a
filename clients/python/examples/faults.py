"""A fault injector: each third `write` of a program fails with EINTR, by PRSABORT at its entry. Run it as:
python3 clients/python/examples/faults.py"""

import sys
from pathlib import Path

sys.path.insert(0, str(Path(__file__).resolve().parents[1]))

from pdrive import Session

SCENARIO = """
file log ""
program p
text name "log"
set r1, name
set r2, 1
sys open
set r4, 0
set r5, 1
set r6, 7
again:
set r1, 0
set r2, name
set r3, 3
sys write
add r4, r5
jlt r4, r6, again
set r1, 0
sys exit
end
"""


def main() -> int:
    writes = aborted = 0
    with Session(SCENARIO) as session:
        process = session.spawn("p", held=True)
        control = process.control
        control.wait_stop()
        control.trace_entry("write")
        control.trace_exit("write")
        control.run()
        while True:
            session.poll([control])
            if process.psinfo().zombie:
                break
            lwp = process.status().lwp
            if lwp.why == "PR_SYSENTRY":
                writes += 1
                if writes % 3 == 0:
                    aborted += 1
                    control.run("PRSABORT")
                    continue
            else:
                print(f"write {writes}: {lwp.errno or lwp.result}")
            control.run()
    print(f"{writes} writes, {aborted} aborted")
    return 0


if __name__ == "__main__":
    sys.exit(main())
