"""Record and replay: a session is made, and its history is judged by `proclab check`: each entry is the one that the
machine makes. Then one reply in it is changed, and it is judged again. Run it as:
python3 clients/python/examples/replay.py"""

import os
import subprocess
import sys
from pathlib import Path

sys.path.insert(0, str(Path(__file__).resolve().parents[1]))

from pdrive import Session

SCENARIO = """program p
sys getpid
set r1, 0
sys exit
end
"""

PROCLAB = os.environ.get("PROCLAB") or str(Path(__file__).resolve().parents[3] / "proclab")


def judge(scenario: str, history: str) -> str:
    """What check says. The outside is one more controller: a script, of which check reads no line."""
    given = f"{scenario}script\nend\n%history\n{history}"
    return subprocess.run([PROCLAB, "check"], input=given.encode(), stdout=subprocess.PIPE).stdout.decode().strip()


def main() -> int:
    with Session(SCENARIO) as session:
        process = session.spawn("p", held=True)
        process.control.stop()
        print(f"pid {process.status().pid} stands at {process.status().lwp.pc:#x}")
        process.control.run()
    history = session.history.text
    print(judge(SCENARIO, history))
    print(judge(SCENARIO, history.replace("-> pid 1", "-> pid 2", 1)))
    return 0


if __name__ == "__main__":
    sys.exit(main())
