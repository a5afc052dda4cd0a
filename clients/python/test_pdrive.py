"""Tests of the client: python3 clients/python/test_pdrive.py. PDRIVE and PHIST name the programs; else they are those of
this repository. Without PHIST the tables of numbers are not compared with the program's."""

import os
import subprocess
import sys
import unittest
from pathlib import Path

sys.path.insert(0, str(Path(__file__).resolve().parent))

import pdrive
from pdrive import BPT, Control, Ended, LineRefused, Never, ScenarioRefused, Session, errors

PHIST = os.environ.get("PHIST")

SCENARIO = "program p\nset r1, 5\nset r2, 2\nadd r1, r2\nsys getpid\nset r1, 3\nsys exit\nend\n"


def told(text: str) -> bytes:
    """The bytes that phist says of a message."""
    return bytes.fromhex(subprocess.run([PHIST, "bytes", text], stdout=subprocess.PIPE, check=True).stdout.decode())


@unittest.skipUnless(PHIST, "PHIST names no phist")
class Tables(unittest.TestCase):
    def test_sets(self) -> None:
        for table, code in ((pdrive.SIGNALS, "PCSTRACE"), (pdrive.FAULTS, "PCSFAULT"), (pdrive.SYSCALLS, "PCSENTRY")):
            for name in table:
                self.assertEqual(told(f"{code} {name}"), pdrive.message(code, pdrive.set_of(table, name)), name)

    def test_flags(self) -> None:
        for name, bit in pdrive.MODES.items():
            self.assertEqual(told(f"PCSET {name}"), pdrive.message("PCSET", bit), name)
        for name, bit in pdrive.RUN_FLAGS.items():
            self.assertEqual(told(f"PCRUN {name}"), pdrive.message("PCRUN", bit), name)


class Sessions(unittest.TestCase):
    def test_a_held_process(self) -> None:
        with Session(SCENARIO) as session:
            process = session.spawn("p", held=True)
            process.control.wait_stop()
            status = process.status()
            self.assertEqual((status.pid, status.why, status.lwp.pc), (1, "PR_REQUESTED", pdrive.TEXT))
            self.assertEqual([one.name for one in session.list()], ["p"])
            self.assertEqual([one.kind for one in process.mappings()], ["text", "stack"])
            self.assertEqual([one.lwp for one in process.lwps()], [1])
            self.assertEqual(process.psinfo().name, "p")
        self.assertEqual(session.history.status, 0)
        self.assertEqual(session.history.entries[0], "0 c0 spawn p held -> pid 1")

    def test_errors(self) -> None:
        with Session(SCENARIO) as session:
            with self.assertRaises(errors["ENOENT"]) as caught:
                session.open(7, "status")
            self.assertEqual((caught.exception.name, caught.exception.errno), ("ENOENT", 2))
            with self.assertRaises(LineRefused) as refused:
                session.call("nonsense")
            self.assertEqual(refused.exception.kind, "NoCall")
            with self.assertRaises(errors["EBADF"]):
                session.call("close 9")
        self.assertEqual(len(session.history.entries), 2)

    def test_empty_replies(self) -> None:
        with Session(SCENARIO) as session:
            self.assertEqual(session.list(), [])
            process = session.spawn("p", held=True)
            self.assertEqual((process.watched(), process.descriptors()), ([], []))

    def test_registers(self) -> None:
        with Session(SCENARIO) as session:
            process = session.spawn("p", held=True)
            process.control.wait_stop()
            registers = process.status().lwp.regs
            self.assertEqual(registers.replace(), registers)
            self.assertIn("r1=0x0", repr(registers))
            process.control.set_registers(registers.replace(r1=7))
            self.assertEqual(process.status().lwp.regs.r1, 7)
            with self.assertRaises(TypeError):
                registers.replace(rl=7)

    def test_names_in_errors(self) -> None:
        with Session(SCENARIO) as session:
            process = session.spawn("p", held=True)
            with self.assertRaisesRegex(KeyError, "SIGTERM is none of .*TERM"):
                process.control.trace_signals("SIGTERM")
            process.control.wait_stop()
            process.control.run()
            with self.assertRaisesRegex(errors["EBUSY"], "PCRUN"):
                process.control.run()

    def test_never(self) -> None:
        with Session(SCENARIO) as session:
            process = session.spawn("p", held=True)
            control = process.control
            control.wait_stop()
            control.write_memory(pdrive.TEXT, BPT)
            other = session.open(1, "status")
            with self.assertRaises(Never):
                session.poll([other])
            self.assertEqual(control.read_memory(pdrive.TEXT, 16), BPT)

    def test_moves(self) -> None:
        with Session(SCENARIO) as session:
            process = session.spawn("p", held=True)
            process.control.wait_stop()
            self.assertEqual(session.moves(3), [])
            process.control.run()
            entries = session.moves(2)
            self.assertEqual([entry.split(" ", 1)[1] for entry in entries], ["1/1 ran", "1/1 ran"])
            self.assertEqual(session.move("9/9"), [])
            self.assertTrue(session.run()[-1].endswith("made exit"))
            self.assertTrue(process.psinfo().zombie)

    def test_messages_by_words(self) -> None:
        with Session(SCENARIO) as session:
            process = session.spawn("p", held=True)
            control = process.control
            self.assertIsInstance(control, Control)
            self.assertEqual(session.ask(f"ctl {control.handle} strace INT+TERM sfault FLTBPT"), "used 16")
            self.assertEqual(session._line(), "used 16")
            status = process.status()
            self.assertEqual((status.traced_signals, status.traced_faults), ({"INT", "TERM"}, {"FLTBPT"}))
            with self.assertRaises(LineRefused) as refused:
                session.call(f"ctl {control.handle} strace NONE")
            self.assertEqual(refused.exception.kind, "UnknownName")

    def test_a_scenario_that_is_refused(self) -> None:
        with self.assertRaises(ScenarioRefused) as caught:
            with Session("program p\nbad\nend\n") as session:
                session.list()
        self.assertEqual((caught.exception.line, caught.exception.kind), (2, "UnknownWord"))

    def test_the_end(self) -> None:
        with Session(SCENARIO + "spawn p\ntool pwait 1\n", quiet=True) as session:
            session.run()
        self.assertEqual(session.history.entries, [])
        with self.assertRaises(Ended):
            session.list()

    def test_truss_beside(self) -> None:
        with Session(SCENARIO + "truss p\n") as session:
            session.moves(500)
        self.assertIn("getpid", session.history.printed)


if __name__ == "__main__":
    unittest.main()
