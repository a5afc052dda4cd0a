"""Drives the kernel of proclab from Python, call by call.

The program ``pdrive`` keeps a proved model of Solaris process control. This module starts it, makes calls of it as a
controller outside of its scenario, and reads records by name:

    from pdrive import Session

    with Session(SCENARIO) as session:
        process = session.spawn("p", held=True)
        process.control.stop()
        print(process.status().lwp.pc)
    print(session.history.text)

Between two calls the programs, the clock and the controllers of the scenario have a round of moves. A call that is not
ready waits for them. Numbers, records and messages are those of docs/proc.4.md; docs/python-client.md has a walk.

Needs Python 3.9, and nothing besides.
"""

from __future__ import annotations

import os
import re
import shutil
import struct
import subprocess
from dataclasses import dataclass, field
from pathlib import Path
from typing import Dict, Iterable, Iterator, List, Optional, Sequence, Type, Union

__all__ = [
    "Control", "Ended", "File", "History", "LineRefused", "LwpStatus", "Mapping", "Never", "PdriveError", "ProcError",
    "Process", "Psinfo", "Registers", "ScenarioRefused", "Session", "Status", "Usage", "Watch", "Descriptor", "Listed",
    "BPT", "CODES", "ERRNOS", "FAULTS", "INSTRUCTION", "REGISTERS", "SIGNALS", "SYSCALLS", "TEXT", "WHYS", "errors",
    "find_program", "message", "set_of",
]

# ---- tables of numbers, which are those of proc(4)

SIGNALS: Dict[str, int] = {name: number for number, name in enumerate(
    "HUP INT QUIT ILL TRAP ABRT EMT FPE KILL BUS SEGV SYS PIPE ALRM TERM USR1 USR2 CLD PWR WINCH URG POLL STOP TSTP "
    "CONT TTIN TTOU VTALRM PROF XCPU XFSZ RT0 RT1 RT2 RT3 RT4 RT5 RT6 RT7".split(), start=1)}

FAULTS: Dict[str, int] = {name: number for number, name in enumerate(
    "FLTILL FLTBPT FLTTRACE FLTWATCH FLTACCESS FLTBOUNDS FLTSTACK FLTIZDIV".split(), start=1)}

SYSCALLS: Dict[str, int] = {name: number for number, name in enumerate(
    "exit fork read write open close wait getpid getppid exec pipe dup lseek kill sigaction sigmask pause sigreturn "
    "brk mmap munmap mprotect time sleep lwp_create lwp_exit lwp_suspend lwp_continue fstat sigqueue vfork".split(),
    start=1)}

ERRNOS: Dict[str, int] = {
    "EPERM": 1, "ENOENT": 2, "ESRCH": 3, "EINTR": 4, "EIO": 5, "EBADF": 9, "ECHILD": 10, "EAGAIN": 11, "ENOMEM": 12,
    "EFAULT": 14, "EBUSY": 16, "EINVAL": 22, "ENFILE": 23, "EMFILE": 24, "ENOSPC": 28, "ESPIPE": 29, "EPIPE": 32,
    "ENOTSUP": 48,
}

WHYS: Dict[int, Optional[str]] = {
    0: None, 1: "PR_REQUESTED", 2: "PR_SIGNALLED", 3: "PR_SYSENTRY", 4: "PR_SYSEXIT", 5: "PR_JOBCONTROL",
    6: "PR_FAULTED", 7: "PR_SUSPENDED",
}

LWP_FLAGS: Dict[str, int] = {"STOPPED": 1, "ISTOP": 2, "DSTOP": 4, "STEP": 8, "ASLEEP": 16, "AGENT": 32}
PROCESS_FLAGS: Dict[str, int] = {"FORK": 1, "RLC": 2, "KLC": 4, "ASYNC": 8, "ISSYS": 16, "VFORKP": 32}
MODES: Dict[str, int] = {"FORK": 1, "RLC": 2, "KLC": 4, "ASYNC": 8}
RUN_FLAGS: Dict[str, int] = {"PRCSIG": 1, "PRCFAULT": 2, "PRSTEP": 4, "PRSABORT": 8, "PRSTOP": 16}
WATCH_FLAGS: Dict[str, int] = {"READ": 1, "WRITE": 2, "EXEC": 4, "TRAPAFTER": 8}

REGISTERS: Sequence[str] = ("r0", "r1", "r2", "r3", "r4", "r5", "r6", "r7", "sp", "fp", "pc")

CODES: Dict[str, int] = {name: number for number, name in enumerate(
    "PCSTOP PCDSTOP PCWSTOP PCTWSTOP PCRUN PCCSIG PCCFAULT PCSSIG PCKILL PCUNKILL PCSHOLD PCSTRACE PCSFAULT PCSENTRY "
    "PCSEXIT PCSET PCUNSET PCSREG PCSVADDR PCWATCH PCAGENT PCREAD PCWRITE".split(), start=1)}

#: The bytes of the instruction ``bpt``, a breakpoint.
BPT: bytes = bytes([1] + [0] * 15)

#: Where the text of a program begins, and how many bytes an instruction has.
TEXT: int = 0x10000
INSTRUCTION: int = 16

Names = Union[str, Iterable[str]]


def _names(names: Names) -> List[str]:
    return names.split("+") if isinstance(names, str) else list(names)


def _number_of(table: Dict[str, int], name: str) -> int:
    if name not in table:
        raise KeyError(f"{name} is none of {', '.join(table)}")
    return table[name]


def set_of(table: Dict[str, int], names: Names) -> int:
    """The word of a set: number n is its bit n - 1. ``names`` is ``"INT+TERM"``, or several names; ``""`` is none, and
    ``"all"`` is all of the table. A name that the table has not is a KeyError."""
    words = _names(names)
    if words == ["all"]:
        words = list(table)
    return sum({1 << (_number_of(table, name) - 1) for name in words if name})


def flags_of(table: Dict[str, int], names: Names) -> int:
    """The word of some flags, each by its name. A name that the table has not is a KeyError."""
    return sum({_number_of(table, name) for name in _names(names) if name})


def names_of(table: Dict[str, int], word: int) -> frozenset:
    """The names of what a set has."""
    return frozenset(name for name, number in table.items() if word >> (number - 1) & 1)


def flag_names_of(table: Dict[str, int], word: int) -> frozenset:
    """The names of the flags of a word."""
    return frozenset(name for name, bit in table.items() if word & bit)


def message(name: str, *words: int) -> bytes:
    """The bytes of a control message: its code, and its operand words, each 8 bytes, the least byte first."""
    return struct.pack(f"<{1 + len(words)}Q", CODES[name], *words)


# ---- what goes wrong

class PdriveError(Exception):
    """Whatever goes wrong in a session."""


class ScenarioRefused(PdriveError):
    """The scenario is refused: ``line``, counted from 1 (0: as a whole), and ``kind``."""

    def __init__(self, line: int, kind: str) -> None:
        super().__init__(f"line {line} of the scenario: {kind}")
        self.line, self.kind = line, kind


class LineRefused(PdriveError):
    """A line is no call. The session goes on."""

    def __init__(self, line: str, kind: str) -> None:
        super().__init__(f"{kind}: {line}")
        self.line, self.kind = line, kind


class Never(PdriveError):
    """A call was not ready, and nobody can move any more, or the history has no place left; it was taken back."""


class Ended(PdriveError):
    """The session has ended, or the program that kept it has."""


class ProcError(PdriveError):
    """A call was refused. ``name`` is as ``"EBUSY"``, ``errno`` its number. Each errno has a class of its own, in
    ``errors``: ``except errors["EBUSY"]``."""

    name = ""
    errno = 0

    def __init__(self, call: str) -> None:
        super().__init__(f"{self.name}: {call}")
        self.call = call


#: The class of each errno.
errors: Dict[str, Type[ProcError]] = {
    name: type(name, (ProcError,), {"name": name, "errno": number, "__doc__": f"A call was refused with {name}."})
    for name, number in ERRNOS.items()
}

# ---- records


@dataclass(frozen=True)
class Registers:
    """The registers of an lwp: r0 to r7, sp, fp, pc."""

    values: Sequence[int]

    def __getattr__(self, name: str) -> int:
        try:
            return self.values[REGISTERS.index(name)]
        except ValueError:
            raise AttributeError(name) from None

    def __repr__(self) -> str:
        return f"Registers({', '.join(f'{name}={value:#x}' for name, value in zip(REGISTERS, self.values))})"

    def replace(self, **changed: int) -> "Registers":
        """The same registers with some changed, by name. A name that no register has is a TypeError."""
        for name in changed:
            if name not in REGISTERS:
                raise TypeError(f"{name} is none of the registers {', '.join(REGISTERS)}")
        return Registers(tuple(changed.get(name, self.values[at]) for at, name in enumerate(REGISTERS)))


def _data(word: str) -> bytes:
    """The bytes of a reply, in hex; no bytes are written ``-``."""
    return b"" if word == "-" else bytes.fromhex(word)


def _words(data: bytes) -> Sequence[int]:
    return struct.unpack(f"<{len(data) // 8}Q", data[: len(data) // 8 * 8])


def _text(data: bytes) -> str:
    return data.split(b"\0", 1)[0].decode("ascii", "replace")


def _name_in(table: Dict[str, int], number: int) -> Optional[str]:
    return next((name for name, n in table.items() if n == number), None)


@dataclass(frozen=True)
class LwpStatus:
    """An lwp as a status shows it (264 bytes). ``why`` is as ``"PR_FAULTED"``, None where it is not stopped; ``what``
    is the name of the signal, call or fault that it stopped on."""

    flags: frozenset
    lwp: int
    why: Optional[str]
    what: Optional[str]
    signal: Optional[str]
    fault: Optional[str]
    fault_address: int
    syscall: Optional[str]
    args: Sequence[int]
    result: int
    errno: Optional[str]
    held: frozenset
    pending: frozenset
    regs: Registers
    disposition: int
    info_code: int
    info_pid: int
    info_value: int

    SIZE = 264

    @property
    def pc(self) -> int:
        return self.regs.pc

    @classmethod
    def decode(cls, data: bytes) -> "LwpStatus":
        w = _words(data[: cls.SIZE])
        why = WHYS.get(w[2])
        table = {"PR_SIGNALLED": SIGNALS, "PR_JOBCONTROL": SIGNALS, "PR_SYSENTRY": SYSCALLS, "PR_SYSEXIT": SYSCALLS,
                 "PR_FAULTED": FAULTS}.get(why or "", {})
        return cls(
            flags=flag_names_of(LWP_FLAGS, w[0]), lwp=w[1], why=why, what=_name_in(table, w[3]),
            signal=_name_in(SIGNALS, w[4]), fault=_name_in(FAULTS, w[5]), fault_address=w[6],
            syscall=_name_in(SYSCALLS, w[7]), args=w[8:14], result=w[14], errno=_name_in(ERRNOS, w[15]),
            held=names_of(SIGNALS, w[16]), pending=names_of(SIGNALS, w[17]), regs=Registers(w[18:29]),
            disposition=w[29], info_code=w[30], info_pid=w[31], info_value=w[32])


@dataclass(frozen=True)
class Status:
    """A process, and the lwp that stands for it (368 bytes)."""

    flags: frozenset
    pid: int
    parent: int
    lwps: int
    pending: frozenset
    traced_signals: frozenset
    traced_faults: frozenset
    entry: frozenset
    exit: frozenset
    heap: int
    heap_size: int
    agent: int
    watched: int
    lwp: LwpStatus

    SIZE = 368

    @property
    def why(self) -> Optional[str]:
        return self.lwp.why

    @property
    def what(self) -> Optional[str]:
        return self.lwp.what

    @classmethod
    def decode(cls, data: bytes) -> "Status":
        w = _words(data[:104])
        return cls(
            flags=flag_names_of(PROCESS_FLAGS, w[0]), pid=w[1], parent=w[2], lwps=w[3],
            pending=names_of(SIGNALS, w[4]), traced_signals=names_of(SIGNALS, w[5]),
            traced_faults=names_of(FAULTS, w[6]), entry=names_of(SYSCALLS, w[7]), exit=names_of(SYSCALLS, w[8]),
            heap=w[9], heap_size=w[10], agent=w[11], watched=w[12],
            lwp=LwpStatus.decode(data[104:]))


@dataclass(frozen=True)
class Psinfo:
    """What ps(1) shows of a process (96 bytes). Times are in milliseconds, sizes in bytes."""

    pid: int
    parent: int
    lwps: int
    zombie: bool
    wait_status: int
    size: int
    made: int
    job_stop: Optional[str]
    name: str

    @classmethod
    def decode(cls, data: bytes) -> "Psinfo":
        w = _words(data[:64])
        return cls(w[0], w[1], w[2], bool(w[3]), w[4], w[5], w[6], _name_in(SIGNALS, w[7]), _text(data[64:96]))


@dataclass(frozen=True)
class Mapping:
    """A mapping (64 bytes): address and size in bytes; ``protection`` as ``"rwx"``; kind; program's name."""

    address: int
    size: int
    protection: str
    kind: str
    name: str

    KINDS = {1: "text", 2: "data", 3: "heap", 4: "stack", 5: "mapped"}

    @classmethod
    def decode(cls, data: bytes) -> "Mapping":
        w = _words(data[:32])
        may = "".join(letter for letter, bit in (("r", 4), ("w", 2), ("x", 1)) if w[2] & bit)
        return cls(w[0], w[1], may, cls.KINDS.get(w[3], str(w[3])), _text(data[32:64]))


@dataclass(frozen=True)
class Usage:
    """What a process has used (40 bytes), each a count."""

    pid: int
    calls: int
    signals: int
    faults: int
    instructions: int

    @classmethod
    def decode(cls, data: bytes) -> "Usage":
        return cls(*_words(data[:40]))


@dataclass(frozen=True)
class Watch:
    """A watched area (24 bytes)."""

    address: int
    size: int
    flags: frozenset

    @classmethod
    def decode(cls, data: bytes) -> "Watch":
        address, size, flags = _words(data[:24])
        return cls(address, size, flag_names_of(WATCH_FLAGS, flags))


@dataclass(frozen=True)
class Descriptor:
    """An open descriptor (64 bytes): its number; kind 1 a file, 2 and 3 the ends of a pipe; open mode 0 to read, 1 to
    write, 2 for both; offset in bytes; the file's name."""

    number: int
    kind: int
    mode: int
    offset: int
    name: str

    @classmethod
    def decode(cls, data: bytes) -> "Descriptor":
        return cls(*_words(data[:32]), _text(data[32:64]))


@dataclass(frozen=True)
class Listed:
    """A process of a list (48 bytes)."""

    pid: int
    parent: int
    name: str

    @classmethod
    def decode(cls, data: bytes) -> "Listed":
        return cls(*_words(data[:16]), _text(data[16:48]))


def _records(data: bytes, size: int) -> Iterator[bytes]:
    return (data[at: at + size] for at in range(0, len(data) - size + 1, size))


@dataclass(frozen=True)
class History:
    """What a session has written at its end: the entries, each a line; what truss and tools of the scenario print;
    ``text``, all of it, which ``proclab check`` and ``phist`` read; and the status."""

    entries: Sequence[str]
    printed: str
    text: str
    status: int


# ---- files

@dataclass
class File:
    """An open file of a process. A context manager that closes it."""

    session: "Session"
    handle: int
    pid: int
    name: str
    open: bool = field(default=True)

    def read(self, at: int = 0, length: int = 20480) -> bytes:
        """So many bytes from byte ``at`` on, as they are now: fewer where there are fewer."""
        return self.session._bytes(f"read {self.handle} {at} {length}")

    def close(self) -> None:
        """Closes it. The last close for writing ends or releases the process, where its modes say so."""
        if self.open:
            self.open = False
            self.session.call(f"close {self.handle}")

    def __enter__(self) -> "File":
        return self

    def __exit__(self, *_: object) -> None:
        if self.session.running:
            self.close()


@dataclass
class Control(File):
    """A control file of a process, or of an lwp. Each method writes one message; the errors that a message may have
    stand in docs/proc.4.md."""

    def write(self, data: bytes) -> bytes:
        """Writes one message. One that waits does; the bytes that PCREAD is answered with are the result. The error of
        one that is refused names it."""
        try:
            reply = self.session.call(f"ctl {self.handle} {data.hex()}")
            if reply.startswith("half "):
                reply = self.session.call(f"ctlwait {self.handle} {reply[5:]} {data.hex()}")
        except ProcError as error:
            code = int.from_bytes(data[:8], "little")
            raise type(error)(f"{error.call} ({_name_in(CODES, code) or 'no message'})") from None
        return _data(reply[6:]) if reply.startswith("bytes ") else b""

    def stop(self) -> None:
        """PCSTOP: directs it to stop, and waits until it is stopped on an event of interest."""
        self.write(message("PCSTOP"))

    def direct_stop(self) -> None:
        """PCDSTOP: directs it to stop, and does not wait."""
        self.write(message("PCDSTOP"))

    def wait_stop(self, milliseconds: int = 0) -> None:
        """PCWSTOP, or PCTWSTOP: waits until it is stopped on an event of interest, for so long at most; 0: for ever."""
        self.write(message("PCTWSTOP", milliseconds) if milliseconds else message("PCWSTOP"))

    def run(self, flags: Names = "") -> None:
        """PCRUN, with flags PRCSIG, PRCFAULT, PRSTEP, PRSABORT, PRSTOP."""
        self.write(message("PCRUN", flags_of(RUN_FLAGS, flags)))

    def step(self) -> None:
        """PCRUN with PRSTEP and PRCFAULT: it incurs FLTTRACE after its next instruction."""
        self.run("PRSTEP+PRCFAULT")

    def trace_signals(self, names: Names) -> None:
        """PCSTRACE: a set of signals, as ``"INT+TERM"``; ``"all"``; ``""`` for none."""
        self.write(message("PCSTRACE", set_of(SIGNALS, names)))

    def trace_faults(self, names: Names) -> None:
        """PCSFAULT: a set of faults, as ``"FLTBPT+FLTTRACE"``."""
        self.write(message("PCSFAULT", set_of(FAULTS, names)))

    def trace_entry(self, names: Names) -> None:
        """PCSENTRY: the calls at whose entry it stops."""
        self.write(message("PCSENTRY", set_of(SYSCALLS, names)))

    def trace_exit(self, names: Names) -> None:
        """PCSEXIT: the calls at whose exit it stops."""
        self.write(message("PCSEXIT", set_of(SYSCALLS, names)))

    def set_modes(self, names: Names) -> None:
        """PCSET: modes FORK, RLC, KLC, ASYNC."""
        self.write(message("PCSET", flags_of(MODES, names)))

    def unset_modes(self, names: Names) -> None:
        """PCUNSET."""
        self.write(message("PCUNSET", flags_of(MODES, names)))

    def hold(self, names: Names) -> None:
        """PCSHOLD: the lwp's held set."""
        self.write(message("PCSHOLD", set_of(SIGNALS, names)))

    def clear_signal(self) -> None:
        """PCCSIG."""
        self.write(message("PCCSIG"))

    def clear_fault(self) -> None:
        """PCCFAULT."""
        self.write(message("PCCFAULT"))

    def set_signal(self, name: Optional[str]) -> None:
        """PCSSIG: the current signal; None clears it; KILL ends the process."""
        self.write(message("PCSSIG", SIGNALS[name] if name else 0))

    def kill(self, name: str) -> None:
        """PCKILL: sends a signal to what the file stands for."""
        self.write(message("PCKILL", SIGNALS[name]))

    def unkill(self, name: str) -> None:
        """PCUNKILL: deletes a pending signal."""
        self.write(message("PCUNKILL", SIGNALS[name]))

    def set_registers(self, registers: Registers) -> None:
        """PCSREG: of a stopped lwp."""
        self.write(message("PCSREG", *registers.values))

    def set_pc(self, address: int) -> None:
        """PCSVADDR: of a stopped lwp."""
        self.write(message("PCSVADDR", address))

    def watch(self, address: int, size: int, flags: Names) -> None:
        """PCWATCH: a watched area, in bytes; flags READ, WRITE, EXEC, TRAPAFTER; no flags clear it."""
        self.write(message("PCWATCH", address, size, flags_of(WATCH_FLAGS, flags)))

    def agent(self, registers: Registers) -> None:
        """PCAGENT: makes the agent lwp, 65535."""
        self.write(message("PCAGENT", *registers.values))

    def read_memory(self, address: int, length: int) -> bytes:
        """PCREAD: 1 to 4,096 bytes of memory; EIO where not all of them are mapped."""
        return self.write(message("PCREAD", address, length))

    def write_memory(self, address: int, data: bytes) -> None:
        """PCWRITE: 1 to 4,096 bytes, also of text."""
        self.write(message("PCWRITE", address, len(data)) + data + bytes(-len(data) % 8))


class Process:
    """A process, by its id, with its files opened as they are asked for. ``exclusive`` opens its control file for this
    controller alone."""

    def __init__(self, session: "Session", pid: int, exclusive: bool = True) -> None:
        self.session, self.pid, self.exclusive = session, pid, exclusive
        self._control: Optional[Control] = None
        self._files: Dict[str, File] = {}

    @property
    def control(self) -> Control:
        """Its control file, which is opened at the first use."""
        if self._control is None or not self._control.open:
            self._control = self.session.control(self.pid, exclusive=self.exclusive)
        return self._control

    def _read(self, name: str, length: int = 20480) -> bytes:
        if name not in self._files:
            self._files[name] = self.session.open(self.pid, name)
        return self._files[name].read(0, length)

    def status(self) -> Status:
        """Its status now."""
        return Status.decode(self._read("status", Status.SIZE))

    def psinfo(self) -> Psinfo:
        """What ps(1) shows of it, also of a zombie."""
        return Psinfo.decode(self._read("psinfo"))

    def lwps(self) -> List[LwpStatus]:
        """All its lwps, by rising id."""
        return [LwpStatus.decode(one) for one in _records(self._read("lstatus")[8:], LwpStatus.SIZE)]

    def mappings(self) -> List[Mapping]:
        """Its mappings, by address."""
        return [Mapping.decode(one) for one in _records(self._read("map"), 64)]

    def usage(self) -> Usage:
        """What it has used."""
        return Usage.decode(self._read("usage"))

    def watched(self) -> List[Watch]:
        """Its watched areas."""
        return [Watch.decode(one) for one in _records(self._read("watch"), 24)]

    def descriptors(self) -> List[Descriptor]:
        """Its open descriptors."""
        return [Descriptor.decode(one) for one in _records(self._read("fds"), 64)]

    def dispositions(self) -> Dict[str, int]:
        """The disposition of each signal: 0 default, 1 ignored, else the address of its handler."""
        return dict(zip(SIGNALS, _words(self._read("sigact"))))

    def memory(self, address: int, length: int) -> bytes:
        """Its memory, up to the first byte that is not mapped, at most 20,480 bytes."""
        if "as" not in self._files:
            self._files["as"] = self.session.open(self.pid, "as")
        return self._files["as"].read(address, length)

    def word(self, address: int) -> int:
        """The word at an address."""
        return _words(self.memory(address, 8))[0]

    def stack(self, limit: int = 32) -> List[int]:
        """The pc, and the return addresses of the frames above it: each frame begins with the fp of its caller, and
        behind it the address to which it goes back."""
        registers = self.status().lwp.regs
        addresses, frame = [registers.pc], registers.fp
        while frame and len(addresses) < limit:
            data = self.memory(frame, 16)
            if len(data) < 16:
                break
            frame, back = _words(data)
            addresses.append(back)
        return addresses

    def close(self) -> None:
        """Closes all its files that this session has open by it."""
        for file in [*self._files.values(), *([self._control] if self._control else [])]:
            file.close()
        self._files.clear()


# ---- sessions

def find_program() -> List[str]:
    """The command of pdrive: what PDRIVE names, or the program that this repository has built. One that is not built
    reads its input to the end before it answers, so that a client would wait for ever: it is a FileNotFoundError."""
    named = os.environ.get("PDRIVE")
    if named and not shutil.which(named):
        raise FileNotFoundError(f"PDRIVE names {named}, which is no program")
    if named:
        return [named]
    built = Path(__file__).resolve().parents[2] / "crates" / "pdrive" / "out" / "pdrive"
    if not os.access(built, os.X_OK):
        raise FileNotFoundError("pdrive is not built: run ./build, or let PDRIVE name a program")
    return [str(built)]


class Session:
    """A session with pdrive. A context manager: at its end it ends the session and has ``history``.

    ``scenario`` is a text of scenario(5). ``quiet`` leaves the history out at the end. ``program`` is the command of
    pdrive; by default what the environment's PDRIVE names, or the one of this repository."""

    def __init__(self, scenario: Union[str, bytes], program: Optional[Sequence[str]] = None,
                 quiet: bool = False) -> None:
        text = scenario.encode() if isinstance(scenario, str) else scenario
        if text and not text.endswith(b"\n"):
            text += b"\n"
        self.history: Optional[History] = None
        self.calls = 0
        command = [*(program or find_program()), *(["-q"] if quiet else [])]
        self._pipe = subprocess.Popen(command, stdin=subprocess.PIPE, stdout=subprocess.PIPE)
        self._lines_above = text.count(b"\n") + 1
        self._send(text + b"%calls\n")

    # -- lines

    @property
    def running(self) -> bool:
        """Whether calls can be made still."""
        return self.history is None and self._pipe.poll() is None

    def _send(self, data: bytes) -> None:
        try:
            self._pipe.stdin.write(data)
            self._pipe.stdin.flush()
        except (BrokenPipeError, ValueError):
            raise self._why_ended() from None

    def _line(self) -> str:
        line = self._pipe.stdout.readline()
        if not line.endswith(b"\n"):
            raise self._why_ended()
        return line[:-1].decode("ascii")

    def _why_ended(self) -> PdriveError:
        said = self._pipe.stdout.readline().decode("ascii", "replace")
        refused = re.fullmatch(r"line (\d+): (\w+)\n", said)
        if refused:
            return ScenarioRefused(int(refused[1]), refused[2])
        return Ended(f"pdrive has ended, with status {self._pipe.wait()}")

    def ask(self, line: str) -> str:
        """Sends a line, and gives the first line of the reply. A line that is refused is a LineRefused."""
        if self.history is not None:
            raise Ended("the session has ended")
        self.calls += 1
        self._send(line.encode() + b"\n")
        reply = self._line()
        refused = re.fullmatch(r"line (\d+): (\w+)", reply)
        if refused and int(refused[1]) <= self._lines_above - 1:
            raise ScenarioRefused(int(refused[1]), refused[2])
        if refused:
            raise LineRefused(line, refused[2])
        return reply

    def call(self, line: str) -> str:
        """Makes a call, written as a history writes it, and gives the reply, as ``"used 16"``. A refusal is a ProcError
        of its errno; where nobody can move any more it is Never."""
        reply = self.ask(line)
        if reply == "never":
            raise Never(line)
        if reply.startswith("fail "):
            raise errors.get(reply[5:], ProcError)(line)
        return reply

    def _number(self, line: str) -> int:
        return int(self.call(line).split()[1])

    def _bytes(self, line: str) -> bytes:
        return _data(self.call(line)[6:])

    # -- calls

    def open(self, pid: int, name: str, mode: str = "r", lwp: int = 0) -> File:
        """Opens a file of a process, or of an lwp: ``mode`` is r, w or wx. ENOENT, EBUSY, EINVAL, EMFILE."""
        where = f"{pid}/{lwp}" if lwp else str(pid)
        handle = self._number(f"open {where} {name} {mode}")
        kind = Control if name in ("ctl", "lwpctl") else File
        return kind(self, handle, pid, name)

    def control(self, pid: int, exclusive: bool = True, lwp: int = 0) -> Control:
        """Opens the control file of a process, or of an lwp of it."""
        file = self.open(pid, "lwpctl" if lwp else "ctl", "wx" if exclusive else "w", lwp)
        assert isinstance(file, Control)
        return file

    def spawn(self, program: str, held: bool = False) -> Process:
        """Makes a process of a program; ``held``: it is directed to stop before it runs. ENOENT, EAGAIN, ENOMEM."""
        return Process(self, self._number(f"spawn {program}{' held' if held else ''}"))

    def process(self, pid: int, exclusive: bool = True) -> Process:
        """A process by its id. No call is made."""
        return Process(self, pid, exclusive)

    def kill(self, pid: int, signal: Union[str, int]) -> None:
        """Sends a signal, by name or number, to a process. ESRCH, EAGAIN."""
        self.call(f"kill {pid} {SIGNALS[signal] if isinstance(signal, str) else signal}")

    def list(self) -> List[Listed]:
        """The processes, by rising id."""
        return [Listed.decode(one) for one in _records(self._bytes("list"), 48)]

    def until(self, moment: int) -> None:
        """Waits until the clock has reached a moment, in milliseconds."""
        self.call(f"until {moment}")

    def interrupt(self, controller: int) -> None:
        """Interrupts the wait of a controller of the scenario."""
        self.call(f"interrupt {controller}")

    def poll(self, files: Iterable[File]) -> File:
        """Waits until one of these files is ready, and gives it."""
        given = list(files)
        ready = self._number("poll " + " ".join(str(file.handle) for file in given))
        return next(file for file in given if file.handle == ready)

    # -- others move

    def _moved(self, line: str) -> List[str]:
        entries, reply = [], self.ask(line)
        while not reply.startswith("at ") and reply != "no":
            entries.append(reply)
            reply = self._line()
        return entries

    def moves(self, count: int) -> List[str]:
        """Others move so many times, or until nobody can: the entries that came, as a history writes them."""
        return self._moved(f"moves {count}")

    def move(self, actor: str) -> List[str]:
        """One actor moves: ``"1/2"`` an lwp, ``"c0"`` a controller, ``"clock"``. No entry came where it cannot."""
        return self._moved(f"move {actor}")

    def run(self) -> List[str]:
        """Others move until a file that is open here is ready, or nobody can."""
        return self._moved("run")

    # -- the end

    def end(self) -> History:
        """Ends the session, and gives its history."""
        if self.history is not None:
            return self.history
        self._send(b"%end\n")
        self._pipe.stdin.close()
        text = self._pipe.stdout.read().decode("ascii")
        self._pipe.stdout.close()
        self._pipe.wait()
        lines = text.splitlines()
        count = int(lines[0].split()[1]) if lines and lines[0].startswith("history ") else -1
        status = re.search(r"^status (\d+)$", text, re.M)
        printed = lines[count + 1: -1]
        self.history = History(lines[1: count + 1], "".join(f"{line}\n" for line in printed), text,
                               int(status[1]) if status else self._pipe.returncode)
        return self.history

    def abandon(self) -> None:
        """Ends the program, and has no history."""
        self._pipe.kill()
        self._pipe.communicate()

    def __enter__(self) -> "Session":
        return self

    def __exit__(self, kind: object, *_: object) -> None:
        if kind is None or self.running:
            try:
                self.end()
            except PdriveError:
                if kind is None:
                    raise
            finally:
                if self._pipe.poll() is None:
                    self.abandon()
