//! What is kept of each step, and its text.

use crate::names::{signal_name, Errno, Fault, Sysno};
use std::fmt::{self, Display, Formatter};
use std::io::{self, Write};

/// What a turn did.
#[derive(Clone, Copy)]
pub enum Did {
    Stopped,
    Ran,
    Entered(Sysno),
    Made(Sysno, Option<u64>),
    Returned(Sysno),
    Faulted(Fault),
    Posted(Fault),
    Took(u8),
    Died(u8),
}

/// A file of a process: `Ctl` is opened for writing, and `Status` for reading.
#[derive(Clone, Copy, PartialEq)]
pub enum File {
    Ctl,
    Status,
}

pub enum Call {
    Open {
        pid: u32,
        file: File,
    },
    Close {
        handle: u32,
    },
    Read {
        handle: u32,
        at: u64,
        len: u64,
    },
    Ctl {
        handle: u32,
        bytes: Vec<u8>,
    },
    CtlWait {
        handle: u32,
        until: u64,
        bytes: Vec<u8>,
    },
}

pub enum Reply {
    Handle(u32),
    Done,
    Used(usize),
    Half(u64),
    Bytes(Vec<u8>),
    Fail(Errno),
}

/// A step: a turn of an lwp, which stopped on what it did or not; a call of a controller; or the clock's.
pub enum Entry {
    Turn {
        pid: u32,
        id: u32,
        did: Did,
        is_stop: bool,
    },
    Call {
        by: usize,
        call: Call,
        reply: Reply,
    },
    Tick(u64),
}

impl Display for Did {
    fn fmt(&self, f: &mut Formatter<'_>) -> fmt::Result {
        match *self {
            Did::Stopped => f.write_str("stopped requested"),
            Did::Ran => f.write_str("ran"),
            Did::Entered(call) => write!(f, "entered {}", call.name()),
            Did::Made(call, Some(value)) => write!(f, "made {} = {value}", call.name()),
            Did::Made(call, None) => write!(f, "made {}", call.name()),
            Did::Returned(call) => write!(f, "returned {}", call.name()),
            Did::Faulted(fault) => write!(f, "faulted {}", fault.name()),
            Did::Posted(fault) => {
                write!(f, "posted {} {}", fault.name(), signal_name(fault.signal()))
            }
            Did::Took(signal) => write!(f, "took {}", signal_name(signal)),
            Did::Died(signal) => write!(f, "acted {} died", signal_name(signal)),
        }
    }
}

/// The digit of a number below 16.
fn digit(n: u8) -> u8 {
    if n < 10 {
        b'0' + n
    } else {
        b'a' - 10 + n
    }
}

/// Writes bytes as two digits each, or `-` where there are none.
fn write_hex(out: &mut impl Write, bytes: &[u8]) -> io::Result<()> {
    if bytes.is_empty() {
        return out.write_all(b"-");
    }
    for piece in bytes.chunks(256) {
        let mut text = [0; 512];
        for (digits, byte) in text.chunks_exact_mut(2).zip(piece) {
            digits[0] = digit(byte >> 4);
            digits[1] = digit(byte & 15);
        }
        out.write_all(&text[..2 * piece.len()])?;
    }
    Ok(())
}

fn write_call(out: &mut impl Write, call: &Call) -> io::Result<()> {
    match call {
        Call::Open {
            pid,
            file: File::Ctl,
        } => write!(out, "open {pid} ctl w"),
        Call::Open {
            pid,
            file: File::Status,
        } => write!(out, "open {pid} status r"),
        Call::Close { handle } => write!(out, "close {handle}"),
        Call::Read { handle, at, len } => write!(out, "read {handle} {at} {len}"),
        Call::Ctl { handle, bytes } => {
            write!(out, "ctl {handle} ")?;
            write_hex(out, bytes)
        }
        Call::CtlWait {
            handle,
            until,
            bytes,
        } => {
            write!(out, "ctlwait {handle} {until} ")?;
            write_hex(out, bytes)
        }
    }
}

fn write_reply(out: &mut impl Write, reply: &Reply) -> io::Result<()> {
    match reply {
        Reply::Handle(handle) => write!(out, "handle {handle}"),
        Reply::Done => out.write_all(b"done"),
        Reply::Used(count) => write!(out, "used {count}"),
        Reply::Half(until) => write!(out, "half {until}"),
        Reply::Bytes(bytes) => {
            out.write_all(b"bytes ")?;
            write_hex(out, bytes)
        }
        Reply::Fail(errno) => write!(out, "fail {}", errno.name()),
    }
}

pub fn write_history(out: &mut impl Write, history: &[Entry]) -> io::Result<()> {
    writeln!(out, "history {}", history.len())?;
    for (place, entry) in history.iter().enumerate() {
        match entry {
            Entry::Turn {
                pid,
                id,
                did,
                is_stop,
            } => {
                let stop = if *is_stop { " stop" } else { "" };
                writeln!(out, "{place} {pid}/{id} {did}{stop}")?;
            }
            Entry::Call { by, call, reply } => {
                write!(out, "{place} c{by} ")?;
                write_call(out, call)?;
                out.write_all(b" -> ")?;
                write_reply(out, reply)?;
                out.write_all(b"\n")?;
            }
            Entry::Tick(clock) => writeln!(out, "{place} clock {clock}")?,
        }
    }
    Ok(())
}
