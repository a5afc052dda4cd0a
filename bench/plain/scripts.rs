//! Scripts: controllers that make one call a line.

use crate::history::{Call, File, Reply};
use crate::messages::Message;
use crate::scenarios::{is_name, number};
use std::collections::HashMap;

/// The handle of a name that stands for none.
const NO_HANDLE: u32 = u32::MAX;

pub enum Line<'a> {
    Open { name: &'a str, pid: u32, file: File },
    Close { name: &'a str },
    Read { name: &'a str, at: u64, len: u64 },
    Write { name: &'a str, bytes: Vec<u8> },
}

impl<'a> Line<'a> {
    /// The line of these words.
    pub fn read(words: &[&'a str]) -> Option<Line<'a>> {
        words.get(1).filter(|name| is_name(name))?;
        let line = match *words {
            ["open", name, pid, "ctl", "w"] => Line::Open {
                name,
                pid: process(pid)?,
                file: File::Ctl,
            },
            ["open", name, pid, "status", "r"] => Line::Open {
                name,
                pid: process(pid)?,
                file: File::Status,
            },
            ["close", name] => Line::Close { name },
            ["read", name, at, len] => Line::Read {
                name,
                at: number(at)?,
                len: number(len)?,
            },
            ["write", name, ref messages @ ..] => Line::Write {
                name,
                bytes: encode(messages)?,
            },
            _ => return None,
        };
        Some(line)
    }
}

/// The process of this id, which is not the system process.
fn process(word: &str) -> Option<u32> {
    number(word)?.try_into().ok().filter(|&pid| pid > 0)
}

/// The bytes of one message or more.
fn encode(words: &[&str]) -> Option<Vec<u8>> {
    let mut bytes = Vec::new();
    let mut words = words.iter();
    while let Some(&word) = words.next() {
        let message = match word {
            "dstop" => Message::Dstop,
            "wstop" => Message::Wstop,
            "twstop" => Message::Twstop(number(words.next()?)?),
            "run" => Message::Run,
            _ => return None,
        };
        message.encode(&mut bytes);
    }
    Some(bytes).filter(|bytes| !bytes.is_empty())
}

pub struct Script<'a> {
    lines: Vec<Line<'a>>,
    /// Which line is next, how many bytes of its write were handled, and when the wait ends in which it stands, if it
    /// stands in one.
    place: usize,
    taken: usize,
    wait: Option<u64>,
    handles: HashMap<&'a str, u32>,
}

impl<'a> Script<'a> {
    pub fn new(lines: Vec<Line<'a>>) -> Script<'a> {
        Script {
            lines,
            place: 0,
            taken: 0,
            wait: None,
            handles: HashMap::new(),
        }
    }

    /// The call that it makes next; none where it has finished.
    pub fn next_call(&self) -> Option<Call> {
        let handle = |name| self.handles.get(name).copied().unwrap_or(NO_HANDLE);
        let call = match *self.lines.get(self.place)? {
            Line::Open { pid, file, .. } => Call::Open { pid, file },
            Line::Close { name } => Call::Close {
                handle: handle(name),
            },
            Line::Read { name, at, len } => Call::Read {
                handle: handle(name),
                at,
                len,
            },
            Line::Write { name, ref bytes } => {
                let (handle, bytes) = (handle(name), bytes[self.taken..].to_vec());
                match self.wait {
                    Some(until) => Call::CtlWait {
                        handle,
                        until,
                        bytes,
                    },
                    None => Call::Ctl { handle, bytes },
                }
            }
        };
        Some(call)
    }

    /// Takes the reply to that call.
    pub fn feed(&mut self, reply: &Reply) {
        self.wait = None;
        match (&self.lines[self.place], reply) {
            (Line::Write { .. }, Reply::Half(until)) => {
                self.wait = Some(*until);
                return;
            }
            (Line::Write { bytes, .. }, Reply::Used(count)) => {
                self.taken += count;
                if self.taken < bytes.len() {
                    return;
                }
            }
            (&Line::Open { name, .. }, reply) => {
                let handle = match *reply {
                    Reply::Handle(handle) => handle,
                    _ => NO_HANDLE,
                };
                self.handles.insert(name, handle);
            }
            _ => {}
        }
        self.place += 1;
        self.taken = 0;
    }
}
