//! The machine: its processes and its clock, and the handles that controllers have open.

use crate::history::{Call, Did, File, Reply};
use crate::messages::Message;
use crate::names::Errno;
use crate::processes::Process;
use crate::scenarios::Scenario;
use crate::statuses::status;
use std::collections::BTreeMap;

const MOST_HANDLES: usize = 1024;
const LONGEST_READ: u64 = 20_480;

/// What a handle stands for, and the controller that has it open.
#[derive(Clone, Copy)]
struct Held {
    by: usize,
    pid: u32,
    file: File,
}

pub struct Machine {
    processes: BTreeMap<u32, Process>,
    handles: Vec<Option<Held>>,
    pub clock: u64,
}

impl Machine {
    pub fn new(scenario: &Scenario) -> Machine {
        let programs = scenario.spawns.iter().map(|name| &scenario.programs[name]);
        Machine {
            processes: (1..).zip(programs.map(Process::new)).collect(),
            handles: Vec::new(),
            clock: 0,
        }
    }

    /// The first lwp after another one that can have a turn.
    pub fn next_lwp(&self, after: (u32, u32)) -> Option<(u32, u32)> {
        for (&pid, process) in self.processes.range(after.0..) {
            if process.ended.is_some() || process.job_stop.is_some() {
                continue;
            }
            let from = if pid == after.0 { after.1 + 1 } else { 0 };
            for (&id, lwp) in process.lwps.range(from..) {
                if lwp.stop.is_none() && !lwp.is_suspended {
                    return Some((pid, id));
                }
            }
        }
        None
    }

    /// One turn of an lwp: what it did, and whether it stopped on that.
    pub fn turn(&mut self, pid: u32, id: u32) -> (Did, bool) {
        let process = self.processes.get_mut(&pid).unwrap();
        let did = process.turn(pid, id);
        (did, process.meet(id, did))
    }

    /// Whether a call of a controller is ready, which a wait alone may not be.
    pub fn is_ready(&self, by: usize, call: &Call) -> bool {
        match *call {
            Call::CtlWait {
                handle,
                until,
                ref bytes,
            } => self.wait(by, handle, until, bytes).is_some(),
            _ => true,
        }
    }

    /// Answers a call that is ready.
    pub fn answer(&mut self, by: usize, call: &Call) -> Reply {
        let reply = match *call {
            Call::Open { pid, file } => self.open(Held { by, pid, file }),
            Call::Close { handle } => self.close(by, handle),
            Call::Read { handle, at, len } => self.read(by, handle, at, len),
            Call::Ctl { handle, ref bytes } => self.control(by, handle, bytes),
            Call::CtlWait {
                handle,
                until,
                ref bytes,
            } => self
                .wait(by, handle, until, bytes)
                .expect("the call is ready"),
        };
        reply.unwrap_or_else(Reply::Fail)
    }

    fn live(&self, pid: u32) -> Result<&Process, Errno> {
        self.processes
            .get(&pid)
            .filter(|process| process.ended.is_none())
            .ok_or(Errno::Noent)
    }

    fn live_mut(&mut self, pid: u32) -> Result<&mut Process, Errno> {
        self.processes
            .get_mut(&pid)
            .filter(|process| process.ended.is_none())
            .ok_or(Errno::Noent)
    }

    /// What a handle stands for that this controller has open.
    fn held(&self, by: usize, handle: u32) -> Result<Held, Errno> {
        self.handles
            .get(handle as usize)
            .copied()
            .flatten()
            .filter(|held| held.by == by)
            .ok_or(Errno::Badf)
    }

    /// The process of a handle of this file, which may have ended.
    fn pid_of(&self, by: usize, handle: u32, file: File) -> Result<u32, Errno> {
        let held = self.held(by, handle)?;
        if held.file == file {
            Ok(held.pid)
        } else {
            Err(Errno::Badf)
        }
    }

    /// Opens a file, with the least handle that is free.
    fn open(&mut self, held: Held) -> Result<Reply, Errno> {
        self.live(held.pid)?;
        let place = match self.handles.iter().position(Option::is_none) {
            Some(place) => place,
            None if self.handles.len() < MOST_HANDLES => {
                self.handles.push(None);
                self.handles.len() - 1
            }
            None => return Err(Errno::Mfile),
        };
        self.handles[place] = Some(held);
        Ok(Reply::Handle(place as u32))
    }

    /// Closes a handle. No process has a mode by which the last close for writing would do more.
    fn close(&mut self, by: usize, handle: u32) -> Result<Reply, Errno> {
        self.held(by, handle)?;
        self.handles[handle as usize] = None;
        Ok(Reply::Done)
    }

    fn read(&self, by: usize, handle: u32, at: u64, len: u64) -> Result<Reply, Errno> {
        let pid = self.pid_of(by, handle, File::Status)?;
        if !(1..=LONGEST_READ).contains(&len) {
            return Err(Errno::Inval);
        }
        let bytes = status(pid, self.live(pid)?);
        let from = bytes.len().min(at as usize);
        let to = bytes.len().min(from + len as usize);
        Ok(Reply::Bytes(bytes[from..to].to_vec()))
    }

    /// Handles the first message of a write.
    fn control(&mut self, by: usize, handle: u32, bytes: &[u8]) -> Result<Reply, Errno> {
        let pid = self.pid_of(by, handle, File::Ctl)?;
        let clock = self.clock;
        let process = self.live_mut(pid)?;
        let (message, len) = Message::first(bytes).ok_or(Errno::Inval)?;
        match message {
            Message::Dstop => process.direct_all(),
            Message::Run => process.run()?,
            Message::Wstop | Message::Twstop(0) => return Ok(Reply::Half(0)),
            Message::Twstop(milliseconds) => return Ok(Reply::Half(clock + milliseconds)),
        }
        Ok(Reply::Used(len))
    }

    /// The reply to a wait for a stop, if the wait is over.
    fn wait(
        &self,
        by: usize,
        handle: u32,
        until: u64,
        bytes: &[u8],
    ) -> Option<Result<Reply, Errno>> {
        let waited = || {
            let process = self.live(self.pid_of(by, handle, File::Ctl)?)?;
            let (_, len) = Message::first(bytes).ok_or(Errno::Inval)?;
            let is_over = process.is_stopped() || until != 0 && until <= self.clock;
            Ok(is_over.then_some(Reply::Used(len)))
        };
        waited().transpose()
    }
}
