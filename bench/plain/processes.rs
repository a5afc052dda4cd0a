//! Processes, their lwps, and what these do.

use crate::history::Did;
use crate::instructions::{step, Effect, Registers, PC, SP};
use crate::names::Sysno;
use crate::programs::{Program, TEXT};
use crate::spaces::{Area, Incurred, Space, STACK_TOP};
use crate::stops::Stop;
use std::collections::BTreeMap;

/// Numbers of which each is the bit below it.
#[derive(Default)]
pub struct Traced {
    pub signals: u64,
    pub faults: u64,
    pub entries: u64,
    pub exits: u64,
}

impl Traced {
    /// The stop that what a turn did makes where it is traced.
    fn stop(&self, did: Did) -> Option<Stop> {
        let (set, number, stop) = match did {
            Did::Took(signal) => (self.signals, signal.into(), Stop::Signalled(signal)),
            Did::Faulted(fault) => (self.faults, fault.number().into(), Stop::Faulted(fault)),
            Did::Entered(call) => (self.entries, call.number(), Stop::SysEntry(call)),
            Did::Made(call, Some(_)) => (self.exits, call.number(), Stop::SysExit(call)),
            _ => return None,
        };
        (set >> (number - 1) & 1 == 1).then_some(stop)
    }
}

/// What comes with a signal: a code, of which 4 is a fault's; a process id; and a value, of a fault its address.
#[derive(Clone, Copy, Default)]
pub struct Info {
    pub code: u64,
    pub pid: u64,
    pub value: u64,
}

/// Signals that are pending, with their information.
pub type Pending = BTreeMap<u8, Info>;

pub enum Phase {
    User,
    Entered(Sysno),
    /// On its way out of a call that was made with these arguments and gave this value.
    Exiting(Sysno, [u64; 6], u64),
    Faulted(Incurred),
}

pub struct Lwp {
    pub registers: Registers,
    pub phase: Phase,
    pub pending: Pending,
    pub held: u64,
    pub current: Option<(u8, Info)>,
    pub is_directed: bool,
    pub is_stepping: bool,
    pub stop: Option<Stop>,
    pub is_suspended: bool,
}

impl Lwp {
    fn new() -> Lwp {
        let mut registers = [0; 11];
        registers[PC] = TEXT;
        registers[SP] = STACK_TOP;
        Lwp {
            registers,
            phase: Phase::User,
            pending: Pending::new(),
            held: 0,
            current: None,
            is_directed: false,
            is_stepping: false,
            stop: None,
            is_suspended: false,
        }
    }

    /// The arguments of a call at which it stands.
    pub fn arguments(&self) -> [u64; 6] {
        self.registers[1..7].try_into().unwrap()
    }
}

#[derive(Default)]
pub struct Usage {
    pub calls: u64,
    pub signals: u64,
    pub faults: u64,
    pub instructions: u64,
}

pub struct Process {
    pub space: Space,
    pub pending: Pending,
    pub job_stop: Option<u8>,
    pub lwps: BTreeMap<u32, Lwp>,
    pub usage: Usage,
    pub traced: Traced,
    pub modes: u64,
    pub areas: Vec<Area>,
    pub ended: Option<u64>,
}

/// The least signal that is pending and not held, the lwp's own first; it is no longer pending.
fn take_signal(process_pending: &mut Pending, lwp: &mut Lwp) -> Option<(u8, Info)> {
    let held = lwp.held;
    [&mut lwp.pending, process_pending]
        .into_iter()
        .find_map(|pending| {
            let signal = *pending
                .keys()
                .find(|&signal| held >> (signal - 1) & 1 == 0)?;
            pending.remove_entry(&signal)
        })
}

impl Process {
    pub fn new(program: &Program) -> Process {
        Process {
            space: Space::new(program),
            pending: Pending::new(),
            job_stop: None,
            lwps: BTreeMap::from([(1, Lwp::new())]),
            usage: Usage::default(),
            traced: Traced::default(),
            modes: 0,
            areas: Vec::new(),
            ended: None,
        }
    }

    /// One turn of an lwp: the first row that fits.
    pub fn turn(&mut self, pid: u32, id: u32) -> Did {
        let lwp = self.lwps.get_mut(&id).unwrap();
        if lwp.is_directed {
            lwp.is_directed = false;
            lwp.stop = Some(Stop::Requested);
            return Did::Stopped;
        }
        if let Phase::Faulted(Incurred { fault, address }) = lwp.phase {
            lwp.phase = Phase::User;
            let info = Info {
                code: 4,
                pid: 0,
                value: address,
            };
            lwp.pending.insert(fault.signal(), info);
            return Did::Posted(fault);
        }
        if let Some((signal, _)) = lwp.current {
            self.end(signal.into());
            return Did::Died(signal);
        }
        if !matches!(lwp.phase, Phase::Entered(_)) {
            if let Some((signal, info)) = take_signal(&mut self.pending, lwp) {
                lwp.current = Some((signal, info));
                self.usage.signals += 1;
                return Did::Took(signal);
            }
        }
        match lwp.phase {
            Phase::Exiting(call, ..) => {
                lwp.phase = Phase::User;
                Did::Returned(call)
            }
            Phase::Entered(call) => self.make(pid, id, call),
            _ => self.run_instruction(id),
        }
    }

    /// An lwp stops where what it did is traced, and the others are directed to stop.
    pub fn meet(&mut self, id: u32, did: Did) -> bool {
        let stop = self.traced.stop(did);
        if stop.is_some() {
            if let Some(lwp) = self.lwps.get_mut(&id) {
                lwp.stop = stop;
            }
            self.direct_all();
        }
        stop.is_some()
    }

    fn end(&mut self, status: u64) {
        self.lwps.clear();
        self.space.mappings.clear();
        self.pending.clear();
        self.ended = Some(status);
    }

    fn make(&mut self, pid: u32, id: u32, call: Sysno) -> Did {
        self.usage.calls += 1;
        let lwp = self.lwps.get_mut(&id).unwrap();
        match call {
            Sysno::Exit => {
                let status = lwp.registers[1] % 256 * 256;
                self.end(status);
                Did::Made(call, None)
            }
            Sysno::Getpid => {
                let value = u64::from(pid);
                lwp.phase = Phase::Exiting(call, lwp.arguments(), value);
                lwp.registers[0] = value;
                lwp.registers[7] = 0;
                Did::Made(call, Some(value))
            }
        }
    }

    fn run_instruction(&mut self, id: u32) -> Did {
        self.usage.instructions += 1;
        let lwp = self.lwps.get_mut(&id).unwrap();
        match step(lwp, &mut self.space, &self.areas) {
            Effect::Ran => Did::Ran,
            Effect::Calls(call) => {
                lwp.phase = Phase::Entered(call);
                Did::Entered(call)
            }
            Effect::Faults(incurred) => {
                self.usage.faults += 1;
                lwp.phase = Phase::Faulted(incurred);
                Did::Faulted(incurred.fault)
            }
        }
    }
}
