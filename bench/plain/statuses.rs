//! The status of a process and of its representative lwp, as bytes.

use crate::processes::{Lwp, Pending, Phase, Process};
use crate::stops::{Shown, Stop};

const HEAP: u64 = 0x10_0000;

/// The bytes of a process's status.
pub fn status(pid: u32, process: &Process) -> [u8; 368] {
    let mut words = [0; 46];
    words[..13].copy_from_slice(&own_words(pid, process));
    if let Some((id, lwp)) = process.representative() {
        words[13..].copy_from_slice(&lwp_words(id, lwp, process.job_stop));
    }
    let mut bytes = [0; 368];
    for (to, word) in bytes.chunks_exact_mut(8).zip(words) {
        to.copy_from_slice(&word.to_le_bytes());
    }
    bytes
}

/// Its parent is the system process, and it has no heap and no agent.
fn own_words(pid: u32, process: &Process) -> [u64; 13] {
    let traced = &process.traced;
    [
        process.modes,
        pid.into(),
        0,
        process.lwps.len() as u64,
        set(&process.pending),
        traced.signals,
        traced.faults,
        traced.entries,
        traced.exits,
        HEAP,
        0,
        0,
        process.areas.len() as u64,
    ]
}

/// Signals as a set.
fn set(pending: &Pending) -> u64 {
    pending.keys().map(|signal| 1 << (signal - 1)).sum()
}

fn lwp_words(id: u32, lwp: &Lwp, job_stop: Option<u8>) -> [u64; 33] {
    let (why, what) = reason(lwp.shown(job_stop));
    let (fault, address) = match lwp.phase {
        Phase::Faulted(incurred) => (incurred.fault.number().into(), incurred.address),
        _ => (0, 0),
    };
    let (call, arguments, result) = match lwp.phase {
        Phase::Entered(call) => (call.number(), lwp.arguments(), 0),
        Phase::Exiting(call, arguments, result) => (call.number(), arguments, result),
        Phase::User | Phase::Faulted(_) => (0, [0; 6], 0),
    };
    let (signal, info) = lwp.current.unwrap_or_default();
    let mut words = [0; 33];
    words[..8].copy_from_slice(&[
        flags(lwp, job_stop),
        id.into(),
        why,
        what,
        signal.into(),
        fault,
        address,
        call,
    ]);
    words[8..14].copy_from_slice(&arguments);
    words[14..18].copy_from_slice(&[result, 0, lwp.held, set(&lwp.pending)]);
    words[18..29].copy_from_slice(&lwp.registers);
    words[29..].copy_from_slice(&[0, info.code, info.pid, info.value]);
    words
}

fn flags(lwp: &Lwp, job_stop: Option<u8>) -> u64 {
    u64::from(lwp.shown(job_stop).is_some())
        | u64::from(lwp.stop.is_some()) << 1
        | u64::from(lwp.is_directed) << 2
        | u64::from(lwp.is_stepping) << 3
}

/// Why an lwp is stopped, and on what.
fn reason(shown: Option<Shown>) -> (u64, u64) {
    match shown {
        None => (0, 0),
        Some(Shown::Event(Stop::Requested)) => (1, 0),
        Some(Shown::Event(Stop::Signalled(signal))) => (2, signal.into()),
        Some(Shown::Event(Stop::SysEntry(call))) => (3, call.number()),
        Some(Shown::Event(Stop::SysExit(call))) => (4, call.number()),
        Some(Shown::JobControl(signal)) => (5, signal.into()),
        Some(Shown::Event(Stop::Faulted(fault))) => (6, fault.number().into()),
        Some(Shown::Suspended) => (7, 0),
    }
}
