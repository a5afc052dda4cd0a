//! Stops, and what a controller asks of them.

use crate::names::{Errno, Fault, Sysno};
use crate::processes::{Lwp, Process};

/// An event of interest on which an lwp stands.
#[derive(Clone, Copy, PartialEq)]
pub enum Stop {
    Requested,
    Signalled(u8),
    SysEntry(Sysno),
    SysExit(Sysno),
    Faulted(Fault),
}

/// Why an lwp stands still.
#[derive(Clone, Copy)]
pub enum Shown {
    Event(Stop),
    Suspended,
    JobControl(u8),
}

impl Lwp {
    pub fn shown(&self, job_stop: Option<u8>) -> Option<Shown> {
        match self.stop {
            Some(stop) => Some(Shown::Event(stop)),
            None if self.is_suspended => Some(Shown::Suspended),
            None => job_stop.map(Shown::JobControl),
        }
    }

    /// Its class among those in which the representative is looked for.
    fn class(&self, job_stop: Option<u8>) -> u8 {
        match self.shown(job_stop) {
            None => 1,
            Some(Shown::JobControl(_)) => 2,
            Some(Shown::Event(Stop::Requested)) => 4,
            Some(Shown::Event(_)) => 3,
            Some(Shown::Suspended) => 5,
        }
    }

    fn direct(&mut self) {
        self.is_directed |= self.stop.is_none();
    }
}

impl Process {
    /// The representative: of the first class that has an lwp, the one of least id.
    pub fn representative(&self) -> Option<(u32, &Lwp)> {
        self.lwps
            .iter()
            .min_by_key(|(_, lwp)| lwp.class(self.job_stop))
            .map(|(&id, lwp)| (id, lwp))
    }

    pub fn is_stopped(&self) -> bool {
        self.representative()
            .is_some_and(|(_, lwp)| lwp.stop.is_some())
    }

    pub fn direct_all(&mut self) {
        self.lwps.values_mut().for_each(Lwp::direct);
    }

    /// PCRUN without flags; refused where the representative is neither stopped nor directed to stop.
    pub fn run(&mut self) -> Result<(), Errno> {
        let (id, _) = self
            .representative()
            .filter(|(_, lwp)| lwp.stop.is_some() || lwp.is_directed)
            .ok_or(Errno::Busy)?;
        for (&other, lwp) in &mut self.lwps {
            lwp.is_directed = false;
            if other == id && lwp.stop.is_some() {
                lwp.stop = Some(Stop::Requested);
            }
        }
        self.end_requests();
        Ok(())
    }

    /// Where every lwp shows a requested stop or a suspension, all requested stops are over.
    fn end_requests(&mut self) {
        let job_stop = self.job_stop;
        let lets_run = |lwp: &Lwp| {
            matches!(
                lwp.shown(job_stop),
                Some(Shown::Event(Stop::Requested) | Shown::Suspended)
            )
        };
        if self.lwps.values().all(lets_run) {
            for lwp in self.lwps.values_mut() {
                if lwp.stop == Some(Stop::Requested) {
                    lwp.stop = None;
                }
            }
        }
    }
}
