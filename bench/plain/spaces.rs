//! Address spaces, and the watched areas in them.

use crate::names::Fault;
use crate::programs::{Program, DATA, TEXT};

const PAGE: usize = 4096;

const STACK: u64 = 0x70_0000;
pub const STACK_TOP: u64 = 0x70_1000;

pub const READ: u8 = 4;
pub const WRITE: u8 = 2;
pub const EXECUTE: u8 = 1;

/// A fault that was incurred, and its address.
#[derive(Clone, Copy)]
pub struct Incurred {
    pub fault: Fault,
    pub address: u64,
}

impl Fault {
    pub fn at(self, address: u64) -> Incurred {
        Incurred {
            fault: self,
            address,
        }
    }
}

pub struct Mapping {
    pub at: u64,
    pub protection: u8,
    pub bytes: Vec<u8>,
}

pub struct Space {
    pub mappings: Vec<Mapping>,
}

impl Space {
    pub fn new(program: &Program) -> Space {
        let mut mappings = Vec::new();
        for (at, protection, bytes) in [
            (TEXT, READ | EXECUTE, &program.text),
            (DATA, READ | WRITE, &program.data),
            (STACK, READ | WRITE, &vec![0; PAGE]),
        ] {
            if !bytes.is_empty() {
                let mut bytes = bytes.clone();
                bytes.resize(bytes.len().next_multiple_of(PAGE), 0);
                mappings.push(Mapping {
                    at,
                    protection,
                    bytes,
                });
            }
        }
        Space { mappings }
    }

    /// The place of the mapping that has the byte at an address, for an access that needs this protection.
    fn mapping(&self, address: u64, need: u8) -> Result<usize, Incurred> {
        let place = self
            .mappings
            .partition_point(|m| m.at + m.bytes.len() as u64 <= address);
        match self.mappings.get(place) {
            Some(m) if m.at <= address && m.protection & need != 0 => Ok(place),
            Some(m) if m.at <= address => Err(Fault::Access.at(address)),
            _ => Err(Fault::Bounds.at(address)),
        }
    }

    /// The fault of the first byte at which an access fails, if it does.
    fn check(&self, at: u64, len: usize, need: u8) -> Result<(), Incurred> {
        let mut done = 0;
        while done < len {
            let address = at.wrapping_add(done as u64);
            let mapping = &self.mappings[self.mapping(address, need)?];
            let left = mapping.bytes.len() - (address - mapping.at) as usize;
            done += left.min(len - done);
        }
        Ok(())
    }

    pub fn read<const N: usize>(&self, at: u64, need: u8) -> Result<[u8; N], Incurred> {
        let mut out = [0; N];
        let mut done = 0;
        while done < N {
            let address = at.wrapping_add(done as u64);
            let mapping = &self.mappings[self.mapping(address, need)?];
            let from = (address - mapping.at) as usize;
            let run = (mapping.bytes.len() - from).min(N - done);
            out[done..done + run].copy_from_slice(&mapping.bytes[from..from + run]);
            done += run;
        }
        Ok(out)
    }

    pub fn write(&mut self, at: u64, bytes: &[u8]) -> Result<(), Incurred> {
        self.check(at, bytes.len(), WRITE)?;
        let mut done = 0;
        while done < bytes.len() {
            let address = at.wrapping_add(done as u64);
            let place = self.mapping(address, WRITE)?;
            let mapping = &mut self.mappings[place];
            let from = (address - mapping.at) as usize;
            let run = (mapping.bytes.len() - from).min(bytes.len() - done);
            mapping.bytes[from..from + run].copy_from_slice(&bytes[done..done + run]);
            done += run;
        }
        Ok(())
    }
}

pub const WATCH_READ: u8 = 1;
pub const WATCH_WRITE: u8 = 2;
pub const WATCH_EXECUTE: u8 = 4;

pub struct Area {
    pub at: u64,
    pub size: u64,
    pub flags: u8,
}

/// Faults at the first byte of an access that is watched, if one is.
pub fn unless_watched(areas: &[Area], at: u64, len: u64, flag: u8) -> Result<(), Incurred> {
    let hit = areas.iter().find(|area| {
        area.flags & flag != 0 && at < area.at + area.size && area.at < at.wrapping_add(len)
    });
    hit.map_or(Ok(()), |area| Err(Fault::Watch.at(at.max(area.at))))
}
