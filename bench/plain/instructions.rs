//! One instruction of an lwp.

use crate::names::{Fault, Sysno};
use crate::processes::Lwp;
use crate::spaces::{
    unless_watched, Area, Incurred, Space, EXECUTE, READ, WATCH_EXECUTE, WATCH_READ, WATCH_WRITE,
};

pub const SP: usize = 8;
const FP: usize = 9;
pub const PC: usize = 10;

pub type Registers = [u64; 11];

/// What an instruction came to.
pub enum Effect {
    Ran,
    Calls(Sysno),
    Faults(Incurred),
}

fn word(bytes: &[u8]) -> u64 {
    u64::from_le_bytes(bytes.try_into().unwrap())
}

/// Runs the instruction at pc. A fault changes nothing.
pub fn step(lwp: &mut Lwp, space: &mut Space, areas: &[Area]) -> Effect {
    match execute(&lwp.registers, space, areas) {
        Ok((registers, Some(call))) => {
            lwp.registers = registers;
            Effect::Calls(call)
        }
        Ok((registers, None)) => {
            lwp.registers = registers;
            if std::mem::take(&mut lwp.is_stepping) {
                Effect::Faults(Fault::Trace.at(lwp.registers[PC]))
            } else {
                Effect::Ran
            }
        }
        Err(incurred) => Effect::Faults(incurred),
    }
}

/// What an access of data is watched for, its address and its length.
fn access(op: u8, registers: &Registers, address: u64) -> Option<(u8, u64, u64)> {
    match op {
        9 => Some((WATCH_READ, address, 8)),
        10 => Some((WATCH_WRITE, address, 8)),
        11 => Some((WATCH_READ, address, 1)),
        12 => Some((WATCH_WRITE, address, 1)),
        17 => Some((WATCH_WRITE, registers[SP].wrapping_sub(16), 16)),
        18 => Some((WATCH_READ, registers[FP], 16)),
        _ => None,
    }
}

fn execute(
    old: &Registers,
    space: &mut Space,
    areas: &[Area],
) -> Result<(Registers, Option<Sysno>), Incurred> {
    let bytes: [u8; 16] = space.read(old[PC], EXECUTE)?;
    unless_watched(areas, old[PC], 16, WATCH_EXECUTE)?;
    let (op, a, b, value) = decode(&bytes).ok_or(Fault::Ill.at(old[PC]))?;
    let mut new = *old;
    let next = old[PC].wrapping_add(16);
    new[PC] = next;
    let address = old[b].wrapping_add(value);
    if let Some((flag, at, len)) = access(op, old, address) {
        unless_watched(areas, at, len, flag)?;
    }
    match op {
        1 => return Err(Fault::Bpt.at(old[PC])),
        2 => {}
        3 => new[a] = value,
        4 => new[a] = old[b],
        5 => new[a] = old[a].wrapping_add(old[b]),
        6 => new[a] = old[a].wrapping_sub(old[b]),
        7 => new[a] = old[a].wrapping_mul(old[b]),
        8 => new[a] = old[a].checked_div(old[b]).ok_or(Fault::Izdiv.at(old[PC]))?,
        9 => new[a] = u64::from_le_bytes(space.read(address, READ)?),
        10 => space.write(address, &old[a].to_le_bytes())?,
        11 => new[a] = u64::from(space.read::<1>(address, READ)?[0]),
        12 => space.write(address, &old[a].to_le_bytes()[..1])?,
        13 => new[PC] = value,
        14 if old[a] == 0 => new[PC] = value,
        15 if old[a] != 0 => new[PC] = value,
        14 | 15 => {}
        16 if old[a] < old[b] => new[PC] = value,
        16 => {}
        17 => {
            let at = old[SP].wrapping_sub(16);
            let mut frame = [0; 16];
            frame[..8].copy_from_slice(&old[FP].to_le_bytes());
            frame[8..].copy_from_slice(&next.to_le_bytes());
            space
                .write(at, &frame)
                .map_err(|bad| Fault::Stack.at(bad.address))?;
            (new[SP], new[FP], new[PC]) = (at, at, value);
        }
        18 => {
            let frame: [u8; 16] = space
                .read(old[FP], READ)
                .map_err(|bad| Fault::Stack.at(bad.address))?;
            (new[SP], new[FP], new[PC]) = (
                old[FP].wrapping_add(16),
                word(&frame[..8]),
                word(&frame[8..]),
            );
        }
        _ => return Ok((new, Sysno::of(value))),
    }
    Ok((new, None))
}

/// The operation, its registers and its immediate word; unused fields have to be 0.
fn decode(bytes: &[u8; 16]) -> Option<(u8, usize, usize, u64)> {
    let (op, a, b, value) = (bytes[0], bytes[1], bytes[2], word(&bytes[8..]));
    let has_a = matches!(op, 3..=12 | 14..=16);
    let has_b = matches!(op, 4..=12 | 16);
    let has_value = matches!(op, 3 | 9..=17 | 19);
    let is_spelt = (1..=19).contains(&op)
        && a <= if has_a { 7 } else { 0 }
        && b <= if has_b { 7 } else { 0 }
        && (has_value || value == 0)
        && bytes[3..8] == [0; 5]
        && (op != 19 || Sysno::of(value).is_some());
    is_spelt.then_some((op, a.into(), b.into(), value))
}
