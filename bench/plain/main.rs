//! The yardstick of plain.sh: the machine of proclab in plain Rust, without a proof, as far as scenarios need it whose
//! programs compute, ask for their id, fault and end, and whose scripts open `ctl` for writing and `status` for
//! reading, write the messages `dstop`, `wstop`, `twstop` and `run` without flags, read, and close. It makes the same
//! steps in the same order, keeps the same entries, and writes the same text. At each turn it looks at all that a
//! controller could have set, as the machine does, though some of it nobody sets here. Whatever else a scenario asks
//! for ends it with a message; it does not look for all that makes proclab refuse a scenario.
//!
//!     plain run [-q] < SCENARIO

mod history;
mod instructions;
mod machine;
mod messages;
mod names;
mod processes;
mod programs;
mod scenarios;
mod scripts;
mod spaces;
mod statuses;
mod stops;
mod world;

use history::write_history;
use scenarios::read_scenario;
use std::io::{self, BufWriter, Read, Write};
use std::process::ExitCode;
use world::World;

fn main() -> ExitCode {
    let words: Vec<String> = std::env::args().skip(1).collect();
    let mut input = String::new();
    io::stdin()
        .read_to_string(&mut input)
        .expect("the input is read");
    let scenario = match read_scenario(&input) {
        Ok(scenario) => scenario,
        Err(line) => {
            eprintln!("plain: not in this yardstick: {line}");
            return ExitCode::from(2);
        }
    };
    let mut world = World::new(scenario);
    let status = world.run();
    let mut out = BufWriter::with_capacity(65_536, io::stdout().lock());
    let is_quiet = words.iter().any(|word| word == "-q");
    let written = if is_quiet {
        Ok(())
    } else {
        write_history(&mut out, world.history())
    };
    written
        .and_then(|()| writeln!(out, "status {status}"))
        .and_then(|()| out.flush())
        .expect("the text is written");
    ExitCode::from(status)
}
