//! Scenarios, from their text.

use crate::programs::{assemble, Program};
use crate::scripts::Line;
use std::collections::HashMap;

pub struct Scenario<'a> {
    pub turns: usize,
    pub programs: HashMap<&'a str, Program>,
    pub spawns: Vec<&'a str>,
    pub scripts: Vec<Vec<Line<'a>>>,
}

/// The words of each line that has some and is no comment.
fn statements(input: &str) -> impl Iterator<Item = Vec<&str>> {
    input
        .lines()
        .map(|line| {
            line.split([' ', '\t', ','])
                .filter(|word| !word.is_empty())
                .collect::<Vec<_>>()
        })
        .filter(|words| words.first().is_some_and(|word| !word.starts_with('#')))
}

/// The scenario of a text, or what it asks for that is not here.
pub fn read_scenario(input: &str) -> Result<Scenario<'_>, String> {
    let mut scenario = Scenario {
        turns: 10_000,
        programs: HashMap::new(),
        spawns: Vec::new(),
        scripts: Vec::new(),
    };
    let mut lines = statements(input);
    while let Some(words) = lines.next() {
        let block = lines.by_ref().take_while(|words| words[0] != "end");
        match words[..] {
            ["turns", n] => scenario.turns = number(n).ok_or("turns")? as usize,
            ["program", name] => {
                let program = assemble(&block.collect::<Vec<_>>())?;
                scenario.programs.insert(name, program);
            }
            ["spawn", name] if scenario.programs.contains_key(name) => scenario.spawns.push(name),
            ["script"] => {
                let lines = block.map(|words| Line::read(&words).ok_or_else(|| words.join(" ")));
                scenario.scripts.push(lines.collect::<Result<_, _>>()?);
            }
            _ => return Err(words.join(" ")),
        }
    }
    Ok(scenario)
}

/// The number of a word, which has no sign and in decimal no leading zero.
pub fn number(word: &str) -> Option<u64> {
    match word.strip_prefix("0x") {
        Some(digits) if !digits.starts_with('+') => u64::from_str_radix(digits, 16).ok(),
        None if word == "0" || !word.starts_with(['0', '+']) => word.parse().ok(),
        _ => None,
    }
}

/// Whether a word is a name: 1 to 31 letters, digits, `_`, `.` or `-`, of which the first is a letter.
pub fn is_name(word: &str) -> bool {
    let is_part = |b: u8| b.is_ascii_alphanumeric() || b"_.-".contains(&b);
    word.len() <= 31
        && word.starts_with(|first: char| first.is_ascii_alphabetic())
        && word.bytes().all(is_part)
}
