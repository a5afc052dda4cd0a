//! Programs, from their lines.

use crate::names::Sysno;
use crate::scenarios::number;
use std::collections::HashMap;

pub const TEXT: u64 = 0x1_0000;
pub const DATA: u64 = 0x8_0000;

pub struct Program {
    pub text: Vec<u8>,
    pub data: Vec<u8>,
}

pub fn assemble(block: &[Vec<&str>]) -> Result<Program, String> {
    let mut names = HashMap::new();
    let mut program = Program {
        text: Vec::new(),
        data: Vec::new(),
    };
    let mut code = Vec::new();
    for words in block {
        match words[..] {
            [label] if label.ends_with(':') => {
                names.insert(label.trim_end_matches(':'), TEXT + 16 * code.len() as u64);
            }
            ["space", name, n] => {
                program
                    .data
                    .resize(program.data.len().next_multiple_of(8), 0);
                names.insert(name, DATA + program.data.len() as u64);
                let size = number(n).ok_or("space")? as usize;
                program.data.resize(program.data.len() + size, 0);
            }
            _ => code.push(words),
        }
    }
    for words in code {
        let bytes = encode(words, &names).ok_or_else(|| words.join(" "))?;
        program.text.extend(bytes);
    }
    Ok(program)
}

fn encode(words: &[&str], names: &HashMap<&str, u64>) -> Option<[u8; 16]> {
    let register = |word: &str| {
        word.strip_prefix('r')?
            .parse::<u8>()
            .ok()
            .filter(|&r| r < 8)
    };
    let value = |word: &str| number(word).or_else(|| names.get(word).copied());
    let op = |word: &str| {
        let forms = [
            "bpt", "nop", "set", "mov", "add", "sub", "mul", "div", "ld", "st", "ldb", "stb",
            "jmp", "jz", "jnz", "jlt", "call", "ret", "sys",
        ];
        forms
            .iter()
            .position(|&form| form == word)
            .map(|place| place as u8 + 1)
    };
    let (a, b, immediate) = match *words {
        ["bpt" | "nop" | "ret"] => (0, 0, 0),
        ["set" | "jz" | "jnz", a, i] => (register(a)?, 0, value(i)?),
        ["mov" | "add" | "sub" | "mul" | "div", a, b] => (register(a)?, register(b)?, 0),
        ["ld" | "st" | "ldb" | "stb" | "jlt", a, b, i] => (register(a)?, register(b)?, value(i)?),
        ["jmp" | "call", i] => (0, 0, value(i)?),
        ["sys", "exit"] => (0, 0, Sysno::Exit.number()),
        ["sys", "getpid"] => (0, 0, Sysno::Getpid.number()),
        _ => return None,
    };
    let mut bytes = [0; 16];
    (bytes[0], bytes[1], bytes[2]) = (op(words[0])?, a, b);
    bytes[8..].copy_from_slice(&immediate.to_le_bytes());
    Some(bytes)
}
