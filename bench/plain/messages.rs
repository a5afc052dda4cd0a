//! Control messages as bytes.

const LONGEST_WAIT: u64 = 1_000_000_000;

/// The control messages of this yardstick. `Run` has no flags.
pub enum Message {
    Dstop,
    Wstop,
    Twstop(u64),
    Run,
}

/// The first word of bytes.
fn word(bytes: &[u8]) -> Option<u64> {
    bytes.first_chunk().map(|word| u64::from_le_bytes(*word))
}

impl Message {
    /// Puts its bytes behind others.
    pub fn encode(&self, out: &mut Vec<u8>) {
        let (code, operand): (u64, Option<u64>) = match *self {
            Message::Dstop => (2, None),
            Message::Wstop => (3, None),
            Message::Twstop(milliseconds) => (4, Some(milliseconds)),
            Message::Run => (5, Some(0)),
        };
        out.extend(code.to_le_bytes());
        out.extend(operand.into_iter().flat_map(u64::to_le_bytes));
    }

    /// The message with which bytes begin, and its length.
    pub fn first(bytes: &[u8]) -> Option<(Message, usize)> {
        let operand = || word(&bytes[8..]);
        match word(bytes)? {
            2 => Some((Message::Dstop, 8)),
            3 => Some((Message::Wstop, 8)),
            4 if operand()? <= LONGEST_WAIT => Some((Message::Twstop(operand()?), 16)),
            5 if operand()? == 0 => Some((Message::Run, 16)),
            _ => None,
        }
    }
}
