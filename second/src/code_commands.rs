//! The commands that present, change or unblock a code, and the query, read off the bytes of a line.

use crate::hex;

#[derive(Clone, Copy, Debug, PartialEq, Eq)]
pub enum CodeCommand {
    /// VERIFY without data.
    Ask { code: usize },
    Verify { code: usize },
    Change { code: usize },
    /// RESET RETRY with P1 03.
    UnblockByMark { pin: usize },
    /// RESET RETRY with P1 00.
    UnblockByPuk { pin: usize },
}

/// None for a line that is none of these commands, whatever else may be wrong with the line.
pub fn code_command(line: &[u8]) -> Option<CodeCommand> {
    let command = hex::decode(line.strip_prefix(b"C")?)?;
    let number = *command.get(3)? as usize;
    match command[..] {
        [0x00, 0x20, 0x00, 0..=2] | [0x00, 0x20, 0x00, 0..=2, _] => Some(CodeCommand::Ask { code: number }),
        [0x00, 0x20, 0x00, 0..=2, ..] => Some(CodeCommand::Verify { code: number }),
        [0x00, 0x24, 0x00, 0..=2, ..] => Some(CodeCommand::Change { code: number }),
        [0x00, 0x2C, 0x03, 1..=2, ..] => Some(CodeCommand::UnblockByMark { pin: number }),
        [0x00, 0x2C, 0x00, 1..=2, ..] => Some(CodeCommand::UnblockByPuk { pin: number }),
        _ => None,
    }
}

/// The PIN that P2 of a RESET RETRY names, in either form.
pub fn reset_pin(line: &[u8]) -> Option<usize> {
    match code_command(line)? {
        CodeCommand::UnblockByMark { pin } | CodeCommand::UnblockByPuk { pin } => Some(pin),
        _ => None,
    }
}
