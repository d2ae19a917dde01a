//! Messages and radio frames.

use crate::plan::{be16, NONE};

pub const CONNECT: u8 = 1;
pub const INITIATE: u8 = 2;
pub const TEST: u8 = 3;
pub const ACCEPT: u8 = 4;
pub const REJECT: u8 = 5;
pub const REPORT: u8 = 6;
pub const CHANGE_ROOT: u8 = 7;

pub const NAMES: [&str; 8] = ["", "Connect", "Initiate", "Test", "Accept", "Reject", "Report", "Change-root"];

/// Carried numbers in a frame are below this; in a field's words they are below L.
pub const CARRIED_BOUND: u16 = 600;

#[derive(Clone, Copy, Debug, PartialEq, Eq)]
pub struct Message {
    pub kind: u8,
    pub level: u16,
    pub find: bool,
    pub carried: u16,
}

impl Message {
    /// A message of a kind that carries nothing.
    pub fn bare(kind: u8) -> Message {
        Message { kind, level: 0, find: false, carried: NONE }
    }

    pub fn connect(level: u16) -> Message {
        Message { level, ..Message::bare(CONNECT) }
    }

    pub fn initiate(level: u16, identity: u16, find: bool) -> Message {
        Message { kind: INITIATE, level, find, carried: identity }
    }

    pub fn test(level: u16, identity: u16) -> Message {
        Message { kind: TEST, level, find: false, carried: identity }
    }

    pub fn report(weight: u16) -> Message {
        Message { carried: weight, ..Message::bare(REPORT) }
    }

    /// Header bits 0 to 2 are the kind, 3 to 5 the level, bit 6 is 1 for Find.
    pub fn header(&self) -> u8 {
        self.kind | (self.level as u8) << 3 | (self.find as u8) << 6
    }

    /// The message of a header and a carried number, if it is a listed one with carried numbers below `bound`.
    pub fn listed(header: u8, carried: u16, bound: u16) -> Option<Message> {
        let kind = header & 7;
        let level = (header >> 3 & 7) as u16;
        let find = header & 64 != 0;
        let a_link = carried < bound;
        let ok = match kind {
            CONNECT => !find && carried == NONE,
            INITIATE => level >= 1 && a_link,
            TEST => level >= 1 && !find && a_link,
            ACCEPT | REJECT | CHANGE_ROOT => level == 0 && !find && carried == NONE,
            REPORT => level == 0 && !find && (a_link || carried == NONE),
            _ => false,
        };
        let message = Message { kind, level, find, carried };
        (ok && header < 128).then_some(message)
    }
}

/// Reads a frame: 61, 62, 63 or the message.
pub fn read(bytes: &[u8]) -> Result<Message, u32> {
    if bytes.len() != 6 {
        return Err(61);
    }
    if bytes[0] != 1 || be16(bytes, 1) != 3 {
        return Err(62);
    }
    Message::listed(bytes[3], be16(bytes, 4), CARRIED_BOUND).ok_or(63)
}

/// Writes a frame of a header and a carried number: 63, then 64 for a buffer that is not 6 bytes.
pub fn write(header: u8, carried: u16, out: &mut [u8]) -> Result<(), u32> {
    Message::listed(header, carried, CARRIED_BOUND).ok_or(63u32)?;
    if out.len() != 6 {
        return Err(64);
    }
    let c = carried.to_be_bytes();
    out.copy_from_slice(&[1, 0, 3, header, c[0], c[1]]);
    Ok(())
}
