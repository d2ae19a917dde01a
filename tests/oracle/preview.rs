//! Previews, from the text of document 02's request 02. "It must be equal to taking the step on a copy": so the step is
//! taken on one, and what it sent is read off the words that wait before and after it. The sends of the response are
//! not looked at.

use crate::field::{waiting, Field, WAKE};

/// Messages that one step sends, at most: MURUAPY_SENDS.
pub const MOST_SENDS: usize = 191;

const HANDED: u64 = 1 << 40;

/// "Gives the step's answer and the number of messages it would send, and writes their words, in order, at the front of
/// a lent buffer": the step's own refusals, then 75, or how many words were written.
pub fn preview(field: &Field, words: &[u64], kind: u8, number: u16, buffer: &mut [u64]) -> Result<usize, u32> {
    let (mut copy, mut after) = (field.clone(), words.to_vec());
    copy.step(&mut after, kind, number)?;
    let sent = sent(&words[..waiting(words)], &after[..waiting(&after)], kind);
    if buffer.len() < sent.len() {
        return Err(75);
    }
    buffer[..sent.len()].copy_from_slice(sent);
    Ok(sent.len())
}

/// What a step that was taken sent. In front stay all words but the one that it took; a wake takes none. Behind them
/// stand the messages sent, in the air, and then the word that was handed over or put back, which is none of them: it
/// is in a queue.
fn sent<'a>(before: &[u64], after: &'a [u64], kind: u8) -> &'a [u64] {
    let stay = if kind == WAKE { before.len() } else { before.len() - 1 };
    let new = &after[stay..];
    match new.split_last() {
        Some((last, sent)) if last & HANDED != 0 => sent,
        _ => new,
    }
}
