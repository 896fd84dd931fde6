//! The frames of a record, read one after the other.
use stable_record::take_frame;
use std::alloc::Global;
use xid::Refusal;

/// How many whole frames bytes begin with, at most so many.
pub fn count(alloc: Global, bytes: &[u8], most: u32) -> Result<u32, Refusal> {
    let mut found: u32 = 0;
    let mut rest = bytes;
    for _ in 0..most {
        match take_frame(alloc, rest)? {
            Some((_, after)) => {
                found = found.saturating_add(1);
                rest = after;
            }
            None => break,
        }
    }
    Ok(found)
}
