//! Numbered transactions and messages, as the programs for `bench/measure.sh` take them.
use wire::{Kind, Message, is_message};
use xid::{MAX_BRANCHES, ManagerNumber, Refusal, Tx};

/// A transaction whose gtrid is a number of 4 bytes, with a branch at each of so many resource managers, at most `MAX_BRANCHES`.
pub fn tx_of(number: u32, count: usize) -> Result<Tx, Refusal> {
    let mut branches = [(0, b"a".as_slice()); MAX_BRANCHES];
    for rm in 0..MAX_BRANCHES {
        branches[rm].0 = rm as ManagerNumber;
    }
    Tx::new(1, &number.to_be_bytes(), &branches[..count.min(MAX_BRANCHES)])
}

/// The message of a kind.
pub fn message_of(kind: Kind) -> Result<Message, Refusal> {
    if !is_message(&kind) {
        return Err(Refusal::BadMessage);
    }
    Ok(Message::new(kind))
}

/// The sum of bytes.
pub fn sum_of_bytes(bytes: &[u8]) -> u64 {
    let mut sum: u64 = 0;
    for byte in bytes {
        sum = sum.wrapping_add(u64::from(*byte));
    }
    sum
}
