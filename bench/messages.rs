//! Encodes or decodes messages over and over: `bench_messages encode|decode prepare|p2a|p2a-of-three|p2b|p1b|b1b ROUNDS`.
//! A round takes 8 messages of one size, whose transactions differ in their format. Prints how many messages were taken,
//! how many bytes each has, and a sum of what came out.
#![tactic(auto)]

use anyhow::bail;
use std::alloc::Global;
use std::env;
use wire::{InstanceReport, Items, Kind, MAX_DATAGRAM, Message, decode, encode, is_message};
use xid::{MAX_BRANCHES, MAX_COMPONENT, Refusal, Tx, Vote};

const USAGE: &str = "usage: bench_messages encode|decode prepare|p2a|p2a-of-three|p2b|p1b|b1b ROUNDS";

/// Prepare of the worked spellings, where the format is 1.
fn prepare(format: i64) -> Result<Kind, Refusal> {
    let branches = [(0, b"a".as_slice()), (1, b"b".as_slice())];
    Ok(Kind::Prepare(Tx::new(format, b"t", &branches)?))
}

/// Phase 2a on one branch, with names of one byte.
fn p2a(format: i64) -> Result<Kind, Refusal> {
    let tx = Tx::new(format, b"t", &[(0, b"a".as_slice())])?;
    Ok(Kind::P2a {
        tx,
        instance: 0,
        ballot: 0,
        vote: Vote::Prepared,
    })
}

/// Phase 2a on three branches, with names of 16 bytes.
fn p2a_of_three(format: i64) -> Result<Kind, Refusal> {
    let name = [120; 16];
    let name = name.as_slice();
    let tx = Tx::new(format, name, &[(0, name), (1, name), (2, name)])?;
    Ok(Kind::P2a {
        tx,
        instance: 2,
        ballot: 7,
        vote: Vote::Prepared,
    })
}

/// Phase 2b on two branches, with names of one byte.
fn p2b(format: i64) -> Result<Kind, Refusal> {
    let branches = [(0, b"a".as_slice()), (1, b"b".as_slice())];
    Ok(Kind::P2b {
        tx: Tx::new(format, b"t", &branches)?,
        instance: 1,
        ballot: 0,
        vote: Vote::Prepared,
        acceptor: 2,
    })
}

/// A transaction of 16 branches, with names of 64 bytes.
fn longest(format: i64) -> Result<Tx, Refusal> {
    let name = [200; MAX_COMPONENT];
    let b = name.as_slice();
    let mut branches = [(0, b); MAX_BRANCHES];
    for rm in 0..16 {
        branches[rm as usize] = (rm, b);
    }
    Tx::new(format, b, &branches)
}

/// Phase 1b on 16 branches, with names of 64 bytes.
fn p1b(format: i64) -> Result<Kind, Refusal> {
    Ok(Kind::P1b {
        tx: longest(format)?,
        instance: 15,
        ballot: 9,
        report: Some((8, Vote::Aborted)),
        acceptor: 6,
    })
}

/// The longest message: the bundle of phase 1b on 16 branches, with names of 64 bytes.
fn b1b(format: i64) -> Result<Kind, Refusal> {
    let report = Some((8, Vote::Aborted));
    let mut reports = Items::one(InstanceReport {
        instance: 0,
        report,
    });
    for instance in 1..16 {
        if reports.as_slice().len() < MAX_BRANCHES {
            reports.push(InstanceReport { instance, report });
        }
    }
    Ok(Kind::B1b {
        tx: longest(format)?,
        ballot: 9,
        acceptor: 6,
        reports,
    })
}

/// The 8 messages of a round.
fn round_of(alloc: Global, case: &str) -> Result<Vec<Message>, Refusal> {
    let mut messages = Vec::new(alloc);
    for format in 1..9 {
        let kind = match case {
            "prepare" => prepare(format)?,
            "p2a" => p2a(format)?,
            "p2a-of-three" => p2a_of_three(format)?,
            "p2b" => p2b(format)?,
            "p1b" => p1b(format)?,
            "b1b" => b1b(format)?,
            _ => return Err(Refusal::BadMessage),
        };
        if !is_message(&kind) {
            return Err(Refusal::BadMessage);
        }
        messages.push(Message::new(kind))?;
    }
    Ok(messages)
}

/// The spelling of each message.
fn spelled(alloc: Global, messages: &[Message]) -> Result<Vec<Vec<u8>>, Refusal> {
    let mut spellings = Vec::new(alloc);
    for message in messages {
        let mut out = [0; MAX_DATAGRAM];
        let len = encode(message, &mut out);
        spellings.push(out[..len].to_vec(alloc)?)?;
    }
    Ok(spellings)
}

/// Encodes each message in each round. The sum takes a byte at a place that only the run tells, so that all are written.
fn encode_rounds(messages: &[Message], rounds: u32) -> u64 {
    let mut out = [0; MAX_DATAGRAM];
    let mut sum: u64 = 0;
    for _ in 0..rounds {
        for message in messages {
            let len = encode(message, &mut out);
            let place = (sum % 1024) as usize;
            sum = sum.wrapping_add(len as u64);
            sum = sum.wrapping_add(u64::from(out[place]));
        }
    }
    sum
}

/// Decodes each spelling in each round. The sum takes the format of each message.
fn decode_rounds(spellings: &[Vec<u8>], rounds: u32) -> Result<u64, Refusal> {
    let mut sum: u64 = 0;
    for _ in 0..rounds {
        for bytes in spellings {
            let message = decode(bytes)?;
            sum = sum.wrapping_add(u64::from(message.kind().tx().format()));
        }
    }
    Ok(sum)
}

fn main(rt: HostRuntime) -> anyhow::Result<()> {
    let alloc = rt.alloc();
    let words: Vec<String> = env::args(&rt)?.collect(alloc)?;
    let [_, direction, case, rounds] = words.as_slice() else {
        bail!("{USAGE}");
    };
    let rounds = rounds.parse::<u32>()?;
    let messages = round_of(alloc, case)?;
    let spellings = spelled(alloc, &messages)?;
    let sum = match direction.as_str() {
        "encode" => encode_rounds(&messages, rounds),
        "decode" => decode_rounds(&spellings, rounds)?,
        _ => bail!("{USAGE}"),
    };
    let size = spellings.first().map_or(0, Vec::len);
    println!(rt; "{} {size} {sum}", u64::from(rounds).wrapping_mul(8))?;
    Ok(())
}
