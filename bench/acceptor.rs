//! An acceptor takes phase 2a messages of transactions with two branches:
//! `bench_acceptor plain|bundled TRANSACTIONS BALLOTS REPETITIONS`.
//! In each ballot, beginning with 0, each transaction's two messages are seen over their bytes and decided, their facts made ready and
//! played, and what is sent is spelled. A repetition
//! begins with an acceptor that has played nothing. Prints how many facts were played, and a sum of what was sent last.
#![tactic(auto)]

mod common;

use acceptor::Acceptor;
use anyhow::bail;
use common::{message_of, sum_of_bytes, tx_of};
use std::alloc::Global;
use std::env;
use wire::{Kind, MAX_DATAGRAM, encode, view_of};
use xid::{Ballot, ManagerNumber, Refusal, Vote};

const USAGE: &str = "usage: bench_acceptor plain|bundled TRANSACTIONS BALLOTS REPETITIONS";

/// The bytes of phase 2a of an instance of a transaction.
fn phase_2a(
    alloc: Global,
    number: u32,
    instance: ManagerNumber,
    ballot: Ballot,
) -> anyhow::Result<Vec<u8>> {
    let message = message_of(Kind::P2a {
        tx: tx_of(number, 2)?,
        instance,
        ballot,
        vote: Vote::Prepared,
    })?;
    let mut bytes = [0; MAX_DATAGRAM];
    let len = encode(&message, &mut bytes);
    Ok(Vec::from_slice(alloc, &bytes[..len])?)
}

/// The messages of all ballots, one ballot after the other.
fn messages_of(alloc: Global, transactions: u32, ballots: Ballot) -> anyhow::Result<Vec<Vec<u8>>> {
    let mut messages = Vec::new(alloc);
    for ballot in 0..ballots {
        for number in 0..transactions {
            messages.push(phase_2a(alloc, number, 0, ballot)?)?;
            messages.push(phase_2a(alloc, number, 1, ballot)?)?;
        }
    }
    Ok(messages)
}

/// An acceptor sees each message over its bytes and decides on it, and plays what is to be stored. Answers how many facts it played, and
/// the sum of the bytes that it sent last.
fn play_all(alloc: Global, bundled: bool, messages: &[Vec<u8>]) -> Result<(u64, u64), Refusal> {
    let mut acceptor = Acceptor::new(alloc, 0, 1, bundled);
    let mut played: u64 = 0;
    let mut sent = [0; MAX_DATAGRAM];
    let mut len = 0;
    for bytes in messages {
        let decision = acceptor.on_message(&view_of(bytes)?);
        if let Some(fact) = &decision.fact {
            acceptor.ready(fact.tx())?;
            acceptor.play(fact)?;
            played = played.wrapping_add(1);
        }
        if let Some(reply) = &decision.reply {
            len = reply.message.encode(&mut sent);
        }
    }
    Ok((played, sum_of_bytes(&sent[..len])))
}

fn main(rt: HostRuntime) -> anyhow::Result<()> {
    let alloc = rt.alloc();
    let words: Vec<String> = env::args(&rt)?.collect(alloc)?;
    let [_, kind, transactions, ballots, repetitions] = words.as_slice() else {
        bail!("{USAGE}");
    };
    let bundled = kind.as_str() == "bundled";
    let messages = messages_of(alloc, transactions.parse::<u32>()?, ballots.parse::<u32>()?)?;
    let mut played: u64 = 0;
    let mut sum: u64 = 0;
    for _ in 0..repetitions.parse::<u32>()? {
        let (facts, bytes) = play_all(alloc, bundled, &messages)?;
        played = played.wrapping_add(facts);
        sum = sum.wrapping_add(bytes);
    }
    println!(rt; "{played} {sum}")?;
    Ok(())
}
