//! The steps of a node over a record in memory, for `bench/nodes.sh`:
//! `bench_nodes acceptor|leader|manager opened|stepped TRANSACTIONS REPETITIONS`. Prints how many steps were made, their nanoseconds, and how
//! many messages were sent.
//! A transaction has two branches. An acceptor is handed phase 2a of both in ballot 0, for one transaction after the other, and then in
//! ballot 1. A leader is handed phase 2b of both from acceptor 0, for one transaction after the other, and then from acceptor 1, which
//! decides. At a resource manager each transaction's branch starts, puts a key and ends, which isn't timed; then it is handed each Prepare,
//! and then each Commit.
//! A repetition begins with a node over an empty record. Where it is `opened`, all is done but the steps.
#![tactic(auto)]

mod common;
mod datagrams;

use anyhow::bail;
use datagrams::{begun, datagrams_of, node_of};
use node_core::{Input, Node, Output};
use protocol::NodeId;
use stable_record::MemRecord;
use std::env;
use std::time::Instant;

const USAGE: &str =
    "usage: bench_nodes acceptor|leader|manager opened|stepped TRANSACTIONS REPETITIONS";

/// The steps of a node, what comes of each in the place of what came before. Answers how many messages were sent.
fn step_all(node: &mut Node<MemRecord>, datagrams: &[Vec<u8>], out: &mut Output) -> u64 {
    let mut sent: u64 = 0;
    for bytes in datagrams {
        node.step_into(Input::Received(bytes), out);
        sent = sent.wrapping_add(out.sends.count() as u64);
    }
    sent
}

/// The steps of a node that is ready for them. Answers how many messages were sent, and the nanoseconds of the steps.
fn timed(
    rt: &HostRuntime,
    node: &mut Node<MemRecord>,
    datagrams: &[Vec<u8>],
    out: &mut Output,
) -> anyhow::Result<(u64, u128)> {
    let begin = Instant::now(rt)?;
    let sent = step_all(node, datagrams, out);
    Ok((sent, begin.elapsed(rt)?.as_nanos()))
}

/// One repetition, with some of the datagrams. Answers how many messages were sent, and the nanoseconds of the steps.
fn repeat(
    rt: &HostRuntime,
    who: NodeId,
    transactions: u32,
    datagrams: &[Vec<u8>],
) -> anyhow::Result<(u64, u128)> {
    let device = MemRecord::new(rt.alloc(), Vec::new(rt.alloc()));
    let mut node = begun(rt.alloc(), who, transactions, device)?;
    let mut out = Output::nothing();
    timed(rt, &mut node, datagrams, &mut out)
}

/// All repetitions. Answers how many steps were made, their nanoseconds, and how many messages were sent.
fn repeat_all(
    rt: &HostRuntime,
    who: NodeId,
    transactions: u32,
    datagrams: &[Vec<u8>],
    repetitions: u32,
) -> anyhow::Result<(u64, u128, u64)> {
    let mut steps: u64 = 0;
    let mut nanoseconds: u128 = 0;
    let mut sent: u64 = 0;
    for _ in 0..repetitions {
        let (more, taken) = repeat(rt, who, transactions, datagrams)?;
        steps = steps.wrapping_add(datagrams.len() as u64);
        nanoseconds = nanoseconds.wrapping_add(taken);
        sent = sent.wrapping_add(more);
    }
    Ok((steps, nanoseconds, sent))
}

/// All repetitions of a node, which is handed all datagrams or none.
fn measured(
    rt: &HostRuntime,
    who: NodeId,
    is_stepped: bool,
    transactions: u32,
    repetitions: u32,
) -> anyhow::Result<(u64, u128, u64)> {
    let datagrams = datagrams_of(rt.alloc(), who, transactions)?;
    if !is_stepped {
        return repeat_all(rt, who, transactions, &[], repetitions);
    }
    repeat_all(rt, who, transactions, &datagrams, repetitions)
}

/// Does what the words say.
fn run(rt: &HostRuntime, words: &[String]) -> anyhow::Result<(u64, u128, u64)> {
    let [_, role, what, transactions, repetitions] = words else {
        bail!("{USAGE}");
    };
    let Some(who) = node_of(role.as_str()) else {
        bail!("{USAGE}");
    };
    let is_stepped = what.as_str() == "stepped";
    let transactions = transactions.parse::<u32>()?;
    measured(rt, who, is_stepped, transactions, repetitions.parse::<u32>()?)
}

fn main(rt: HostRuntime) -> anyhow::Result<()> {
    let words: Vec<String> = env::args(&rt)?.collect(rt.alloc())?;
    let (steps, nanoseconds, sent) = run(&rt, &words)?;
    println!(rt; "{steps} {nanoseconds} {sent}")?;
    Ok(())
}
