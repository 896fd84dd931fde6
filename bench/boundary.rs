//! The inputs of a node that has no floor, for `bench/boundary.sh`:
//! `bench_boundary acceptor|leader|manager node|floored TRANSACTIONS`. Prints how many inputs there were, and how many messages were sent.
//! They are those of `bench/nodes.rs`, but that a resource manager has no branches, and so votes aborted. A `Node` takes them, or a
//! `Floored`, over an empty record in memory.
#![tactic(auto)]

mod common;
mod datagrams;

use anyhow::bail;
use datagrams::{cluster, datagrams_of, node_of};
use floored::Floored;
use node_core::{Config, Input, Node, Output};
use protocol::NodeId;
use stable_record::MemRecord;
use std::alloc::Global;
use std::env;
use xid::Refusal;

const USAGE: &str = "usage: bench_boundary acceptor|leader|manager node|floored TRANSACTIONS";

/// A node, which takes datagrams.
trait Takes {
    /// Takes one; what comes of it stands in the place of what came of another.
    fn take(&mut self, bytes: &[u8], out: &mut Output);
}

impl Takes for Node<MemRecord> {
    fn take(&mut self, bytes: &[u8], out: &mut Output) {
        self.step_into(Input::Received(bytes), out);
    }
}

impl Takes for Floored<MemRecord> {
    fn take(&mut self, bytes: &[u8], out: &mut Output) {
        self.step_into(Input::Received(bytes), out);
    }
}

/// A node takes all datagrams. Answers how many messages were sent.
fn take_all<N: Takes>(node: &mut N, datagrams: &[Vec<u8>]) -> u64 {
    let mut out = Output::nothing();
    let mut sent: u64 = 0;
    for bytes in datagrams {
        node.take(bytes, &mut out);
        sent = sent.wrapping_add(out.sends.count() as u64);
    }
    sent
}

/// A node takes all datagrams. Answers how many messages were sent.
fn by_node(
    alloc: Global,
    config: &Config,
    who: NodeId,
    datagrams: &[Vec<u8>],
) -> Result<u64, Refusal> {
    match Node::open(alloc, config, who, MemRecord::new(alloc, Vec::new(alloc))) {
        Ok(mut node) => Ok(take_all(&mut node, datagrams)),
        Err((_, refusal)) => Err(refusal),
    }
}

/// A node that may have a floor, and has none, takes all datagrams. Answers how many messages were sent.
fn by_floored(
    alloc: Global,
    config: &Config,
    who: NodeId,
    datagrams: &[Vec<u8>],
) -> Result<u64, Refusal> {
    match Floored::open(alloc, config, who, MemRecord::new(alloc, Vec::new(alloc))) {
        Ok(mut node) => Ok(take_all(&mut node, datagrams)),
        Err((_, refusal)) => Err(refusal),
    }
}

/// Does what the words say. Answers how many inputs there were, and how many messages were sent.
fn run(alloc: Global, words: &[String]) -> anyhow::Result<(u64, u64)> {
    let [_, role, what, transactions] = words else {
        bail!("{USAGE}");
    };
    let Some(who) = node_of(role.as_str()) else {
        bail!("{USAGE}");
    };
    let config = cluster(alloc)?;
    let datagrams = datagrams_of(alloc, who, transactions.parse::<u32>()?)?;
    let inputs = datagrams.len() as u64;
    match what.as_str() {
        "node" => Ok((inputs, by_node(alloc, &config, who, &datagrams)?)),
        "floored" => Ok((inputs, by_floored(alloc, &config, who, &datagrams)?)),
        _ => bail!("{USAGE}"),
    }
}

fn main(rt: HostRuntime) -> anyhow::Result<()> {
    let words: Vec<String> = env::args(&rt)?.collect(rt.alloc())?;
    let (inputs, sent) = run(rt.alloc(), &words)?;
    println!(rt; "{inputs} {sent}")?;
    Ok(())
}
