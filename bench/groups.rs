//! Groups of inputs at a node over a record in memory or in a file, for `bench/groups.sh`:
//! `bench_groups acceptor|manager SIZE TRANSACTIONS REPETITIONS [FILE]`. Prints how many inputs were handed over, and how many appends were
//! made. With size 0 a node is only opened; with `step` each input is a step. The inputs are those of `bench/nodes.rs`. What stood in the
//! file is lost.
#![tactic(auto)]

mod common;
mod datagrams;

use anyhow::bail;
use datagrams::{begun, datagrams_of, node_of};
use node_core::{Input, Node, Output};
use protocol::NodeId;
use stable_record::{FileRecord, MemRecord, Record, RecordError};
use std::alloc::Global;
use std::env;

const USAGE: &str =
    "usage: bench_groups acceptor|manager step|SIZE TRANSACTIONS REPETITIONS [FILE]";

/// A record that counts its appends.
#[derive(Drop)]
struct Counted<R: Record> {
    record: R,
    appends: u64,
}

impl<R: Record> Record for Counted<R> {
    ghost held = { λ counted. R.held counted.record };

    fn read(&mut self, alloc: Global) -> Result<Vec<u8>, RecordError> {
        self.record.read(alloc)
    }

    fn append(&mut self, bytes: &[u8]) -> Result<(), RecordError> {
        self.appends = self.appends.wrapping_add(1);
        self.record.append(bytes)
    }

    fn cut(&mut self, len: usize) -> Result<(), RecordError> {
        self.record.cut(len)
    }

    fn replace(&mut self, bytes: &[u8]) -> Result<(), RecordError> {
        self.record.replace(bytes)
    }

    fn kept(&self) -> usize {
        self.record.kept()
    }

    fn faults(&self) -> u64 {
        self.record.faults()
    }

    fn is_armed(&self) -> bool {
        self.record.is_armed()
    }
}

/// How a node is handed its inputs.
#[derive(Clone, Copy)]
enum Way {
    /// Each by itself.
    Step,
    /// In groups of so many.
    Groups(usize),
}

impl Way {
    /// How many places it wants for what comes of inputs.
    fn size(self) -> usize {
        match self {
            Way::Step => 1,
            Way::Groups(size) => size,
        }
    }
}

/// Each datagram is a step.
fn step_each<R: Record>(node: &mut Node<Counted<R>>, datagrams: &[Vec<u8>], out: &mut Output) {
    for bytes in datagrams {
        node.step_into(Input::Received(bytes), out);
    }
}

/// Some datagrams are a group. There is a place for what comes of each.
fn step_group<R: Record>(
    node: &mut Node<Counted<R>>,
    alloc: Global,
    datagrams: &[Vec<u8>],
    outs: &mut [Output],
) -> anyhow::Result<()> {
    let mut inputs = Vec::with_capacity(alloc, datagrams.len())?;
    for bytes in datagrams {
        inputs.push(Input::Received(bytes))?;
    }
    if inputs.len() > outs.len() {
        bail!("{USAGE}");
    }
    match node.step_all(&inputs, &mut outs[..inputs.len()]) {
        Ok(()) => Ok(()),
        Err(_) => bail!("the append failed"),
    }
}

/// So many places.
fn places(alloc: Global, count: usize) -> anyhow::Result<Vec<Output>> {
    let mut outs = Vec::with_capacity(alloc, count)?;
    for _ in 0..count {
        outs.push(Output::nothing())?;
    }
    Ok(outs)
}

/// The datagrams go to a node.
fn hand<R: Record>(
    node: &mut Node<Counted<R>>,
    alloc: Global,
    way: Way,
    datagrams: &[Vec<u8>],
    outs: &mut [Output],
) -> anyhow::Result<()> {
    match way {
        Way::Step => step_each(node, datagrams, &mut Output::nothing()),
        Way::Groups(0) => {}
        Way::Groups(size) => {
            for group in datagrams.chunks(size) {
                step_group(node, alloc, group, outs)?;
            }
        }
    }
    Ok(())
}

/// The datagrams go to a node over a record. Answers how many appends were made.
fn hand_over<R: Record + Drop>(
    alloc: Global,
    who: NodeId,
    way: Way,
    transactions: u32,
    datagrams: &[Vec<u8>],
    outs: &mut [Output],
    record: R,
) -> anyhow::Result<u64> {
    let record = Counted { record, appends: 0 };
    let mut node = begun(alloc, who, transactions, record)?;
    hand(&mut node, alloc, way, datagrams, outs)?;
    Ok(node.into_record().appends)
}

/// The record in a file, emptied.
fn emptied(rt: HostRuntime, path: &str) -> anyhow::Result<FileRecord> {
    let mut record = match FileRecord::open(rt, path) {
        Ok(record) => record,
        Err(_) => bail!("the file can't be opened"),
    };
    match record.cut(0) {
        Ok(()) => Ok(record),
        Err(_) => bail!("the file can't be emptied"),
    }
}

/// All repetitions. Answers how many inputs were handed over, and how many appends were made.
fn repeat(
    rt: HostRuntime,
    who: NodeId,
    way: Way,
    transactions: u32,
    repetitions: u32,
    file: Option<&str>,
) -> anyhow::Result<(u64, u64)> {
    let alloc = rt.alloc();
    let datagrams = datagrams_of(alloc, who, transactions)?;
    let mut outs = places(alloc, way.size())?;
    let mut appends: u64 = 0;
    let mut inputs: u64 = 0;
    for _ in 0..repetitions {
        let made = match file {
            Some(path) => {
                let record = emptied(rt, path)?;
                hand_over(alloc, who, way, transactions, &datagrams, &mut outs, record)?
            }
            None => {
                let record = MemRecord::new(alloc, Vec::new(alloc));
                hand_over(alloc, who, way, transactions, &datagrams, &mut outs, record)?
            }
        };
        appends = appends.wrapping_add(made);
        inputs = inputs.wrapping_add(datagrams.len() as u64);
    }
    Ok((inputs, appends))
}

/// Does what the words say.
fn run(rt: HostRuntime, words: &[String]) -> anyhow::Result<(u64, u64)> {
    let (words, file) = match words {
        [first @ .., path] if first.len() == 5 => (first, Some(path.as_str())),
        all => (all, None),
    };
    let [_, role, way, transactions, repetitions] = words else {
        bail!("{USAGE}");
    };
    let Some(who) = node_of(role.as_str()) else {
        bail!("{USAGE}");
    };
    let way = if way.as_str() == "step" {
        Way::Step
    } else {
        Way::Groups(way.parse::<usize>()?)
    };
    repeat(
        rt,
        who,
        way,
        transactions.parse::<u32>()?,
        repetitions.parse::<u32>()?,
        file,
    )
}

fn main(rt: HostRuntime) -> anyhow::Result<()> {
    let words: Vec<String> = env::args(&rt)?.collect(rt.alloc())?;
    let (inputs, appends) = run(rt, &words)?;
    println!(rt; "{inputs} {appends}")?;
    Ok(())
}
