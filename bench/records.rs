//! Reads entries and writes records in files, for `bench/records.sh` and `tests/kill.sh`:
//! `replay FRAMES ROUNDS` reads a record of so many frames so often, and prints the frames, the bytes and the nanoseconds of a round;
//! `append FILE COUNT` appends a frame so often, and prints the nanoseconds of all;
//! `keep FILE` appends until it is killed or refused, and prints the number of each frame that was answered Ok; refused, it does as
//! `check`, with the same record, and prints `mended` first;
//! `check FILE` prints how many whole frames stand there, each in its place, and how many bytes its tail has, and cuts the tail.
#![tactic(auto)]

mod common;
mod frames;

use anyhow::bail;
use common::tx_of;
use frames::count;
use stable_record::{Entry, EntryKind, Fact, FactKind, FactView, FileRecord, Record, entries};
use std::alloc::Global;
use std::env;
use std::time::Instant;
use wire::MAX_TX_BYTES;
use xid::{Refusal, Vote};

const USAGE: &str =
    "usage: bench_records replay FRAMES ROUNDS | append FILE COUNT | keep FILE | check FILE";

/// After so many frames the whole record is put anew.
const FRAMES_TO_A_REPLACEMENT: u32 = 40;

/// Adds the frame of a phase 2b vote.
fn put_accept(number: u32, out: &mut Vec<u8>) -> Result<(), Refusal> {
    let fact = Fact::new(FactKind::Accept {
        tx: tx_of(number, 2)?,
        instance: 1,
        ballot: 0,
        vote: Vote::Prepared,
    });
    let mut buffer = [0; MAX_TX_BYTES];
    FactView::of(fact, &mut buffer).write(out)
}

/// Adds the frame of a vote with 64 keys, each with the longest value: 16,729 bytes. `accept` is the frame of a phase 2b vote of the
/// transaction.
fn put_long_vote(accept: &[u8], out: &mut Vec<u8>) -> Result<(), Refusal> {
    out.extend_from_slice(b"\0\0\x41\x55\x02\x04")?;
    if let Some(tx) = accept.get(6..24) {
        out.extend_from_slice(tx)?;
    }
    out.push(64)?;
    for key in 0..64u8 {
        out.extend_from_slice(&[1, key, 1, 1, 0])?;
        out.extend_from_slice(&[120; 256])?;
    }
    Ok(())
}

/// The frame of this number: a short one, and now and then a long one.
fn frame_of(alloc: Global, number: u32) -> Result<Vec<u8>, Refusal> {
    let mut accept = Vec::new(alloc);
    put_accept(number, &mut accept)?;
    if number % 4 < 3 {
        return Ok(accept);
    }
    let mut long = Vec::new(alloc);
    put_long_vote(&accept, &mut long)?;
    Ok(long)
}

/// Whether an entry is the one of this number.
fn is_in_place(entry: &Entry, number: u32) -> Result<bool, Refusal> {
    match entry.kind() {
        EntryKind::Fact(fact) => Ok(*fact.tx() == tx_of(number, 2)?),
        _ => Ok(false),
    }
}

/// Reads the record, cuts its tail, and answers how many frames stand in their places, of how many, and how long the tail was.
fn mend(alloc: Global, record: &mut FileRecord) -> Result<(u32, usize, usize), Refusal> {
    let bytes = match record.read(alloc) {
        Ok(bytes) => bytes,
        Err(e) => return Err(Refusal::from(e)),
    };
    let (all, len) = entries(alloc, &bytes)?;
    let mut placed: u32 = 0;
    for entry in all.as_slice() {
        if is_in_place(entry, placed)? {
            placed = placed.saturating_add(1);
        }
    }
    let tail = bytes.len().saturating_sub(len);
    if len <= bytes.len() {
        record.cut(len)?;
    }
    Ok((placed, all.len(), tail))
}

fn open(rt: HostRuntime, path: &str) -> Result<FileRecord, Refusal> {
    Ok(FileRecord::open(rt, path)?)
}

fn replay(rt: &HostRuntime, frames: u32, rounds: u32) -> anyhow::Result<()> {
    let alloc = rt.alloc();
    let mut bytes = Vec::new(alloc);
    for number in 0..frames {
        put_accept(number, &mut bytes)?;
    }
    let mut found: u32 = 0;
    let begin = Instant::now(rt)?;
    for _ in 0..rounds {
        found = count(alloc, &bytes, frames)?;
    }
    let nanoseconds = begin.elapsed(rt)?.as_nanos() / u128::from(rounds.max(1));
    println!(rt; "{found} {} {nanoseconds}", bytes.len())?;
    Ok(())
}

fn append(rt: HostRuntime, path: &str, count: u32) -> anyhow::Result<()> {
    let mut record = open(rt, path)?;
    let frame = frame_of(rt.alloc(), 0)?;
    let begin = Instant::now(&rt)?;
    for _ in 0..count {
        append_one(&mut record, &frame)?;
    }
    println!(rt; "{}", begin.elapsed(&rt)?.as_nanos())?;
    Ok(())
}

fn append_one(record: &mut FileRecord, frame: &[u8]) -> Result<(), Refusal> {
    Ok(record.append(frame)?)
}

/// Reads the record, and puts all its bytes anew.
fn renew(alloc: Global, record: &mut FileRecord) -> Result<(), Refusal> {
    let bytes = record.read(alloc)?;
    Ok(record.replace(&bytes)?)
}

fn keep(rt: HostRuntime, path: &str) -> anyhow::Result<()> {
    let alloc = rt.alloc();
    let mut record = open(rt, path)?;
    let (first, _, _) = mend(alloc, &mut record)?;
    for number in first..u32::MAX {
        if append_one(&mut record, &frame_of(alloc, number)?).is_err() {
            let (placed, whole, tail) = mend(alloc, &mut record)?;
            println!(rt; "mended {placed} {whole} {tail}")?;
            return Ok(());
        }
        println!(rt; "{number}")?;
        if number % FRAMES_TO_A_REPLACEMENT == 0 {
            renew(alloc, &mut record)?;
        }
    }
    Ok(())
}

fn check(rt: HostRuntime, path: &str) -> anyhow::Result<()> {
    let mut record = open(rt, path)?;
    let (placed, whole, tail) = mend(rt.alloc(), &mut record)?;
    println!(rt; "{placed} {whole} {tail}")?;
    Ok(())
}

fn main(rt: HostRuntime) -> anyhow::Result<()> {
    let words: Vec<String> = env::args(&rt)?.collect(rt.alloc())?;
    match words.as_slice() {
        [_, what, frames, rounds] if what.as_str() == "replay" => {
            replay(&rt, frames.parse::<u32>()?, rounds.parse::<u32>()?)
        }
        [_, what, path, count] if what.as_str() == "append" => {
            append(rt, path.as_str(), count.parse::<u32>()?)
        }
        [_, what, path] if what.as_str() == "keep" => keep(rt, path.as_str()),
        [_, what, path] if what.as_str() == "check" => check(rt, path.as_str()),
        _ => bail!("{USAGE}"),
    }
}
