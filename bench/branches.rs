//! A resource manager, for `bench/branches.sh`. It prints how much was done, and the nanoseconds of that.
//! `calls OPEN CYCLES`: so many branches are open, each with 4 keys put. In a cycle one of them ends, is rolled back and starts anew, and
//! then puts its 4 keys and gets them: 11 calls.
//! `commits ROWS BATCHES DONE`: the table is filled with so many rows. In a batch 20 transactions are voted prepared, whose branches put 3
//! rows of the table, and a new one in every other batch, which they delete in the others. Of them so many are committed: only that is timed.
//! `read TRANSACTIONS ROUNDS`, `replay TRANSACTIONS ROUNDS`: a record has the votes and the commits of so many transactions, of 4 keys
//! each. It is read, and its facts are played by a resource manager that has played none.
#![tactic(auto)]

mod common;
mod frames;

use anyhow::bail;
use branch_table::Ending;
use common::tx_of;
use frames::count;
use protocol::{Answer, MessageDecision};
use resource_manager::ResourceManager;
use stable_record::{EntryView, FactView, view_frame};
use std::alloc::Global;
use std::env;
use std::time::Instant;
use wire::{MAX_TX_BYTES, SpelledTx};
use xid::{MAX_TOUCHED, Refusal, Tx, XaCode, Xid};

const USAGE: &str =
    "usage: bench_branches calls OPEN CYCLES | commits ROWS BATCHES DONE | read|replay TRANSACTIONS ROUNDS";

/// How many transactions a batch has.
const BATCH: u32 = 20;

/// A prime, to go through branches and rows out of their order.
const STRIDE: u32 = 7919;

/// The branch of a number.
fn xid_of(number: u32) -> Result<Xid, Refusal> {
    Xid::new(1, &number.to_be_bytes(), b"a")
}

/// 1 for a call that was done.
fn done(answer: &Answer) -> u64 {
    match answer {
        Answer::Code(XaCode::Ok) | Answer::Value(_) => 1,
        _ => 0,
    }
}

/// A branch starts and puts 4 keys. Answers how many calls were done.
fn open(manager: &mut ResourceManager, number: u32) -> Result<u64, Refusal> {
    let xid = xid_of(number)?;
    let mut calls = done(&manager.start(&xid)?);
    for key in 0..4u32 {
        let key = number.wrapping_mul(4).wrapping_add(key).to_be_bytes();
        calls = calls.wrapping_add(done(&manager.put(&xid, &key, b"value")?));
    }
    Ok(calls)
}

/// A branch that is open ends, is rolled back and opened anew, and gets its 4 keys. Answers how many calls were done.
fn cycle(manager: &mut ResourceManager, number: u32) -> Result<u64, Refusal> {
    let xid = xid_of(number)?;
    let mut calls = done(&manager.end(&xid, Ending::Success));
    calls = calls.wrapping_add(done(&manager.rollback(&xid)));
    calls = calls.wrapping_add(open(manager, number)?);
    for key in 0..4u32 {
        let key = number.wrapping_mul(4).wrapping_add(key).to_be_bytes();
        calls = calls.wrapping_add(done(&manager.get(&xid, &key)?));
    }
    Ok(calls)
}

/// Opens so many branches, one after the other.
fn open_all(manager: &mut ResourceManager, many: u32) -> Result<(), Refusal> {
    for number in 0..many {
        let _ = open(manager, number)?;
    }
    Ok(())
}

/// So many cycles, of branches out of their order. Answers how many calls were done.
fn cycle_all(manager: &mut ResourceManager, many: u32, cycles: u32) -> Result<u64, Refusal> {
    let mut calls: u64 = 0;
    for number in 0..cycles {
        let number = number.wrapping_mul(STRIDE) % many.max(1);
        calls = calls.wrapping_add(cycle(manager, number)?);
    }
    Ok(calls)
}

/// Calls with so many open branches. Answers how many calls were done in the cycles, and their nanoseconds.
fn call_all(
    rt: &HostRuntime,
    manager: &mut ResourceManager,
    many: u32,
    cycles: u32,
) -> anyhow::Result<(u64, u128)> {
    open_all(manager, many)?;
    let begin = Instant::now(rt)?;
    let calls = cycle_all(manager, many, cycles)?;
    Ok((calls, begin.elapsed(rt)?.as_nanos()))
}

fn calls(rt: &HostRuntime, many: u32, cycles: u32) -> anyhow::Result<(u64, u128)> {
    let alloc = rt.alloc();
    let mut manager = ResourceManager::new(alloc, 0, 1, Vec::new(alloc))?;
    call_all(rt, &mut manager, many, cycles)
}

/// A branch puts 3 rows that the table has.
fn put_rows(
    manager: &mut ResourceManager,
    xid: &Xid,
    rows: u32,
    first: u32,
) -> Result<(), Refusal> {
    for at in first..first.saturating_add(3) {
        let row = at.wrapping_mul(STRIDE) % rows.max(1);
        let _ = manager.put(xid, &row.wrapping_mul(2).to_be_bytes(), b"other")?;
    }
    Ok(())
}

/// A branch puts a row that the table hasn't in every other batch, and deletes it in the others.
fn change_row(
    manager: &mut ResourceManager,
    xid: &Xid,
    row: u32,
    batch: u32,
) -> Result<(), Refusal> {
    let key = row.wrapping_mul(2).wrapping_add(1).to_be_bytes();
    if batch % 2 == 0 {
        let _ = manager.put(xid, &key, b"value")?;
    } else {
        let _ = manager.del(xid, &key)?;
    }
    Ok(())
}

/// The branch of the transaction of a batch with this place in it writes 4 rows, and ends.
fn write(manager: &mut ResourceManager, rows: u32, batch: u32, place: u32) -> Result<(), Refusal> {
    let number = batch.wrapping_mul(BATCH).wrapping_add(place);
    let xid = xid_of(number)?;
    let _ = manager.start(&xid)?;
    put_rows(manager, &xid, rows, number.wrapping_mul(3))?;
    let row = place.wrapping_mul(STRIDE) % rows.max(1);
    change_row(manager, &xid, row, batch)?;
    let _ = manager.end(&xid, Ending::Success);
    Ok(())
}

/// A fact is made ready for and played.
fn play_ready(manager: &mut ResourceManager, fact: &FactView<'_>) -> Result<(), Refusal> {
    manager.ready(fact)?;
    manager.play(fact)
}

/// The fact of a decision is made ready for and played. Answers how many there were.
fn store(manager: &mut ResourceManager, decision: &MessageDecision<'_>) -> Result<u64, Refusal> {
    match &decision.fact {
        Some(fact) => {
            play_ready(manager, fact)?;
            Ok(1)
        }
        None => Ok(0),
    }
}

/// Votes on a transaction.
fn vote(manager: &mut ResourceManager, tx: &Tx) -> Result<u64, Refusal> {
    let mut buffer = [0; MAX_TX_BYTES];
    let decision = manager.on_prepare(&SpelledTx::of(tx, &mut buffer))?;
    store(manager, &decision)
}

/// Commits a transaction.
fn commit(manager: &mut ResourceManager, tx: &Tx) -> Result<u64, Refusal> {
    let mut buffer = [0; MAX_TX_BYTES];
    let decision = manager.on_commit(&SpelledTx::of(tx, &mut buffer));
    store(manager, &decision)
}

/// Votes prepared for a batch of transactions.
fn prepare_batch(manager: &mut ResourceManager, rows: u32, batch: u32) -> Result<(), Refusal> {
    for place in 0..BATCH {
        write(manager, rows, batch, place)?;
        let _ = vote(
            manager,
            &tx_of(batch.wrapping_mul(BATCH).wrapping_add(place), 1)?,
        )?;
    }
    Ok(())
}

/// A transaction puts some rows with even keys, from this one on, and is committed. Its number is far from those of the batches.
fn fill_some(manager: &mut ResourceManager, first: u32, count: u32) -> Result<(), Refusal> {
    let number = u32::MAX.wrapping_sub(first);
    let xid = xid_of(number)?;
    let _ = manager.start(&xid)?;
    for row in first..first.saturating_add(count) {
        let _ = manager.put(&xid, &row.wrapping_mul(2).to_be_bytes(), b"value")?;
    }
    let _ = manager.end(&xid, Ending::Success);
    let tx = tx_of(number, 1)?;
    let _ = vote(manager, &tx)?;
    let _ = commit(manager, &tx)?;
    Ok(())
}

/// Fills the table with so many rows, with even keys.
fn fill(manager: &mut ResourceManager, count: u32) -> Result<(), Refusal> {
    let most = MAX_TOUCHED as u32;
    for part in 0..count.div_ceil(most) {
        let first = part.wrapping_mul(most);
        fill_some(manager, first, count.saturating_sub(first).min(most))?;
    }
    Ok(())
}

/// Commits the first of some transactions, so many.
fn commit_all(manager: &mut ResourceManager, txs: &[Tx], count: usize) -> Result<u64, Refusal> {
    let mut committed: u64 = 0;
    for tx in txs.iter().take(count) {
        committed = committed.wrapping_add(commit(manager, tx)?);
    }
    Ok(committed)
}

/// The transactions of a batch.
fn batch_of(alloc: Global, batch: u32) -> Result<Vec<Tx>, Refusal> {
    let mut txs = Vec::new(alloc);
    for place in 0..BATCH {
        txs.push(tx_of(batch.wrapping_mul(BATCH).wrapping_add(place), 1)?)?;
    }
    Ok(txs)
}

/// A batch of transactions is voted on, and the first of them, so many, are committed. Answers how many were, and the nanoseconds of that.
fn commit_batch(
    rt: &HostRuntime,
    manager: &mut ResourceManager,
    rows: u32,
    batch: u32,
    count: usize,
) -> anyhow::Result<(u64, u128)> {
    prepare_batch(manager, rows, batch)?;
    let txs = batch_of(rt.alloc(), batch)?;
    let begin = Instant::now(rt)?;
    let committed = commit_all(manager, &txs, count)?;
    Ok((committed, begin.elapsed(rt)?.as_nanos()))
}

fn commit_batches(
    rt: &HostRuntime,
    manager: &mut ResourceManager,
    rows: u32,
    batches: u32,
    count: usize,
) -> anyhow::Result<(u64, u128)> {
    let mut committed: u64 = 0;
    let mut nanoseconds: u128 = 0;
    for batch in 0..batches {
        let (more, taken) = commit_batch(rt, manager, rows, batch, count)?;
        committed = committed.wrapping_add(more);
        nanoseconds = nanoseconds.wrapping_add(taken);
    }
    Ok((committed, nanoseconds))
}

fn commits(rt: &HostRuntime, rows: u32, batches: u32, count: usize) -> anyhow::Result<(u64, u128)> {
    let alloc = rt.alloc();
    let mut manager = ResourceManager::new(alloc, 0, 1, Vec::new(alloc))?;
    fill(&mut manager, rows)?;
    commit_batches(rt, &mut manager, rows, batches, count)
}

/// Adds the frame of a decision's fact, and plays it.
fn record(
    manager: &mut ResourceManager,
    decision: &MessageDecision<'_>,
    bytes: &mut Vec<u8>,
) -> Result<(), Refusal> {
    let Some(fact) = &decision.fact else {
        return Ok(());
    };
    fact.write(bytes)?;
    play_ready(manager, fact)
}

/// Adds the frames of the vote and the commit of a transaction, whose branch is open.
fn record_tx(
    manager: &mut ResourceManager,
    number: u32,
    bytes: &mut Vec<u8>,
) -> Result<(), Refusal> {
    let _ = manager.end(&xid_of(number)?, Ending::Success);
    let tx = tx_of(number, 1)?;
    let mut buffer = [0; MAX_TX_BYTES];
    let tx = SpelledTx::of(&tx, &mut buffer);
    let vote = manager.on_prepare(&tx)?;
    record(manager, &vote, bytes)?;
    let commit = manager.on_commit(&tx);
    record(manager, &commit, bytes)
}

fn record_all(
    manager: &mut ResourceManager,
    transactions: u32,
    bytes: &mut Vec<u8>,
) -> Result<(), Refusal> {
    for number in 0..transactions {
        let _ = open(manager, number)?;
        record_tx(manager, number, bytes)?;
    }
    Ok(())
}

/// The record of so many transactions that were voted prepared and committed.
fn record_of(alloc: Global, transactions: u32, bytes: &mut Vec<u8>) -> Result<(), Refusal> {
    let mut manager = ResourceManager::new(alloc, 0, 1, Vec::new(alloc))?;
    record_all(&mut manager, transactions, bytes)
}

/// Plays an entry that is a fact.
fn play(manager: &mut ResourceManager, entry: &EntryView<'_>) -> Result<(), Refusal> {
    match entry {
        EntryView::Fact(fact) => manager.play(fact),
        _ => Err(Refusal::Damaged),
    }
}

/// Plays the facts of a record of at most so many frames. Answers how many there were.
fn play_all(
    alloc: Global,
    manager: &mut ResourceManager,
    bytes: &[u8],
    most: u32,
) -> Result<u64, Refusal> {
    let mut found: u64 = 0;
    let mut rest = bytes;
    for _ in 0..most {
        let Some((entry, after)) = view_frame(alloc, rest)? else {
            break;
        };
        play(manager, &entry)?;
        found = found.wrapping_add(1);
        rest = after;
    }
    Ok(found)
}

fn replay(alloc: Global, bytes: &[u8], most: u32) -> Result<u64, Refusal> {
    let mut manager = ResourceManager::new(alloc, 0, 1, Vec::new(alloc))?;
    play_all(alloc, &mut manager, bytes, most)
}

fn read_all(
    rt: &HostRuntime,
    bytes: &[u8],
    rounds: u32,
    plays: bool,
) -> anyhow::Result<(u64, u128)> {
    let alloc = rt.alloc();
    let mut facts: u64 = 0;
    let begin = Instant::now(rt)?;
    for _ in 0..rounds {
        let found = if plays {
            replay(alloc, bytes, u32::MAX)?
        } else {
            u64::from(count(alloc, bytes, u32::MAX)?)
        };
        facts = facts.wrapping_add(found);
    }
    Ok((facts, begin.elapsed(rt)?.as_nanos()))
}

fn replays(
    rt: &HostRuntime,
    transactions: u32,
    rounds: u32,
    plays: bool,
) -> anyhow::Result<(u64, u128)> {
    let alloc = rt.alloc();
    let mut bytes = Vec::new(alloc);
    record_of(alloc, transactions, &mut bytes)?;
    read_all(rt, &bytes, rounds, plays)
}

/// Does what the words say.
fn measured(rt: &HostRuntime, words: &[String]) -> anyhow::Result<(u64, u128)> {
    match words {
        [_, what, many, cycles] if what.as_str() == "calls" => {
            calls(rt, many.parse::<u32>()?, cycles.parse::<u32>()?)
        }
        [_, what, rows, batches, count] if what.as_str() == "commits" => {
            let batches = batches.parse::<u32>()?;
            commits(rt, rows.parse::<u32>()?, batches, count.parse::<usize>()?)
        }
        [_, what, transactions, rounds] if what.as_str() == "read" => {
            replays(
                rt,
                transactions.parse::<u32>()?,
                rounds.parse::<u32>()?,
                false,
            )
        }
        [_, what, transactions, rounds] if what.as_str() == "replay" => {
            replays(
                rt,
                transactions.parse::<u32>()?,
                rounds.parse::<u32>()?,
                true,
            )
        }
        _ => bail!("{USAGE}"),
    }
}

fn main(rt: HostRuntime) -> anyhow::Result<()> {
    let words: Vec<String> = env::args(&rt)?.collect(rt.alloc())?;
    let (count, nanoseconds) = measured(&rt, &words)?;
    println!(rt; "{count} {nanoseconds}")?;
    Ok(())
}
