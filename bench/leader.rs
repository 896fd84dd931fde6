//! A leader hears of transactions: `bench_leader plain|bundled commit|takeover BRANCHES TRANSACTIONS REPETITIONS`.
//! At a commit, each transaction's votes of acceptor 0 come, and then those of acceptor 1, which decide it. At a take-over, each
//! transaction has a timeout, whose ballot is made ready for, played and begun, and then the reports of acceptor 0 come, and those of
//! acceptor 1, on which it proposes. A repetition begins with a leader that has played nothing. Prints how many timeouts and messages
//! there were, how many messages were sent, and a sum of the last.
#![tactic(auto)]

mod common;

use anyhow::bail;
use common::{message_of, sum_of_bytes, tx_of};
use leader::{Leader, LeaderDecision, LeaderSends};
use stable_record::FactView;
use std::alloc::Global;
use std::env;
use wire::{
    InstanceAccept, InstanceReport, Items, Kind, MAX_DATAGRAM, MAX_TX_BYTES, SpelledTx, encode, view_of,
};
use xid::{MAX_BRANCHES, ManagerNumber, Refusal, Tx, Vote};

const USAGE: &str =
    "usage: bench_leader plain|bundled commit|takeover BRANCHES TRANSACTIONS REPETITIONS";

const PREPARED: Vote = Vote::Prepared;

/// What is measured.
#[derive(Clone, Copy)]
struct Course {
    bundled: bool,
    takes_over: bool,
    branches: usize,
}

/// An acceptor's vote, or what it reports, of an instance.
fn single(course: Course, tx: Tx, instance: ManagerNumber, acceptor: u8) -> Kind {
    if course.takes_over {
        return Kind::P1b {
            tx,
            instance,
            ballot: 1,
            report: Some((0, PREPARED)),
            acceptor,
        };
    }
    Kind::P2b {
        tx,
        instance,
        ballot: 0,
        vote: PREPARED,
        acceptor,
    }
}

fn report_of(instance: ManagerNumber) -> InstanceReport {
    InstanceReport {
        instance,
        report: Some((0, PREPARED)),
    }
}

fn accept_of(instance: ManagerNumber) -> InstanceAccept {
    InstanceAccept {
        instance,
        ballot: 0,
        vote: PREPARED,
    }
}

/// The same of all instances, in a bundle.
fn bundle(course: Course, tx: Tx, acceptor: u8) -> Kind {
    let mut reports = Items::one(report_of(0));
    let mut accepts = Items::one(accept_of(0));
    for place in 1..course.branches {
        if place < MAX_BRANCHES && reports.as_slice().len() < MAX_BRANCHES {
            reports.push(report_of(place as ManagerNumber));
        }
        if place < MAX_BRANCHES && accepts.as_slice().len() < MAX_BRANCHES {
            accepts.push(accept_of(place as ManagerNumber));
        }
    }
    if course.takes_over {
        return Kind::B1b {
            tx,
            ballot: 1,
            acceptor,
            reports,
        };
    }
    Kind::B2b {
        tx,
        acceptor,
        accepts,
    }
}

/// The bytes of a message.
fn bytes_of(alloc: Global, kind: Kind) -> anyhow::Result<Vec<u8>> {
    let mut bytes = [0; MAX_DATAGRAM];
    let len = encode(&message_of(kind)?, &mut bytes);
    Ok(Vec::from_slice(alloc, &bytes[..len])?)
}

/// The messages of both acceptors, one acceptor after the other.
fn messages_of(alloc: Global, course: Course, transactions: u32) -> anyhow::Result<Vec<Vec<u8>>> {
    let mut messages = Vec::new(alloc);
    for acceptor in 0..2 {
        for number in 0..transactions {
            let tx = tx_of(number, course.branches)?;
            if course.bundled {
                messages.push(bytes_of(alloc, bundle(course, tx, acceptor))?)?;
            } else {
                for place in 0..tx.count() {
                    let instance = place as ManagerNumber;
                    messages.push(bytes_of(alloc, single(course, tx, instance, acceptor))?)?;
                }
            }
        }
    }
    Ok(messages)
}

/// The sum of the last message that is sent.
fn last_sum(sends: &LeaderSends) -> u64 {
    match sends.count() {
        0 => 0,
        count => {
            let mut bytes = [0; MAX_DATAGRAM];
            let len = sends.at(count - 1).message.encode(&mut bytes);
            sum_of_bytes(&bytes[..len])
        }
    }
}

/// A timeout, and its ballot.
fn take_over(leader: &mut Leader, tx: &Tx, decision: &mut LeaderDecision) -> Result<(), Refusal> {
    let mut buffer = [0; MAX_TX_BYTES];
    leader.timeout(&SpelledTx::of(tx, &mut buffer), decision);
    if let Some(fact) = decision.fact.take() {
        let mut buffer = [0; MAX_TX_BYTES];
        let fact = FactView::of(fact, &mut buffer);
        leader.ready(&fact)?;
        leader.play(&fact)?;
        leader.begin(fact.tx(), 1);
    }
    Ok(())
}

/// All events at one leader, what is decided on each in the place of what was decided before. Answers how many events there were, and
/// how many messages were sent.
fn play_all(
    leader: &mut Leader,
    timeouts: &[Tx],
    messages: &[Vec<u8>],
    decision: &mut LeaderDecision,
) -> Result<(u64, u64), Refusal> {
    let mut events: u64 = 0;
    let mut sent: u64 = 0;
    for tx in timeouts {
        take_over(leader, tx, decision)?;
        sent = sent.wrapping_add(decision.sends.count() as u64);
        events = events.wrapping_add(1);
    }
    for bytes in messages {
        leader.on_message(&view_of(bytes)?, decision)?;
        sent = sent.wrapping_add(decision.sends.count() as u64);
        events = events.wrapping_add(1);
    }
    Ok((events, sent))
}

fn main(rt: HostRuntime) -> anyhow::Result<()> {
    let alloc = rt.alloc();
    let words: Vec<String> = env::args(&rt)?.collect(alloc)?;
    let [_, kind, what, branches, transactions, repetitions] = words.as_slice() else {
        bail!("{USAGE}");
    };
    let course = Course {
        bundled: kind.as_str() == "bundled",
        takes_over: what.as_str() == "takeover",
        branches: branches.parse::<usize>()?.clamp(1, MAX_BRANCHES),
    };
    let transactions = transactions.parse::<u32>()?;
    let messages = messages_of(alloc, course, transactions)?;
    let mut timeouts: Vec<Tx> = Vec::new(alloc);
    if course.takes_over {
        for number in 0..transactions {
            timeouts.push(tx_of(number, course.branches)?)?;
        }
    }
    let mut decision = LeaderDecision::nothing();
    let mut events: u64 = 0;
    let mut sent: u64 = 0;
    for _ in 0..repetitions.parse::<u32>()? {
        let mut leader = Leader::new(alloc, 0, 3, 1, 16, course.bundled);
        let (more, told) = play_all(&mut leader, &timeouts, &messages, &mut decision)?;
        events = events.wrapping_add(more);
        sent = sent.wrapping_add(told);
    }
    println!(rt; "{events} {sent} {}", last_sum(&decision.sends))?;
    Ok(())
}
