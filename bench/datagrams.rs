//! What a node is handed in the programs for `bench/nodes.sh`, `bench/groups.sh` and `bench/boundary.sh`, and a node that is ready for it.
use crate::common::{message_of, tx_of};
use node_core::{Config, Input, Node, Output};
use protocol::{Action, NodeId, Request};
use stable_record::Record;
use std::alloc::Global;
use wire::{Kind, MAX_DATAGRAM, encode};
use xid::{Bytes, ManagerNumber, Refusal, Sequence, Tx, Vote, Xid};

/// The number of the only acceptor, leader or resource manager that is measured.
const FIRST: u8 = 0;

/// How many branches a transaction has.
const BRANCHES: usize = 2;

/// A cluster of three acceptors, a leader and two resource managers, whose tables are empty.
pub fn cluster(alloc: Global) -> Result<Config, Refusal> {
    let mut tables = Vec::new(alloc);
    for _ in 0..BRANCHES {
        tables.push(Sequence::new(Vec::new(alloc)))?;
    }
    Config::new(3, 1, 2, Sequence::new(tables))
}

/// A node of it over a record.
fn opened<R: Record + Drop>(alloc: Global, who: NodeId, device: R) -> Result<Node<R>, Refusal> {
    let config = cluster(alloc)?;
    match Node::open(alloc, &config, who, device) {
        Ok(node) => Ok(node),
        Err((_, refusal)) => Err(refusal),
    }
}

/// Adds the bytes of a message.
fn push(alloc: Global, datagrams: &mut Vec<Vec<u8>>, kind: Kind) -> Result<(), Refusal> {
    let message = message_of(kind)?;
    let mut bytes = [0; MAX_DATAGRAM];
    let len = encode(&message, &mut bytes);
    datagrams.push(Vec::from_slice(alloc, &bytes[..len])?)?;
    Ok(())
}

/// What a node hears of an instance of a transaction in a round: an acceptor phase 2a in the ballot of that number, a leader phase 2b in
/// ballot 0 from the acceptor of that number.
fn vote_of(who: NodeId, tx: Tx, instance: ManagerNumber, round: u8) -> Kind {
    let vote = Vote::Prepared;
    match who {
        NodeId::L(_) => Kind::P2b {
            tx,
            instance,
            ballot: 0,
            vote,
            acceptor: round,
        },
        _ => Kind::P2a {
            tx,
            instance,
            ballot: u32::from(round),
            vote,
        },
    }
}

/// Adds what a node hears of a transaction in a round, which is 0 or 1.
fn push_round(
    alloc: Global,
    datagrams: &mut Vec<Vec<u8>>,
    who: NodeId,
    tx: Tx,
    round: u8,
) -> Result<(), Refusal> {
    if let NodeId::R(_) = who {
        let outcome = Kind::Commit(tx);
        return push(
            alloc,
            datagrams,
            if round == 0 { Kind::Prepare(tx) } else { outcome },
        );
    }
    push(alloc, datagrams, vote_of(who, tx, 0, round))?;
    push(alloc, datagrams, vote_of(who, tx, 1, round))
}

/// What a node hears of all transactions, one round after the other.
pub fn datagrams_of(alloc: Global, who: NodeId, transactions: u32) -> Result<Vec<Vec<u8>>, Refusal> {
    let mut datagrams = Vec::new(alloc);
    for round in 0..2 {
        for number in 0..transactions {
            push_round(alloc, &mut datagrams, who, tx_of(number, BRANCHES)?, round)?;
        }
    }
    Ok(datagrams)
}

fn call<R: Record + Drop>(node: &mut Node<R>, out: &mut Output, xid: Xid, action: Action) {
    let request = Request::Call { xid, action };
    node.step_into(Input::Asked(&request), out);
}

/// The branch of a transaction puts a key, and ends.
fn work<R: Record + Drop>(
    alloc: Global,
    node: &mut Node<R>,
    out: &mut Output,
    number: u32,
) -> Result<(), Refusal> {
    let xid = Xid::new(1, &number.to_be_bytes(), b"a")?;
    let key = Bytes::copy_of(alloc, &number.to_be_bytes())?;
    let value = Bytes::copy_of(alloc, b"value")?;
    call(node, out, xid, Action::Start);
    call(node, out, xid, Action::Put { key, value });
    call(node, out, xid, Action::End);
    Ok(())
}

/// A node over a record that is to be measured; at a resource manager each transaction has an idle branch.
pub fn begun<R: Record + Drop>(
    alloc: Global,
    who: NodeId,
    transactions: u32,
    device: R,
) -> Result<Node<R>, Refusal> {
    let mut node = opened(alloc, who, device)?;
    if let NodeId::R(_) = who {
        let mut out = Output::nothing();
        for number in 0..transactions {
            work(alloc, &mut node, &mut out, number)?;
        }
    }
    Ok(node)
}

/// The node of a role, if a word names one.
pub fn node_of(role: &str) -> Option<NodeId> {
    if role == "acceptor" {
        return Some(NodeId::A(FIRST));
    }
    if role == "leader" {
        return Some(NodeId::L(FIRST));
    }
    if role == "manager" {
        return Some(NodeId::R(FIRST));
    }
    None
}
