//! What bench/branches.rs does, as a plain Rust program over the maps of std, with the names of branches spelled as bytes.
//! `plain_branches calls OPEN CYCLES | commits ROWS BATCHES DONE | read|replay TRANSACTIONS ROUNDS`
use std::collections::{BTreeMap, HashMap, HashSet};
use std::env;
use std::hint::black_box;
use std::time::Instant;

const BATCH: u32 = 20;
const STRIDE: u32 = 7919;
const MAX_TOUCHED: usize = 64;

type Bytes = Vec<u8>;

#[derive(Clone, Copy, PartialEq)]
enum State {
    Active,
    Idle,
    Prepared,
}

#[derive(Clone)]
enum Act {
    Read,
    Put(Bytes),
    Del,
}

impl Act {
    fn writes(&self) -> bool {
        !matches!(self, Act::Read)
    }
}

#[derive(Clone)]
struct Touched {
    key: Bytes,
    act: Act,
}

struct Branch {
    state: State,
    keys: Vec<Touched>,
}

#[derive(Clone, Copy, Default)]
struct Hold {
    touched_by: u64,
    written_by: u64,
}

#[derive(PartialEq)]
enum Answer {
    Done,
    Value(Option<Bytes>),
    Denied,
}

enum Fact {
    Vote { tx: Bytes, keys: Vec<Touched> },
    Committed(Bytes),
}

#[derive(Default)]
struct Manager {
    prepared: HashMap<Bytes, bool>,
    spent: HashSet<Bytes>,
    branches: HashMap<Bytes, Branch>,
    holds: HashMap<Bytes, Hold>,
    rows: BTreeMap<Bytes, Bytes>,
}

/// The branch of a number: its format, its gtrid and its bqual.
fn xid_of(number: u32) -> Bytes {
    let mut xid = vec![0, 0, 0, 1, 4];
    xid.extend_from_slice(&number.to_be_bytes());
    xid.extend_from_slice(b"\x01a");
    xid
}

/// The transaction of a number: its format, its gtrid, and its one branch.
fn tx_of(number: u32) -> Bytes {
    let mut tx = vec![0, 0, 0, 1, 4];
    tx.extend_from_slice(&number.to_be_bytes());
    tx.extend_from_slice(b"\x01\0\0\x01a");
    tx
}

/// The branch that a transaction has here.
fn name_here(tx: &[u8]) -> Bytes {
    let mut xid = tx[..9].to_vec();
    xid.extend_from_slice(&tx[12..]);
    xid
}

impl Manager {
    fn start(&mut self, xid: &[u8]) -> Answer {
        if self.spent.contains(xid) || self.branches.contains_key(xid) {
            return Answer::Denied;
        }
        self.branches.insert(xid.to_vec(), Branch { state: State::Active, keys: Vec::new() });
        Answer::Done
    }

    fn touch(&mut self, xid: &[u8], key: &[u8], act: Act) -> Option<&Touched> {
        let branch = self.branches.get_mut(xid)?;
        if branch.state != State::Active {
            return None;
        }
        let at = branch.keys.binary_search_by(|touched| touched.key.as_slice().cmp(key));
        let (mine, wrote) = match at {
            Ok(at) => (1, u64::from(branch.keys[at].act.writes())),
            Err(_) => (0, 0),
        };
        let hold = self.holds.get(key).copied().unwrap_or_default();
        let held = if act.writes() { hold.touched_by > mine } else { hold.written_by > wrote };
        if held || (at.is_err() && branch.keys.len() >= MAX_TOUCHED) {
            return None;
        }
        let writes = act.writes();
        let at = match at {
            Ok(at) => {
                if writes {
                    branch.keys[at].act = act;
                }
                at
            }
            Err(at) => {
                branch.keys.insert(at, Touched { key: key.to_vec(), act });
                at
            }
        };
        let hold = self.holds.entry(key.to_vec()).or_default();
        hold.touched_by += 1 - mine;
        hold.written_by += u64::from(writes && wrote == 0);
        Some(&branch.keys[at])
    }

    fn put(&mut self, xid: &[u8], key: &[u8], value: &[u8]) -> Answer {
        match self.touch(xid, key, Act::Put(value.to_vec())) {
            Some(_) => Answer::Done,
            None => Answer::Denied,
        }
    }

    fn del(&mut self, xid: &[u8], key: &[u8]) -> Answer {
        match self.touch(xid, key, Act::Del) {
            Some(_) => Answer::Done,
            None => Answer::Denied,
        }
    }

    fn get(&mut self, xid: &[u8], key: &[u8]) -> Answer {
        let act = match self.touch(xid, key, Act::Read) {
            Some(touched) => touched.act.clone(),
            None => return Answer::Denied,
        };
        match act {
            Act::Put(value) => Answer::Value(Some(value)),
            Act::Del => Answer::Value(None),
            Act::Read => Answer::Value(self.rows.get(key).cloned()),
        }
    }

    fn end(&mut self, xid: &[u8]) -> Answer {
        match self.branches.get_mut(xid) {
            Some(branch) if branch.state == State::Active => {
                branch.state = State::Idle;
                Answer::Done
            }
            _ => Answer::Denied,
        }
    }

    fn let_go(&mut self, keys: &[Touched]) {
        for touched in keys {
            if let Some(hold) = self.holds.get_mut(&touched.key) {
                hold.touched_by -= 1;
                hold.written_by -= u64::from(touched.act.writes());
                if hold.touched_by == 0 {
                    self.holds.remove(&touched.key);
                }
            }
        }
    }

    fn rollback(&mut self, xid: &[u8]) -> Answer {
        match self.branches.get(xid) {
            Some(branch) if branch.state == State::Idle => {}
            _ => return Answer::Denied,
        }
        if let Some(branch) = self.branches.remove(xid) {
            self.let_go(&branch.keys);
        }
        Answer::Done
    }

    fn on_prepare(&self, tx: &[u8]) -> Option<Fact> {
        let xid = name_here(tx);
        if self.prepared.contains_key(tx) || self.spent.contains(&xid) {
            return None;
        }
        let branch = self.branches.get(&xid)?;
        if branch.state != State::Idle {
            return None;
        }
        Some(Fact::Vote { tx: tx.to_vec(), keys: branch.keys.clone() })
    }

    fn on_commit(&self, tx: &[u8]) -> Option<Fact> {
        match self.prepared.get(tx) {
            Some(true) => Some(Fact::Committed(tx.to_vec())),
            _ => None,
        }
    }

    fn play(&mut self, fact: Fact) -> bool {
        match fact {
            Fact::Vote { tx, keys } => {
                let xid = name_here(&tx);
                if self.prepared.contains_key(&tx) || self.spent.contains(&xid) {
                    return false;
                }
                match self.branches.get_mut(&xid) {
                    Some(branch) => branch.state = State::Prepared,
                    None => {
                        for touched in &keys {
                            let hold = self.holds.entry(touched.key.clone()).or_default();
                            hold.touched_by += 1;
                            hold.written_by += u64::from(touched.act.writes());
                        }
                        self.branches.insert(xid.clone(), Branch { state: State::Prepared, keys });
                    }
                }
                self.spent.insert(xid);
                self.prepared.insert(tx, true);
            }
            Fact::Committed(tx) => {
                match self.prepared.get_mut(&tx) {
                    Some(open) if *open => *open = false,
                    _ => return false,
                }
                if let Some(branch) = self.branches.remove(&name_here(&tx)) {
                    self.let_go(&branch.keys);
                    for Touched { key, act } in branch.keys {
                        match act {
                            Act::Read => {}
                            Act::Put(value) => {
                                self.rows.insert(key, value);
                            }
                            Act::Del => {
                                self.rows.remove(&key);
                            }
                        }
                    }
                }
            }
        }
        true
    }
}

fn done(answer: Answer) -> u64 {
    match answer {
        Answer::Done | Answer::Value(Some(_)) => 1,
        _ => 0,
    }
}

fn open(manager: &mut Manager, number: u32) -> u64 {
    let xid = xid_of(number);
    let mut calls = done(manager.start(&xid));
    for key in 0..4u32 {
        calls += done(manager.put(&xid, &(number * 4 + key).to_be_bytes(), b"value"));
    }
    calls
}

fn cycle(manager: &mut Manager, number: u32) -> u64 {
    let xid = xid_of(number);
    let mut calls = done(manager.end(&xid)) + done(manager.rollback(&xid)) + open(manager, number);
    for key in 0..4u32 {
        calls += done(manager.get(&xid, &(number * 4 + key).to_be_bytes()));
    }
    calls
}

fn calls(many: u32, cycles: u32) {
    let mut manager = Manager::default();
    for number in 0..many {
        open(&mut manager, number);
    }
    let mut calls = 0;
    let begin = Instant::now();
    for number in 0..cycles {
        calls += cycle(&mut manager, number.wrapping_mul(STRIDE) % many);
    }
    println!("{calls} {}", begin.elapsed().as_nanos());
}

fn write(manager: &mut Manager, rows: u32, batch: u32, place: u32) {
    let xid = xid_of(batch * BATCH + place);
    manager.start(&xid);
    for key in 0..3u32 {
        let at = (batch * BATCH + place).wrapping_mul(3) + key;
        let row = at.wrapping_mul(STRIDE) % rows;
        manager.put(&xid, &(row * 2).to_be_bytes(), b"other");
    }
    let new = (place.wrapping_mul(STRIDE) % rows * 2 + 1).to_be_bytes();
    if batch % 2 == 0 {
        manager.put(&xid, &new, b"value");
    } else {
        manager.del(&xid, &new);
    }
    manager.end(&xid);
}

fn commits(rows: u32, batches: u32, count: u32) {
    let mut manager = Manager::default();
    for number in 0..rows {
        manager.rows.insert((number * 2).to_be_bytes().to_vec(), b"value".to_vec());
    }
    let mut committed = 0;
    let mut nanoseconds = 0;
    for batch in 0..batches {
        for place in 0..BATCH {
            write(&mut manager, rows, batch, place);
            if let Some(fact) = manager.on_prepare(&tx_of(batch * BATCH + place)) {
                manager.play(fact);
            }
        }
        let txs: Vec<Bytes> = (0..BATCH).map(|place| tx_of(batch * BATCH + place)).collect();
        let begin = Instant::now();
        for tx in txs.iter().take(count as usize) {
            if let Some(fact) = manager.on_commit(tx) {
                committed += u64::from(manager.play(fact));
            }
        }
        nanoseconds += begin.elapsed().as_nanos();
    }
    println!("{committed} {nanoseconds}");
}

/// A record's bytes: a length, and then a vote with its keys or a commit.
fn record_of(transactions: u32) -> Bytes {
    let mut bytes = Vec::new();
    for number in 0..transactions {
        let mut vote = vec![4];
        vote.extend_from_slice(&tx_of(number));
        vote.push(4);
        for key in 0..4u32 {
            vote.push(4);
            vote.extend_from_slice(&(number * 4 + key).to_be_bytes());
            vote.extend_from_slice(b"\x01\0\x05value");
        }
        let mut commit = vec![6];
        commit.extend_from_slice(&tx_of(number));
        for body in [vote, commit] {
            bytes.extend_from_slice(&(body.len() as u32).to_be_bytes());
            bytes.extend_from_slice(&body);
        }
    }
    bytes
}

fn take_keys(mut bytes: &[u8]) -> Option<Vec<Touched>> {
    let (&count, rest) = bytes.split_first()?;
    bytes = rest;
    let mut keys = Vec::new();
    for _ in 0..count {
        let (&len, rest) = bytes.split_first()?;
        let key = rest.get(..len as usize)?.to_vec();
        let rest = &rest[len as usize..];
        let (&act, rest) = rest.split_first()?;
        let (act, rest) = match act {
            0 => (Act::Read, rest),
            1 => {
                let len = u16::from_be_bytes(rest.get(..2)?.try_into().ok()?) as usize;
                (Act::Put(rest.get(2..2 + len)?.to_vec()), &rest[2 + len..])
            }
            2 => (Act::Del, rest),
            _ => return None,
        };
        keys.push(Touched { key, act });
        bytes = rest;
    }
    Some(keys)
}

fn take_frame(bytes: &[u8]) -> Option<(Fact, &[u8])> {
    let len = u32::from_be_bytes(bytes.get(..4)?.try_into().ok()?) as usize;
    let body = bytes.get(4..4 + len)?;
    let tx = body.get(1..15)?.to_vec();
    let fact = match body[0] {
        4 => Fact::Vote { tx, keys: take_keys(&body[15..])? },
        6 => Fact::Committed(tx),
        _ => return None,
    };
    Some((fact, &bytes[4 + len..]))
}

fn replays(transactions: u32, rounds: u32, plays: bool) {
    let bytes = record_of(transactions);
    let mut facts = 0;
    let begin = Instant::now();
    for _ in 0..rounds {
        let mut manager = Manager::default();
        let mut rest = bytes.as_slice();
        while let Some((fact, after)) = take_frame(rest) {
            facts += if plays { u64::from(manager.play(fact)) } else { u64::from(black_box(Some(fact)).is_some()) };
            rest = after;
        }
        black_box(&manager);
    }
    println!("{facts} {}", begin.elapsed().as_nanos());
}

fn main() {
    let words: Vec<String> = env::args().collect();
    let number = |at: usize| words[at].parse::<u32>().expect("a number");
    match words[1].as_str() {
        "calls" => calls(number(2), number(3)),
        "commits" => commits(number(2), number(3), number(4)),
        what => replays(number(2), number(3), what == "replay"),
    }
}
