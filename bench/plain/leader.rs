//! What bench/leader.rs does, as a plain Rust program: a `HashMap` from the spelled transaction to its course.
//! `plain_leader plain|bundled commit|takeover BRANCHES TRANSACTIONS REPETITIONS`
mod transactions;

use std::collections::HashMap;
use std::env;
use std::hint::black_box;
use transactions::{MAX_BRANCHES, MAX_TX_BYTES, Tx, Vote, spell, tx_of};

const MAX_ACCEPTORS: usize = 7;

#[derive(Clone, Copy)]
struct Report {
    instance: u16,
    report: Option<(u32, Vote)>,
}

#[derive(Clone, Copy)]
struct Accept {
    instance: u16,
    ballot: u32,
    vote: Vote,
}

/// Phases 1b and 2b; a single one is a bundle of one.
#[derive(Clone, Copy)]
enum Message {
    Reports {
        tx: Tx,
        ballot: u32,
        acceptor: u8,
        count: u8,
        items: [Report; MAX_BRANCHES],
    },
    Accepts {
        tx: Tx,
        acceptor: u8,
        count: u8,
        items: [Accept; MAX_BRANCHES],
    },
}

#[derive(Clone, Copy)]
struct Proposal {
    instance: u16,
    vote: Vote,
}

/// What is sent.
#[derive(Clone, Copy)]
#[allow(dead_code)]
enum Sends {
    Nothing,
    Begins {
        tx: Tx,
        ballot: u32,
        bundled: bool,
    },
    Proposes {
        tx: Tx,
        ballot: u32,
        count: u8,
        items: [Proposal; MAX_BRANCHES],
    },
    Commit(Tx),
    Abort(Tx),
}

impl Sends {
    fn count(&self) -> u64 {
        match self {
            Sends::Nothing => 0,
            Sends::Begins { tx, bundled, .. } => if *bundled { 1 } else { u64::from(tx.count) },
            Sends::Proposes { count, .. } => u64::from(*count),
            Sends::Commit(_) | Sends::Abort(_) => 1,
        }
    }
}

/// A ballot to store.
#[derive(Clone, Copy)]
struct Ballot {
    tx: Tx,
    ballot: u32,
}

struct Instance {
    instance: u16,
    reporters: [bool; MAX_ACCEPTORS],
    best: Option<(u32, Vote)>,
    proposed: bool,
    prepared: bool,
    aborted: bool,
}

struct Told {
    instance: u16,
    ballot: u32,
    vote: Vote,
    members: [bool; MAX_ACCEPTORS],
}

struct Course {
    greatest: u32,
    current: Option<u32>,
    instances: Vec<Instance>,
    told: Vec<Told>,
}

impl Course {
    fn new(tx: &Tx) -> Course {
        let instance = |rm: u16| Instance {
            instance: rm,
            reporters: [false; MAX_ACCEPTORS],
            best: None,
            proposed: false,
            prepared: false,
            aborted: false,
        };
        Course {
            greatest: 0,
            current: None,
            instances: tx.branches().iter().map(|branch| instance(branch.0)).collect(),
            told: Vec::new(),
        }
    }

    fn outcome(&self) -> Option<Vote> {
        if self.instances.iter().any(|i| i.aborted) {
            return Some(Vote::Aborted);
        }
        self.instances.iter().all(|i| i.prepared).then_some(Vote::Prepared)
    }
}

fn majority(members: &[bool; MAX_ACCEPTORS], acceptors: u8) -> bool {
    let count = members[..acceptors as usize].iter().filter(|m| **m).count();
    (acceptors as usize) < 2 * count
}

struct Leader {
    acceptors: u8,
    bundled: bool,
    courses: HashMap<Vec<u8>, Course>,
}

impl Leader {
    fn course_of(&mut self, tx: &Tx) -> Option<&mut Course> {
        let mut buffer = [0; MAX_TX_BYTES];
        self.courses.get_mut(spell(tx, &mut buffer))
    }

    /// The course of a transaction, a new one where there is none.
    fn met(&mut self, tx: &Tx) -> &mut Course {
        let mut buffer = [0; MAX_TX_BYTES];
        let spelled = spell(tx, &mut buffer);
        if !self.courses.contains_key(spelled) {
            self.courses.insert(spelled.to_vec(), Course::new(tx));
        }
        self.courses.get_mut(spelled).unwrap()
    }

    fn timeout(&mut self, tx: &Tx) -> (Option<Ballot>, Sends) {
        let last = match self.course_of(tx) {
            None => 0,
            Some(course) => match course.outcome() {
                Some(Vote::Prepared) => return (None, Sends::Commit(*tx)),
                Some(Vote::Aborted) => return (None, Sends::Abort(*tx)),
                None => course.greatest,
            },
        };
        let ballot = last + 1;
        let bundled = self.bundled;
        (Some(Ballot { tx: *tx, ballot }), Sends::Begins { tx: *tx, ballot, bundled })
    }

    fn ready(&mut self, fact: &Ballot) {
        self.met(&fact.tx);
    }

    fn play(&mut self, fact: Ballot) -> bool {
        let Some(course) = self.course_of(&fact.tx) else {
            return false;
        };
        if fact.ballot <= course.greatest {
            return false;
        }
        course.greatest = fact.ballot;
        true
    }

    fn begin(&mut self, tx: &Tx, ballot: u32) {
        let Some(course) = self.course_of(tx) else {
            return;
        };
        course.current = Some(ballot);
        for instance in &mut course.instances {
            instance.reporters = [false; MAX_ACCEPTORS];
            instance.best = None;
            instance.proposed = false;
        }
    }

    fn on_1b(&mut self, tx: &Tx, ballot: u32, acceptor: u8, items: &[Report]) -> Sends {
        let acceptors = self.acceptors;
        let Some(course) = self.course_of(tx) else {
            return Sends::Nothing;
        };
        if course.current != Some(ballot) || course.outcome().is_some() {
            return Sends::Nothing;
        }
        let mut count = 0;
        let mut proposals = [Proposal { instance: 0, vote: Vote::Aborted }; MAX_BRANCHES];
        for item in items {
            let Some(row) = course.instances.iter_mut().find(|i| i.instance == item.instance) else {
                continue;
            };
            if !row.reporters[acceptor as usize] {
                row.reporters[acceptor as usize] = true;
                row.best = match (item.report, row.best) {
                    (Some((b, v)), Some((c, w))) if b == c => Some((b, if v == w { v } else { Vote::Aborted })),
                    (Some((b, v)), Some((c, w))) => Some(if c < b { (b, v) } else { (c, w) }),
                    (Some(report), None) => Some(report),
                    (None, best) => best,
                };
            }
            if !row.proposed && majority(&row.reporters, acceptors) {
                row.proposed = true;
                let vote = row.best.map_or(Vote::Aborted, |best| best.1);
                proposals[count] = Proposal { instance: item.instance, vote };
                count += 1;
            }
        }
        if count == 0 {
            return Sends::Nothing;
        }
        Sends::Proposes { tx: *tx, ballot, count: count as u8, items: proposals }
    }

    fn on_2b(&mut self, tx: &Tx, acceptor: u8, items: &[Accept]) -> Sends {
        let acceptors = self.acceptors;
        let course = self.met(tx);
        if course.outcome().is_some() {
            return Sends::Nothing;
        }
        for item in items {
            let is_of = |t: &Told| t.instance == item.instance && t.ballot == item.ballot && t.vote == item.vote;
            let place = course.told.iter().position(is_of).unwrap_or_else(|| {
                course.told.push(Told {
                    instance: item.instance,
                    ballot: item.ballot,
                    vote: item.vote,
                    members: [false; MAX_ACCEPTORS],
                });
                course.told.len() - 1
            });
            let told = &mut course.told[place];
            told.members[acceptor as usize] = true;
            if majority(&told.members, acceptors) {
                for row in course.instances.iter_mut().filter(|i| i.instance == item.instance) {
                    match item.vote {
                        Vote::Prepared => row.prepared = true,
                        Vote::Aborted => row.aborted = true,
                    }
                }
            }
        }
        match course.outcome() {
            Some(Vote::Prepared) => Sends::Commit(*tx),
            Some(Vote::Aborted) => Sends::Abort(*tx),
            None => Sends::Nothing,
        }
    }

    fn on_message(&mut self, message: &Message) -> Sends {
        match message {
            Message::Reports { tx, ballot, acceptor, count, items } => {
                self.on_1b(tx, *ballot, *acceptor, &items[..*count as usize])
            }
            Message::Accepts { tx, acceptor, count, items } => self.on_2b(tx, *acceptor, &items[..*count as usize]),
        }
    }
}

/// An acceptor's message of some instances, which begin with a first one.
fn message_of(takes_over: bool, tx: Tx, acceptor: u8, first: u16, count: u8) -> Message {
    let vote = Vote::Prepared;
    if takes_over {
        let mut items = [Report { instance: first, report: Some((0, vote)) }; MAX_BRANCHES];
        for (place, item) in items.iter_mut().enumerate() {
            item.instance = first + place as u16;
        }
        return Message::Reports { tx, ballot: 1, acceptor, count, items };
    }
    let mut items = [Accept { instance: first, ballot: 0, vote }; MAX_BRANCHES];
    for (place, item) in items.iter_mut().enumerate() {
        item.instance = first + place as u16;
    }
    Message::Accepts { tx, acceptor, count, items }
}

fn main() {
    let words: Vec<String> = env::args().collect();
    let [_, kind, what, branches, transactions, repetitions] = words.as_slice() else {
        panic!("usage: plain_leader plain|bundled commit|takeover BRANCHES TRANSACTIONS REPETITIONS");
    };
    let bundled = kind == "bundled";
    let takes_over = what == "takeover";
    let branches: u8 = branches.parse().unwrap();
    let transactions: u32 = transactions.parse().unwrap();
    let mut messages = Vec::new();
    for acceptor in 0..2 {
        for number in 0..transactions {
            let tx = tx_of(number, branches);
            if bundled {
                messages.push(message_of(takes_over, tx, acceptor, 0, branches));
            } else {
                for instance in 0..u16::from(branches) {
                    messages.push(message_of(takes_over, tx, acceptor, instance, 1));
                }
            }
        }
    }
    let timeouts: Vec<Tx> = if takes_over { (0..transactions).map(|number| tx_of(number, branches)).collect() } else { Vec::new() };
    let mut events: u64 = 0;
    let mut sum: u64 = 0;
    for _ in 0..repetitions.parse::<u32>().unwrap() {
        let mut leader = Leader { acceptors: 3, bundled, courses: HashMap::new() };
        for tx in &timeouts {
            let (fact, sends) = leader.timeout(tx);
            if let Some(fact) = fact {
                leader.ready(&fact);
                leader.play(fact);
                leader.begin(tx, 1);
            }
            sum += black_box(sends).count();
            events += 1;
        }
        for message in &messages {
            sum += black_box(leader.on_message(message)).count();
            events += 1;
        }
    }
    println!("{events} {sum}");
}
