//! What bench/acceptor.rs does, as a plain Rust program: a `HashMap` from the spelled transaction to its slots. What is decided is handed
//! back by value, where the proved acceptor writes it in the place of the decision before. A played fact isn't spelled or stored in either.
//! `plain_acceptor plain|bundled TRANSACTIONS BALLOTS REPETITIONS`
mod transactions;

use std::collections::HashMap;
use std::env;
use std::hint::black_box;
use transactions::{MAX_BRANCHES, MAX_TX_BYTES, Tx, Vote, spell, tx_of};

#[derive(Clone, Copy)]
struct P2a {
    tx: Tx,
    instance: u16,
    ballot: u32,
    vote: Vote,
}

#[derive(Clone, Copy)]
struct Accepted {
    instance: u16,
    ballot: u32,
    vote: Vote,
}

/// What is sent: phase 2b, one or a bundle.
#[derive(Clone, Copy)]
struct Sent {
    tx: Tx,
    count: u8,
    items: [Accepted; MAX_BRANCHES],
}

#[derive(Clone, Copy)]
struct Slot {
    mbal: u32,
    report: Option<(u32, Vote)>,
}

struct Acceptor {
    bundled: bool,
    slots: HashMap<Vec<u8>, Vec<Slot>>,
}

const EMPTY: Slot = Slot {
    mbal: 0,
    report: None,
};

fn place_of(tx: &Tx, instance: u16) -> usize {
    tx.branches().iter().position(|b| b.0 == instance).unwrap()
}

impl Acceptor {
    fn slots_of(&self, tx: &Tx) -> &[Slot] {
        let mut buffer = [0; MAX_TX_BYTES];
        self.slots.get(spell(tx, &mut buffer)).map_or(&[], |s| s)
    }

    fn told(&self, m: &P2a, slots: &[Slot]) -> Option<Sent> {
        let now = Accepted {
            instance: m.instance,
            ballot: m.ballot,
            vote: m.vote,
        };
        let mut sent = Sent {
            tx: m.tx,
            count: 0,
            items: [now; MAX_BRANCHES],
        };
        if !self.bundled {
            sent.count = 1;
            return Some(sent);
        }
        for (place, (rm, _)) in m.tx.branches().iter().enumerate() {
            let report = if *rm == m.instance {
                Some((m.ballot, m.vote))
            } else {
                slots.get(place).and_then(|s| s.report)
            };
            match report {
                Some((ballot, vote)) => {
                    sent.items[sent.count as usize] = Accepted {
                        instance: *rm,
                        ballot,
                        vote,
                    };
                    sent.count += 1;
                }
                None if m.vote == Vote::Prepared => return None,
                None => {}
            }
        }
        Some(sent)
    }

    fn on_2a(&self, m: &P2a) -> (Option<P2a>, Option<Sent>) {
        let slots = self.slots_of(&m.tx);
        let slot = slots.get(place_of(&m.tx, m.instance)).copied().unwrap_or(EMPTY);
        if m.ballot < slot.mbal {
            return (None, None);
        }
        let sent = self.told(m, slots);
        if slot.mbal == m.ballot && slot.report == Some((m.ballot, m.vote)) {
            return (None, sent);
        }
        (Some(*m), sent)
    }

    fn ready(&mut self, fact: &P2a) {
        let mut buffer = [0; MAX_TX_BYTES];
        let spelled = spell(&fact.tx, &mut buffer);
        if !self.slots.contains_key(spelled) {
            self.slots.insert(spelled.to_vec(), vec![EMPTY; fact.tx.count as usize]);
        }
    }

    fn play(&mut self, fact: P2a) -> bool {
        let mut buffer = [0; MAX_TX_BYTES];
        let Some(slots) = self.slots.get_mut(spell(&fact.tx, &mut buffer)) else {
            return false;
        };
        let slot = &mut slots[place_of(&fact.tx, fact.instance)];
        if fact.ballot < slot.mbal {
            return false;
        }
        slot.mbal = fact.ballot;
        slot.report = Some((fact.ballot, fact.vote));
        true
    }
}

fn main() {
    let words: Vec<String> = env::args().collect();
    let [_, kind, transactions, ballots, repetitions] = words.as_slice() else {
        panic!("usage: plain_acceptor plain|bundled TRANSACTIONS BALLOTS REPETITIONS");
    };
    let mut messages = Vec::new();
    for ballot in 0..ballots.parse().unwrap() {
        for number in 0..transactions.parse::<u32>().unwrap() {
            let tx = tx_of(number, 2);
            for instance in 0..2 {
                let vote = Vote::Prepared;
                messages.push(P2a {
                    tx,
                    instance,
                    ballot,
                    vote,
                });
            }
        }
    }
    let mut played: u64 = 0;
    let mut told: u64 = 0;
    for _ in 0..repetitions.parse::<u32>().unwrap() {
        let mut acceptor = Acceptor {
            bundled: kind == "bundled",
            slots: HashMap::new(),
        };
        let mut last = None;
        for message in &messages {
            let (fact, sent) = acceptor.on_2a(message);
            if let Some(fact) = fact {
                acceptor.ready(&fact);
                played += u64::from(acceptor.play(fact));
            }
            last = black_box(sent);
        }
        let sum = |s: Sent| -> u64 { s.items[..s.count as usize].iter().map(|i| u64::from(i.ballot + u32::from(i.instance))).sum() };
        told += last.map_or(0, |s| sum(s) + u64::from(s.tx.format) + u64::from(s.items[0].vote == Vote::Prepared));
    }
    println!("{played} {told}");
}
