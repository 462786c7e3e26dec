//! The node functions of Algorithm 1 (section 3 of the 1988 paper): what a node sends in a round, and what becomes
//! of it in the round.

use std::ops::Range;
use std::sync::Arc;

/// What a message says besides its PROPER values.
pub enum Kind {
    List(Vec<u64>),
    Lock(u64),
    Ack,
    Locks(Vec<(u64, u64)>),
}

pub struct Body {
    pub kind: Kind,
    pub proper: Vec<u64>,
}

/// A message of a round.
#[derive(Clone)]
pub struct Message {
    pub sender: u8,
    pub round: u32,
    pub body: Arc<Body>,
}

/// The processor to which the phase of a round belongs, of so many.
pub fn owner(processors: u8, round: u32) -> u8 {
    ((round - 1) / 4 % u32::from(processors)) as u8 + 1
}

fn phase(round: u32) -> u64 {
    u64::from((round - 1) / 4) + 1
}

/// A node. PROPER rises, and the locks, each a value with its phase, rise by value.
pub struct Node {
    proper: Vec<u64>,
    locks: Vec<(u64, u64)>,
    proposal: Option<u64>,
    owes_ack: bool,
    pub decision: Option<u64>,
}

impl Node {
    pub fn new(value: u64) -> Node {
        Node {
            proper: vec![value],
            locks: Vec::new(),
            proposal: None,
            owes_ack: false,
            decision: None,
        }
    }

    /// What processor `me` of so many sends in a round, and to whom.
    pub fn outgoing(&self, processors: u8, me: u8, round: u32) -> Option<(Range<u8>, Body)> {
        let owner = owner(processors, round);
        let (to, kind) = match round % 4 {
            1 => (owner..owner + 1, Kind::List(self.acceptable())),
            2 if me == owner => (1..processors + 1, Kind::Lock(self.proposal?)),
            3 if self.owes_ack => (owner..owner + 1, Kind::Ack),
            0 => (1..processors + 1, Kind::Locks(self.locks.clone())),
            _ => return None,
        };
        let proper = self.proper.clone();
        Some((to, Body { kind, proper }))
    }

    /// The PROPER values on which, at most, there is a lock.
    fn acceptable(&self) -> Vec<u64> {
        let is_acceptable = |it: &u64| self.locks.iter().all(|(value, _)| value == it);
        self.proper.iter().copied().filter(is_acceptable).collect()
    }

    /// Ends a round of processor `me` of so many, of which so many may be faulty, in which these were heard.
    pub fn compute(&mut self, processors: u8, faults: u8, me: u8, round: u32, heard: &[Message]) {
        for message in heard {
            self.take_in(&message.body.proper);
        }
        let owner = owner(processors, round);
        match round % 4 {
            1 if me == owner => {
                self.proposal = least_listed(usize::from(processors - faults), heard);
            }
            2 => {
                let of_owner = heard.iter().find(|it| it.sender == owner);
                if let Some(Kind::Lock(value)) = of_owner.map(|it| &it.body.kind) {
                    self.lock(*value, phase(round));
                }
            }
            3 => {
                if me == owner && self.decision.is_none() && acks(heard) > usize::from(faults) {
                    self.decision = self.proposal;
                }
                self.proposal = None;
                self.owes_ack = false;
            }
            0 => self.locks.retain(|it| !is_released(*it, heard)),
            _ => {}
        }
    }

    fn take_in(&mut self, values: &[u64]) {
        for value in values {
            if let Err(at) = self.proper.binary_search(value) {
                self.proper.insert(at, *value);
            }
        }
    }

    fn lock(&mut self, value: u64, phase: u64) {
        match self.locks.binary_search_by_key(&value, |it| it.0) {
            Ok(at) => self.locks[at].1 = phase,
            Err(at) => self.locks.insert(at, (value, phase)),
        }
        self.owes_ack = true;
    }
}

/// The least value that is in so many of the lists heard.
fn least_listed(quorum: usize, heard: &[Message]) -> Option<u64> {
    let mut values = Vec::new();
    for message in heard {
        if let Kind::List(listed) = &message.body.kind {
            values.extend_from_slice(listed);
        }
    }
    values.sort_unstable();
    let mut runs = values.chunk_by(|a, b| a == b);
    runs.find(|run| run.len() >= quorum).map(|run| run[0])
}

fn acks(heard: &[Message]) -> usize {
    let is_ack = |it: &&Message| matches!(it.body.kind, Kind::Ack);
    heard.iter().filter(is_ack).count()
}

/// Whether some heard lock releases this one.
fn is_released((value, phase): (u64, u64), heard: &[Message]) -> bool {
    heard.iter().any(|message| match &message.body.kind {
        Kind::Locks(told) => told.iter().any(|it| it.0 != value && it.1 >= phase),
        _ => false,
    })
}
