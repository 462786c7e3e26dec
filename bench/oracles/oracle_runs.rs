//! Runs of Algorithm 1 straight from the definitions (section 3 of the 1988 paper), for the oracle: who heard whom is
//! looked up in the trace, and the state of a processor in a round is that of the round model under this table.

use crate::{Act, Number, Processor, Trace};
use std::cell::RefCell;
use std::collections::{BTreeMap, BTreeSet};

type Value = u64;
type Phase = u64;
type Round = u64;

#[derive(Clone)]
struct State {
    proper: BTreeSet<Value>,
    locks: BTreeMap<Value, Phase>,
    proposal: Option<Value>,
    flag: bool,
    decision: Option<Value>,
}

enum Says {
    List(BTreeSet<Value>),
    Lock(Value),
    Ack,
    Locks(BTreeMap<Value, Phase>),
}

struct Message {
    sender: Processor,
    says: Says,
    proper: BTreeSet<Value>,
}

pub struct Runs<'a> {
    trace: &'a Trace,
    states: RefCell<BTreeMap<(Processor, Round), State>>,
}

impl<'a> Runs<'a> {
    pub fn new(trace: &'a Trace) -> Runs<'a> {
        Runs {
            trace,
            states: RefCell::default(),
        }
    }

    /// The least number whose step isn't what its processor does next.
    pub fn first_fault(&self) -> Option<Number> {
        (1..=self.length()).find(|&no| !self.is_due(no))
    }

    /// The round and the decision of a processor after all steps.
    pub fn standing(&self, p: Processor) -> (Round, Option<Value>) {
        let round = 1 + self.endings(p).len() as u64;
        (round, self.state(p, round).decision)
    }

    pub fn processors(&self) -> impl Iterator<Item = Processor> {
        1..=self.trace.processors
    }

    fn length(&self) -> u64 {
        self.trace.steps.len() as u64
    }

    fn processor(&self, no: Number) -> Processor {
        self.trace.steps[no as usize - 1].processor
    }

    fn act(&self, no: Number) -> &Act {
        &self.trace.steps[no as usize - 1].act
    }

    /// The steps of p that end a round.
    fn endings(&self, p: Processor) -> Vec<Number> {
        let ends =
            |no: &Number| self.processor(*no) == p && self.trace.steps[*no as usize - 1].ends;
        (1..=self.length()).filter(ends).collect()
    }

    /// One more than the number of earlier steps of the same processor that end a round.
    fn round_of(&self, no: Number) -> Round {
        let endings = self.endings(self.processor(no));
        1 + endings.iter().filter(|&&it| it < no).count() as u64
    }

    /// The processors of which p took a message of a round at or before the step that ended its own round of that
    /// number; none if there is no such step.
    fn heard(&self, p: Processor, round: Round) -> BTreeSet<Processor> {
        let mut heard = BTreeSet::new();
        let endings = self.endings(p);
        let Some(&end) = endings.get(round as usize - 1) else {
            return heard;
        };
        for no in (1..=end).filter(|&no| self.processor(no) == p) {
            if let Act::Receive(ids) = self.act(no) {
                let of_round = ids.iter().filter(|&&s| self.round_of(s) == round);
                heard.extend(of_round.map(|&s| self.processor(s)));
            }
        }
        heard
    }

    /// The state of p at the beginning of a round.
    fn state(&self, p: Processor, round: Round) -> State {
        if round == 1 {
            return State {
                proper: BTreeSet::from([self.trace.values[p as usize - 1]]),
                locks: BTreeMap::new(),
                proposal: None,
                flag: false,
                decision: None,
            };
        }
        if let Some(state) = self.states.borrow().get(&(p, round)) {
            return state.clone();
        }
        let before = round - 1;
        let senders = self.heard(p, before).into_iter();
        let heard: Vec<Message> = senders
            .filter_map(|q| self.out(&self.state(q, before), q, before, p))
            .collect();
        let state = self.next(self.state(p, before), p, before, &heard);
        self.states.borrow_mut().insert((p, round), state.clone());
        state
    }

    /// The processor to which a phase belongs.
    fn owner(&self, phase: Phase) -> Processor {
        let n = self.trace.processors;
        self.processors()
            .find(|p| p % n == phase % n)
            .expect("one of n numbers in a row")
    }

    /// What p in a state sends to a processor in a round.
    fn out(&self, state: &State, p: Processor, round: Round, to: Processor) -> Option<Message> {
        let phase = round.div_ceil(4);
        let owner = self.owner(phase);
        let says = if round == 4 * phase - 3 {
            let is_acceptable = |v: &&Value| state.locks.keys().all(|it| it == *v);
            let list = state.proper.iter().filter(is_acceptable).copied().collect();
            (to == owner).then_some(Says::List(list))
        } else if round == 4 * phase - 2 {
            state.proposal.filter(|_| p == owner).map(Says::Lock)
        } else if round == 4 * phase - 1 {
            (state.flag && to == owner).then_some(Says::Ack)
        } else {
            Some(Says::Locks(state.locks.clone()))
        };
        Some(Message {
            sender: p,
            says: says?,
            proper: state.proper.clone(),
        })
    }

    /// What a round makes of p in a state, by the messages heard.
    fn next(&self, mut state: State, p: Processor, round: Round, heard: &[Message]) -> State {
        let phase = round.div_ceil(4);
        let owner = self.owner(phase);
        for message in heard {
            state.proper.extend(&message.proper);
        }
        if round == 4 * phase - 3 && p == owner {
            let lists_with = |v: Value| {
                heard
                    .iter()
                    .filter(|it| matches!(&it.says, Says::List(list) if list.contains(&v)))
                    .count() as u64
            };
            let quorum = self.trace.processors - self.trace.faults;
            // (each value that is listed is proper by now)
            state.proposal = state
                .proper
                .iter()
                .copied()
                .find(|&v| lists_with(v) >= quorum);
        }
        if round == 4 * phase - 2 {
            for message in heard.iter().filter(|it| it.sender == owner) {
                if let Says::Lock(v) = message.says {
                    state.locks.insert(v, phase);
                    state.flag = true;
                }
            }
        }
        if round == 4 * phase - 1 {
            let acks = heard
                .iter()
                .filter(|it| matches!(it.says, Says::Ack))
                .count() as u64;
            if p == owner && acks >= self.trace.faults + 1 && state.decision.is_none() {
                state.decision = state.proposal;
            }
            state.proposal = None;
            state.flag = false;
        }
        if round == 4 * phase {
            state.locks.retain(|&v, h| {
                !heard.iter().any(|message| match &message.says {
                    Says::Locks(told) => told.iter().any(|(&w, later)| w != v && later >= h),
                    _ => false,
                })
            });
        }
        state
    }

    /// Whether a step is what its processor does next: it sends to the next destination, or ends its round if
    /// there is none left, or takes messages.
    fn is_due(&self, no: Number) -> bool {
        let p = self.processor(no);
        let round = self.round_of(no);
        let is_send = |it: &Number| matches!(self.act(*it), Act::Send(_));
        let of_round = |it: &Number| self.processor(*it) == p && self.round_of(*it) == round;
        let sent = (1..no).filter(is_send).filter(of_round).count();
        let state = self.state(p, round);
        let has_some = |to: &Processor| self.out(&state, p, round, *to).is_some();
        let next = self.processors().filter(has_some).nth(sent);
        match self.act(no) {
            Act::Send(to) => next == Some(*to),
            Act::Receive(_) => !self.trace.steps[no as usize - 1].ends || next.is_none(),
        }
    }
}
