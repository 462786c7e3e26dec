//! Processors in rounds that are made of single steps: each sends, one destination after the other, what its node
//! has to send in its round, takes messages, and ends its round.

use crate::rounds::{Message, Node};
use crate::texts::Setup;
use std::collections::BTreeMap;
use std::ops::Range;

struct Processor {
    node: Node,
    round: u32,
    /// What it sends in its round, and where it hasn't sent it yet.
    outgoing: Option<(Range<u8>, Message)>,
    /// The messages that it took, by their round, which is this one or a later one.
    heard: BTreeMap<u32, Vec<Message>>,
}

pub struct World {
    setup: Setup,
    processors: Vec<Processor>,
    /// For each step the message that it sent and that nobody took.
    sent: Vec<Option<Message>>,
}

impl World {
    pub fn new(setup: Setup) -> World {
        let opening = |value: &u64| Processor {
            node: Node::new(*value),
            round: 0,
            outgoing: None,
            heard: BTreeMap::new(),
        };
        let processors = setup.values.iter().map(opening).collect();
        let mut world = World {
            setup,
            processors,
            sent: Vec::new(),
        };
        for me in 1..=world.setup.processors {
            world.open_round(me, 1);
        }
        world
    }

    pub fn setup(&self) -> &Setup {
        &self.setup
    }

    /// How many steps were made.
    pub fn len(&self) -> u32 {
        self.sent.len() as u32
    }

    pub fn round(&self, me: u8) -> u32 {
        self.processors[usize::from(me) - 1].round
    }

    pub fn decision(&self, me: u8) -> Option<u64> {
        self.processors[usize::from(me) - 1].node.decision
    }

    /// Where a processor sends next in its round, if it isn't done with sending.
    pub fn next_destination(&self, me: u8) -> Option<u8> {
        let (to, _) = self.processors[usize::from(me) - 1].outgoing.as_ref()?;
        (!to.is_empty()).then_some(to.start)
    }

    /// A Send of a processor that isn't done with sending.
    pub fn send(&mut self, me: u8) {
        let outgoing = &mut self.processors[usize::from(me) - 1].outgoing;
        let message = outgoing.as_mut().map(|(to, message)| {
            to.next();
            message.clone()
        });
        self.sent.push(message);
    }

    /// A Receive of these messages, which were sent to the processor and that it hasn't taken. One that ends the
    /// round is of a processor that is done with sending.
    pub fn receive(&mut self, me: u8, ids: impl Iterator<Item = u32>, ends: bool) {
        let processor = &mut self.processors[usize::from(me) - 1];
        for id in ids {
            // (a message of an earlier round is lost)
            let message = self.sent[id as usize - 1].take();
            if let Some(message) = message.filter(|it| it.round >= processor.round) {
                let heard = processor.heard.entry(message.round).or_default();
                heard.push(message);
            }
        }
        self.sent.push(None);
        if ends {
            self.end_round(me);
        }
    }

    fn end_round(&mut self, me: u8) {
        let Setup {
            processors, faults, ..
        } = self.setup;
        let processor = &mut self.processors[usize::from(me) - 1];
        let round = processor.round;
        let heard = processor.heard.remove(&round).unwrap_or_default();
        processor
            .node
            .compute(processors, faults, me, round, &heard);
        self.open_round(me, round + 1);
    }

    fn open_round(&mut self, me: u8, round: u32) {
        let processor = &mut self.processors[usize::from(me) - 1];
        processor.round = round;
        let outgoing = processor.node.outgoing(self.setup.processors, me, round);
        processor.outgoing = outgoing.map(|(to, body)| {
            let body = body.into();
            (
                to,
                Message {
                    sender: me,
                    round,
                    body,
                },
            )
        });
    }
}
