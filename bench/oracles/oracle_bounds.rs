//! Bounds, witnesses and the front straight from the definitions, for the oracle: every number is tried in turn, and
//! every message, Receive and window is looked at.

use crate::{Act, Number, Processor, Step, Trace};

/// A tick, or a number of ticks. It has room for sums of any two numbers of a text.
pub type Ticks = u128;

pub struct Definitions<'a> {
    pub trace: &'a Trace,
    pub correct: &'a [Processor],
}

/// A message and a Receive of its receiver, by the numbers of the two steps.
#[derive(Clone, Copy)]
pub struct Miss {
    pub sent: Number,
    pub missed: Number,
}

/// A processor and the ticks in which it makes no step.
#[derive(Clone, Copy)]
pub struct Gap {
    pub processor: Processor,
    pub from: Ticks,
    pub to: Ticks,
}

impl Definitions<'_> {
    pub fn last_tick(&self) -> Ticks {
        self.trace.last_tick.into()
    }

    /// The steps with their numbers.
    fn steps(&self) -> impl Iterator<Item = (Number, &Step)> {
        (1..).zip(&self.trace.steps)
    }

    fn step(&self, no: Number) -> Option<&Step> {
        self.steps().find(|it| it.0 == no).map(|it| it.1)
    }

    fn is_correct(&self, processor: Processor) -> bool {
        self.correct.contains(&processor)
    }

    /// The receiver of a message, if both it and the sender are correct.
    fn correct_receiver(&self, send: &Step) -> Option<Processor> {
        match send.act {
            Act::Send(to) if self.is_correct(send.processor) && self.is_correct(to) => Some(to),
            _ => None,
        }
    }

    /// Some Receive in a later tick than the Send's, at the tick y or before, takes the message.
    fn is_delivered(&self, sent: Number, send: &Step, y: Ticks) -> bool {
        self.steps().any(|(_, it)| match &it.act {
            Act::Receive(ids) => it.tick > send.tick && it.tick() <= y && ids.contains(&sent),
            Act::Send(_) => false,
        })
    }

    /// Every message between correct processors that is sent in tick g or later is delivered by each Receive of its
    /// receiver that is at least d ticks later.
    pub fn delta_holds(&self, d: Ticks, g: Ticks) -> bool {
        let sends = self.steps().filter(|(_, send)| send.tick() >= g);
        sends.into_iter().all(|(s, send)| {
            let Some(b) = self.correct_receiver(send) else {
                return true;
            };
            let mut receives = self.steps().map(|it| it.1).filter(|it| it.is_receive_of(b));
            receives.all(|it| send.tick() + d > it.tick() || self.is_delivered(s, send, it.tick()))
        })
    }

    fn has_step(&self, p: Processor, tick: Ticks) -> bool {
        self.steps()
            .any(|(_, it)| it.processor == p && it.tick() == tick)
    }

    /// Each correct processor has a step in each window of f ticks from g on that the trace has room for.
    pub fn phi_holds(&self, f: Ticks, g: Ticks) -> bool {
        let mut windows = (g..).take_while(|x| x + f - 1 <= self.last_tick());
        windows.all(|x| {
            let has_one = |p: &Processor| (x..=x + f - 1).any(|tick| self.has_step(*p, tick));
            self.correct.iter().all(has_one)
        })
    }

    pub fn is_miss(&self, it: Miss) -> bool {
        let (Some(send), Some(receive)) = (self.step(it.sent), self.step(it.missed)) else {
            return false;
        };
        self.correct_receiver(send).is_some_and(|b| {
            receive.is_receive_of(b)
                && receive.tick > send.tick
                && !self.is_delivered(it.sent, send, receive.tick())
        })
    }

    pub fn is_gap(&self, it: Gap) -> bool {
        self.is_correct(it.processor)
            && (1..=it.to).contains(&it.from)
            && it.to <= self.last_tick()
            && !(it.from..=it.to).any(|tick| self.has_step(it.processor, tick))
    }

    /// The tick of a step that is in the trace.
    pub fn tick(&self, no: Number) -> Ticks {
        self.step(no).expect("a step of the trace").tick()
    }

    pub fn length_of_miss(&self, it: Miss) -> Ticks {
        self.tick(it.missed) - self.tick(it.sent)
    }

    /// The misses of messages that are sent in tick g or later.
    pub fn misses(&self, g: Ticks) -> impl Iterator<Item = Miss> + '_ {
        let pairs = self
            .steps()
            .flat_map(|(sent, _)| self.steps().map(move |(missed, _)| Miss { sent, missed }));
        pairs.filter(move |it| self.is_miss(*it) && self.tick(it.sent) >= g)
    }

    /// The gaps that begin in tick g or later.
    pub fn gaps(&self, g: Ticks) -> impl Iterator<Item = Gap> + '_ {
        let windows = (g..=self.last_tick())
            .flat_map(|from| (from..=self.last_tick()).map(move |to| (from, to)));
        let all = windows.flat_map(|(from, to)| {
            let gap = move |&processor: &Processor| Gap {
                processor,
                from,
                to,
            };
            self.correct.iter().map(gap)
        });
        all.filter(|it| self.is_gap(*it))
    }

    /// Of the misses from g on with the length delta - 1, the one whose Send has the greatest tick, and then the
    /// greatest number.
    pub fn named_miss(&self, g: Ticks, delta: Ticks) -> Option<Miss> {
        self.misses(g)
            .filter(|it| self.length_of_miss(*it) + 1 == delta)
            .max_by_key(|it| (self.tick(it.sent), it.sent))
    }

    /// Of the gaps from g on with the length phi - 1, the one with the greatest beginning, and then the least
    /// processor.
    pub fn named_gap(&self, g: Ticks, phi: Ticks) -> Option<Gap> {
        let starts =
            (g..=self.last_tick()).filter(|from| phi > 1 && from + phi - 2 <= self.last_tick());
        let gaps = starts.flat_map(|from| {
            let gap = move |&processor: &Processor| Gap {
                processor,
                from,
                to: from + phi - 2,
            };
            self.correct.iter().map(gap)
        });
        gaps.filter(|it| self.is_gap(*it))
            .max_by_key(|it| (it.from, std::cmp::Reverse(it.processor)))
    }

    /// The triples (g, delta, phi) that no feasible triple dominates. (Of one g, the triple of the least bounds
    /// dominates all others; so only these are compared.)
    pub fn front(&self) -> Vec<(Ticks, Ticks, Ticks)> {
        let least = |holds: &dyn Fn(Ticks) -> bool| (1..).find(|it| holds(*it)).expect("one holds");
        let of_least = |g| {
            let delta = least(&|d| self.delta_holds(d, g));
            (g, delta, least(&|f| self.phi_holds(f, g)))
        };
        let all: Vec<_> = (1..=self.last_tick()).map(of_least).collect();
        let is_dominated = |it| all.iter().any(|other| dominates(*other, it));
        all.iter()
            .copied()
            .filter(|it| !is_dominated(*it))
            .collect()
    }
}

impl Step {
    fn tick(&self) -> Ticks {
        self.tick.into()
    }

    fn is_receive_of(&self, processor: Processor) -> bool {
        self.processor == processor && matches!(self.act, Act::Receive(_))
    }
}

fn dominates(a: (Ticks, Ticks, Ticks), b: (Ticks, Ticks, Ticks)) -> bool {
    let is_nowhere_greater = a.0 <= b.0 && a.1 <= b.1 && a.2 <= b.2;
    let is_somewhere_smaller = a.0 < b.0 || a.1 < b.1 || a.2 < b.2;
    is_nowhere_greater && is_somewhere_smaller
}
