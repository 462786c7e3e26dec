//! What a trace makes of its processors, if it is a run.

use crate::texts::{Act, Trace};
use crate::world::World;
use std::io::{self, Write};

/// The messages that each Receive takes, from 1 on, as lists of which 0 is the end.
pub struct Taken {
    /// The first message of a Receive, by its number.
    first: Vec<u32>,
    /// The message after another, by its number.
    next: Vec<u32>,
}

impl Taken {
    pub fn new(trace: &Trace) -> Taken {
        let mut first = vec![0; trace.steps.len() + 1];
        let mut next = first.clone();
        for no in (1..=trace.len()).rev() {
            if let Act::Send { taken, .. } = trace.step(no).act {
                // (that no Receive took are listed at 0)
                next[no as usize] = std::mem::replace(&mut first[taken as usize], no);
            }
        }
        Taken { first, next }
    }

    /// The messages that a Receive takes, rising.
    pub fn by(&self, receive: u32) -> impl Iterator<Item = u32> + '_ {
        let mut at = self.first[receive as usize];
        std::iter::from_fn(move || {
            let id = (at != 0).then_some(at)?;
            at = self.next[id as usize];
            Some(id)
        })
    }
}

/// Makes the steps of a trace, or says which is the first that its processor wouldn't make.
pub fn replay(trace: &Trace) -> Result<World, u32> {
    let taken = Taken::new(trace);
    let mut world = World::new(trace.setup.clone());
    for no in 1..=trace.len() {
        let step = trace.step(no);
        let next = world.next_destination(step.processor);
        match step.act {
            Act::Send { to, .. } if next == Some(to) => world.send(step.processor),
            Act::Receive { ends, .. } if !ends || next.is_none() => {
                world.receive(step.processor, taken.by(no), ends)
            }
            _ => return Err(no),
        }
    }
    Ok(world)
}

/// Writes the round and the decision of each processor.
pub fn write_standing(world: &World, out: &mut impl Write) -> io::Result<()> {
    writeln!(out, "proc,round,decision")?;
    for processor in 1..=world.setup().processors {
        write!(out, "{processor},{},", world.round(processor))?;
        match world.decision(processor) {
            Some(value) => writeln!(out, "{value}")?,
            None => writeln!(out)?,
        }
    }
    out.flush()
}
