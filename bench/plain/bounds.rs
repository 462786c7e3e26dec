//! The bounds of a trace: sets of processors, and the report.

use crate::texts::{number, Act, Step, Trace, PROCESSOR_LIMIT};
use std::io::{self, Write};

/// A set of processors from 1 to 64.
#[derive(Clone, Copy)]
pub struct ProcessorSet(u64);

impl ProcessorSet {
    /// The word `none`, or numbers from 1 to 64 with one comma between them.
    pub fn from_list(list: &str) -> Option<ProcessorSet> {
        if list == "none" {
            return Some(ProcessorSet(0));
        }
        let mut mask = 0;
        for field in list.split(',') {
            let processor = number(field.as_bytes()).filter(|it| (1..=64).contains(it))?;
            mask |= 1 << (processor - 1);
        }
        Some(ProcessorSet(mask))
    }

    /// The least member above a number of processors.
    pub fn first_above(self, processors: u8) -> Option<u8> {
        self.members().find(|&it| it > processors)
    }

    pub fn contains(self, processor: u8) -> bool {
        self.0 >> (processor - 1) & 1 == 1
    }

    fn members(self) -> impl Iterator<Item = u8> {
        (1..=64).filter(move |&processor| self.contains(processor))
    }
}

// Bounds

/// A message and the last Receive of its receiver by which it was not delivered, by their numbers, and the ticks
/// between the two.
#[derive(Clone, Copy)]
pub struct Miss {
    pub sent: u32,
    pub missed: u32,
    pub length: u32,
}

/// Ticks in which a processor makes no step.
#[derive(Clone, Copy)]
pub struct Gap {
    pub processor: u8,
    pub from: u32,
    pub to: u32,
}

/// The bounds that hold from a tick to the trace's end, with a witness against each smaller one.
#[derive(Clone, Copy)]
pub struct Row {
    gst: u32,
    delta: u32,
    phi: u32,
    miss: Option<Miss>,
    gap: Option<Gap>,
}

/// What the ticks from the current one to the trace's end show about the silence of the correct processors.
pub struct Silence {
    /// The correct processors, rising.
    members: Vec<u8>,
    /// The tick of the next step of each processor, by its number less one; one past the end if there is none.
    next: [u32; PROCESSOR_LIMIT as usize],
    /// The correct processor whose next step comes last, and of several the one with the least number.
    last: Option<u8>,
}

impl Silence {
    pub fn new(correct: ProcessorSet, last_tick: u32) -> Silence {
        let members: Vec<u8> = correct.members().collect();
        let next = [last_tick + 1; PROCESSOR_LIMIT as usize];
        let last = members.first().copied();
        Silence {
            members,
            next,
            last,
        }
    }

    fn next_of(&self, processor: u8) -> u32 {
        self.next[usize::from(processor) - 1]
    }

    /// Takes in the step before all those so far.
    pub fn step(&mut self, tick: u32, processor: u8) {
        self.next[usize::from(processor) - 1] = tick;
        if self.last == Some(processor) {
            // (of equal ones `max_by_key` gives the last)
            let members = self.members.iter().copied().rev();
            self.last = members.max_by_key(|&it| self.next_of(it));
        }
    }

    /// The longest silence that begins in a tick, if a correct processor is silent there.
    pub fn at(&self, tick: u32) -> Option<Gap> {
        let processor = self.last?;
        let to = self.next_of(processor) - 1;
        (to >= tick).then_some(Gap {
            processor,
            from: tick,
            to,
        })
    }
}

impl Gap {
    pub fn length(self) -> u32 {
        self.to - self.from + 1
    }
}

/// The last miss of the message that a step sends between correct processors, if it sends one that was missed.
pub fn last_miss(trace: &Trace, correct: ProcessorSet, sent: u32) -> Option<Miss> {
    let Step {
        processor,
        act: Act::Send { to, taken },
    } = trace.step(sent)
    else {
        return None;
    };
    if !correct.contains(processor) || !correct.contains(to) {
        return None;
    }
    let missed = match taken {
        0 => trace.last_receives[usize::from(to) - 1],
        receive => match trace.step(receive).act {
            Act::Receive { before, .. } => before,
            Act::Send { .. } => 0,
        },
    };
    let length = match missed {
        0 => 0,
        missed => trace.tick(missed).saturating_sub(trace.tick(sent)),
    };
    (length > 0).then_some(Miss {
        sent,
        missed,
        length,
    })
}

/// The triples of bounds that no other triple dominates, in rising stabilization time: one backward pass, in which
/// the bounds only grow, keeps a row if the tick before has another bound.
pub fn front(trace: &Trace, correct: ProcessorSet) -> Vec<Row> {
    let mut rows = Vec::new();
    let mut silence = Silence::new(correct, trace.last_tick);
    let mut no = trace.len();
    let mut row = Row {
        gst: 0,
        delta: 1,
        phi: 1,
        miss: None,
        gap: None,
    };
    for gst in (1..=trace.last_tick).rev() {
        let after = row;
        while no > 0 && trace.tick(no) == gst {
            let miss = last_miss(trace, correct, no);
            if let Some(miss) = miss.filter(|it| it.length >= row.delta) {
                row.delta = miss.length + 1;
                row.miss = Some(miss);
            }
            silence.step(gst, trace.step(no).processor);
            no -= 1;
        }
        if let Some(gap) = silence.at(gst).filter(|it| it.length() >= row.phi) {
            row.phi = gap.length() + 1;
            row.gap = Some(gap);
        }
        if after.gst != 0 && (row.delta, row.phi) != (after.delta, after.phi) {
            rows.push(after);
        }
        row.gst = gst;
    }
    if row.gst != 0 {
        rows.push(row);
    }
    rows.reverse();
    rows
}

pub fn write_report(rows: &[Row], out: &mut impl Write) -> io::Result<()> {
    writeln!(out, "gst,delta,phi,sent,missed,proc,from,to")?;
    for Row {
        gst,
        delta,
        phi,
        miss,
        gap,
    } in rows
    {
        write!(out, "{gst},{delta},{phi},")?;
        match miss {
            Some(Miss { sent, missed, .. }) => write!(out, "{sent},{missed},")?,
            None => write!(out, ",,")?,
        }
        match gap {
            Some(Gap {
                processor,
                from,
                to,
            }) => writeln!(out, "{processor},{from},{to}")?,
            None => writeln!(out, ",,")?,
        }
    }
    out.flush()
}
