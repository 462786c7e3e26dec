//! Certificates: the rows of a report as they are read back, any numbers in them, and the verdict on them.

use crate::bounds::{last_miss, Gap, Miss, ProcessorSet, Silence};
use crate::texts::{number, Act, Records, Trace};
use std::fmt;

const HEADER: [&[u8]; 8] = [
    b"gst", b"delta", b"phi", b"sent", b"missed", b"proc", b"from", b"to",
];

/// A row that was read.
struct Row {
    gst: u64,
    delta: u64,
    phi: u64,
    /// A message and a Receive.
    miss: Option<(u64, u64)>,
    /// A processor, and the first and the last tick of its silence.
    gap: Option<(u64, u64, u64)>,
}

pub struct Rows(Vec<Row>);

pub enum RowsFault {
    TooLarge,
    BadHeader,
    BadRow(usize, RowFault),
}

pub enum RowFault {
    BadFields,
    BadNumber,
    HalfWitness,
}

impl fmt::Display for RowsFault {
    fn fmt(&self, f: &mut fmt::Formatter) -> fmt::Result {
        match self {
            RowsFault::TooLarge => f.write_str("text too large"),
            RowsFault::BadHeader => f.write_str("bad header"),
            RowsFault::BadRow(row, RowFault::BadFields) => write!(f, "row {row}: bad fields"),
            RowsFault::BadRow(row, RowFault::BadNumber) => write!(f, "row {row}: bad number"),
            RowsFault::BadRow(row, RowFault::HalfWitness) => write!(f, "row {row}: half a witness"),
        }
    }
}

impl Rows {
    /// The rows that a report text encodes, or the first refusal.
    pub fn from_text(text: &[u8]) -> Result<Rows, RowsFault> {
        let mut records = Records::new(text);
        let mut fields = Vec::new();
        records.read(&mut fields);
        if !fields.iter().map(AsRef::as_ref).eq(HEADER) {
            return Err(RowsFault::BadHeader);
        }
        let mut rows = Vec::new();
        while records.read(&mut fields) {
            let refused = |why| RowsFault::BadRow(rows.len() + 1, why);
            let row = Row::from_fields(&fields).map_err(refused)?;
            rows.push(row);
        }
        Ok(Rows(rows))
    }
}

impl Row {
    fn from_fields(fields: &[impl AsRef<[u8]>]) -> Result<Row, RowFault> {
        if fields.len() != HEADER.len() {
            return Err(RowFault::BadFields);
        }
        let mut numbers = [None; HEADER.len()];
        for (at, field) in fields.iter().map(AsRef::as_ref).enumerate() {
            numbers[at] = number(field);
            let is_left_out = at >= 3 && field.is_empty();
            if numbers[at].is_none() && !is_left_out {
                return Err(RowFault::BadNumber);
            }
        }
        let [Some(gst), Some(delta), Some(phi), sent, missed, processor, from, to] = numbers else {
            return Err(RowFault::BadNumber);
        };
        Ok(Row {
            gst,
            delta,
            phi,
            miss: match (sent, missed) {
                (None, None) => None,
                (Some(sent), Some(missed)) => Some((sent, missed)),
                _ => return Err(RowFault::HalfWitness),
            },
            gap: match (processor, from, to) {
                (None, None, None) => None,
                (Some(processor), Some(from), Some(to)) => Some((processor, from, to)),
                _ => return Err(RowFault::HalfWitness),
            },
        })
    }
}

/// The first reason against rows. They count from 1.
pub enum Reason {
    NoRows,
    FirstNotOne,
    OfRow(&'static str, usize),
    DeltaFails(usize, Miss),
    PhiFails(usize, Gap),
}

impl fmt::Display for Reason {
    fn fmt(&self, f: &mut fmt::Formatter) -> fmt::Result {
        match self {
            Reason::NoRows => f.write_str("NoRows"),
            Reason::FirstNotOne => f.write_str("FirstNotOne"),
            Reason::OfRow(name, row) => write!(f, "{name} {row}"),
            Reason::DeltaFails(row, Miss { sent, missed, .. }) => {
                write!(f, "DeltaFails {row} {sent} {missed}")
            }
            Reason::PhiFails(
                row,
                Gap {
                    processor,
                    from,
                    to,
                },
            ) => write!(f, "PhiFails {row} {processor} {from} {to}"),
        }
    }
}

/// The first reason against the rows as a report of a trace and a set within its processors.
pub fn check(trace: &Trace, correct: ProcessorSet, rows: &Rows) -> Result<(), Reason> {
    let rows = rows.0.as_slice();
    check_order(rows, trace.last_tick.into())?;
    let checks = Checks {
        trace,
        correct,
        ticks: step_ticks(trace),
        rows,
    };
    checks.of_each("BadMiss", |at| checks.shows_delta(at))?;
    checks.of_each("BadGap", |at| checks.shows_phi(at))?;
    checks.bounds()
}

/// What rows must be for any steps of the trace.
fn check_order(rows: &[Row], last_tick: u64) -> Result<(), Reason> {
    let Some(first) = rows.first() else {
        return match last_tick {
            0 => Ok(()),
            _ => Err(Reason::NoRows),
        };
    };
    if first.gst != 1 {
        return Err(Reason::FirstNotOne);
    }
    let pairs = || rows.iter().zip(&rows[1..]);
    let of_second = |name, at: Option<usize>| match at {
        Some(at) => Err(Reason::OfRow(name, at + 2)),
        None => Ok(()),
    };
    let falls = |(a, b): (&Row, &Row)| b.gst <= a.gst;
    of_second("NotRising", pairs().position(falls))?;
    if let Some(at) = rows.iter().position(|it| it.gst > last_tick) {
        return Err(Reason::OfRow("BeyondEnd", at + 1));
    }
    let rises = |(a, b): (&Row, &Row)| b.delta > a.delta || b.phi > a.phi;
    of_second("NotNonIncreasing", pairs().position(rises))?;
    let is_same = |(a, b): (&Row, &Row)| b.delta == a.delta && b.phi == a.phi;
    of_second("SameAsBefore", pairs().position(is_same))
}

/// The ticks of the steps of each processor, rising, by its number less one.
fn step_ticks(trace: &Trace) -> Vec<Vec<u32>> {
    let mut ticks = vec![Vec::new(); trace.setup.processors.into()];
    for no in 1..=trace.len() {
        ticks[usize::from(trace.step(no).processor) - 1].push(trace.tick(no));
    }
    ticks
}

struct Checks<'a> {
    trace: &'a Trace,
    correct: ProcessorSet,
    ticks: Vec<Vec<u32>>,
    rows: &'a [Row],
}

impl Checks<'_> {
    fn of_each(&self, name: &'static str, is_good: impl Fn(usize) -> bool) -> Result<(), Reason> {
        match (0..self.rows.len()).find(|&at| !is_good(at)) {
            Some(at) => Err(Reason::OfRow(name, at + 1)),
            None => Ok(()),
        }
    }

    /// The last tick of a row's stretch.
    fn end_of_stretch(&self, at: usize) -> u64 {
        let next = self.rows.get(at + 1);
        next.map_or(self.trace.last_tick.into(), |it| it.gst - 1)
    }

    fn shows_delta(&self, at: usize) -> bool {
        let Some((sent, missed)) = self.rows[at].miss else {
            return self.rows[at].delta == 1;
        };
        let numbers = 1..=u64::from(self.trace.len());
        if !numbers.contains(&sent) || !numbers.contains(&missed) {
            return false;
        }
        let (send, receive) = (self.trace.step(sent as u32), self.trace.step(missed as u32));
        let tick = |no| self.trace.tick(no as u32);
        let last = last_miss(self.trace, self.correct, sent as u32);
        let is_receive = match (send.act, receive.act) {
            (Act::Send { to, .. }, Act::Receive { .. }) => receive.processor == to,
            _ => false,
        };
        // (between a Send and its last miss each Receive misses it)
        is_receive
            && tick(missed) > tick(sent)
            && last.is_some_and(|it| missed <= it.missed.into())
            && u64::from(tick(missed) - tick(sent)) + 1 == self.rows[at].delta
            && u64::from(tick(sent)) >= self.end_of_stretch(at)
    }

    fn shows_phi(&self, at: usize) -> bool {
        let Some((processor, from, to)) = self.rows[at].gap else {
            return self.rows[at].phi == 1;
        };
        let is_within = (1..=u64::from(self.trace.setup.processors)).contains(&processor)
            && self.correct.contains(processor as u8)
            && (1..=to).contains(&from)
            && to <= self.trace.last_tick.into();
        is_within
            && to - from + 2 == self.rows[at].phi
            && from >= self.end_of_stretch(at)
            && self.is_silent(processor, from, to)
    }

    fn is_silent(&self, processor: u64, from: u64, to: u64) -> bool {
        let ticks = &self.ticks[processor as usize - 1];
        let next = ticks.partition_point(|&tick| u64::from(tick) < from);
        ticks.get(next).is_none_or(|&tick| u64::from(tick) > to)
    }

    /// Whether the bounds of all rows hold. Those of a row hold if from each tick on that of its own row does, as
    /// bounds don't rise from row to row.
    fn bounds(&self) -> Result<(), Reason> {
        let mut silence = Silence::new(self.correct, self.trace.last_tick);
        let (mut no, mut at) = (self.trace.len(), self.rows.len());
        let (mut worst_miss, mut worst_gap): (Option<Miss>, Option<Gap>) = (None, None);
        for tick in (1..=self.trace.last_tick).rev() {
            while self.rows[at - 1].gst > tick.into() {
                at -= 1;
            }
            let row = &self.rows[at - 1];
            while no > 0 && self.trace.tick(no) == tick {
                let fails = |it: &Miss| {
                    let is_worse = worst_miss.is_none_or(|worst| it.length > worst.length);
                    is_worse && u64::from(it.length) >= row.delta
                };
                let miss = last_miss(self.trace, self.correct, no).filter(fails);
                worst_miss = miss.or(worst_miss);
                silence.step(tick, self.trace.step(no).processor);
                no -= 1;
            }
            let fails = |it: &Gap| {
                let is_worse = worst_gap.is_none_or(|worst| it.length() > worst.length());
                is_worse && u64::from(it.length()) >= row.phi
            };
            worst_gap = silence.at(tick).filter(fails).or(worst_gap);
        }
        let first =
            |fails: &dyn Fn(&Row) -> bool| self.rows.iter().position(fails).map_or(0, |it| it + 1);
        if let Some(miss) = worst_miss {
            let row = first(&|it| it.delta <= miss.length.into());
            return Err(Reason::DeltaFails(row, miss));
        }
        match worst_gap {
            Some(gap) => Err(Reason::PhiFails(
                first(&|it| it.phi <= gap.length().into()),
                gap,
            )),
            None => Ok(()),
        }
    }
}
