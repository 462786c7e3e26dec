//! Writes a trace text of a stated length to standard output: the same text for the same length and seed.
//!
//!     generate STEPS SEED [TICKS [PROCESSORS]]
//!
//! The trace is of version 1, or if a last tick above 0 is named, of version 2: then ticks hold steps of several
//! processors, or none. There are 16 processors if no other number is named. The first three quarters are meant as the
//! correct ones; the others step seldom and lose a third of what is sent to them. In the first half of the trace some
//! messages between the correct ones are lost and many are late, and processors fall silent for long; later nothing is
//! lost, and delays and silences shrink, so that the front has many rows of both bounds.

mod chance;

use chance::Chance;
use std::cmp::Reverse;
use std::collections::BinaryHeap;
use std::env;
use std::io::{self, BufWriter, Write};
use std::process::ExitCode;

const PROCESSORS: u64 = 16;

/// A processor, from 0 on, with the messages that it will be given: when, and which.
#[derive(Default)]
struct Processor {
    arriving: BinaryHeap<Reverse<(u64, u64)>>,
    silent_until: u64,
}

struct Network {
    chance: Chance,
    steps: u64,
    last_tick: u64,
    processors: Vec<Processor>,
}

impl Network {
    fn new(steps: u64, seed: u64, last_tick: u64, processors: u64) -> Network {
        let processors = (0..processors).map(|_| Processor::default()).collect();
        Network {
            chance: Chance(seed),
            steps,
            last_tick,
            processors,
        }
    }

    /// How many processors, the first ones, are meant as correct.
    fn correct(&self) -> usize {
        self.processors.len() * 3 / 4
    }

    /// How unsettled the network is in a tick, from 64 at the start down to 0 at the end.
    fn unrest(&self, tick: u64) -> u64 {
        64 * (self.last_tick - tick) / self.last_tick
    }

    /// How many ticks there are for each step, at least 1.
    fn pace(&self) -> u64 {
        (self.last_tick / self.steps.max(1)).max(1)
    }

    fn is_asleep(&mut self, at: usize, tick: u64) -> bool {
        self.processors[at].silent_until > tick || at >= self.correct() && !self.chance.once_in(4)
    }

    /// The processor of the next step: one that is not silent, and seldom one of the faulty.
    fn stepping(&mut self, tick: u64) -> usize {
        loop {
            let at = self.chance.below(self.processors.len() as u64) as usize;
            if !self.is_asleep(at, tick) {
                return at;
            }
        }
    }

    /// Sends the message `no`, and returns its destination.
    fn send(&mut self, no: u64, tick: u64) -> usize {
        let to = self.chance.below(self.processors.len() as u64) as usize;
        let unrest = self.unrest(tick);
        let is_lost = match to < self.correct() {
            true => unrest >= 32 && self.chance.once_in(100),
            false => self.chance.once_in(3),
        };
        if !is_lost {
            let is_late = self.chance.once_in(50);
            let delay = self
                .chance
                .below(if is_late { 50 + 100 * unrest } else { 50 });
            let due = tick + self.pace() * delay;
            self.processors[to].arriving.push(Reverse((due, no)));
        }
        to
    }

    /// The messages that a processor takes in a tick, in rising order: those that were sent before this tick's first
    /// step `first`.
    fn receive(&mut self, at: usize, tick: u64, first: u64) -> Vec<u64> {
        let arriving = &mut self.processors[at].arriving;
        let mut ids = Vec::new();
        while let Some(&Reverse((due, id))) = arriving.peek() {
            if due > tick || id >= first {
                break;
            }
            arriving.pop();
            ids.push(id);
        }
        ids.sort_unstable();
        ids
    }

    /// Lets a processor be silent after its step, now and then, while others go on.
    fn rest(&mut self, at: usize, tick: u64) {
        if at > 0 && self.chance.once_in(1000) {
            let silence = self.chance.below(100 + 50 * self.unrest(tick));
            self.processors[at].silent_until = tick + self.pace() * silence;
        }
    }

    /// Writes what the step `no` of a processor does, in a tick whose first step is `first`.
    fn write_act(
        &mut self,
        out: &mut impl Write,
        no: u64,
        at: usize,
        tick: u64,
        first: u64,
    ) -> io::Result<()> {
        if self.chance.below(10) < 6 {
            let to = self.send(no, tick);
            writeln!(out, "S,{}", to + 1)?;
        } else {
            let operation = if self.chance.once_in(4) { 'E' } else { 'R' };
            write!(out, "{operation},")?;
            for (place, id) in self.receive(at, tick, first).into_iter().enumerate() {
                write!(out, "{}{id}", if place == 0 { "" } else { " " })?;
            }
            writeln!(out)?;
        }
        self.rest(at, tick);
        Ok(())
    }

    fn write_head(&mut self, out: &mut impl Write, version: u64) -> io::Result<()> {
        writeln!(out, "dls-trace,{version},{},7", self.processors.len())?;
        write!(out, "init")?;
        for _ in 0..self.processors.len() {
            write!(out, ",{}", self.chance.below(10))?;
        }
        writeln!(out)
    }

    /// Writes a trace with one step in each tick.
    fn write_numbers(&mut self, out: &mut impl Write) -> io::Result<()> {
        self.write_head(out, 1)?;
        for no in 1..=self.steps {
            let at = self.stepping(no);
            write!(out, "{no},{},", at + 1)?;
            self.write_act(out, no, at, no, no)?;
        }
        writeln!(out, "end,{}", self.steps)?;
        out.flush()
    }

    /// Writes a trace whose steps are spread over the ticks, as many as are asked for if they have room: in each tick
    /// each processor is asked, one after the other, and steps as often as makes up the number.
    fn write_ticks(&mut self, out: &mut impl Write) -> io::Result<()> {
        self.write_head(out, 2)?;
        let mut left = self.steps;
        for tick in 1..=self.last_tick {
            let first = self.steps - left + 1;
            let processors = self.processors.len();
            for at in 0..processors {
                let places = (self.last_tick - tick) * processors as u64 + (processors - at) as u64;
                let is_asked = self.chance.below(places) < left;
                if is_asked && (places <= left || !self.is_asleep(at, tick)) {
                    let no = self.steps - left + 1;
                    write!(out, "{no},{tick},{},", at + 1)?;
                    self.write_act(out, no, at, tick, first)?;
                    left -= 1;
                }
            }
        }
        writeln!(out, "end,{}", self.last_tick)?;
        out.flush()
    }
}

fn main() -> ExitCode {
    let words: Vec<Option<u64>> = env::args().skip(1).map(|word| word.parse().ok()).collect();
    let out = &mut BufWriter::new(io::stdout().lock());
    let written = match *words.as_slice() {
        [Some(steps), Some(seed), ref rest @ ..] if rest.len() <= 2 && !rest.contains(&None) => {
            let number = |at: usize, usual| rest.get(at).copied().flatten().unwrap_or(usual);
            let (ticks, processors) = (number(0, 0), number(1, PROCESSORS));
            if ticks == 0 {
                Network::new(steps, seed, steps, processors).write_numbers(out)
            } else {
                Network::new(steps, seed, ticks, processors).write_ticks(out)
            }
        }
        _ => {
            eprintln!("Usage: generate STEPS SEED [TICKS [PROCESSORS]]");
            return ExitCode::from(2);
        }
    };
    match written {
        Ok(()) => ExitCode::SUCCESS,
        Err(error) => {
            eprintln!("generate: {error}");
            ExitCode::FAILURE
        }
    }
}
