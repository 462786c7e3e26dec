//! Writes the trace text of a run of Algorithm 1 of a stated length to standard output: the same text for the same
//! words.
//!
//!     generate_run STEPS SEED [PROCESSORS [BURST]]
//!
//! There are 16 processors or as many as are named, of which as many may be faulty as Algorithm 1 bears. Who steps
//! makes one step, or BURST steps in a row, as threads do that seldom give way to one another. A processor that steps
//! sends what it has to send in its round, and then receives; it takes most of what waits for it, some messages later
//! and a few never. One that is ahead of others ends its rounds seldom, so that most messages come in time, and processors
//! decide.

mod chance;
#[allow(dead_code)]
#[path = "../plain/rounds.rs"]
mod rounds;
#[allow(dead_code)]
#[path = "../plain/texts.rs"]
mod texts;
#[allow(dead_code)]
#[path = "../plain/world.rs"]
mod world;

use chance::Chance;
use std::env;
use std::io::{self, BufWriter, Write};
use std::process::ExitCode;
use texts::{Setup, PROCESSOR_LIMIT};
use world::World;

const PROCESSORS: u64 = 16;

/// What the words ask for.
struct Words {
    steps: u64,
    seed: u64,
    processors: u8,
    burst: u64,
}

impl Words {
    fn read(words: impl Iterator<Item = String>) -> Option<Words> {
        let words: Option<Vec<u64>> = words.map(|word| word.parse().ok()).collect();
        let words = words?;
        let &[steps, seed, ref rest @ ..] = words.as_slice() else {
            return None;
        };
        let (processors, burst) = match *rest {
            [] => (PROCESSORS, 1),
            [processors] => (processors, 1),
            [processors, burst] => (processors, burst),
            _ => return None,
        };
        let is_meant = (2..=PROCESSOR_LIMIT).contains(&processors) && burst > 0;
        is_meant.then_some(Words {
            steps,
            seed,
            processors: processors as u8,
            burst,
        })
    }
}

struct Run {
    chance: Chance,
    world: World,
    /// The messages that wait for each processor, rising.
    waiting: Vec<Vec<u32>>,
}

impl Run {
    fn new(seed: u64, processors: u8) -> Run {
        let mut chance = Chance(seed);
        let setup = Setup {
            processors,
            faults: (processors - 1) / 2,
            values: (0..processors).map(|_| chance.below(10)).collect(),
        };
        Run {
            chance,
            world: World::new(setup),
            waiting: vec![Vec::new(); processors.into()],
        }
    }

    /// The messages that a processor takes.
    fn takes(&mut self, me: u8) -> Vec<u32> {
        let mut ids = Vec::new();
        let chance = &mut self.chance;
        self.waiting[usize::from(me) - 1].retain(|id| {
            let is_late = chance.once_in(20);
            if !is_late && !chance.once_in(200) {
                ids.push(*id);
            }
            is_late
        });
        ids
    }

    fn ends(&mut self, me: u8) -> bool {
        let processors = 1..=self.world.setup().processors;
        let least = processors.map(|it| self.world.round(it)).min();
        let is_ahead = Some(self.world.round(me)) > least;
        self.chance.once_in(if is_ahead { 8 } else { 2 })
    }

    fn step(&mut self, me: u8, out: &mut impl Write) -> io::Result<()> {
        let no = self.world.len() + 1;
        if let Some(to) = self.world.next_destination(me) {
            self.world.send(me);
            self.waiting[usize::from(to) - 1].push(no);
            return writeln!(out, "{no},{me},S,{to}");
        }
        let ids = self.takes(me);
        let ends = self.ends(me);
        self.world.receive(me, ids.iter().copied(), ends);
        write!(out, "{no},{me},{},", if ends { 'E' } else { 'R' })?;
        for (place, id) in ids.iter().enumerate() {
            write!(out, "{}{id}", if place == 0 { "" } else { " " })?;
        }
        writeln!(out)
    }

    fn write(&mut self, words: &Words, out: &mut impl Write) -> io::Result<()> {
        let Setup {
            processors,
            faults,
            values,
        } = self.world.setup();
        writeln!(out, "dls-trace,1,{processors},{faults}")?;
        write!(out, "init")?;
        for value in values {
            write!(out, ",{value}")?;
        }
        writeln!(out)?;
        let mut me = 1;
        for before in 0..words.steps {
            if before % words.burst == 0 {
                me = self.chance.below(words.processors.into()) as u8 + 1;
            }
            self.step(me, out)?;
        }
        writeln!(out, "end,{}", words.steps)?;
        out.flush()
    }
}

fn main() -> ExitCode {
    let Some(words) = Words::read(env::args().skip(1)) else {
        eprintln!("Usage: generate_run STEPS SEED [PROCESSORS [BURST]]");
        return ExitCode::from(2);
    };
    let mut run = Run::new(words.seed, words.processors);
    match run.write(&words, &mut BufWriter::new(io::stdout().lock())) {
        Ok(()) => ExitCode::SUCCESS,
        Err(error) => {
            eprintln!("generate_run: {error}");
            ExitCode::FAILURE
        }
    }
}
