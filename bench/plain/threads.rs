//! Runs: a thread for each processor, which makes its steps under one lock.

use crate::texts::Setup;
use crate::world::World;
use std::io::{self, Write};
use std::sync::Mutex;
use std::thread;

/// A step as a trace text encodes it.
enum Act {
    Send { to: u8 },
    Receive { ids: Vec<u32>, ends: bool },
}

/// What the threads share: the processors, the messages that wait for each, and the steps so far.
pub struct Shared {
    world: World,
    waiting: Vec<Vec<u32>>,
    steps: Vec<(u8, Act)>,
}

impl Shared {
    fn send(&mut self, me: u8, to: u8) {
        self.world.send(me);
        self.waiting[usize::from(to) - 1].push(self.world.len());
        self.steps.push((me, Act::Send { to }));
    }

    fn receive(&mut self, me: u8, ends: bool) {
        let ids = std::mem::take(&mut self.waiting[usize::from(me) - 1]);
        self.world.receive(me, ids.iter().copied(), ends);
        self.steps.push((me, Act::Receive { ids, ends }));
    }
}

/// Makes so many steps of a processor: a Send while it has something to send, otherwise a Receive of all that
/// waits, of which the `patience`-th in a round ends the round.
fn drive(shared: &Mutex<Shared>, me: u8, patience: u64, steps: u64) {
    let mut receives = 0;
    for _ in 0..steps {
        let mut shared = shared.lock().expect("no thread panics");
        match shared.world.next_destination(me) {
            Some(to) => shared.send(me, to),
            None => {
                let ends = receives + 1 == patience;
                shared.receive(me, ends);
                receives = if ends { 0 } else { receives + 1 };
            }
        }
    }
}

/// Runs a thread for each processor, each of which makes so many steps; None if one isn't started.
pub fn run(setup: Setup, patience: u64, steps: u64) -> Option<Shared> {
    let processors = setup.processors;
    let shared = Mutex::new(Shared {
        world: World::new(setup),
        waiting: vec![Vec::new(); processors.into()],
        steps: Vec::new(),
    });
    let started: io::Result<()> = thread::scope(|scope| {
        (1..=processors).try_for_each(|me| {
            let shared = &shared;
            let drive = move || drive(shared, me, patience, steps);
            thread::Builder::new().spawn_scoped(scope, drive)?;
            Ok(())
        })
    });
    started.ok()?;
    shared.into_inner().ok()
}

pub fn write_trace(run: &Shared, out: &mut impl Write) -> io::Result<()> {
    let Setup {
        processors,
        faults,
        values,
    } = run.world.setup();
    writeln!(out, "dls-trace,1,{processors},{faults}")?;
    write!(out, "init")?;
    for value in values {
        write!(out, ",{value}")?;
    }
    writeln!(out)?;
    for (before, (processor, act)) in run.steps.iter().enumerate() {
        write!(out, "{},{processor},", before + 1)?;
        match act {
            Act::Send { to } => writeln!(out, "S,{to}")?,
            Act::Receive { ids, ends } => {
                write!(out, "{},", if *ends { 'E' } else { 'R' })?;
                write_ids(ids, out)?;
            }
        }
    }
    writeln!(out, "end,{}", run.steps.len())?;
    out.flush()
}

fn write_ids(ids: &[u32], out: &mut impl Write) -> io::Result<()> {
    if let [first, rest @ ..] = ids {
        write!(out, "{first}")?;
        for id in rest {
            write!(out, " {id}")?;
        }
    }
    writeln!(out)
}
