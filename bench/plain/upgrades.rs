//! A trace as a text of version 2, in which each step has its tick.

use crate::replay::Taken;
use crate::texts::{Act, Trace};
use std::io::{self, Write};

pub fn write_trace(trace: &Trace, out: &mut impl Write) -> io::Result<()> {
    let setup = &trace.setup;
    writeln!(out, "dls-trace,2,{},{}", setup.processors, setup.faults)?;
    write!(out, "init")?;
    for value in &setup.values {
        write!(out, ",{value}")?;
    }
    writeln!(out)?;
    let taken = Taken::new(trace);
    for no in 1..=trace.len() {
        let step = trace.step(no);
        write!(out, "{no},{},{},", trace.tick(no), step.processor)?;
        match step.act {
            Act::Send { to, .. } => writeln!(out, "S,{to}")?,
            Act::Receive { ends, .. } => {
                write!(out, "{},", if ends { 'E' } else { 'R' })?;
                for (place, id) in taken.by(no).enumerate() {
                    write!(out, "{}{id}", if place == 0 { "" } else { " " })?;
                }
                writeln!(out)?;
            }
        }
    }
    writeln!(out, "end,{}", trace.last_tick)?;
    out.flush()
}
