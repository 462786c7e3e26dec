//! The report of a trace, the verdict on a certificate, what a run makes of its processors, and the text of a trace in
//! version 2, straight from the definitions: every number is tried in turn, so it is cubic in the steps and worse, and
//! shares no line with the other programs. `bench/compare` and `tests/` take their answers from it.
//!
//!     oracle [--limit N] report FILE --correct LIST [--until TICK] [--at TICK]
//!     oracle [--limit N] check FILE CERT --correct LIST [--until TICK]
//!     oracle [--limit N] replay FILE
//!     oracle [--limit N] upgrade FILE
//!
//! N is the most processors that a trace may have, 64 by default. Status 90 reports a trace of more ticks than the
//! oracle has patience for.

mod oracle_bounds;
mod oracle_runs;
mod oracle_texts;
mod oracle_verdicts;

use oracle_bounds::{Definitions, Gap, Miss};
use oracle_runs::Runs;
use oracle_texts::{read_list, read_rows, read_trace, TEXT_LIMIT};
use oracle_verdicts::Verdicts;
use std::env;
use std::fs::File;
use std::io::{stdin, Read};
use std::process::exit;

const PROCESSOR_LIMIT: u64 = 64;
/// The most ticks of a trace whose bounds are tried.
const PATIENCE: u64 = 400;
const BAD_LIST: &str = "bad --correct\nsynchrony: --correct takes all, none, or numbers from 1 to 64 with one comma between them";

type Processor = u64;
type Number = u64;

enum Act {
    Send(Processor),
    Receive(Vec<Number>),
}

struct Step {
    tick: u64,
    processor: Processor,
    act: Act,
    /// Whether it ends its processor's round.
    ends: bool,
}

/// Steps are numbered from 1.
struct Trace {
    processors: u64,
    faults: u64,
    values: Vec<u64>,
    steps: Vec<Step>,
    last_tick: u64,
}

fn main() {
    let words: Option<Vec<String>> = env::args_os()
        .skip(1)
        .map(|word| word.into_string().ok())
        .collect();
    let words = words.unwrap_or_else(|| fault("bad command line", 2));
    let words: Vec<&str> = words.iter().map(String::as_str).collect();
    let (limit, words) = match words[..] {
        ["--limit", limit, ref words @ ..] => (limit.parse().expect("a number"), words),
        ref words => (PROCESSOR_LIMIT, words),
    };
    match *words {
        ["report", file, "--correct", list, ref ticks @ ..] => report(limit, file, list, part_of(ticks)),
        ["check", file, certificate, "--correct", list, ref ticks @ ..] => {
            let part = part_of(ticks);
            if part.at.is_some() {
                fault("bad command line", 2);
            }
            check(limit, file, certificate, list, part.until)
        }
        ["replay", file] => replay(&trace_of(open(file), limit)),
        ["upgrade", file] => upgrade(&trace_of(open(file), limit)),
        _ => fault("bad command line", 2),
    }
}

/// What of a report is asked for: the report of the trace up to a tick, and the row that applies to a tick.
struct Part {
    until: Option<u64>,
    at: Option<u64>,
}

fn part_of(words: &[&str]) -> Part {
    let (until, words) = tick_of("--until", words);
    let (at, words) = tick_of("--at", words);
    if !words.is_empty() {
        fault("bad command line", 2);
    }
    Part { until, at }
}

/// The tick of this option, if the words begin with it, and the words after it.
fn tick_of<'a, 'b>(option: &str, words: &'a [&'b str]) -> (Option<u64>, &'a [&'b str]) {
    match words {
        [name, tick, rest @ ..] if *name == option => (Some(tick.parse().expect("a tick")), rest),
        _ => (None, words),
    }
}

/// Makes of a trace the one that ended at this tick.
fn cut(trace: &mut Trace, tick: u64) {
    if tick < 1 || trace.last_tick < tick {
        bad_tick("--until", tick, trace);
    }
    trace.steps.retain(|step| step.tick <= tick);
    trace.last_tick = tick;
}

/// Prints which tick is none of the trace.
fn bad_tick(option: &str, tick: u64, trace: &Trace) -> ! {
    let ticks = match trace.last_tick {
        0 => "no ticks".to_string(),
        last => format!("ticks 1 to {last}"),
    };
    fault(&format!("bad {option}\nsynchrony: {option} is {tick}, and the trace has {ticks}"), 2)
}

fn report(limit: u64, file: &str, list: &str, part: Part) {
    let listed = read_list(list).unwrap_or_else(|| fault(BAD_LIST, 2));
    let mut trace = trace_of(open(file), limit);
    let correct = members(&trace, listed);
    if let Some(tick) = part.until {
        cut(&mut trace, tick);
    }
    if let Some(tick) = part.at {
        if tick < 1 || trace.last_tick < tick {
            bad_tick("--at", tick, &trace);
        }
    }
    let definitions = definitions(&trace, &correct);
    let mut rows = definitions.front();
    if let Some(tick) = part.at {
        rows.retain(|(gst, _, _)| *gst <= tick.into());
        rows = rows.into_iter().max().into_iter().collect();
    }
    println!("gst,delta,phi,sent,missed,proc,from,to");
    for (gst, delta, phi) in rows {
        let miss = definitions
            .named_miss(gst, delta)
            .map_or(",".into(), |Miss { sent, missed }| {
                format!("{sent},{missed}")
            });
        let told = |Gap {
                        processor,
                        from,
                        to,
                    }| format!("{processor},{from},{to}");
        let gap = definitions.named_gap(gst, phi).map_or(",,".into(), told);
        println!("{gst},{delta},{phi},{miss},{gap}");
    }
}

fn check(limit: u64, file: &str, certificate: &str, list: &str, until: Option<u64>) {
    let listed = read_list(list).unwrap_or_else(|| fault(BAD_LIST, 2));
    if file == "-" && certificate == "-" {
        fault("only one file can be -", 2);
    }
    let (file, certificate) = (open(file), open(certificate));
    let mut trace = trace_of(file, limit);
    let correct = members(&trace, listed);
    if let Some(tick) = until {
        cut(&mut trace, tick);
    }
    let definitions = definitions(&trace, &correct);
    let rows = read_rows(&read_all(certificate));
    let verdicts = Verdicts {
        definitions,
        rows: &rows.unwrap_or_else(|why| fault(&format!("certificate: {why}"), 4)),
    };
    match verdicts.first_reason() {
        None => println!("yes"),
        Some(reason) => {
            println!("no {reason}");
            exit(1);
        }
    }
}

fn replay(trace: &Trace) {
    let runs = Runs::new(trace);
    if let Some(no) = runs.first_fault() {
        fault(&format!("not a run: step {no}"), 7);
    }
    println!("proc,round,decision");
    for p in runs.processors() {
        let (round, decision) = runs.standing(p);
        let decision = decision.map_or("".into(), |it| it.to_string());
        println!("{p},{round},{decision}");
    }
}

fn upgrade(trace: &Trace) {
    let text = |numbers: &[u64], between: &str| {
        let texts: Vec<String> = numbers.iter().map(u64::to_string).collect();
        texts.join(between)
    };
    println!("dls-trace,2,{},{}", trace.processors, trace.faults);
    println!("init,{}", text(&trace.values, ","));
    for (step, no) in trace.steps.iter().zip(1..) {
        let (operation, argument) = match &step.act {
            Act::Send(to) => ('S', to.to_string()),
            Act::Receive(ids) => (if step.ends { 'E' } else { 'R' }, text(ids, " ")),
        };
        let (tick, processor) = (step.tick, step.processor);
        println!("{no},{tick},{processor},{operation},{argument}");
    }
    println!("end,{}", trace.last_tick);
}

/// The definitions for a trace and a set within it.
fn definitions<'a>(trace: &'a Trace, correct: &'a [Processor]) -> Definitions<'a> {
    if trace.last_tick > PATIENCE {
        fault("too many ticks for the oracle", 90);
    }
    Definitions { trace, correct }
}

/// The correct processors of a trace: those of a list, or all if there is none.
fn members(trace: &Trace, listed: Option<Vec<Processor>>) -> Vec<Processor> {
    let all = trace.processors;
    let correct = listed.unwrap_or_else(|| (1..=all).collect());
    if let Some(it) = correct.iter().filter(|it| **it > all).min() {
        let hint = format!("--correct names processor {it}, and the trace has processors 1 to {all}");
        fault(&format!("no such processor in --correct\nsynchrony: {hint}"), 2);
    }
    correct
}

fn trace_of(file: Box<dyn Read>, limit: u64) -> Trace {
    let trace = read_trace(&read_all(file), limit);
    trace.unwrap_or_else(|why| fault(&format!("trace: {why}"), 3))
}

fn fault(text: &str, status: i32) -> ! {
    eprintln!("synchrony: {text}");
    exit(status)
}

fn open(file: &str) -> Box<dyn Read> {
    match file {
        "-" => Box::new(stdin()),
        _ => Box::new(File::open(file).unwrap_or_else(|_| fault("cannot read", 6))),
    }
}

fn read_all(file: Box<dyn Read>) -> Vec<u8> {
    let mut text = Vec::new();
    if file.take(TEXT_LIMIT + 1).read_to_end(&mut text).is_err() {
        fault("cannot read", 6);
    }
    text
}
