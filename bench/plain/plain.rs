//! The commands of `synchrony` in plain Rust of std alone and with no proofs: the baseline that `bench/run`
//! measures the proved program against. Build it with `rustc -O`.
//!
//!     plain report FILE --correct LIST
//!     plain check FILE CERT --correct LIST
//!     plain replay FILE
//!     plain upgrade FILE
//!     plain run --nodes N --faults T --values V1,..,VN --patience P --steps S
//!
//! `report` finds the least communication bound and the least processor bound of every candidate stabilization time
//! of a trace by one backward pass, `check` says whether the rows of a report are one of a trace, `replay` makes the
//! steps of a trace that is a run of Algorithm 1, `upgrade` writes a trace in version 2, and `run` makes such a run in
//! threads under one lock. Faults, statuses and bytes are those of `synchrony`.

mod bounds;
mod certificates;
mod replay;
mod rounds;
mod texts;
mod threads;
mod upgrades;
mod world;

use bounds::ProcessorSet;
use certificates::{Rows, RowsFault};
use std::env;
use std::ffi::OsString;
use std::fmt;
use std::fs::File;
use std::io::{self, BufWriter, Read, Write};
use std::process::ExitCode;
use texts::{number, Setup, Trace, TraceFault, PROCESSOR_LIMIT};

/// The most bytes that a trace text may have.
const TEXT_LIMIT: u64 = 64 << 20;
/// The most steps of a run.
const RUN_LIMIT: u64 = 1_000_000;

const BAD_LIST: &str = "bad --correct\nsynchrony: --correct takes all, none, or numbers from 1 to 64 with one comma between them";

const USAGE: &str = "\
Usage: plain report FILE --correct LIST
       plain check FILE CERT --correct LIST
       plain replay FILE
       plain upgrade FILE
       plain run --nodes N --faults T --values V1,..,VN --patience P --steps S

Prints the least communication and processor bounds of a trace, with their witnesses; or whether
CERT, a report, is one of a trace; or the round and the decision of each processor of a run; or
a trace in version 2; or a run in threads.
FILE is a trace text, or - for standard input. LIST is 'none' or processors, as 1,2,3.
";

fn main() -> ExitCode {
    match run(env::args_os().skip(1)) {
        Ok(status) => ExitCode::from(status),
        Err(fault) => {
            eprintln!("synchrony: {fault}");
            ExitCode::from(fault.status())
        }
    }
}

/// Does what the words ask for, and returns the status: 1 for a certificate that is refuted.
fn run(words: impl Iterator<Item = OsString>) -> Result<u8, Fault> {
    let mut out = BufWriter::new(io::stdout().lock());
    let mut status = 0;
    let written = match Job::from_words(words)? {
        Job::Help => out.write_all(USAGE.as_bytes()).and_then(|()| out.flush()),
        Job::Report { file, correct } => {
            let correct = ProcessorSet::from_list(&correct).ok_or(Fault::BadList)?;
            let trace = read_trace_with(Input::open(&file)?, correct)?;
            bounds::write_report(&bounds::front(&trace, correct), &mut out)
        }
        Job::Check { files, correct } => {
            let correct = ProcessorSet::from_list(&correct).ok_or(Fault::BadList)?;
            if files.iter().all(|it| it == "-") {
                return Err(Fault::OneStandardInput);
            }
            let [file, certificate] = &files;
            let (file, certificate) = (Input::open(file)?, Input::open(certificate)?);
            let trace = read_trace_with(file, correct)?;
            let rows = read_rows(certificate)?;
            let verdict = certificates::check(&trace, correct, &rows);
            status = verdict.is_err().into();
            match verdict {
                Ok(()) => writeln!(out, "yes").and_then(|()| out.flush()),
                Err(reason) => writeln!(out, "no {reason}").and_then(|()| out.flush()),
            }
        }
        Job::Replay { file } => {
            let trace = read_trace(Input::open(&file)?)?;
            let world = replay::replay(&trace).map_err(Fault::NotARun)?;
            replay::write_standing(&world, &mut out)
        }
        Job::Upgrade { file } => upgrades::write_trace(&read_trace(Input::open(&file)?)?, &mut out),
        Job::Run(setup, patience, steps) => {
            let run = threads::run(setup, patience, steps).ok_or(Fault::Threads)?;
            threads::write_trace(&run, &mut out)
        }
    };
    written.map_err(|_| Fault::Write)?;
    Ok(status)
}

// Commands, faults and files

enum Job {
    Help,
    Report { file: String, correct: String },
    Check { files: [String; 2], correct: String },
    Replay { file: String },
    Upgrade { file: String },
    Run(Setup, u64, u64),
}

/// The words after a command: options with their values, and files.
#[derive(Default)]
struct Words {
    options: Vec<(String, String)>,
    files: Vec<String>,
    wants_help: bool,
}

impl Words {
    fn read(mut words: impl Iterator<Item = Result<String, Fault>>) -> Result<Words, Fault> {
        let mut read = Words::default();
        while let Some(word) = words.next().transpose()? {
            if word == "--help" || word == "-h" {
                read.wants_help = true;
                break;
            }
            if word == "-" || !word.starts_with('-') {
                read.files.push(word);
                continue;
            }
            let (name, value) = match word.split_once('=') {
                Some((name, value)) => (name.to_owned(), value.to_owned()),
                None => (word, words.next().transpose()?.ok_or(Fault::Usage)?),
            };
            if read.options.iter().any(|it| it.0 == name) {
                return Err(Fault::Usage);
            }
            read.options.push((name, value));
        }
        Ok(read)
    }

    /// The values of these options, if they are all that there are.
    fn values<const N: usize>(&self, names: [&str; N]) -> Result<[&str; N], Fault> {
        let value = |name| self.options.iter().find(|it| it.0 == name);
        match names.map(value) {
            values if self.options.len() == N && values.iter().all(Option::is_some) => {
                Ok(values.map(|it| it.map_or("", |it| it.1.as_str())))
            }
            _ => Err(Fault::Usage),
        }
    }

    /// The files, if there are so many.
    fn files<const N: usize>(&self) -> Result<[String; N], Fault> {
        self.files.clone().try_into().map_err(|_| Fault::Usage)
    }
}

impl Job {
    fn from_words(words: impl Iterator<Item = OsString>) -> Result<Job, Fault> {
        let mut words = words.map(|word| word.into_string().map_err(|_| Fault::Usage));
        let command = words.next().transpose()?.ok_or(Fault::Usage)?;
        if command == "--help" || command == "-h" {
            return Ok(Job::Help);
        }
        let words = Words::read(words)?;
        match command.as_str() {
            "report" | "check" | "replay" | "upgrade" | "run" if words.wants_help => Ok(Job::Help),
            "report" => {
                let [correct] = words.values(["--correct"])?;
                let correct = correct.to_owned();
                words.files().map(|[file]| Job::Report { file, correct })
            }
            "check" => {
                let [correct] = words.values(["--correct"])?;
                let correct = correct.to_owned();
                words.files().map(|files| Job::Check { files, correct })
            }
            "replay" => {
                let [] = words.values([])?;
                words.files().map(|[file]| Job::Replay { file })
            }
            "upgrade" => {
                let [] = words.values([])?;
                words.files().map(|[file]| Job::Upgrade { file })
            }
            "run" if words.files.is_empty() => run_job(&words),
            _ => Err(Fault::Usage),
        }
    }
}

/// What `run` asks for.
fn run_job(words: &Words) -> Result<Job, Fault> {
    let names = ["--nodes", "--faults", "--values", "--patience", "--steps"];
    let [nodes, faults, values, patience, steps] = words.values(names)?;
    let at_most = |text: &str, limit| {
        let value: u64 = text.parse().map_err(|_| Fault::Usage)?;
        (value <= limit).then_some(value).ok_or(Fault::Usage)
    };
    let nodes = at_most(nodes, u64::MAX)?;
    let faults = at_most(faults, u64::MAX)?;
    let patience = at_most(patience, RUN_LIMIT)?;
    let steps = at_most(steps, RUN_LIMIT)?;
    if patience == 0 {
        return Err(Fault::Usage);
    }
    if !(2..=PROCESSOR_LIMIT).contains(&nodes) {
        return Err(Fault::BadRun("bad --nodes"));
    }
    if faults > (nodes - 1) / 2 {
        return Err(Fault::BadRun("bad --faults"));
    }
    let values: Option<Vec<u64>> = values.split(',').map(|it| number(it.as_bytes())).collect();
    let values = values.filter(|it| it.len() as u64 == nodes);
    let values = values.ok_or(Fault::BadRun("bad --values"))?;
    if nodes * steps > RUN_LIMIT {
        return Err(Fault::BadRun("too many steps"));
    }
    let setup = Setup {
        processors: nodes as u8,
        faults: faults as u8,
        values,
    };
    Ok(Job::Run(setup, patience, steps))
}

enum Fault {
    Usage,
    BadList,
    OneStandardInput,
    /// The least processor of the list that there isn't, and how many there are.
    NoSuchProcessor(u8, u8),
    BadRun(&'static str),
    Trace(TraceFault),
    Certificate(RowsFault),
    Read,
    Write,
    NotARun(u32),
    Threads,
}

impl Fault {
    fn status(&self) -> u8 {
        match self {
            Fault::Usage | Fault::BadList | Fault::OneStandardInput => 2,
            Fault::NoSuchProcessor(..) | Fault::BadRun(_) => 2,
            Fault::Trace(_) => 3,
            Fault::Certificate(_) => 4,
            Fault::Read | Fault::Write => 6,
            Fault::NotARun(_) => 7,
            Fault::Threads => 8,
        }
    }
}

impl fmt::Display for Fault {
    fn fmt(&self, f: &mut fmt::Formatter) -> fmt::Result {
        match self {
            Fault::Usage => write!(f, "bad command line\n{USAGE}"),
            Fault::BadList => f.write_str(BAD_LIST),
            Fault::OneStandardInput => f.write_str("only one file can be -"),
            Fault::NoSuchProcessor(it, all) => {
                f.write_str("no such processor in --correct\nsynchrony: ")?;
                write!(f, "--correct names processor {it}, and the trace has processors 1 to {all}")
            }
            Fault::BadRun(why) => f.write_str(why),
            Fault::Trace(why) => write!(f, "trace: {why}"),
            Fault::Certificate(why) => write!(f, "certificate: {why}"),
            Fault::Read => f.write_str("cannot read"),
            Fault::Write => f.write_str("cannot write"),
            Fault::NotARun(no) => write!(f, "not a run: step {no}"),
            Fault::Threads => f.write_str("worker not started or held"),
        }
    }
}

/// An open file, or standard input, and how many bytes it is said to have.
struct Input {
    reader: Box<dyn Read>,
    size: u64,
}

impl Input {
    fn open(file: &str) -> Result<Input, Fault> {
        if file == "-" {
            let reader = Box::new(io::stdin().lock());
            return Ok(Input { reader, size: 0 });
        }
        let file = File::open(file).map_err(|_| Fault::Read)?;
        let size = file.metadata().map_or(0, |it| it.len());
        let reader = Box::new(file);
        Ok(Input { reader, size })
    }

    /// All bytes, or None if they are more than a text may have.
    fn read(self) -> Result<Option<Vec<u8>>, Fault> {
        let limit = TEXT_LIMIT + 1;
        let mut text = Vec::with_capacity(self.size.min(limit) as usize + 1);
        let read = self.reader.take(limit).read_to_end(&mut text);
        read.map_err(|_| Fault::Read)?;
        Ok((text.len() as u64 != limit).then_some(text))
    }
}

fn read_trace(file: Input) -> Result<Trace, Fault> {
    let text = file.read()?.ok_or(Fault::Trace(TraceFault::TooLarge))?;
    Trace::from_text(&text).map_err(Fault::Trace)
}

/// A trace whose processors are a set's too.
fn read_trace_with(file: Input, correct: ProcessorSet) -> Result<Trace, Fault> {
    let trace = read_trace(file)?;
    match correct.first_above(trace.setup.processors) {
        Some(it) => Err(Fault::NoSuchProcessor(it, trace.setup.processors)),
        None => Ok(trace),
    }
}

fn read_rows(file: Input) -> Result<Rows, Fault> {
    let text = file
        .read()?
        .ok_or(Fault::Certificate(RowsFault::TooLarge))?;
    Rows::from_text(&text).map_err(Fault::Certificate)
}
