//! Texts, for the oracle: records of comma-separated fields, byte by byte as their state machine is written down; and
//! traces, report rows and lists, each with its first refusal.

use crate::oracle_verdicts::Row;
use crate::{Act, Number, Processor, Step, Trace};

pub const TEXT_LIMIT: u64 = 67_108_864;
const STEP_LIMIT: usize = 1_000_000;
const TICK_LIMIT: u64 = 1_000_000;
const REPORT_HEADER: &str = "gst,delta,phi,sent,missed,proc,from,to";

type Record = Vec<Vec<u8>>;

enum State {
    RecordStart,
    FieldStart,
    InField,
    InQuotes,
    AfterQuote,
}

/// The records of a text.
fn records(text: &[u8]) -> Vec<Record> {
    let text = text.strip_prefix(b"\xef\xbb\xbf").unwrap_or(text);
    let mut records = Vec::new();
    let mut record: Record = Vec::new();
    let mut field: Vec<u8> = Vec::new();
    let mut state = State::RecordStart;
    for &byte in text {
        let ends_line = byte == b'\n' || byte == b'\r';
        state = match state {
            State::RecordStart if ends_line => State::RecordStart,
            State::RecordStart | State::FieldStart if byte == b'"' => State::InQuotes,
            State::InQuotes if byte == b'"' => State::AfterQuote,
            State::InQuotes => {
                field.push(byte);
                State::InQuotes
            }
            State::AfterQuote if byte == b'"' => {
                field.push(byte);
                State::InQuotes
            }
            _ if byte == b',' => {
                record.push(std::mem::take(&mut field));
                State::FieldStart
            }
            _ if ends_line => {
                record.push(std::mem::take(&mut field));
                records.push(std::mem::take(&mut record));
                State::RecordStart
            }
            _ => {
                field.push(byte);
                State::InField
            }
        };
    }
    if !matches!(state, State::RecordStart) {
        record.push(field);
        records.push(record);
    }
    records
}

/// A number is written as its own decimal text and in no other way.
pub fn number(field: &[u8]) -> Option<u64> {
    let value: u64 = std::str::from_utf8(field).ok()?.parse().ok()?;
    is_text_of(field, value).then_some(value)
}

fn is_text_of(field: &[u8], value: u64) -> bool {
    value.to_string().as_bytes() == field
}

/// The processors of a list, which are none for the word `all`; nothing if it is no list.
pub fn read_list(list: &str) -> Option<Option<Vec<Processor>>> {
    match list {
        "all" => return Some(None),
        "none" => return Some(Some(Vec::new())),
        _ => {}
    }
    let members: Option<Vec<u64>> = list.split(',').map(|it| number(it.as_bytes())).collect();
    members.filter(|them| them.iter().all(|it| (1..=64).contains(it))).map(Some)
}

fn read_ids(field: &[u8]) -> Option<Vec<Number>> {
    if field.is_empty() {
        return Some(Vec::new());
    }
    field.split(|&byte| byte == b' ').map(number).collect()
}

/// The rows of a report text, or the first refusal.
pub fn read_rows(text: &[u8]) -> Result<Vec<Row>, String> {
    if text.len() as u64 > TEXT_LIMIT {
        return Err("text too large".into());
    }
    let records = records(text);
    let names =
        |record: &Record| record.join(&b","[..]) == REPORT_HEADER.as_bytes() && record.len() == 8;
    if !records.first().is_some_and(names) {
        return Err("bad header".into());
    }
    let row = |(fields, no): (&Record, usize)| {
        Row::from_fields(fields, number).map_err(|why| format!("row {no}: {why}"))
    };
    records[1..].iter().zip(1..).map(row).collect()
}

/// The trace that a text encodes, of at most so many processors; or the first refusal.
pub fn read_trace(text: &[u8], processor_limit: u64) -> Result<Trace, String> {
    if text.len() as u64 > TEXT_LIMIT {
        return Err("text too large".into());
    }
    let records = records(text);
    let header = records.first().map_or(&[][..], Vec::as_slice);
    let (has_ticks, processors, faults) = read_header(header, processor_limit)?;
    let is_init = |record: &&Record| record[0] == b"init" && record.len() as u64 == processors + 1;
    let init = records.get(1).filter(is_init);
    let values: Option<Vec<u64>> =
        init.and_then(|it| it[1..].iter().map(|it| number(it)).collect());
    let mut trace = Trace {
        processors,
        faults,
        values: values.ok_or("bad init")?,
        steps: Vec::new(),
        last_tick: 0,
    };
    let mut rest = records[2..].iter();
    for record in rest.by_ref() {
        let no = trace.steps.len() as Number + 1;
        let refused = |why: String| format!("step {no}: {why}");
        if record[0] == b"end" {
            let [_, end] = record.as_slice() else {
                return Err(refused("bad fields".into()));
            };
            trace.last_tick = read_end(&trace, end, has_ticks).ok_or("wrong end")?;
            return match rest.next() {
                None => Ok(trace),
                Some(_) => Err("text after end".into()),
            };
        }
        let step = read_step(record, no, has_ticks).map_err(|why| refused(why.into()))?;
        if let Some(why) = refusal(&trace, &step) {
            return Err(refused(why));
        }
        trace.last_tick = step.tick;
        trace.steps.push(step);
    }
    Err("no end".into())
}

/// Whether steps have ticks, and the numbers of processors and of faulty ones.
fn read_header(record: &[Vec<u8>], processor_limit: u64) -> Result<(bool, u64, u64), &'static str> {
    let [name, version, n, t] = record else {
        return Err("bad header");
    };
    if name != b"dls-trace" {
        return Err("bad header");
    }
    if version != b"1" && version != b"2" {
        return Err("bad version");
    }
    let (n, t) = number(n).zip(number(t)).ok_or("bad size")?;
    let is_size = (2..=processor_limit).contains(&n) && u128::from(t) * 2 + 1 <= u128::from(n);
    is_size.then_some((version == b"2", n, t)).ok_or("bad size")
}

/// The last tick by the field of an end record.
fn read_end(trace: &Trace, field: &[u8], has_ticks: bool) -> Option<u64> {
    if has_ticks {
        number(field).filter(|it| (trace.last_tick..=TICK_LIMIT).contains(it))
    } else {
        let length = trace.steps.len() as u64;
        is_text_of(field, length).then_some(length)
    }
}

/// The step of a record, for any trace; in version 1 its tick is its number.
fn read_step(record: &[Vec<u8>], no: Number, has_ticks: bool) -> Result<Step, &'static str> {
    let (first, tick, processor, operation, argument) = match (record, has_ticks) {
        ([first, tick, processor, operation, argument], true) => {
            (first, Some(tick), processor, operation, argument)
        }
        ([first, processor, operation, argument], false) => {
            (first, None, processor, operation, argument)
        }
        _ => return Err("bad fields"),
    };
    if !is_text_of(first, no) {
        return Err("wrong number");
    }
    if ![&b"S"[..], b"R", b"E"].contains(&operation.as_slice()) {
        return Err("bad operation");
    }
    let act = match operation.as_slice() {
        b"S" => number(argument).map(Act::Send),
        _ => read_ids(argument).map(Act::Receive),
    };
    let tick = tick.map_or(Some(no), |it| number(it));
    match (tick, number(processor), act) {
        (Some(tick), Some(processor), Some(act)) => Ok(Step {
            tick,
            processor,
            act,
            ends: operation == b"E",
        }),
        _ => Err("bad number"),
    }
}

/// Why a trace refuses a step, if it does.
fn refusal(trace: &Trace, step: &Step) -> Option<String> {
    let is_processor = |it: Processor| (1..=trace.processors).contains(&it);
    if trace.steps.len() >= STEP_LIMIT {
        return Some("trace is full".into());
    }
    if step.tick == 0 || step.tick < trace.last_tick || step.tick > TICK_LIMIT {
        return Some("bad tick".into());
    }
    if !is_processor(step.processor) {
        return Some("no such processor".into());
    }
    let before = trace.steps.last();
    if before.is_some_and(|it| it.tick == step.tick && it.processor >= step.processor) {
        return Some("processors do not rise".into());
    }
    match &step.act {
        Act::Send(to) if !is_processor(*to) => Some("no such destination".into()),
        Act::Send(_) => None,
        Act::Receive(ids) => refusal_of_ids(trace, step, ids),
    }
}

fn refusal_of_ids(trace: &Trace, receive: &Step, ids: &[Number]) -> Option<String> {
    if ids.windows(2).any(|pair| pair[0] >= pair[1]) {
        return Some("ids do not rise".into());
    }
    // (the tick and the destination of a message)
    let message = |id: Number| {
        let (step, _) = trace.steps.iter().zip(1..).find(|&(_, no)| no == id)?;
        match step.act {
            Act::Send(to) => Some((step.tick, to)),
            Act::Receive(_) => None,
        }
    };
    let was_received = |id: Number| {
        trace.steps.iter().any(|earlier| match &earlier.act {
            Act::Receive(ids) => ids.contains(&id),
            Act::Send(_) => false,
        })
    };
    let least =
        |is_bad: &dyn Fn(Number) -> bool| ids.iter().copied().filter(|it| is_bad(*it)).min();
    if let Some(id) = least(&|it| message(it).is_none()) {
        return Some(format!("message {id} unknown"));
    }
    if let Some(id) = least(&|it| message(it).is_some_and(|(_, to)| to != receive.processor)) {
        return Some(format!("message {id} is for another processor"));
    }
    if let Some(id) = least(&|it| message(it).is_some_and(|(tick, _)| tick == receive.tick)) {
        return Some(format!("message {id} was sent in this tick"));
    }
    let id = least(&was_received)?;
    Some(format!("message {id} was received before"))
}
