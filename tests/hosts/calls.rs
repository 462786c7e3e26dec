//! calls report CORRECT <TRACE
//! calls check CORRECT CERTIFICATE <TRACE
//!
//! Says and ends as the program does.
#[path = "../../bindings/rust/src/lib.rs"]
mod synchrony;

use std::io::{Read, Write};
use std::process::ExitCode;
use synchrony::{Refusal, Verdict};

fn main() -> ExitCode {
    let words: Vec<String> = std::env::args().collect();
    let processors: Vec<u32> = words[2].split(',').map(|it| it.parse().unwrap()).collect();
    let correct = synchrony::set_of(&processors);
    let mut trace = Vec::new();
    std::io::stdin().read_to_end(&mut trace).unwrap();
    let answer = match words[1].as_str() {
        "check" => check(&trace, &std::fs::read(&words[3]).unwrap(), correct),
        _ => synchrony::report(&trace, correct).map(|text| (text, 0)),
    };
    match answer {
        Ok((text, status)) => {
            std::io::stdout().write_all(&text).unwrap();
            ExitCode::from(status)
        }
        Err(why) => tell(why),
    }
}

fn check(trace: &[u8], certificate: &[u8], correct: u64) -> Result<(Vec<u8>, u8), Refusal> {
    let verdict = synchrony::check(trace, certificate, correct)?;
    Ok((format!("{verdict}\n").into_bytes(), u8::from(verdict != Verdict::Yes)))
}

fn tell(why: Refusal) -> ExitCode {
    eprintln!("synchrony: {why}");
    ExitCode::from(why.status())
}
