//! How synchronous was a recorded run? Safe functions over the proved library, `libsynchrony.a`, which `./library` builds.
//!
//! ```
//! use synchrony::{ALL, Verdict};
//!
//! let trace = b"dls-trace,1,2,0\ninit,5,7\n1,1,S,2\n2,2,R,\n3,2,R,1\nend,3\n";
//! let report = synchrony::report(trace, ALL)?;
//! assert!(report.starts_with(b"gst,delta,phi,sent,missed,proc,from,to\n1,2,3,1,2,1,2,3\n"));
//! assert_eq!(synchrony::check(trace, &report, synchrony::set_of(&[1, 2]))?, Verdict::Yes);
//! # Ok::<(), synchrony::Refusal>(())
//! ```
//!
//! A crate depends on it by its path, `synchrony = { path = ".../bindings/rust" }`. Nothing here is proved but what is called:
//! `bindings/synchrony.h` says what the library asks of its callers.

use std::{error, fmt};

#[link(name = "synchrony", kind = "static")]
unsafe extern "C" {
    fn synchrony_report(correct: u64, text: *const u8, length: usize, out: *mut u8, room: usize, size: &mut usize) -> u32;
    fn synchrony_check(
        correct: u64,
        text: *const u8,
        length: usize,
        certificate: *const u8,
        certificate_length: usize,
        out: *mut u8,
        room: usize,
        size: &mut usize,
    ) -> u32;
    fn synchrony_answer(
        words: *const u8,
        words_length: usize,
        text: *const u8,
        length: usize,
        second: *const u8,
        second_length: usize,
        out: *mut u8,
        room: usize,
        size: &mut usize,
    ) -> u32;
}

/// Why there is no report, or no verdict.
#[derive(Clone, Debug, PartialEq, Eq)]
pub enum Refusal {
    /// A processor is named as correct that the trace hasn't.
    Set,
    /// The text encodes no trace; this is its first refusal.
    Trace(String),
    /// The certificate encodes no rows; this is its first refusal.
    Certificate(String),
    /// Out of memory.
    Memory,
}

impl Refusal {
    /// The exit status that the program has in the same case.
    pub fn status(&self) -> u8 {
        match self {
            Refusal::Set => 2,
            Refusal::Trace(_) => 3,
            Refusal::Certificate(_) => 4,
            Refusal::Memory => 5,
        }
    }
}

/// The words that the program has for it, behind `synchrony: `.
///
/// ```
/// let refused = synchrony::report(b"x", synchrony::ALL).unwrap_err();
/// assert_eq!(refused.to_string(), "trace: bad header");
/// assert_eq!(refused.status(), 3);
/// ```
impl fmt::Display for Refusal {
    fn fmt(&self, f: &mut fmt::Formatter<'_>) -> fmt::Result {
        match self {
            Refusal::Set => f.write_str("no such processor in --correct"),
            Refusal::Trace(words) => write!(f, "trace: {words}"),
            Refusal::Certificate(words) => write!(f, "certificate: {words}"),
            Refusal::Memory => f.write_str("out of memory"),
        }
    }
}

impl error::Error for Refusal {}

/// The verdict on a certificate.
#[derive(Clone, Debug, PartialEq, Eq)]
pub enum Verdict {
    /// Its rows are the report of the trace.
    Yes,
    /// They aren't: the name of the first reason, and its numbers.
    No(String),
}

/// The verdict line of the program, without its line feed.
impl fmt::Display for Verdict {
    fn fmt(&self, f: &mut fmt::Formatter<'_>) -> fmt::Result {
        match self {
            Verdict::Yes => f.write_str("yes"),
            Verdict::No(why) => write!(f, "no {why}"),
        }
    }
}

/// The set of these processors, as the library takes it. Processors are numbered from 1 to 64.
///
/// # Panics
///
/// If a number is another one.
///
/// ```
/// assert_eq!(synchrony::set_of(&[1, 3]), 0b101);
/// ```
pub fn set_of(processors: &[u32]) -> u64 {
    processors.iter().fold(0, |set, &it| {
        assert!((1..=64).contains(&it), "there is no processor {it}");
        set | 1 << (it - 1)
    })
}

/// As a set: all processors of the trace, however many there are.
pub const ALL: u64 = u64::MAX;

/// The report of a trace text, with the processors of the set `correct` as the correct ones: a CSV with a header.
pub fn report(text: &[u8], correct: u64) -> Result<Vec<u8>, Refusal> {
    // (SAFETY: the slices are apart, and `out` is borrowed by nobody else)
    // (this is room for nearly every report, since a call in too little room is made twice)
    let room = (1 << 20).min(4096 + 4 * text.len());
    let (answer, out) = with_room(room, |out, size| unsafe {
        synchrony_report(correct, text.as_ptr(), text.len(), out.as_mut_ptr(), out.len(), size)
    });
    match answer {
        0 => Ok(out),
        _ => Err(refusal(answer, &out)),
    }
}

/// Whether the rows of a certificate are the report of a trace text.
pub fn check(text: &[u8], certificate: &[u8], correct: u64) -> Result<Verdict, Refusal> {
    // (SAFETY: as above)
    let (answer, out) = with_room(1 << 8, |out, size| unsafe {
        synchrony_check(
            correct,
            text.as_ptr(),
            text.len(),
            certificate.as_ptr(),
            certificate.len(),
            out.as_mut_ptr(),
            out.len(),
            size,
        )
    });
    match answer {
        0 => Ok(Verdict::Yes),
        1 => Ok(Verdict::No(words(&out).trim_end().trim_start_matches("no ").to_string())),
        _ => Err(refusal(answer, &out)),
    }
}

/// The exit status that the program has for these words after its name, and what it prints: with 0 and 1 its standard output,
/// else its standard error. `text` is the text of the file `-`, and `second` that of the certificate of a `check`, of the
/// decisions of a `judge`, or of the table of a `draw` or `page`. Out of memory is the status 5, with nothing printed.
///
/// # Panics
///
/// If a word has a line feed, or there is none.
///
/// ```
/// let trace = b"dls-trace,1,2,0\ninit,5,7\nend,0\n";
/// let (status, text) = synchrony::answer(&["upgrade", "-"], trace, b"");
/// assert_eq!((status, text.as_slice()), (0, b"dls-trace,2,2,0\ninit,5,7\nend,0\n".as_slice()));
/// ```
pub fn answer(words: &[&str], text: &[u8], second: &[u8]) -> (u32, Vec<u8>) {
    assert!(!words.is_empty() && words.iter().all(|it| !it.contains('\n')), "words of a command line, with no line feed");
    let words = words.join("\n");
    // (SAFETY: as above)
    with_room((1 << 20).min(4096 + 4 * text.len()), |out, size| unsafe {
        synchrony_answer(
            words.as_ptr(),
            words.len(),
            text.as_ptr(),
            text.len(),
            second.as_ptr(),
            second.len(),
            out.as_mut_ptr(),
            out.len(),
            size,
        )
    })
}

/// What a call answers and writes, in as much room as it asks for.
fn with_room(least: usize, mut call: impl FnMut(&mut [u8], &mut usize) -> u32) -> (u32, Vec<u8>) {
    let mut out = vec![0; least];
    loop {
        let mut size = 0;
        let answer = call(&mut out, &mut size);
        // (the words of a refusal may be cut off too)
        if size <= out.len() {
            out.truncate(size);
            return (answer, out);
        }
        out.resize(size, 0);
    }
}

fn refusal(answer: u32, out: &[u8]) -> Refusal {
    match answer {
        2 => Refusal::Set,
        3 => Refusal::Trace(words(out)),
        4 => Refusal::Certificate(words(out)),
        5 => Refusal::Memory,
        _ => unreachable!("the library answers no {answer}"),
    }
}

fn words(out: &[u8]) -> String {
    String::from_utf8_lossy(out).into_owned()
}
