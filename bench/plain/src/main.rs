//! Bench code, not the product: a plain Rust program to measure the product against. Nothing of it is proved, and
//! nothing of the product is built from it.
//!
//!     plain -B LOG > UNDO
//!     plain --stream LOG > UNDO
//!
//! It does what `flashback -B LOG` does, as an ordinary program would: it reads the log whole into memory, indexes it
//! (the place of each event, the maps of each statement by table id, the layouts of the tables, a walk over all
//! images), makes the whole new log in memory, and writes it out once; with `--stream` it writes
//! the new log while it makes it, by 256 KB at once. It makes the same checks in the same order, so
//! that both do the same work. The byte layouts are those of docs/FORMATS.md. It has no selection and no other mode.

mod columns;
mod index;
mod undo;

use std::fs::File;
use std::io::Write;
use std::os::fd::AsFd;
use std::process::ExitCode;

/// The name of a fault and its byte position, as the product prints them.
#[derive(Debug)]
pub struct Fault(pub &'static str, pub usize);

pub const QUERY: u8 = 2;
pub const FORMAT: u8 = 15;
pub const XID: u8 = 16;
pub const TABLE_MAP: u8 = 19;
/// Rows events of version 1, which have no extra bytes.
pub const WRITE_V1: u8 = 23;
pub const UPDATE_V1: u8 = 24;
pub const DELETE_V1: u8 = 25;
pub const WRITE: u8 = 30;
pub const UPDATE: u8 = 31;
pub const DELETE: u8 = 32;

/// The bytes of an event's header.
pub const HEADER: usize = 19;

pub fn number_at(bytes: &[u8], at: usize, width: usize) -> Option<usize> {
    let field = bytes.get(at..at + width)?;
    Some(field.iter().rev().fold(0, |number, &byte| number << 8 | byte as usize))
}

/// A packed integer at a place, and the place behind it.
pub fn packed_at(bytes: &[u8], at: usize) -> Option<(usize, usize)> {
    let first = *bytes.get(at)?;
    let width = match first {
        0..=250 => return Some((first as usize, at + 1)),
        252 => 2,
        253 => 3,
        254 => 8,
        _ => return None,
    };
    Some((number_at(bytes, at + 1, width)?, at + 1 + width))
}

/// An event of the log: where it starts, its header and its body.
#[derive(Clone, Copy)]
pub struct Event<'a> {
    pub at: usize,
    pub header: &'a [u8],
    pub body: &'a [u8],
}

impl<'a> Event<'a> {
    pub fn read(log: &'a [u8], at: usize) -> Result<Event<'a>, Fault> {
        let cut = Fault("CutEvent", at);
        let rest = &log[at..];
        match number_at(rest, 9, 4) {
            Some(size) if size >= HEADER && size <= rest.len() => {
                Ok(Event { at, header: &rest[..HEADER], body: &rest[HEADER..size] })
            }
            _ => Err(cut),
        }
    }

    pub fn kind(&self) -> u8 {
        self.header[4]
    }

    /// Whether it is an update.
    pub fn is_update(&self) -> bool {
        matches!(self.kind(), UPDATE_V1 | UPDATE)
    }

    /// Whether it is a rows event of version 1.
    pub fn is_version_1(&self) -> bool {
        self.kind() < WRITE
    }

    pub fn end(&self) -> usize {
        self.at + HEADER + self.body.len()
    }

    pub fn is_ignorable(&self) -> bool {
        self.header[17] & 0x80 != 0
    }
}

/// The checks of the event at 4.
fn check_format(event: &Event) -> Result<(), Fault> {
    let body = event.body;
    let passes = |good: bool, name| if good { Ok(()) } else { Err(Fault(name, event.at)) };
    passes(event.kind() == FORMAT && body.len() >= 57, "BadFormat")?;
    passes(body[0] == 4 && body[1] == 0 && body[56] == 19, "BadFormat")?;
    let version = version(&body[2..52]).ok_or(Fault("OldServer", event.at))?;
    let agrees = |&(kind, length): &(u8, u8)| body[56 + kind as usize] == length;
    if version < [5, 6, 1] {
        let lengths = [(QUERY, 13), (TABLE_MAP, 8), (WRITE_V1, 8), (UPDATE_V1, 8), (DELETE_V1, 8)];
        return passes(body.len() >= 82 && lengths.iter().all(agrees), "BadFormat");
    }
    let lengths = [(QUERY, 13), (TABLE_MAP, 8), (WRITE, 10), (UPDATE, 10), (DELETE, 10)];
    passes(body.len() >= 94 && lengths.iter().all(agrees), "BadFormat")?;
    passes(body[body.len() - 5] == 0, "Checksums")
}

/// The three numbers with which a server's version begins.
fn version(field: &[u8]) -> Option<[u32; 3]> {
    let mut rest = field.split(|&byte| byte == 0).next()?;
    let mut numbers = [0; 3];
    for (i, number) in numbers.iter_mut().enumerate() {
        if i > 0 {
            rest = rest.strip_prefix(b".")?;
        }
        let digits = rest.iter().take_while(|byte| byte.is_ascii_digit()).count();
        if digits == 0 || digits > 3 {
            return None;
        }
        *number = rest[..digits].iter().fold(0, |number, digit| number * 10 + u32::from(digit - b'0'));
        rest = &rest[digits..];
    }
    Some(numbers)
}

/// The new log, or its end where it is written to a file.
fn flashback(log: &[u8], out: Option<&File>) -> Result<Vec<u8>, Fault> {
    if log.len() > u32::MAX as usize {
        return Err(Fault("TooLong", 0));
    }
    if !log.starts_with(b"\xfebin") {
        return Err(Fault("NotABinlog", 0));
    }
    let format = Event::read(log, 4)?;
    check_format(&format)?;
    let index = index::index(log, format.end())?;
    Ok(undo::write(log, format.end(), &index, out))
}

fn run(words: &[String]) -> Result<(), String> {
    let usage = "plain (-B | --stream) LOG";
    let [mode, path] = words else { return Err(usage.into()) };
    if mode != "-B" && mode != "--stream" {
        return Err(usage.into());
    }
    let log = std::fs::read(path).map_err(|error| error.to_string())?;
    // not Rust's own standard output, which looks for the ends of lines
    let out = std::io::stdout().as_fd().try_clone_to_owned().map_err(|error| error.to_string())?;
    let mut out = File::from(out);
    let to = if mode == "--stream" { Some(&out) } else { None };
    let text = flashback(&log, to).map_err(|Fault(name, at)| format!("{name} at {at}"))?;
    out.write_all(&text).map_err(|error| error.to_string())
}

fn main() -> ExitCode {
    let words: Vec<String> = std::env::args().skip(1).collect();
    match run(&words) {
        Ok(()) => ExitCode::SUCCESS,
        Err(line) => {
            eprintln!("plain: {line}");
            ExitCode::FAILURE
        }
    }
}
