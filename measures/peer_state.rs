//! The state of a sign by hand, in plain Rust without `unsafe`: it is read from its text, up to the first line that is
//! at fault, and written again. It looks at each word's range, and not whether a text fits a face.
//!
//! `peer_state FILE` prints the text of a file, read and written again, or fails with `line N`; `peer_state FILE CALL
//! TIMES`, with a CALL of `save` or `restore`, prints the least nanoseconds of so many calls.

#![forbid(unsafe_code)]

mod peer_digits;

use std::hint::black_box;
use std::io::{self, Write};
use std::process::ExitCode;
use std::str::{FromStr, Split};
use std::time::Instant;

const MOST_TEXT: usize = 512;
const MOST_OWNER: usize = 127;
const CHANGEABLE: Memory = Memory { name: "changeable", rows: 64 };
const VOLATILE: Memory = Memory { name: "volatile", rows: 16 };
const FALLBACKS: [&str; 5] =
    ["short-power-recovery", "long-power-recovery", "power-loss", "end-duration", "communications-loss"];

struct Memory {
    name: &'static str,
    rows: u8,
}

#[derive(Clone, Copy, PartialEq)]
enum Status {
    Modifying = 2,
    Validating,
    Valid,
    Error,
}

#[derive(PartialEq)]
struct Message {
    text: Vec<u8>,
    owner: Vec<u8>,
    beacon: u8,
    pixel: u8,
    priority: u8,
}

/// A row that is used. A valid one keeps its checksum, by which requests name it.
#[derive(PartialEq)]
struct Row {
    number: u8,
    status: Status,
    message: Message,
    checksum: u16,
}

type Defaults = [u8; 9];

/// What is shown, or was when the power was lost.
#[derive(PartialEq)]
struct Put {
    message: Message,
    source: [u8; 5],
    mode: u8,
    address: [u8; 4],
    remaining: Option<u32>,
    defaults: Defaults,
}

#[derive(PartialEq)]
struct Reports {
    validate_error: u8,
    activate_error: u8,
    syntax_error: u8,
    syntax_error_position: u16,
    accepted_code: [u8; 12],
    failed_code: [u8; 12],
}

#[derive(PartialEq)]
struct State {
    changeable: Vec<Row>,
    volatile: Vec<Row>,
    defaults: Defaults,
    fallbacks: [[u8; 5]; 5],
    short_power_loss_time: u16,
    time_comm_loss: u16,
    silent: u32,
    shown: Put,
    kept: Put,
    reports: Reports,
    powered: bool,
}

mod checksum {
    use super::Message;

    const TABLE: [u16; 256] = table();

    const fn table() -> [u16; 256] {
        let mut table = [0; 256];
        let mut octet = 0;
        while octet < 256 {
            let mut rest = octet as u16;
            let mut bit = 0;
            while bit < 8 {
                rest = if rest & 1 == 1 { rest >> 1 ^ 0x8408 } else { rest >> 1 };
                bit += 1;
            }
            table[octet] = rest;
            octet += 1;
        }
        table
    }

    /// The checksum of a message (ISO/IEC 3309).
    pub fn of(message: &Message) -> u16 {
        let octets = message.text.iter().chain([&message.beacon, &message.pixel]);
        !octets.fold(0xffff, |rest: u16, octet| rest >> 8 ^ TABLE[usize::from(rest as u8 ^ octet)])
    }
}

mod saving {
    use super::*;

    fn put_octets(out: &mut Vec<u8>, octets: &[u8]) {
        if octets.is_empty() {
            out.push(b'-');
        }
        peer_digits::put_octets(out, octets);
    }

    fn put_message(out: &mut Vec<u8>, message: &Message) -> io::Result<()> {
        put_octets(out, &message.text);
        out.push(b' ');
        put_octets(out, &message.owner);
        writeln!(out, " {} {} {}", message.beacon, message.pixel, message.priority)
    }

    fn put_rows(out: &mut Vec<u8>, memory: &Memory, rows: &[Row]) -> io::Result<()> {
        rows.iter().try_for_each(|row| {
            write!(out, "{} {} {} ", memory.name, row.number, row.status as u8)?;
            put_message(out, &row.message)
        })
    }

    fn put_code(out: &mut Vec<u8>, name: &str, code: &[u8]) {
        out.extend_from_slice(name.as_bytes());
        out.push(b' ');
        put_octets(out, code);
        out.push(b'\n');
    }

    fn put_defaults(out: &mut Vec<u8>, name: &str, defaults: &Defaults) -> io::Result<()> {
        out.extend_from_slice(name.as_bytes());
        defaults.iter().try_for_each(|number| write!(out, " {number}"))?;
        writeln!(out)
    }

    fn put_put(out: &mut Vec<u8>, name: &str, put: &Put) -> io::Result<()> {
        write!(out, "{name} ")?;
        put_message(out, &put.message)?;
        put_code(out, &format!("{name}-source"), &put.source);
        writeln!(out, "{name}-mode {}", put.mode)?;
        let [a, b, c, d] = put.address;
        writeln!(out, "{name}-address {a}.{b}.{c}.{d}")?;
        if let Some(seconds) = put.remaining {
            writeln!(out, "{name}-remaining {seconds}")?;
        }
        put_defaults(out, &format!("{name}-defaults"), &put.defaults)
    }

    fn put_reports(out: &mut Vec<u8>, reports: &Reports) -> io::Result<()> {
        writeln!(out, "validate-error {}", reports.validate_error)?;
        writeln!(out, "activate-error {}", reports.activate_error)?;
        writeln!(out, "syntax-error {}", reports.syntax_error)?;
        writeln!(out, "syntax-error-position {}", reports.syntax_error_position)?;
        put_code(out, "accepted-code", &reports.accepted_code);
        put_code(out, "failed-code", &reports.failed_code);
        Ok(())
    }

    /// Appends the text of a state.
    pub fn save(state: &State, out: &mut Vec<u8>) -> io::Result<()> {
        out.extend_from_slice(b"state 1 sign\n");
        put_rows(out, &CHANGEABLE, &state.changeable)?;
        put_rows(out, &VOLATILE, &state.volatile)?;
        put_defaults(out, "defaults", &state.defaults)?;
        FALLBACKS.iter().zip(&state.fallbacks).for_each(|(name, code)| put_code(out, name, code));
        writeln!(out, "short-power-loss-time {}", state.short_power_loss_time)?;
        writeln!(out, "time-comm-loss {}", state.time_comm_loss)?;
        writeln!(out, "silent {}", state.silent)?;
        put_put(out, "shown", &state.shown)?;
        put_put(out, "kept", &state.kept)?;
        put_reports(out, &state.reports)?;
        writeln!(out, "powered {}\nend", u8::from(state.powered))
    }
}

mod reading {
    use super::*;

    type Words<'a> = Split<'a, char>;

    /// A number of as many digits as it needs.
    fn number<T: FromStr>(word: &str) -> Option<T> {
        let is_plain = word == "0" || word.starts_with(|first| ('1'..='9').contains(&first));
        word.parse().ok().filter(|_| is_plain)
    }

    fn digit(octet: u8) -> Option<u8> {
        match octet {
            b'0'..=b'9' => Some(octet - b'0'),
            b'a'..=b'f' => Some(octet - b'a' + 10),
            _ => None,
        }
    }

    fn octets(word: &str, most: usize) -> Option<Vec<u8>> {
        if word == "-" {
            return Some(Vec::new());
        }
        let (pairs, rest) = word.as_bytes().as_chunks::<2>();
        if !(1..=most).contains(&pairs.len()) || !rest.is_empty() {
            return None;
        }
        let mut found = Vec::with_capacity(pairs.len());
        for &[high, low] in pairs {
            found.push(digit(high)? << 4 | digit(low)?);
        }
        Some(found)
    }

    fn code<const SIZE: usize>(word: &str) -> Option<[u8; SIZE]> {
        octets(word, SIZE)?.try_into().ok()
    }

    fn numbers<const COUNT: usize>(mut words: Split<'_, char>) -> Option<[u8; COUNT]> {
        let mut found = [0; COUNT];
        for place in &mut found {
            *place = number(words.next()?)?;
        }
        words.next().is_none().then_some(found)
    }

    fn status(word: &str) -> Option<Status> {
        match word {
            "2" => Some(Status::Modifying),
            "3" => Some(Status::Validating),
            "4" => Some(Status::Valid),
            "5" => Some(Status::Error),
            _ => None,
        }
    }

    fn message(mut words: Words<'_>) -> Option<Message> {
        let (text, owner) = (octets(words.next()?, MOST_TEXT)?, octets(words.next()?, MOST_OWNER)?);
        let [beacon, pixel, priority] = numbers(words)?;
        Some(Message { text, owner, beacon, pixel, priority })
    }

    fn row(mut words: Words<'_>) -> Option<Row> {
        let (number, status) = (number(words.next()?)?, status(words.next()?)?);
        let message = message(words)?;
        let checksum = if status == Status::Valid { checksum::of(&message) } else { 0 };
        Some(Row { number, status, message, checksum })
    }

    /// The lines that are not read yet, and how many were.
    struct Lines<'a> {
        rest: &'a str,
        read: usize,
    }

    impl<'a> Lines<'a> {
        fn line(&mut self) -> Option<&'a str> {
            self.read += 1;
            let (line, rest) = self.rest.split_once('\n')?;
            self.rest = rest;
            Some(line)
        }

        fn begins(&self, name: &str) -> bool {
            self.rest.strip_prefix(name).is_some_and(|rest| rest.starts_with(' '))
        }

        /// What is behind a name.
        fn field(&mut self, name: &str) -> Option<&'a str> {
            self.line()?.strip_prefix(name)?.strip_prefix(' ')
        }

        fn number<T: FromStr>(&mut self, name: &str) -> Option<T> {
            number(self.field(name)?)
        }

        fn code<const SIZE: usize>(&mut self, name: &str) -> Option<[u8; SIZE]> {
            code(self.field(name)?)
        }

        fn defaults(&mut self, name: &str) -> Option<Defaults> {
            numbers(self.field(name)?.split(' '))
        }

        /// The rows of a memory, in the order of their numbers.
        fn rows(&mut self, memory: &Memory) -> Option<Vec<Row>> {
            let (mut rows, mut last) = (Vec::with_capacity(usize::from(memory.rows)), 0);
            while last < memory.rows && self.begins(memory.name) {
                let row = row(self.field(memory.name)?.split(' '))?;
                if !(last + 1..=memory.rows).contains(&row.number) {
                    return None;
                }
                last = row.number;
                rows.push(row);
            }
            Some(rows)
        }

        fn put(&mut self, name: &str) -> Option<Put> {
            let remaining = format!("{name}-remaining");
            Some(Put {
                message: message(self.field(name)?.split(' '))?,
                source: self.code(&format!("{name}-source"))?,
                mode: self.number(&format!("{name}-mode"))?,
                address: numbers(self.field(&format!("{name}-address"))?.split('.'))?,
                remaining: if self.begins(&remaining) { Some(self.number(&remaining)?) } else { None },
                defaults: self.defaults(&format!("{name}-defaults"))?,
            })
        }

        fn fallbacks(&mut self) -> Option<[[u8; 5]; 5]> {
            let mut found = [[0; 5]; 5];
            for (place, name) in found.iter_mut().zip(FALLBACKS) {
                *place = self.code(name)?;
            }
            Some(found)
        }

        fn reports(&mut self) -> Option<Reports> {
            Some(Reports {
                validate_error: self.number("validate-error")?,
                activate_error: self.number("activate-error")?,
                syntax_error: self.number("syntax-error")?,
                syntax_error_position: self.number("syntax-error-position")?,
                accepted_code: self.code("accepted-code")?,
                failed_code: self.code("failed-code")?,
            })
        }

        fn powered(&mut self) -> Option<bool> {
            match self.field("powered")? {
                "0" => Some(false),
                "1" => Some(true),
                _ => None,
            }
        }

        fn state(&mut self) -> Option<State> {
            self.line().filter(|&line| line == "state 1 sign")?;
            let state = State {
                changeable: self.rows(&CHANGEABLE)?,
                volatile: self.rows(&VOLATILE)?,
                defaults: self.defaults("defaults")?,
                fallbacks: self.fallbacks()?,
                short_power_loss_time: self.number("short-power-loss-time")?,
                time_comm_loss: self.number("time-comm-loss")?,
                silent: self.number("silent")?,
                shown: self.put("shown")?,
                kept: self.put("kept")?,
                reports: self.reports()?,
                powered: self.powered()?,
            };
            (self.line()? == "end" && self.rest.is_empty()).then_some(state)
        }
    }

    /// The state of a text, or the first line that is at fault, from 1.
    pub fn restore(text: &[u8]) -> Result<State, usize> {
        let rest = text.utf8_chunks().next().map_or("", |chunk| chunk.valid());
        let mut lines = Lines { rest, read: 0 };
        let state = lines.state().ok_or(lines.read)?;
        (rest.len() == text.len()).then_some(state).ok_or(lines.read)
    }
}

/// The least nanoseconds of so many calls.
fn least(times: u32, mut call: impl FnMut()) -> Option<u128> {
    let mut once = || {
        let begun = Instant::now();
        call();
        begun.elapsed().as_nanos()
    };
    (0..times).map(|_| once()).min()
}

fn main() -> ExitCode {
    let words: Vec<String> = std::env::args().skip(1).collect();
    let words: Vec<&str> = words.iter().map(String::as_str).collect();
    let (text, call) = match words[..] {
        [path] => (std::fs::read(path), None),
        [path, call, times] => (std::fs::read(path), times.parse().ok().map(|times| (call, times))),
        _ => (Err(io::ErrorKind::InvalidInput.into()), None),
    };
    match text.map(|text| carry_out(&text, call)) {
        Ok(Ok(())) => ExitCode::SUCCESS,
        Ok(Err(line)) => {
            eprintln!("line {line}");
            ExitCode::FAILURE
        }
        Err(error) => {
            eprintln!("{error}: peer_state FILE [save | restore TIMES]");
            ExitCode::from(2)
        }
    }
}

fn carry_out(text: &[u8], call: Option<(&str, u32)>) -> Result<(), usize> {
    let state = reading::restore(text)?;
    let mut out = Vec::with_capacity(text.len());
    let mut save = || {
        out.clear();
        saving::save(black_box(&state), &mut out).is_ok()
    };
    let taken = match call {
        Some(("save", times)) => least(times, || assert!(black_box(save()))),
        Some((_, times)) => least(times, || assert!(black_box(reading::restore(black_box(text))).is_ok())),
        None => {
            assert!(save());
            assert!(reading::restore(&out).is_ok_and(|again| again == state), "another state");
            assert!(io::stdout().write_all(&out).is_ok());
            return Ok(());
        }
    };
    println!("{}", taken.unwrap_or_default());
    Ok(())
}
