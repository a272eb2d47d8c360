//! Scripts by hand, in plain Rust without `unsafe`: the sign and the events are read from text, run over `peer_sign` and `peer_centre`, and
//! reported. It keeps each datagram that was sent in as many octets as it has. The sign's matrix, services, communities and defaults are
//! those of `peer_sign`, and there are no power events and no forged datagrams.

#![forbid(unsafe_code)]

use crate::peer::Out;
use crate::peer_centre::{Activation, Centre, Command, Order, Outcome, Publication};
use crate::peer_digits::{put_few, put_octets};
use crate::peer_sign::{Sign, Shows};
use crate::peer_text::{Face, Fonts, digit};

const LONGEST_INPUT: usize = 1_048_576;

enum Event {
    Publish { memory: u8, number: u16, text: Vec<u8>, owner: Vec<u8>, beacon: u8, pixel: u8, run_priority: u8, terms: Terms },
    Blank { number: u16, terms: Terms },
    Activate(Activation),
    SignTick,
    CentreTick,
    ToSign(u32),
    ToCentre(u32),
    CentreRestart,
}

#[derive(Clone, Copy)]
struct Terms {
    minutes: u16,
    priority: u8,
    address: [u8; 4],
}

struct Script {
    sign: Sign,
    first: u32,
    events: Vec<Event>,
}

// ---- reading

/// A number of at most so many digits, in its range.
fn number<T: TryFrom<u64>>(word: &[u8], digits: usize) -> Option<T> {
    if word.is_empty() || word.len() > digits {
        return None;
    }
    let value = word.iter().try_fold(0, |value, digit| digit.is_ascii_digit().then(|| 10 * value + u64::from(digit - b'0')))?;
    T::try_from(value).ok()
}

fn pairs(word: &[u8]) -> Option<Vec<u8>> {
    if word.is_empty() || word.len() % 2 == 1 {
        return None;
    }
    word.chunks_exact(2).map(|pair| Some(16 * digit(pair[0])? + digit(pair[1])?)).collect()
}

fn octets(word: &[u8]) -> Option<Vec<u8>> {
    if word == b"-" { Some(Vec::new()) } else { pairs(word) }
}

fn address(word: &[u8]) -> Option<[u8; 4]> {
    let mut parts = word.split(|octet| *octet == b'.');
    let mut address = [0; 4];
    for octet in &mut address {
        *octet = number(parts.next()?, 3)?;
    }
    parts.next().is_none().then_some(address)
}

fn terms(words: [&[u8]; 3]) -> Option<Terms> {
    Some(Terms { minutes: number(words[0], 5)?, priority: number(words[1], 5)?, address: address(words[2])? })
}

fn code(word: &[u8]) -> Option<Activation> {
    let code: [u8; 12] = pairs(word)?.try_into().ok()?;
    let two = |at: usize| u16::from_be_bytes([code[at], code[at + 1]]);
    let address = [code[8], code[9], code[10], code[11]];
    Some(Activation { minutes: two(0), priority: code[2], memory: code[3], number: two(4), crc: two(6), address })
}

/// The words of a line's rest, as many as there have to be.
fn words<const N: usize>(rest: &[u8]) -> Option<[&[u8]; N]> {
    let mut found: [&[u8]; N] = [&[]; N];
    let mut words = rest.split(|octet| *octet == b' ');
    for word in &mut found {
        *word = words.next()?;
    }
    words.next().is_none().then_some(found)
}

fn publish(rest: &[u8]) -> Option<Event> {
    let [memory, row, text, owner, beacon, pixel, run, minutes, priority, address] = words(rest)?;
    Some(Event::Publish {
        memory: number(memory, 5)?,
        number: number(row, 5)?,
        text: octets(text)?,
        owner: octets(owner)?,
        beacon: number(beacon, 5)?,
        pixel: number(pixel, 5)?,
        run_priority: number(run, 5)?,
        terms: terms([minutes, priority, address])?,
    })
}

fn blank(rest: &[u8]) -> Option<Event> {
    let [row, minutes, priority, address] = words(rest)?;
    Some(Event::Blank { number: number(row, 5)?, terms: terms([minutes, priority, address])? })
}

fn event(line: &[u8]) -> Option<Event> {
    let Some(space) = line.iter().position(|octet| *octet == b' ') else {
        return match line {
            b"sign-tick" => Some(Event::SignTick),
            b"centre-tick" => Some(Event::CentreTick),
            b"centre-restart" => Some(Event::CentreRestart),
            _ => None,
        };
    };
    let rest = &line[space + 1..];
    match &line[..space] {
        b"to-sign" => Some(Event::ToSign(number(rest, 10)?)),
        b"to-centre" => Some(Event::ToCentre(number(rest, 10)?)),
        b"publish" => publish(rest),
        b"blank" => blank(rest),
        b"activate" => Some(Event::Activate(code(rest)?)),
        _ => None,
    }
}

/// The lines that are not skipped.
fn lines(script: &[u8]) -> impl Iterator<Item = &[u8]> {
    script
        .split(|octet| *octet == b'\n')
        .map(|line| line.strip_suffix(b"\r").unwrap_or(line))
        .filter(|line| !line.is_empty() && !line.starts_with(b"#"))
}

/// The sign of the first lines, and the number of its centre's first request.
fn sign_of<'a>(lines: &mut impl Iterator<Item = &'a [u8]>) -> Option<(Sign, u32)> {
    for fixed in ["size 256 64", "communities public admin"] {
        (lines.next()? == fixed.as_bytes()).then_some(())?;
    }
    let counts = lines.next()?.strip_prefix(b"rows ")?;
    let space = counts.iter().position(|octet| *octet == b' ')?;
    let (changeable, volatile): (u8, u8) = (number(&counts[..space], 5)?, number(&counts[space + 1..], 5)?);
    for fixed in ["order high", "has 1 1", "defaults 0 9 5 5 1 3 2 30 0"] {
        (lines.next()? == fixed.as_bytes()).then_some(())?;
    }
    let first = number(lines.next()?.strip_prefix(b"first ")?, 10)?;
    let (mut permanent, mut text, mut fonts) = (0, Vec::new(), Fonts::default());
    loop {
        let line = lines.next()?;
        if line == b"end" {
            break;
        }
        if let Some(row) = line.strip_prefix(b"permanent ") {
            text = octets(row.split(|octet| *octet == b' ').next()?)?;
            permanent += 1;
        } else {
            fonts.add_line(line)?;
        }
    }
    let sign = Sign::new(Face::with(fonts), &text, permanent, changeable.into(), volatile.into());
    Some((sign, first))
}

fn script(text: &[u8]) -> Option<Script> {
    let mut lines = lines(text);
    let (sign, first) = sign_of(&mut lines)?;
    Some(Script { sign, first, events: lines.map(event).collect::<Option<_>>()? })
}

// ---- running

struct World {
    sign: Sign,
    centre: Centre,
    to_sign: Vec<Vec<u8>>,
    to_centre: Vec<Vec<u8>>,
    accepted: Vec<(usize, [u8; 12])>,
}

fn keep(sent: &mut Vec<Vec<u8>>, out: &Out) {
    if !out.as_slice().is_empty() {
        sent.push(out.as_slice().to_vec());
    }
}

impl World {
    fn new(sign: Sign, first: u32) -> Option<World> {
        let centre = Centre::new(b"admin", Order::High, first)?;
        Some(World { sign, centre, to_sign: Vec::new(), to_centre: Vec::new(), accepted: Vec::new() })
    }

    fn command(&mut self, command: Command<'_>, out: &mut Out) {
        if self.centre.command(command, out).is_ok() {
            keep(&mut self.to_sign, out);
        }
    }

    fn happen(&mut self, number: usize, event: &Event, out: &mut Out) {
        match event {
            Event::Publish { memory, number, text, owner, beacon, pixel, run_priority, terms } => {
                let Terms { minutes, priority, address } = *terms;
                let (memory, number, run_priority) = (*memory, *number, *run_priority);
                let (beacon, pixel) = (*beacon, *pixel);
                self.command(Command::Publish(Publication { memory, number, text, owner, beacon, pixel, run_priority, minutes, priority, address }), out);
            }
            Event::Blank { number, terms: Terms { minutes, priority, address } } => {
                self.command(Command::Blank { number: *number, minutes: *minutes, priority: *priority, address: *address }, out);
            }
            Event::Activate(code) => self.command(Command::Activate(*code), out),
            Event::SignTick => self.sign.tick(),
            Event::CentreTick => {
                self.centre.tick(out);
                keep(&mut self.to_sign, out);
            }
            Event::ToSign(place) => {
                if let Some(datagram) = self.to_sign.get(*place as usize) {
                    self.sign.receive(datagram, out);
                    keep(&mut self.to_centre, out);
                    if let Some(code) = self.sign.newly_accepted() {
                        self.accepted.push((number, code));
                    }
                }
            }
            Event::ToCentre(place) => {
                if let Some(datagram) = self.to_centre.get(*place as usize) {
                    self.centre.receive(datagram, out);
                    keep(&mut self.to_sign, out);
                }
            }
            Event::CentreRestart => self.centre.restart(),
        }
    }
}

fn run(world: &mut World, events: &[Event]) {
    let mut out = Out::new();
    for (index, event) in events.iter().enumerate() {
        world.happen(index + 1, event, &mut out);
    }
}

// ---- the report

/// Writes a word or several, and a number behind them.
fn put_number(report: &mut Vec<u8>, words: &[u8], number: u64) {
    report.extend_from_slice(words);
    let mut digits = [0; 20];
    let mut start = digits.len();
    let mut rest = number;
    loop {
        start -= 1;
        digits[start] = b'0' + (rest % 10) as u8;
        rest /= 10;
        if rest == 0 {
            break;
        }
    }
    report.extend_from_slice(&digits[start..]);
}

fn put_outcome(report: &mut Vec<u8>, outcome: Outcome) {
    match outcome {
        Outcome::Waiting => report.extend_from_slice(b" waiting\n"),
        Outcome::Accepted => report.extend_from_slice(b" accepted\n"),
        Outcome::Refused(status) => report.extend_from_slice(format!(" refused {status}\n").as_bytes()),
        Outcome::NoReply => report.extend_from_slice(b" noreply\n"),
        Outcome::Unknown => report.extend_from_slice(b" unknown\n"),
    }
}

fn report(world: &World, events: usize) -> Vec<u8> {
    let mut report = Vec::new();
    put_number(&mut report, b"events ", events as u64);
    put_number(&mut report, b"\nsent ", world.to_sign.len() as u64);
    put_number(&mut report, b" ", world.to_centre.len() as u64);
    let Shows { source: [memory, high, low, crc @ ..], mode, priority, minutes, text } = world.sign.shows();
    put_number(&mut report, b"\nshown ", memory.into());
    put_number(&mut report, b" ", u16::from_be_bytes([high, low]).into());
    report.push(b' ');
    put_octets(&mut report, &crc);
    put_number(&mut report, b" mode ", mode.into());
    put_number(&mut report, b" priority ", priority.into());
    put_number(&mut report, b" remaining ", minutes.into());
    report.extend_from_slice(if text.is_empty() { b" text -" } else { b" text " });
    put_octets(&mut report, text);
    report.push(b'\n');
    for (number, code) in &world.accepted {
        put_number(&mut report, b"accepted ", *number as u64);
        report.push(b' ');
        put_few(&mut report, code);
        report.push(b'\n');
    }
    for entry in world.centre.ledger() {
        put_number(&mut report, b"ledger ", entry.number.into());
        report.push(b' ');
        put_few(&mut report, &entry.code.to_bytes(Order::High));
        put_outcome(&mut report, entry.outcome);
    }
    report
}

// ---- the measures

fn glance(octets: &[u8], time: u32) -> u64 {
    octets.len() as u64 + u64::from(octets.get(time as usize % 256).copied().unwrap_or(0))
}

pub fn read_times(text: &[u8], times: u32) -> u64 {
    (0..times).fold(0_u64, |sum, _| sum.wrapping_add(script(std::hint::black_box(text)).map_or(0, |script| script.events.len() as u64)))
}

pub fn report_times(text: &[u8], times: u32) -> u64 {
    let Some(Script { sign, first, events }) = script(text) else {
        return 0;
    };
    let Some(mut world) = World::new(sign, first) else {
        return 0;
    };
    run(&mut world, &events);
    let one = |time| glance(&report(std::hint::black_box(&world), events.len()), time);
    (0..times).fold(0_u64, |sum, time| sum.wrapping_add(one(time)))
}

/// The report of a script that is read from a stream: each event is run as its line is read.
pub fn replayed(text: &[u8]) -> Option<Vec<u8>> {
    let mut input = Vec::new();
    let mut reader = std::io::Read::take(std::hint::black_box(text), LONGEST_INPUT as u64 + 1);
    std::io::Read::read_to_end(&mut reader, &mut input).ok()?;
    let mut lines = lines(&input);
    let (sign, first) = sign_of(&mut lines)?;
    let mut world = World::new(sign, first)?;
    let (mut out, mut events) = (Out::new(), 0);
    for line in lines {
        events += 1;
        world.happen(events, &event(line)?, &mut out);
    }
    let mut written = Vec::new();
    std::io::Write::write_all(&mut written, &report(&world, events)).ok()?;
    Some(written)
}

pub fn replay_times(text: &[u8], times: u32) -> u64 {
    (0..times).fold(0_u64, |sum, time| sum.wrapping_add(replayed(text).map_or(0, |report| glance(&report, time))))
}
