//! Measures of the sign, beside the same of `peer_sign`: scripts of datagrams and seconds, on a sign with few rows and on one with the most.

use crate::answers;
use crate::peer::{Bind, Kind, MessageParts, Oid, Out, Value, read, write};
use crate::peer_sign::{Sign, crc, sign_times};
use crate::peer_text::Face;
use std::rc::Rc;

/// The text of each permanent row.
const PERMANENT_TEXT: &[u8] = b"ROAD CLOSED";

/// The numbers of permanent, changeable and volatile rows of the two signs.
const FEW: (usize, usize, usize) = (1, 2, 1);
pub const MOST: (usize, usize, usize) = (16, 64, 16);

#[link(name = "dms_measures", kind = "static")]
unsafe extern "C" {
    fn dms_answers_sign(
        fonts: *const u8,
        fonts_size: usize,
        before: *const u8,
        before_size: usize,
        script: *const u8,
        script_size: usize,
        changeable: u32,
    ) -> u64;

    #[allow(clippy::too_many_arguments)]
    fn dms_measures_sign(
        fonts: *const u8,
        fonts_size: usize,
        before: *const u8,
        before_size: usize,
        script: *const u8,
        script_size: usize,
        changeable: u32,
        times: u32,
    ) -> u64;
}

/// The first row of changeable memory, which the measures write.
pub const ROW: (u8, u8) = (3, 1);

/// What the columns of a row are, from 1 on.
const COLUMNS: [&str; 9] = [
    "a type of memory", "a number", "a text of 512 octets", "an owner", "a checksum", "a beacon", "a pixel service", "a priority", "a status",
];

const TEXT: u8 = 3;
pub const STATUS: u8 = 9;

/// A second in a script.
const TICK: Vec<u8> = Vec::new();

fn object(group: u8, number: u8) -> Vec<u8> {
    vec![43, 6, 1, 4, 1, 137, 54, 4, 2, 3, group, number, 0]
}

pub fn cell(column: u8, (memory, number): (u8, u8)) -> Vec<u8> {
    let mut name = vec![43, 6, 1, 4, 1, 137, 54, 4, 2, 3, 5, 8, 1, column, memory];
    match number {
        0..128 => name.push(number),
        _ => name.extend([129, number - 128]),
    }
    name
}

fn datagram(kind: Kind, community: &[u8], bindings: &[(Vec<u8>, Value<'_>)]) -> Vec<u8> {
    let binds: Vec<Bind<'_>> = bindings.iter().map(|(content, value)| Bind { name: Oid { content }, value: *value }).collect();
    let mut out = Out::new();
    let written = write(&MessageParts { community, kind, request: 12_345, status: 0, index: 0, binds: &binds }, &mut out);
    assert!(written.is_ok());
    out.as_slice().to_vec()
}

pub fn asking(kind: Kind, names: &[Vec<u8>]) -> Vec<u8> {
    let bindings: Vec<_> = names.iter().map(|name| (name.clone(), Value::Null)).collect();
    datagram(kind, b"public", &bindings)
}

pub fn setting(bindings: &[(Vec<u8>, Value<'_>)]) -> Vec<u8> {
    datagram(Kind::Set, b"admin", bindings)
}

fn status_of(row: (u8, u8), number: i64) -> Vec<u8> {
    setting(&[(cell(STATUS, row), Value::Integer(number))])
}

/// The five fields of the first changeable row.
fn fields(text: &[u8]) -> Vec<u8> {
    setting(&[
        (cell(TEXT, ROW), Value::Octets(text)),
        (cell(4, ROW), Value::Octets(b"traffic centre")),
        (cell(6, ROW), Value::Integer(1)),
        (cell(7, ROW), Value::Integer(0)),
        (cell(8, ROW), Value::Integer(200)),
    ])
}

fn activation((memory, number): (u8, u8), checksum: u16) -> Vec<u8> {
    let [high, low] = checksum.to_be_bytes();
    setting(&[(object(6, 3), Value::Octets(&[255, 255, 255, memory, 0, number, high, low, 192, 0, 2, 1]))])
}

/// Beacon, pixel service and priority of twenty changeable rows.
fn sixty_fields() -> Vec<u8> {
    let names = (1..=20).flat_map(|number| [6, 7, 8].map(|column| (cell(column, (3, number)), Value::Integer(1))));
    setting(&names.collect::<Vec<_>>())
}

/// GetNext by GetNext from 0.0 on, until no instance is left.
fn walk(sign: &mut Sign) -> Vec<Vec<u8>> {
    let mut steps = Vec::new();
    let mut name = vec![0];
    let mut out = Out::new();
    loop {
        let step = asking(Kind::GetNext, &[name]);
        sign.receive(&step, &mut out);
        steps.push(step);
        match read(out.as_slice()) {
            Ok(mut reply) if reply.status == 0 => name = reply.binds.next().map_or_else(Vec::new, |bind| bind.name.content.to_vec()),
            _ => return steps,
        }
    }
}

/// What is measured: what the sign is handed once, and then each time, and the error status of the last reply.
struct Measure {
    name: String,
    before: Vec<Vec<u8>>,
    script: Vec<Vec<u8>>,
    status: i64,
}

fn measure(name: &str, before: &[Vec<u8>], script: Vec<Vec<u8>>) -> Measure {
    Measure { name: name.to_string(), before: before.to_vec(), script, status: 0 }
}

impl Measure {
    /// The same, with another error status at its end.
    fn ending(self, status: i64) -> Measure {
        Measure { status, ..self }
    }

    /// The error status of the last reply of a sign that is handed this.
    fn last_status(&self, sign: &mut Sign) -> i64 {
        let mut out = Out::new();
        let mut status = 0;
        for datagram in self.before.iter().chain(&self.script) {
            if datagram.is_empty() {
                sign.tick();
            } else if sign.receive(datagram, &mut out) {
                status = read(out.as_slice()).map_or(-1, |reply| reply.status);
            }
        }
        status
    }
}

fn measures(text: &[u8], most: bool, sign: &mut Sign) -> Vec<Measure> {
    let one = |kind, name| vec![asking(kind, &[name])];
    let rows = [(2, 1), (3, 1), (3, 2), (4, 1), (5, 1), (7, 1)];
    let thirty: Vec<_> = rows.iter().flat_map(|row| [5, 6, 7, 8, 9].map(|column| cell(column, *row))).collect();
    let modified = [status_of(ROW, 6)];
    let written = [status_of(ROW, 6), fields(text)];
    let valid = [status_of(ROW, 6), fields(text), status_of(ROW, 7), TICK];
    let up = [&valid[..], &[activation(ROW, crc(text, 1, 0))]].concat();
    let mut measures: Vec<_> = COLUMNS.iter().zip(1..).map(|(column, number)| {
        measure(&format!("Get of {column}"), &valid, one(Kind::Get, cell(number, ROW)))
    }).collect();
    measures.extend([
        measure("Get of the checksum shown", &up, one(Kind::Get, cell(5, (5, 1)))),
        measure("Get of one", &[], one(Kind::Get, cell(STATUS, ROW))),
        measure("Get of 30", &[], vec![asking(Kind::Get, &thirty)]),
        measure("Get of the count of valid rows", &[], one(Kind::Get, object(5, 2))),
        measure("GetNext at the front", &[], one(Kind::GetNext, vec![0])),
        measure("GetNext in the table", &[], one(Kind::GetNext, cell(TEXT, ROW))),
        measure("GetNext between rows", &[], one(Kind::GetNext, cell(TEXT, (3, 200)))),
        measure("GetNext past the last row", &[], one(Kind::GetNext, cell(STATUS, (7, 255)))),
        measure("a whole walk by GetNext", &[], walk(sign)).ending(2),
        measure("SET of one number", &[], vec![setting(&[(object(6, 10), Value::Integer(60))])]),
        measure("SET of five fields", &modified, vec![fields(text)]),
        measure("modifyReq", &written, vec![status_of(ROW, 6)]),
        measure("modifyReq, validateReq, tick", &written, vec![status_of(ROW, 6), status_of(ROW, 7), TICK]),
        measure("activation, 11 octets", &[], vec![activation((2, 1), crc(PERMANENT_TEXT, 0, 0))]),
        measure("activation, 512 octets", &valid, vec![activation(ROW, crc(text, 1, 0))]),
        measure("activation refused, checksum", &valid, vec![activation(ROW, !crc(text, 1, 0))]).ending(5),
        measure("tick with nothing to do", &[], vec![TICK]),
    ]);
    if most {
        let modified: Vec<_> = (1..=20).map(|number| status_of((3, number), 6)).collect();
        measures.push(measure("SET of 60 fields", &modified, vec![sixty_fields()]));
    }
    measures
}

/// A script's octets: the size of each datagram in two octets, and the datagram.
pub fn script_of(datagrams: &[Vec<u8>]) -> Vec<u8> {
    datagrams.iter().flat_map(|datagram| [&(datagram.len() as u16).to_be_bytes()[..], datagram].concat()).collect()
}

pub fn sign_of(fonts: &str, (permanent, changeable, volatile): (usize, usize, usize)) -> Sign {
    let face = Face::largest(fonts).expect("fonts");
    Sign::new(face, PERMANENT_TEXT, permanent, changeable, volatile)
}

/// A script for a sign with so many rows: what it is handed once, and then each time.
struct Script {
    fonts: String,
    before: Vec<u8>,
    each: Vec<u8>,
    rows: (usize, usize, usize),
}

/// The measure of a script on a sign with so many rows, the proved one and that by hand.
fn compared(measure: Measure, fonts: &str, rows: (usize, usize, usize)) -> crate::Measure {
    let [before, each] = [script_of(&measure.before), script_of(&measure.script)];
    let script = Rc::new(Script { fonts: fonts.to_string(), before, each, rows });
    let [first, second, third] = [script.clone(), script.clone(), script.clone()];
    let proved = move |times| unsafe {
        let Script { fonts, before, each, rows } = &*script;
        let changeable = rows.1 as u32;
        dms_measures_sign(fonts.as_ptr(), fonts.len(), before.as_ptr(), before.len(), each.as_ptr(), each.len(), changeable, times)
    };
    let by_hand = move |times| sign_times(sign_of(&first.fonts, first.rows), &first.before, &first.each, times);
    let answered = move || unsafe {
        let Script { fonts, before, each, rows } = &*second;
        dms_answers_sign(fonts.as_ptr(), fonts.len(), before.as_ptr(), before.len(), each.as_ptr(), each.len(), rows.1 as u32)
    };
    let name = measure.name.clone();
    let answered_by_hand = move || {
        let sign = || sign_of(&third.fonts, third.rows);
        assert_eq!(measure.last_status(&mut sign()), measure.status, "{} with {:?}", measure.name, third.rows);
        answers::answered(sign(), &third.before, &third.each)
    };
    crate::Measure::new(name, proved, by_hand).answering(answered, answered_by_hand)
}

/// What is measured at four sizes: of texts, of requests, and of the numbers of rows.
fn grown(texts: &[Vec<u8>; 4]) -> Vec<Measure> {
    let mut measures = Vec::new();
    for text in texts {
        let size = text.len();
        let written = [status_of(ROW, 6), fields(text)];
        let valid = [&written[..], &[status_of(ROW, 7), TICK]].concat();
        let sized = |what: &str, before: &[Vec<u8>], script| measure(&format!("{what}, {size} octets"), before, script);
        measures.push(sized("Get of a text", &valid, vec![asking(Kind::Get, &[cell(TEXT, ROW)])]));
        measures.push(sized("SET of five fields", &written[..1], vec![fields(text)]));
        measures.push(sized("validation", &written, vec![status_of(ROW, 6), status_of(ROW, 7), TICK]));
        measures.push(sized("activation", &valid, vec![activation(ROW, crc(text, 1, 0))]));
    }
    for count in [1, 8, 16, 32] {
        let names: Vec<_> = (1..=count).map(|number| cell(STATUS, (7, number))).collect();
        measures.push(measure(&format!("Get of {count} names"), &[], vec![asking(Kind::Get, &names)]));
        measures.push(measure(&format!("GetNext of {count} names"), &[], vec![asking(Kind::GetNext, &names)]));
    }
    for number in [1, 85, 170, 255] {
        measures.push(measure(&format!("Get of blank row {number}"), &[], vec![asking(Kind::Get, &[cell(STATUS, (7, number))])]));
        measures.push(measure(&format!("GetNext of blank row {number}"), &[], vec![asking(Kind::GetNext, &[cell(STATUS, (7, number))])]));
    }
    measures.sort_by_key(|measure| measure.name.split_once(|letter: char| letter.is_ascii_digit()).map(|parts| parts.0.to_string()));
    measures
}

/// How the times of the bench sign grow.
pub fn growth(fonts: &str, texts: &[Vec<u8>; 4]) -> Vec<crate::Measure> {
    grown(texts).into_iter().map(|measure| compared(measure, fonts, FEW)).collect()
}

/// The sign with few rows.
pub fn few(fonts: &str, text: &[u8]) -> Vec<crate::Measure> {
    let measures = measures(text, false, &mut sign_of(fonts, FEW));
    measures.into_iter().map(|measure| compared(measure, fonts, FEW)).collect()
}

/// The sign with the most.
pub fn most(fonts: &str, text: &[u8]) -> Vec<crate::Measure> {
    let measures = measures(text, true, &mut sign_of(fonts, MOST));
    measures.into_iter().map(|measure| compared(measure, fonts, MOST)).collect()
}
