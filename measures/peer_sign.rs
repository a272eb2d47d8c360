//! A sign by hand in plain Rust: the same objects, requests, rows, activations and seconds as the proved sign, over the reader and the
//! writer of `peer` and the texts of `peer_text`. Its defaults are those of the face; a SET of them is not among the measures.

use crate::peer::{Bind, Kind, MAX_DATAGRAM, Message, Out, Value, read, size_of_element, size_of_number};
use crate::peer_text::{self, Code, Face};
use std::hint::black_box;

/// The octets that all names begin with, those of dms, 1.3.6.1.4.1.1206.4.2.3.
const DMS: [u8; 10] = [43, 6, 1, 4, 1, 137, 54, 4, 2, 3];

/// Types of memory.
const PERMANENT: u8 = 2;
const CHANGEABLE: u8 = 3;
const VOLATILE: u8 = 4;
const CURRENT_BUFFER: u8 = 5;
const BLANK: u8 = 7;

/// The defaults, in the order of their objects.
const DEFAULTS: [u8; 9] = [0, 9, 5, 5, 1, 3, 2, 30, 0];

/// The groups and numbers of the objects, in their order, the first of them, and that of dmsMessageTable, which stands among them.
const OBJECTS: [(u16, u16); 36] = [
    (2, 3), (2, 4), (4, 1), (4, 2), (4, 3), (4, 4), (4, 5), (4, 6), (4, 7), (4, 8), (4, 9), (4, 11), (5, 1), (5, 2), (5, 3), (5, 4), (5, 5),
    (5, 6), (5, 7), (5, 9), (6, 3), (6, 4), (6, 5), (6, 6), (6, 7), (6, 8), (6, 9), (6, 10), (6, 12), (6, 13), (6, 14), (6, 15), (6, 17),
    (6, 18), (6, 19), (6, 24),
];
const FIRST: Instance = Instance::Object(2, 3);
const TABLE: (u16, u16) = (5, 8);
const BEHIND_TABLE: (u16, u16) = (5, 9);

#[derive(Clone, Copy, PartialEq)]
enum Status {
    NotUsed = 1,
    Modifying,
    Validating,
    Valid,
    Error,
}

#[derive(Clone, Copy)]
enum Ask {
    Modify,
    Validate,
    NotUsed,
}

impl Status {
    fn next(self, ask: Ask) -> Option<Status> {
        match (self, ask) {
            (Status::Validating, _) | (Status::NotUsed, Ask::Validate) => None,
            (_, Ask::Modify) => Some(Status::Modifying),
            (_, Ask::Validate) => Some(Status::Validating),
            (_, Ask::NotUsed) => Some(Status::NotUsed),
        }
    }
}

#[derive(Clone, Copy, PartialEq)]
pub struct RowId {
    memory: u8,
    number: u8,
}

struct Row {
    text: Vec<u8>,
    owner: Vec<u8>,
    beacon: u8,
    pixel: u8,
    priority: u8,
    status: Status,
    checksum: u16,
    /// The defaults under which the text of a valid row was found good.
    under: [u8; 9],
}

impl Row {
    fn unused() -> Row {
        let (text, owner) = (Vec::with_capacity(512), Vec::with_capacity(127));
        Row { text, owner, beacon: 0, pixel: 0, priority: 1, status: Status::NotUsed, checksum: 0, under: DEFAULTS }
    }

    fn permanent(text: &[u8]) -> Row {
        Row { text: text.to_vec(), priority: 100, status: Status::Valid, checksum: crc(text, 0, 0), ..Row::unused() }
    }

    /// What a column from the third on reads.
    #[inline]
    fn column(&self, column: u8) -> Value<'_> {
        match column {
            3 => Value::Octets(&self.text),
            4 => Value::Octets(&self.owner),
            5 if self.status != Status::Valid => integer(0),
            5 => integer(self.checksum.into()),
            6 => integer(self.beacon.into()),
            7 => integer(self.pixel.into()),
            8 => integer(self.priority.into()),
            _ => integer(self.status as usize),
        }
    }
}

/// The rows of a type of memory, and how many of them have each status.
struct Rows {
    rows: Vec<Row>,
    with_status: [usize; 6],
}

impl Rows {
    fn of(rows: Vec<Row>) -> Rows {
        let mut with_status = [0; 6];
        rows.iter().for_each(|row| with_status[row.status as usize] += 1);
        Rows { rows, with_status }
    }

    fn get(&self, number: u8) -> Option<&Row> {
        self.rows.get(usize::from(number).wrapping_sub(1))
    }

    fn count(&self, status: Status) -> usize {
        self.with_status[status as usize]
    }

    /// Has the row enter a status.
    fn enter(&mut self, number: u8, status: Status) {
        if let Some(row) = self.rows.get_mut(usize::from(number).wrapping_sub(1)) {
            self.with_status[row.status as usize] -= 1;
            self.with_status[status as usize] += 1;
            row.status = status;
        }
    }
}

#[derive(Clone, Copy)]
pub enum Instance {
    Object(u8, u8),
    Cell(u8, RowId),
}

/// A name's content octets.
pub struct Name {
    octets: [u8; 17],
    len: usize,
}

impl Name {
    #[inline]
    pub fn of(instance: Instance) -> Name {
        let [a, b, c, d, e, f, g, h, i, j] = DMS;
        let (octets, len) = match instance {
            Instance::Object(group, number) => ([a, b, c, d, e, f, g, h, i, j, group, number, 0, 0, 0, 0, 0], 13),
            Instance::Cell(column, RowId { memory, number: number @ ..128 }) => {
                ([a, b, c, d, e, f, g, h, i, j, 5, 8, 1, column, memory, number, 0], 16)
            }
            Instance::Cell(column, RowId { memory, number }) => {
                ([a, b, c, d, e, f, g, h, i, j, 5, 8, 1, column, memory, 129, number & 127], 17)
            }
        };
        Name { octets, len }
    }

    pub fn content(&self) -> &[u8] {
        &self.octets[..self.len]
    }
}

/// The sub-identifiers of a name.
fn numbers(content: &[u8]) -> impl Iterator<Item = u32> {
    let mut number = 0_u32;
    content.iter().filter_map(move |octet| {
        number = number << 7 | u32::from(octet & 127);
        (*octet < 128).then(|| std::mem::take(&mut number))
    })
}

/// How many rows there are of each type of memory that is stored.
#[derive(Clone, Copy)]
struct Counts {
    permanent: u8,
    changeable: u8,
    volatile: u8,
}

impl Counts {
    /// The last number of a row of a type of memory, or 0.
    #[inline]
    fn last(&self, memory: u8) -> u8 {
        match memory {
            PERMANENT => self.permanent,
            CHANGEABLE => self.changeable,
            VOLATILE => self.volatile,
            CURRENT_BUFFER => 1,
            BLANK => 255,
            _ => 0,
        }
    }

    #[inline]
    fn cell(&self, column: u8, memory: u8, number: u8) -> Option<Instance> {
        let is = (1..=9).contains(&column) && number != 0 && number <= self.last(memory);
        is.then_some(Instance::Cell(column, RowId { memory, number }))
    }

    /// The instance of this name.
    #[inline(always)]
    fn named(&self, content: &[u8]) -> Option<Instance> {
        match *content.strip_prefix(&DMS)? {
            [5, 8, 1, column, memory, number @ ..128] => self.cell(column, memory, number),
            [5, 8, 1, column, memory, 129, number @ ..128] => self.cell(column, memory, number + 128),
            [group, number, 0] => matches!(
                (group, number),
                (2, 3..=4) | (4, 1..=9 | 11) | (5, 1..=7 | 9) | (6, 3..=10 | 12..=15 | 17..=19 | 24)
            )
            .then_some(Instance::Object(group, number)),
            _ => None,
        }
    }

    /// The first instance after this name: where it first differs from the names that there are tells it.
    #[inline]
    fn next(&self, content: &[u8]) -> Option<Instance> {
        let Some(rest) = content.strip_prefix(&DMS) else {
            return self.next_of_others(content);
        };
        match *rest {
            [5, 8, 1, column @ 1..=9, memory @ ..128, number @ ..128] => self.cell_after(column, memory, number),
            [5, 8, 1, column @ 1..=9, memory @ ..128, 129, number @ ..128] => self.cell_after(column, memory, number + 128),
            _ => self.next_below(numbers(rest)),
        }
    }

    fn next_of_others(&self, content: &[u8]) -> Option<Instance> {
        let is_before = numbers(content).lt(numbers(&DMS)) || DMS.starts_with(content);
        is_before.then_some(FIRST)
    }

    fn next_below(&self, mut rest: impl Iterator<Item = u32>) -> Option<Instance> {
        let mut next = || rest.next().map(|number| number.min(255) as u16);
        let group = next().unwrap_or(0);
        let Some(number) = next() else {
            return self.object_from((group, 0));
        };
        match next() {
            None => self.object_from((group, number)),
            Some(0) if (group, number) == TABLE => self.object_from(TABLE),
            Some(1) if (group, number) == TABLE => match next() {
                None | Some(0) => self.object_from(TABLE),
                Some(column @ 1..=9) => self.cell_after(column as u8, next().unwrap_or(0) as u8, next().unwrap_or(0) as u8),
                Some(_) => self.object_from(BEHIND_TABLE),
            },
            Some(_) => self.object_from((group, number + 1)),
        }
    }

    /// The first instance of an object that is not before this one.
    fn object_from(&self, object: (u16, u16)) -> Option<Instance> {
        let place = OBJECTS.partition_point(|before| *before < object);
        match OBJECTS.get(place) {
            Some(&BEHIND_TABLE) if object <= TABLE => self.cell_after(1, 0, 0),
            Some((group, number)) => Some(Instance::Object(*group as u8, *number as u8)),
            None => None,
        }
    }

    /// The first instance after that of this number in a column, whether there is a row of this number or not.
    #[inline]
    fn cell_after(&self, column: u8, memory: u8, number: u8) -> Option<Instance> {
        let (mut memory, mut number) = (memory, number);
        while memory <= BLANK {
            if number < self.last(memory) {
                return Some(Instance::Cell(column, RowId { memory, number: number + 1 }));
            }
            (memory, number) = (memory + 1, 0);
        }
        if column < 9 { self.cell_after(column + 1, 0, 0) } else { self.object_from(BEHIND_TABLE) }
    }
}

struct Shown {
    text: Vec<u8>,
    owner: Vec<u8>,
    beacon: u8,
    pixel: u8,
    priority: u8,
    checksum: u16,
    mode: u8,
    address: [u8; 4],
    remaining: Option<u32>,
}

enum Cause {
    MemoryType,
    Number,
    Status,
    Checksum,
    Priority,
    Syntax(Code, usize),
}

/// What a sign shows, for a report.
pub struct Shows<'a> {
    pub source: [u8; 5],
    pub mode: u8,
    pub priority: u8,
    pub minutes: u32,
    pub text: &'a [u8],
}

pub struct Sign {
    face: Face,
    counts: Counts,
    permanent: Rows,
    changeable: Rows,
    volatile: Rows,
    validating: Option<RowId>,
    shown: Shown,
    source: [u8; 5],
    accepted_code: [u8; 12],
    newly_accepted: Option<[u8; 12]>,
    failed_code: [u8; 12],
    validate_error: u8,
    activate_error: u8,
    syntax_error: u8,
    syntax_error_position: u16,
    /// The codes for a short and a long loss of power, a loss of communications, a loss of power, and the end of a duration.
    fallbacks: [[u8; 5]; 5],
    short_power_loss_time: u16,
    time_comm_loss: u16,
    silent: u32,
    defaults: [u8; 9],
}

/// What a binding of a SET writes.
#[derive(Clone, Copy)]
enum Change<'a> {
    ShortPowerLossTime(u16),
    TimeCommLoss(u16),
    Fallback(usize, [u8; 5]),
    Text(RowId, &'a [u8]),
    Owner(RowId, &'a [u8]),
    Beacon(RowId, u8),
    Pixel(RowId, u8),
    Priority(RowId, u8),
    Ask(RowId, Ask),
    Activate([u8; 12]),
    Remaining(u16),
}

/// A SET is refused at a binding with an error status.
pub struct Refusal {
    pub index: i64,
    pub status: i64,
}

/// A bit for each instance that can be set: eight for a row, in the order of the rows, and those of the objects.
struct Marks([u64; 11]);

impl Marks {
    /// Whether an instance was met before. It is from now on.
    #[inline]
    fn had(&mut self, instance: Instance) -> bool {
        let slot = match instance {
            Instance::Object(_, number) => 640 + usize::from(number),
            Instance::Cell(column, RowId { memory, number }) => {
                8 * (64 * usize::from(memory == VOLATILE) + usize::from(number) - 1) + usize::from(column) - 2
            }
        };
        let (word, bit) = (slot / 64, 1_u64 << (slot % 64));
        let had = self.0[word] & bit != 0;
        self.0[word] |= bit;
        had
    }
}

/// The tag of a Response.
pub const RESPONSE: u8 = 162;

pub const TOO_BIG: i64 = 1;
pub const NO_SUCH_NAME: i64 = 2;
pub const BAD_VALUE: i64 = 3;
pub const GEN_ERR: i64 = 5;

fn number_in(low: u16, high: u16, value: &Value<'_>) -> Option<u16> {
    match *value {
        Value::Integer(number) if (i64::from(low)..=i64::from(high)).contains(&number) => Some(number as u16),
        _ => None,
    }
}

fn octets_in<'a>(most: usize, value: &Value<'a>) -> Option<&'a [u8]> {
    match *value {
        Value::Octets(octets) if octets.len() <= most => Some(octets),
        _ => None,
    }
}

fn code_in<const N: usize>(value: &Value<'_>) -> Option<[u8; N]> {
    octets_in(N, value)?.try_into().ok()
}

impl<'a> Change<'a> {
    /// What a value writes to an instance that can be set: refused where it can't be, none where the value is out of range.
    fn of(instance: Instance, value: &Value<'a>) -> Result<Option<Change<'a>>, NotSettable> {
        Ok(match instance {
            Instance::Object(6, 10) => number_in(0, 65535, value).map(Change::ShortPowerLossTime),
            Instance::Object(6, 13) => number_in(0, 65535, value).map(Change::TimeCommLoss),
            Instance::Object(6, number @ (8 | 9 | 12 | 14 | 15)) => {
                let place = [8, 9, 12, 14, 15].iter().position(|other| *other == number).unwrap_or(0);
                code_in(value).map(|code| Change::Fallback(place, code))
            }
            Instance::Object(6, 3) => code_in(value).map(Change::Activate),
            Instance::Object(6, 4) => number_in(0, 65535, value).map(Change::Remaining),
            Instance::Cell(column, id) if id.memory == CHANGEABLE || id.memory == VOLATILE => match column {
                3 => octets_in(512, value).map(|octets| Change::Text(id, octets)),
                4 => octets_in(127, value).map(|octets| Change::Owner(id, octets)),
                6 => number_in(0, 1, value).map(|on| Change::Beacon(id, on as u8)),
                7 => number_in(0, 1, value).map(|on| Change::Pixel(id, on as u8)),
                8 => number_in(1, 255, value).map(|priority| Change::Priority(id, priority as u8)),
                9 => number_in(6, 8, value).map(|number| {
                    Change::Ask(id, match number {
                        6 => Ask::Modify,
                        7 => Ask::Validate,
                        _ => Ask::NotUsed,
                    })
                }),
                _ => return Err(NotSettable),
            },
            _ => return Err(NotSettable),
        })
    }

    fn is_command(&self) -> bool {
        matches!(self, Change::Ask(..) | Change::Activate(_) | Change::Remaining(_))
    }

    fn row(&self) -> Option<RowId> {
        match *self {
            Change::Text(id, _) | Change::Owner(id, _) | Change::Beacon(id, _) | Change::Pixel(id, _) | Change::Priority(id, _) => Some(id),
            _ => None,
        }
    }
}

struct NotSettable;

const fn remainders() -> [u16; 256] {
    let mut table = [0; 256];
    let mut at = 0;
    while at < 256 {
        let mut register = at as u16;
        let mut bit = 0;
        while bit < 8 {
            register = if register & 1 == 1 { register >> 1 ^ 0x8408 } else { register >> 1 };
            bit += 1;
        }
        table[at] = register;
        at += 1;
    }
    table
}

/// For each octet the remainder of its bits, followed by so many octets of zeros more.
const REMAINDERS: [[u16; 256]; 8] = {
    let mut tables = [remainders(); 8];
    let mut at = 256;
    while at < 2048 {
        let before = tables[at / 256 - 1][at % 256];
        tables[at / 256][at % 256] = tables[0][(before & 255) as usize] ^ before >> 8;
        at += 1;
    }
    tables
};

/// The checksum of a message (ISO/IEC 3309), of its text by eight octets.
pub fn crc(text: &[u8], beacon: u8, pixel: u8) -> u16 {
    let after = |register: u16, octet: &u8| REMAINDERS[0][usize::from(register as u8 ^ octet)] ^ register >> 8;
    let after_eight = |register: u16, [a, b, c, d, e, f, g, h]: &[u8; 8]| {
        let [low, high] = register.to_le_bytes();
        let octets = [low ^ a, high ^ b, *c, *d, *e, *f, *g, *h];
        (0..8).fold(0, |sum, at| sum ^ REMAINDERS[7 - at][usize::from(octets[at])])
    };
    let (eights, rest) = text.as_chunks::<8>();
    let register = eights.iter().fold(u16::MAX, after_eight);
    !rest.iter().chain([&beacon, &pixel]).fold(register, after)
}

/// The number of a fault in dmsMultiSyntaxError.
pub fn syntax_number(code: Code) -> u8 {
    match code {
        Code::Tag => 3,
        Code::Value => 4,
        Code::TooBig => 5,
        Code::NoFont => 6,
        Code::NoCharacter => 7,
        Code::Conflict => 11,
        Code::TooManyPages => 12,
        Code::Version => 13,
    }
}

fn integer<'a>(number: usize) -> Value<'a> {
    Value::Integer(number as i64)
}

impl Sign {
    /// A sign with so many rows, each permanent one with this text.
    pub fn new(face: Face, text: &[u8], permanent: usize, changeable: usize, volatile: usize) -> Sign {
        let rows = |count| Rows::of((0..count).map(|_| Row::unused()).collect());
        let (blank, owner) = (Vec::with_capacity(512), Vec::with_capacity(127));
        let code = [BLANK, 0, 1, 0, 0];
        Sign {
            face,
            counts: Counts { permanent: permanent as u8, changeable: changeable as u8, volatile: volatile as u8 },
            permanent: Rows::of((0..permanent).map(|_| Row::permanent(text)).collect()),
            changeable: rows(changeable),
            volatile: rows(volatile),
            validating: None,
            shown: Shown {
                text: blank,
                owner,
                beacon: 0,
                pixel: 0,
                priority: 1,
                checksum: 0,
                mode: 10,
                address: [0; 4],
                remaining: None,
            },
            source: code,
            accepted_code: [0; 12],
            newly_accepted: None,
            failed_code: [0; 12],
            validate_error: 2,
            activate_error: 2,
            syntax_error: 2,
            syntax_error_position: 0,
            fallbacks: [code; 5],
            short_power_loss_time: 0,
            time_comm_loss: 0,
            silent: 0,
            defaults: DEFAULTS,
        }
    }

    /// A row that is stored.
    #[inline]
    fn row(&self, id: RowId) -> Option<&Row> {
        match id.memory {
            PERMANENT => self.permanent.get(id.number),
            CHANGEABLE => self.changeable.get(id.number),
            VOLATILE => self.volatile.get(id.number),
            _ => None,
        }
    }

    /// The rows that can be written of this type of memory.
    #[inline]
    fn written(&mut self, memory: u8) -> Option<&mut Rows> {
        match memory {
            CHANGEABLE => Some(&mut self.changeable),
            VOLATILE => Some(&mut self.volatile),
            _ => None,
        }
    }

    fn row_mut(&mut self, id: RowId) -> Option<&mut Row> {
        self.written(id.memory)?.rows.get_mut(usize::from(id.number).wrapping_sub(1))
    }

    #[inline]
    fn cell(&self, column: u8, id: RowId) -> Option<Value<'_>> {
        match (column, id.memory) {
            (1, memory) => Some(integer(memory.into())),
            (2, _) => Some(integer(id.number.into())),
            (_, BLANK) => Some(blank_cell(column, id.number)),
            (_, CURRENT_BUFFER) => Some(self.shown.column(column)),
            _ => self.row(id).map(|row| row.column(column)),
        }
    }

    #[inline(always)]
    pub fn value(&self, instance: Instance) -> Option<Value<'_>> {
        match instance {
            Instance::Object(group, number) => self.object(group, number),
            Instance::Cell(column, id) => self.cell(column, id),
        }
    }

    fn object(&self, group: u8, number: u8) -> Option<Value<'_>> {
        Some(match (group, number) {
            (2, 3) => integer(64),
            (2, 4) => integer(256),
            (4, 11) => integer(3),
            (4, number) => integer(usize::from(self.defaults[usize::from(number) - 1])),
            (5, 1) => integer(self.permanent.rows.len()),
            (5, 2) => integer(self.changeable.count(Status::Valid)),
            (5, 3) => integer(self.changeable.rows.len()),
            (5, 4) => integer(512 * self.changeable.count(Status::NotUsed)),
            (5, 5) => integer(self.volatile.count(Status::Valid)),
            (5, 6) => integer(self.volatile.rows.len()),
            (5, 7) => integer(512 * self.volatile.count(Status::NotUsed)),
            (5, 9) => integer(self.validate_error.into()),
            (6, 3) => Value::Octets(&self.accepted_code),
            (6, 4) => integer(self.shown.remaining.map_or(65535, |seconds| seconds.div_ceil(60)) as usize),
            (6, 5) => Value::Octets(&self.source),
            (6, 6) => Value::Address(self.shown.address),
            (6, 7) => integer(self.shown.mode.into()),
            (6, 8) => Value::Octets(&self.fallbacks[0]),
            (6, 9) => Value::Octets(&self.fallbacks[1]),
            (6, 10) => integer(self.short_power_loss_time.into()),
            (6, 12) => Value::Octets(&self.fallbacks[2]),
            (6, 13) => integer(self.time_comm_loss.into()),
            (6, 14) => Value::Octets(&self.fallbacks[3]),
            (6, 15) => Value::Octets(&self.fallbacks[4]),
            (6, 17) => integer(self.activate_error.into()),
            (6, 18) => integer(self.syntax_error.into()),
            (6, 19) => integer(self.syntax_error_position.into()),
            (6, 24) => Value::Octets(&self.failed_code),
            _ => return None,
        })
    }

    /// What is shown.
    pub fn shows(&self) -> Shows<'_> {
        let Shown { mode, priority, ref text, remaining, .. } = self.shown;
        Shows { source: self.source, mode, priority, minutes: remaining.map_or(65535, |seconds| seconds.div_ceil(60)), text }
    }

    /// The code that was accepted since this was last asked, if any.
    pub fn newly_accepted(&mut self) -> Option<[u8; 12]> {
        self.newly_accepted.take()
    }

    /// What a name reads.
    #[inline]
    pub fn reads(&self, name: &[u8]) -> Option<Value<'_>> {
        self.value(self.counts.named(name)?)
    }

    /// The instance that comes after a name.
    #[inline]
    pub fn next(&self, name: &[u8]) -> Option<Instance> {
        self.counts.next(name)
    }

    /// A request was answered.
    pub fn was_heard(&mut self) {
        self.silent = 0;
    }

    /// Handles a datagram; whether there is a reply, in `out`.
    pub fn receive(&mut self, datagram: &[u8], out: &mut Out) -> bool {
        out.clear();
        let Ok(message) = read(datagram) else {
            return false;
        };
        let may_write = message.community == b"admin";
        if !may_write && message.community != b"public" {
            return false;
        }
        match message.kind {
            Kind::Response => return false,
            Kind::Get => self.read_values(&message, false, out),
            Kind::GetNext => self.read_values(&message, true, out),
            Kind::Set => match self.set(may_write, &message) {
                Ok(()) => repeat(&message, 0, 0, out),
                Err(refusal) => repeat(&message, refusal.status, refusal.index, out),
            },
        }
        self.silent = 0;
        true
    }

    #[inline(always)]
    fn read_values(&self, message: &Message<'_>, next: bool, out: &mut Out) {
        let most = MAX_DATAGRAM.saturating_sub(room_before(message));
        let mut fits = true;
        let mut index = 0;
        for content in message.binds.names() {
            index += 1;
            let instance = if next { self.counts.next(content) } else { self.counts.named(content) };
            let Some(instance) = instance else {
                return repeat(message, NO_SUCH_NAME, index, out);
            };
            if !fits {
                continue;
            }
            let Some(value) = self.value(instance) else {
                return repeat(message, NO_SUCH_NAME, index, out);
            };
            fits = if next {
                out.push(Name::of(instance).content(), &value, most)
            } else {
                out.push(content, &value, most)
            };
        }
        if !fits || !out.finish(message.community, RESPONSE, message.request, 0, 0) {
            repeat(message, TOO_BIG, 0, out);
        }
    }

    #[inline]
    fn change_at<'a>(&self, marks: &mut Marks, commanded: bool, bind: &Bind<'a>) -> Result<Change<'a>, i64> {
        let instance = self.counts.named(bind.name.content).ok_or(NO_SUCH_NAME)?;
        let change = Change::of(instance, &bind.value).or(Err(NO_SUCH_NAME))?.ok_or(BAD_VALUE)?;
        let is_among = marks.had(instance);
        let is_refused = change.row().is_some_and(|id| self.row(id).is_none_or(|row| row.status != Status::Modifying));
        if is_among || commanded && change.is_command() || is_refused {
            return Err(GEN_ERR);
        }
        Ok(change)
    }

    pub fn set(&mut self, may_write: bool, message: &Message<'_>) -> Result<(), Refusal> {
        let mut command = None;
        let mut only = None;
        let mut marks = Marks([0; 11]);
        let mut met = 0;
        for bind in message.binds {
            met += 1;
            let index = met;
            let change = if may_write { self.change_at(&mut marks, command.is_some(), &bind) } else { Err(NO_SUCH_NAME) };
            match change {
                Ok(change) if change.is_command() => command = Some((index, change)),
                Ok(change) => only = Some(change),
                Err(status) => return Err(Refusal { index, status }),
            }
        }
        let Some((index, command)) = command else {
            match only {
                Some(change) if met == 1 => self.change(change),
                _ => self.assign(message),
            }
            return Ok(());
        };
        let refused = Err(Refusal { index, status: GEN_ERR });
        let alone = met == 1;
        let assign = |sign: &mut Sign| {
            if !alone {
                sign.assign(message);
            }
        };
        match command {
            Change::Ask(id, ask) => {
                let status = self.row(id).and_then(|row| row.status.next(ask));
                let Some(status) = status.filter(|status| *status != Status::Validating || self.validating.is_none()) else {
                    return refused;
                };
                assign(self);
                self.enter(id, status);
            }
            Change::Activate(code) => {
                let id = [code[3], code[4], code[5], code[6], code[7]];
                match self.decide(id, code[2]) {
                    Ok(row) => {
                        assign(self);
                        self.show(row, id, 8);
                        self.shown.address = [code[8], code[9], code[10], code[11]];
                        self.shown.remaining = seconds(u16::from_be_bytes([code[0], code[1]]));
                        self.activate_error = 2;
                        self.accepted_code = code;
                        self.newly_accepted = Some(code);
                    }
                    Err(cause) => {
                        self.refuse(cause, code);
                        return refused;
                    }
                }
            }
            Change::Remaining(minutes) => {
                assign(self);
                match minutes {
                    0 => self.put_up(self.fallbacks[4], 14),
                    _ => self.shown.remaining = seconds(minutes),
                }
            }
            _ => {}
        }
        Ok(())
    }

    fn assign(&mut self, message: &Message<'_>) {
        for bind in message.binds {
            if let Some(Ok(Some(change))) = self.counts.named(bind.name.content).map(|instance| Change::of(instance, &bind.value)) {
                self.change(change);
            }
        }
    }

    fn change(&mut self, change: Change<'_>) {
        match change {
            Change::ShortPowerLossTime(number) => self.short_power_loss_time = number,
            Change::TimeCommLoss(number) => self.time_comm_loss = number,
            Change::Fallback(place, code) => self.fallbacks[place] = code,
            _ => {
                let Some(row) = change.row().and_then(|id| self.row_mut(id)) else {
                    return;
                };
                match change {
                    Change::Text(_, octets) => replace(&mut row.text, octets),
                    Change::Owner(_, octets) => replace(&mut row.owner, octets),
                    Change::Beacon(_, on) => row.beacon = on,
                    Change::Pixel(_, on) => row.pixel = on,
                    Change::Priority(_, priority) => row.priority = priority,
                    _ => {}
                }
            }
        }
    }

    fn enter(&mut self, id: RowId, status: Status) {
        if status == Status::Validating {
            self.validating = Some(id);
        }
        let Some(rows) = self.written(id.memory) else {
            return;
        };
        rows.enter(id.number, status);
        if status == Status::NotUsed
            && let Some(row) = self.row_mut(id)
        {
            row.text.clear();
            row.owner.clear();
            (row.beacon, row.pixel, row.priority) = (0, 0, 1);
        }
    }

    /// The row that a code puts up.
    fn decide(&self, code: [u8; 5], priority: u8) -> Result<RowId, Cause> {
        let [memory, high, number, rest @ ..] = code;
        if !matches!(memory, 2..=5 | 7) {
            return Err(Cause::MemoryType);
        }
        if high != 0 || number == 0 || number > self.counts.last(memory) {
            return Err(Cause::Number);
        }
        let id = RowId { memory, number };
        let row = self.row(id);
        if row.is_some_and(|row| row.status != Status::Valid) {
            return Err(Cause::Status);
        }
        let checksum = row.map_or(self.shown.checksum, |row| row.checksum);
        if memory != BLANK && u16::from_be_bytes(rest) != checksum {
            return Err(Cause::Checksum);
        }
        if priority < self.shown.priority {
            return Err(Cause::Priority);
        }
        if let Some(row) = row
            && row.under != self.defaults
        {
            peer_text::check(&self.face, &row.text).map_err(|(code, place)| Cause::Syntax(code, place))?;
        }
        Ok(id)
    }

    fn refuse(&mut self, cause: Cause, code: [u8; 12]) {
        self.failed_code = code;
        self.activate_error = match cause {
            Cause::Priority => 3,
            Cause::Status => 4,
            Cause::MemoryType => 5,
            Cause::Number => 6,
            Cause::Checksum => 7,
            Cause::Syntax(code, place) => {
                self.syntax_error = syntax_number(code);
                self.syntax_error_position = place as u16;
                8
            }
        };
    }

    fn show(&mut self, id: RowId, code: [u8; 5], mode: u8) {
        self.shown.mode = mode;
        self.shown.address = [0; 4];
        self.shown.remaining = None;
        let row = match id.memory {
            PERMANENT => self.permanent.get(id.number),
            CHANGEABLE => self.changeable.get(id.number),
            VOLATILE => self.volatile.get(id.number),
            BLANK => {
                self.shown.text.clear();
                self.shown.owner.clear();
                (self.shown.beacon, self.shown.pixel, self.shown.priority, self.shown.checksum) = (0, 0, id.number, 0);
                self.source = code;
                return;
            }
            _ => return,
        };
        let Some(row) = row else {
            return;
        };
        replace(&mut self.shown.text, &row.text);
        replace(&mut self.shown.owner, &row.owner);
        (self.shown.beacon, self.shown.pixel, self.shown.priority, self.shown.checksum) = (row.beacon, row.pixel, row.priority, row.checksum);
        self.source = code;
    }

    fn put_up(&mut self, code: [u8; 5], mode: u8) {
        if code[0] == CURRENT_BUFFER {
            self.shown.mode = mode;
            self.shown.remaining = None;
            return;
        }
        match self.decide(code, 255) {
            Ok(id) => self.show(id, code, mode),
            Err(cause) => {
                self.show(RowId { memory: BLANK, number: 1 }, [BLANK, 0, 1, 0, 0], mode);
                let mut failed = [255, 255, 255, 0, 0, 0, 0, 0, 0, 0, 0, 0];
                failed[3..8].copy_from_slice(&code);
                self.refuse(cause, failed);
            }
        }
    }

    /// A second passes.
    pub fn tick(&mut self) {
        if let Some(id) = self.validating.take() {
            self.settle(id);
        }
        match self.shown.remaining {
            None => {}
            Some(..=1) => self.put_up(self.fallbacks[4], 14),
            Some(seconds) => self.shown.remaining = Some(seconds - 1),
        }
        let longest = 60 * u32::from(self.time_comm_loss);
        if self.silent < longest {
            self.silent += 1;
            if self.silent == longest {
                self.put_up(self.fallbacks[2], 12);
            }
        }
    }

    /// Validates a row. (The sign has beacons and a pixel service.)
    fn settle(&mut self, id: RowId) {
        let under = self.defaults;
        let Some(row) = self.row(id) else {
            return;
        };
        let checked = peer_text::check(&self.face, &row.text);
        let checksum = if checked.is_ok() { crc(&row.text, row.beacon, row.pixel) } else { 0 };
        (self.validate_error, self.syntax_error, self.syntax_error_position) = match checked {
            Ok(_) => (2, 2, 0),
            Err((code, place)) => (5, syntax_number(code), place as u16),
        };
        if let Some(rows) = self.written(id.memory) {
            rows.enter(id.number, if checked.is_ok() { Status::Valid } else { Status::Error });
        }
        if let Some(row) = self.row_mut(id) {
            (row.under, row.checksum) = (under, checksum);
        }
    }
}

/// What a column from the third on reads of a blank message.
fn blank_cell<'a>(column: u8, number: u8) -> Value<'a> {
    match column {
        3 | 4 => Value::Octets(&[]),
        8 => integer(number.into()),
        9 => integer(Status::Valid as usize),
        _ => integer(0),
    }
}

impl Shown {
    /// What a column from the third on reads of the current buffer.
    fn column(&self, column: u8) -> Value<'_> {
        match column {
            3 => Value::Octets(&self.text),
            4 => Value::Octets(&self.owner),
            5 => integer(self.checksum.into()),
            6 => integer(self.beacon.into()),
            7 => integer(self.pixel.into()),
            8 => integer(self.priority.into()),
            _ => integer(Status::Valid as usize),
        }
    }
}

fn seconds(minutes: u16) -> Option<u32> {
    (minutes != u16::MAX).then_some(60 * u32::from(minutes))
}

fn replace(octets: &mut Vec<u8>, by: &[u8]) {
    octets.clear();
    octets.extend_from_slice(by);
}

/// The octets of a response to this before its bindings, where these are many.
#[inline]
pub fn room_before(message: &Message<'_>) -> usize {
    4 + 3 + size_of_element(message.community.len()) + 4 + size_of_element(size_of_number(message.request)) + 6 + 4
}

/// Writes the bindings of a request: as they lie in its datagram where each length is the shortest.
fn put_bindings(message: &Message<'_>, out: &mut Out) {
    out.clear();
    if message.is_shortest {
        out.extend(message.binds.content);
    } else {
        for bind in message.binds {
            out.push(bind.name.content, &bind.value, MAX_DATAGRAM);
        }
    }
}

/// A reply with the request's bindings.
pub fn repeat(message: &Message<'_>, status: i64, index: i64, out: &mut Out) {
    put_bindings(message, out);
    if !out.finish(message.community, RESPONSE, message.request, status, index) {
        put_bindings(message, out);
        out.finish(message.community, RESPONSE, message.request, TOO_BIG, 0);
    }
}

fn played(sign: &mut Sign, script: &[u8], place: u32, out: &mut Out) -> u64 {
    let mut sum = 0_u64;
    let mut place = place as usize;
    let mut left = black_box(script);
    while let [high, low, rest @ ..] = left {
        let size = usize::from(u16::from_be_bytes([*high, *low]));
        let Some((datagram, rest)) = rest.split_at_checked(size) else {
            break;
        };
        if datagram.is_empty() {
            sign.tick();
        } else {
            sign.receive(datagram, out);
            let written = out.as_slice();
            let octet = written.get(place % MAX_DATAGRAM).copied().unwrap_or(0);
            sum = sum.wrapping_add(written.len() as u64 + u64::from(octet));
            place = place.wrapping_add(1);
        }
        left = rest;
    }
    sum
}

/// Hands a new sign the script `before` once and then `script` `times` times, as `dms_measures_sign`.
pub fn sign_times(mut sign: Sign, before: &[u8], script: &[u8], times: u32) -> u64 {
    let mut out = Out::new();
    let mut sum = played(&mut sign, before, 0, &mut out);
    for time in 0..times {
        sum = sum.wrapping_add(played(&mut sign, script, time, &mut out));
    }
    sum
}
