//! The same measures over a central system that is written by hand in plain Rust: the same commands, jobs, resends and ledger as
//! dms_centre's, over the reader and the writer of `peer`. It keeps the operator's message and the request that waits in place, takes
//! a checksum once a job, and has the octets of most bindings that it asks with at hand.

#![forbid(unsafe_code)]

pub use centre::{Centre, Command, Ended, Outcome, Publication};
pub use codes::{Activation, Order};
pub use measures::{REQUESTS, new_centre, publication, replies_to};
pub use measures::{command_times, foreign_times, publication_times, resend_times, ticks_times};

mod codes {
    pub const CHANGEABLE: u8 = 3;
    pub const VOLATILE: u8 = 4;
    pub const BLANK: u8 = 7;

    #[derive(Clone, Copy)]
    #[allow(dead_code, reason = "the measured sign has the high octet first")]
    pub enum Order {
        High,
        Swapped,
    }

    #[derive(Clone, Copy)]
    pub struct Activation {
        pub minutes: u16,
        pub priority: u8,
        pub memory: u8,
        pub number: u16,
        pub crc: u16,
        pub address: [u8; 4],
    }

    impl Activation {
        pub fn to_bytes(self, order: Order) -> [u8; 12] {
            let [m0, m1] = self.minutes.to_be_bytes();
            let [n0, n1] = self.number.to_be_bytes();
            let [c0, c1] = in_order(self.crc, order).to_be_bytes();
            let [a, b, c, d] = self.address;
            [m0, m1, self.priority, self.memory, n0, n1, c0, c1, a, b, c, d]
        }
    }

    pub fn in_order(crc: u16, order: Order) -> u16 {
        match order {
            Order::High => crc,
            Order::Swapped => crc.swap_bytes(),
        }
    }

    const REMAINDERS: [u16; 256] = remainders();

    const fn remainders() -> [u16; 256] {
        let mut table = [0; 256];
        let mut index = 0;
        while index < 256 {
            let mut register = index as u16;
            let mut bit = 0;
            while bit < 8 {
                register = if register & 1 == 1 { register >> 1 ^ 0x8408 } else { register >> 1 };
                bit += 1;
            }
            table[index] = register;
            index += 1;
        }
        table
    }

    fn register_after(register: u16, octet: u8) -> u16 {
        REMAINDERS[usize::from(register as u8 ^ octet)] ^ register >> 8
    }

    /// For each octet what it leaves with 0 to 7 octets of zeros after it.
    const BEFORE: [[u16; 256]; 8] = before();

    const fn before() -> [[u16; 256]; 8] {
        let mut tables = [REMAINDERS; 8];
        let mut zeros = 1;
        while zeros < 8 {
            let mut index = 0;
            while index < 256 {
                let register = tables[zeros - 1][index];
                tables[zeros][index] = REMAINDERS[register as usize & 0xff] ^ register >> 8;
                index += 1;
            }
            zeros += 1;
        }
        tables
    }

    pub fn crc(text: &[u8], beacon: u8, pixel: u8) -> u16 {
        let mut eights = text.chunks_exact(8);
        let mut register = u16::MAX;
        for eight in &mut eights {
            let [a, b, c, d, e, f, g, h] = [0, 1, 2, 3, 4, 5, 6, 7].map(|at| usize::from(eight[at]));
            register = BEFORE[7][a ^ usize::from(register & 0xff)]
                ^ BEFORE[6][b ^ usize::from(register >> 8)]
                ^ BEFORE[5][c]
                ^ BEFORE[4][d]
                ^ BEFORE[3][e]
                ^ BEFORE[2][f]
                ^ BEFORE[1][g]
                ^ BEFORE[0][h];
        }
        register = eights.remainder().iter().fold(register, |register, octet| register_after(register, *octet));
        !register_after(register_after(register, beacon), pixel)
    }
}

mod objects {
    use crate::peer::Oid;

    pub const TEXT: u8 = 3;
    pub const OWNER: u8 = 4;
    pub const CRC: u8 = 5;
    pub const BEACON: u8 = 6;
    pub const PIXEL: u8 = 7;
    pub const PRIORITY: u8 = 8;
    pub const STATUS: u8 = 9;

    /// dmsActivateMsgError.
    pub const ACTIVATE_ERROR: Oid<'static> = Oid { content: &[0x2b, 6, 1, 4, 1, 0x89, 0x36, 4, 2, 3, 6, 17, 0] };

    /// The name of a cell of the message table.
    #[derive(Clone, Copy)]
    pub struct Name {
        octets: [u8; 18],
        len: usize,
    }

    impl Name {
        pub fn of_cell(column: u8, memory: u8, number: u16) -> Name {
            let low = (number & 127) as u8;
            let middle = (number >> 7 & 127) as u8;
            let high = (number >> 14) as u8;
            let (number, len) = match (high, middle) {
                (0, 0) => ([low, 0, 0], 16),
                (0, _) => ([middle | 128, low, 0], 17),
                _ => ([high | 128, middle | 128, low], 18),
            };
            let [a, b, c] = number;
            Name { octets: [0x2b, 6, 1, 4, 1, 0x89, 0x36, 4, 2, 3, 5, 8, 1, column, memory, a, b, c], len }
        }

        pub fn oid(&self) -> Oid<'_> {
            Oid { content: &self.octets[..self.len] }
        }
    }
}

mod centre {
    use super::codes::*;
    use super::objects::{self, Name};
    use crate::peer::{Bind, Binds, Kind, MAX_DATAGRAM, MessageParts, Oid, Out, Value, read, write};

    const LAST_NUMBER: u32 = 2_147_483_647;
    const MOST_SENDS: u8 = 3;
    const MOST_POLLS: u8 = 10;
    const TICKS_TO_WAIT: u8 = 3;
    const MAX_TEXT: usize = 512;
    const MAX_OWNER: usize = 127;

    #[derive(Clone, Copy)]
    pub struct Publication<'a> {
        pub memory: u8,
        pub number: u16,
        pub text: &'a [u8],
        pub owner: &'a [u8],
        pub beacon: u8,
        pub pixel: u8,
        pub run_priority: u8,
        pub minutes: u16,
        pub priority: u8,
        pub address: [u8; 4],
    }

    #[derive(Clone, Copy)]
    #[allow(dead_code, reason = "the measures publish")]
    pub enum Command<'a> {
        Publish(Publication<'a>),
        Blank { number: u16, minutes: u16, priority: u8, address: [u8; 4] },
        Activate(Activation),
    }

    #[derive(Debug)]
    pub enum CommandFault {
        Busy,
        NumbersUsedUp,
        BadCommand,
    }

    #[derive(Clone, Copy, PartialEq, Eq)]
    enum Step {
        Opening = 1,
        Opened,
        Filling,
        Validating,
        Polling,
        Comparing,
        Activating,
        Explaining,
    }

    #[derive(Clone, Copy, PartialEq, Eq)]
    enum Stage {
        Idle,
        Awaits,
        Due,
    }

    #[derive(Clone, Copy, PartialEq, Eq)]
    #[allow(dead_code, reason = "for who reads the ledger")]
    pub enum Outcome {
        Waiting,
        Accepted,
        Refused(i64),
        NoReply,
        Unknown,
    }

    #[allow(dead_code, reason = "for who reads the ledger")]
    pub struct Entry {
        pub number: u32,
        pub code: Activation,
        pub outcome: Outcome,
    }

    #[derive(Clone, Copy, PartialEq, Eq)]
    #[allow(dead_code, reason = "for who reads why")]
    pub enum Why {
        Status(i64),
        WrongStatus(i64),
        StillValidating,
        OtherChecksum,
        NoReply,
        NumbersUsedUp,
        OddReply,
        Cause(i64),
        Restarted,
    }

    #[derive(Clone, Copy, PartialEq, Eq)]
    pub enum Ended {
        Never,
        Accepted,
        Failed(u8, Why),
    }

    /// Octets of which there are at most `N`.
    struct Kept<const N: usize> {
        octets: [u8; N],
        len: usize,
    }

    impl<const N: usize> Kept<N> {
        fn new() -> Self {
            Kept { octets: [0; N], len: 0 }
        }

        fn set(&mut self, octets: &[u8]) {
            self.octets[..octets.len()].copy_from_slice(octets);
            self.len = octets.len();
        }

        fn as_slice(&self) -> &[u8] {
            &self.octets[..self.len]
        }
    }

    /// What a job is to put up, and how far it is. The code's checksum is that of the text once the sign reported it.
    struct Job {
        step: Step,
        polls: u8,
        code: Activation,
        text: Kept<MAX_TEXT>,
        owner: Kept<MAX_OWNER>,
        beacon: u8,
        pixel: u8,
        run_priority: u8,
    }

    /// The request that waits.
    struct Pending {
        number: u32,
        octets: Out,
        sends: u8,
        age: u8,
    }

    pub struct Centre {
        community: Vec<u8>,
        order: Order,
        next: u32,
        stage: Stage,
        job: Job,
        pending: Pending,
        /// In the order of their numbers.
        ledger: Vec<Entry>,
        last: Ended,
    }

    impl Centre {
        pub fn new(community: &[u8], order: Order, first: u32) -> Option<Centre> {
            if community.is_empty() || community.len() > 32 {
                return None;
            }
            let code = Activation { minutes: 0, priority: 0, memory: BLANK, number: 0, crc: 0, address: [0; 4] };
            Some(Centre {
                community: community.to_vec(),
                order,
                next: first,
                stage: Stage::Idle,
                job: Job { step: Step::Activating, polls: 0, code, text: Kept::new(), owner: Kept::new(), beacon: 0, pixel: 0, run_priority: 0 },
                pending: Pending { number: 0, octets: Out::new(), sends: 0, age: 0 },
                ledger: Vec::new(),
                last: Ended::Never,
            })
        }

        pub fn busy(&self) -> bool {
            self.stage != Stage::Idle
        }

        pub fn last(&self) -> Ended {
            self.last
        }

        pub fn ledger(&self) -> &[Entry] {
            &self.ledger
        }

        pub fn restart(&mut self) {
            self.give_up(Outcome::Unknown);
            if self.busy() {
                self.fail(Why::Restarted);
            }
        }

        pub fn command(&mut self, command: Command<'_>, out: &mut Out) -> Result<(), CommandFault> {
            out.clear();
            if self.busy() {
                return Err(CommandFault::Busy);
            }
            if self.next > LAST_NUMBER {
                return Err(CommandFault::NumbersUsedUp);
            }
            match command {
                Command::Publish(message) => self.publish(&message)?,
                Command::Blank { number, minutes, priority, address } => {
                    if !(1..=255).contains(&number) {
                        return Err(CommandFault::BadCommand);
                    }
                    self.activate(Activation { minutes, priority, memory: BLANK, number, crc: 0, address });
                }
                Command::Activate(code) => self.activate(code),
            }
            self.job.polls = 0;
            self.send(out);
            Ok(())
        }

        fn publish(&mut self, message: &Publication<'_>) -> Result<(), CommandFault> {
            let good = matches!(message.memory, CHANGEABLE | VOLATILE)
                && message.number > 0
                && message.text.len() <= MAX_TEXT
                && message.owner.len() <= MAX_OWNER
                && message.beacon <= 1
                && message.pixel <= 1
                && message.run_priority > 0;
            if !good {
                return Err(CommandFault::BadCommand);
            }
            let Publication { memory, number, minutes, priority, address, .. } = *message;
            let job = &mut self.job;
            job.code = Activation { minutes, priority, memory, number, crc: 0, address };
            job.text.set(message.text);
            job.owner.set(message.owner);
            job.beacon = message.beacon;
            job.pixel = message.pixel;
            job.run_priority = message.run_priority;
            job.step = Step::Opening;
            Ok(())
        }

        fn activate(&mut self, code: Activation) {
            self.job.code = code;
            self.job.step = Step::Activating;
        }

        pub fn tick(&mut self, out: &mut Out) {
            out.clear();
            match self.stage {
                Stage::Idle => {}
                Stage::Awaits => self.hear_nothing(out),
                Stage::Due => self.send(out),
            }
        }

        fn hear_nothing(&mut self, out: &mut Out) {
            let pending = &mut self.pending;
            if pending.age + 1 < TICKS_TO_WAIT {
                pending.age += 1;
            } else if pending.sends < MOST_SENDS {
                pending.sends += 1;
                pending.age = 0;
                out.set(pending.octets.as_slice());
            } else {
                self.give_up(Outcome::NoReply);
                self.fail(Why::NoReply);
            }
        }

        pub fn receive(&mut self, datagram: &[u8], out: &mut Out) {
            out.clear();
            if self.stage != Stage::Awaits {
                return;
            }
            let Ok(message) = read(datagram) else {
                return;
            };
            if !matches!(message.kind, Kind::Response)
                || message.community != self.community
                || message.request != i64::from(self.pending.number)
            {
                return;
            }
            if message.status == 0 {
                self.succeed(message.binds, out);
            } else {
                self.refused(message.status, out);
            }
        }

        fn succeed(&mut self, binds: Binds<'_>, out: &mut Out) {
            match self.job.step {
                Step::Opening => self.send_at(Step::Opened, out),
                Step::Filling => self.send_at(Step::Validating, out),
                Step::Validating => self.send_at(Step::Polling, out),
                Step::Activating => {
                    self.decide(Outcome::Accepted);
                    self.end(Ended::Accepted);
                }
                Step::Opened | Step::Polling | Step::Comparing | Step::Explaining => match self.number_reported(binds) {
                    Some(number) => self.take_number(number, out),
                    None => self.fail(Why::OddReply),
                },
            }
        }

        fn refused(&mut self, status: i64, out: &mut Out) {
            if self.job.step == Step::Activating {
                self.decide(Outcome::Refused(status));
                self.send_at(Step::Explaining, out);
            } else {
                self.fail(Why::Status(status));
            }
        }

        /// The number that a reply to a GET of one object reports.
        fn number_reported(&self, mut binds: Binds<'_>) -> Option<i64> {
            let bind = binds.next()?;
            if binds.next().is_some() {
                return None;
            }
            let asked = match self.job.step {
                Step::Comparing => bind.name.content == self.cell(objects::CRC).oid().content,
                Step::Explaining => bind.name.content == objects::ACTIVATE_ERROR.content,
                _ => bind.name.content == self.cell(objects::STATUS).oid().content,
            };
            match bind.value {
                Value::Integer(number) if asked => Some(number),
                _ => None,
            }
        }

        fn take_number(&mut self, number: i64, out: &mut Out) {
            match (self.job.step, number) {
                (Step::Opened, 2) => self.send_at(Step::Filling, out),
                (Step::Polling, 4) => self.send_at(Step::Comparing, out),
                (Step::Polling, 3) if self.job.polls + 1 < MOST_POLLS => {
                    self.job.polls += 1;
                    self.stage = Stage::Due;
                }
                (Step::Polling, 3) => self.fail(Why::StillValidating),
                (Step::Comparing, _) => self.compare(number),
                (Step::Explaining, _) => self.end(Ended::Failed(Step::Activating as u8, Why::Cause(number))),
                _ => self.fail(Why::WrongStatus(number)),
            }
        }

        fn compare(&mut self, number: i64) {
            let job = &mut self.job;
            job.code.crc = crc(job.text.as_slice(), job.beacon, job.pixel);
            if number == i64::from(in_order(job.code.crc, self.order)) {
                job.step = Step::Activating;
                self.stage = Stage::Due;
            } else {
                self.fail(Why::OtherChecksum);
            }
        }

        fn end(&mut self, ended: Ended) {
            self.stage = Stage::Idle;
            self.last = ended;
        }

        fn fail(&mut self, why: Why) {
            self.end(Ended::Failed(self.job.step as u8, why));
        }

        fn give_up(&mut self, outcome: Outcome) {
            // At most one entry waits, and it is the last.
            if let Some(entry) = self.ledger.last_mut()
                && entry.outcome == Outcome::Waiting
            {
                entry.outcome = outcome;
            }
        }

        fn decide(&mut self, outcome: Outcome) {
            if let Some(entry) = self.ledger.last_mut()
                && entry.number == self.pending.number
            {
                entry.outcome = outcome;
            }
        }

        fn send_at(&mut self, step: Step, out: &mut Out) {
            self.job.step = step;
            self.send(out);
        }

        fn send(&mut self, out: &mut Out) {
            if self.next > LAST_NUMBER {
                self.fail(Why::NumbersUsedUp);
                return;
            }
            self.put_request(out);
            if self.job.step == Step::Activating {
                self.ledger.push(Entry { number: self.next, code: self.job.code, outcome: Outcome::Waiting });
            }
            self.pending.number = self.next;
            self.pending.octets.set(out.as_slice());
            self.pending.sends = 1;
            self.pending.age = 0;
            self.stage = Stage::Awaits;
            self.next += 1;
        }

        fn cell(&self, column: u8) -> Name {
            Name::of_cell(column, self.job.code.memory, self.job.code.number)
        }

        fn put_request(&self, out: &mut Out) {
            match self.job.step {
                Step::Opening => self.put_ask(6, out),
                Step::Opened | Step::Polling => self.put_get(objects::STATUS, out),
                Step::Filling => self.put_fields(out),
                Step::Validating => self.put_ask(7, out),
                Step::Comparing => self.put_get(objects::CRC, out),
                Step::Activating => {
                    let [a, b, c, d, e, f, g, h, i, j, k, l] = self.job.code.to_bytes(self.order);
                    let binding = [48, 29, 6, 13, 43, 6, 1, 4, 1, 137, 54, 4, 2, 3, 6, 3, 0, 4, 12, a, b, c, d, e, f, g, h, i, j, k, l];
                    self.put_short(Kind::Set, &binding, out);
                }
                Step::Explaining => self.put_short(Kind::Get, &[48, 17, 6, 13, 43, 6, 1, 4, 1, 137, 54, 4, 2, 3, 6, 17, 0, 5, 0], out),
            }
        }

        /// Asks for a cell's value, by a binding that is written at once where the numbers of its row have one octet each.
        fn put_get(&self, column: u8, out: &mut Out) {
            match self.job.code {
                Activation { memory: memory @ ..128, number: number @ ..128, .. } => {
                    let binding = [48, 20, 6, 16, 43, 6, 1, 4, 1, 137, 54, 4, 2, 3, 5, 8, 1, column, memory, number as u8, 5, 0];
                    self.put_short(Kind::Get, &binding, out);
                }
                _ => self.put_one(Kind::Get, self.cell(column).oid(), Value::Null, out),
            }
        }

        /// Asks for a change of the row's status, in the same way.
        fn put_ask(&self, ask: u8, out: &mut Out) {
            match self.job.code {
                Activation { memory: memory @ ..128, number: number @ ..128, .. } => {
                    let binding = [48, 21, 6, 16, 43, 6, 1, 4, 1, 137, 54, 4, 2, 3, 5, 8, 1, objects::STATUS, memory, number as u8, 2, 1, ask];
                    self.put_short(Kind::Set, &binding, out);
                }
                _ => self.put_one(Kind::Set, self.cell(objects::STATUS).oid(), Value::Integer(i64::from(ask)), out),
            }
        }

        /// Writes a request around the octets of its bindings.
        #[inline]
        fn put_short(&self, kind: Kind, bindings: &[u8], out: &mut Out) {
            out.clear();
            out.extend(bindings);
            let tag = if let Kind::Set = kind { 163 } else { 160 };
            assert!(out.finish(&self.community, tag, i64::from(self.next), 0, 0));
        }

        /// Sets the fields of the row, in the same way: its three numbers are bindings at hand, and its names too.
        fn put_fields(&self, out: &mut Out) {
            match self.job.code {
                Activation { memory: memory @ ..128, number: number @ ..128, .. } => self.put_short_fields(memory, number as u8, out),
                _ => self.put_any_fields(out),
            }
        }

        fn put_short_fields(&self, memory: u8, number: u8, out: &mut Out) {
            let job = &self.job;
            let name = |column: u8| [43, 6, 1, 4, 1, 137, 54, 4, 2, 3, 5, 8, 1, column, memory, number];
            out.clear();
            assert!(out.push(&name(objects::TEXT), &Value::Octets(job.text.as_slice()), MAX_DATAGRAM));
            assert!(out.push(&name(objects::OWNER), &Value::Octets(job.owner.as_slice()), MAX_DATAGRAM));
            for (column, value) in [(objects::BEACON, job.beacon), (objects::PIXEL, job.pixel), (objects::PRIORITY, job.run_priority)] {
                if value < 128 {
                    out.extend(&[48, 21, 6, 16, 43, 6, 1, 4, 1, 137, 54, 4, 2, 3, 5, 8, 1, column, memory, number, 2, 1, value]);
                } else {
                    out.extend(&[48, 22, 6, 16, 43, 6, 1, 4, 1, 137, 54, 4, 2, 3, 5, 8, 1, column, memory, number, 2, 2, 0, value]);
                }
            }
            assert!(out.finish(&self.community, 163, i64::from(self.next), 0, 0));
        }

        fn put_any_fields(&self, out: &mut Out) {
            let job = &self.job;
            let number = |number: u8| Value::Integer(i64::from(number));
            let columns = [objects::TEXT, objects::OWNER, objects::BEACON, objects::PIXEL, objects::PRIORITY];
            let names = columns.map(|column| self.cell(column));
            let [text, owner, beacon, pixel, priority] = names.each_ref().map(Name::oid);
            let binds = [
                Bind { name: text, value: Value::Octets(job.text.as_slice()) },
                Bind { name: owner, value: Value::Octets(job.owner.as_slice()) },
                Bind { name: beacon, value: number(job.beacon) },
                Bind { name: pixel, value: number(job.pixel) },
                Bind { name: priority, value: number(job.run_priority) },
            ];
            self.put(Kind::Set, &binds, out);
        }

        fn put_one(&self, kind: Kind, name: Oid<'_>, value: Value<'_>, out: &mut Out) {
            self.put(kind, &[Bind { name, value }], out);
        }

        /// Every request fits a datagram.
        fn put(&self, kind: Kind, binds: &[Bind<'_>], out: &mut Out) {
            let parts = MessageParts { community: &self.community, kind, request: i64::from(self.next), status: 0, index: 0, binds };
            assert!(write(&parts, out).is_ok());
        }
    }
}

mod measures {
    use super::centre::{Centre, Command, Ended, Publication};
    use super::codes::{CHANGEABLE, Order, crc};
    use crate::peer::{Bind, Kind, MessageParts, Out, Value, read, write};
    use std::array;
    use std::hint::black_box;

    pub const REQUESTS: usize = 7;

    pub fn publication(text: &[u8]) -> Command<'_> {
        Command::Publish(Publication {
            memory: CHANGEABLE,
            number: 1,
            text,
            owner: &[],
            beacon: 0,
            pixel: 0,
            run_priority: 200,
            minutes: 5,
            priority: 255,
            address: [0; 4],
        })
    }

    pub fn new_centre() -> Option<Centre> {
        Centre::new(black_box(b"admin"), Order::High, 1)
    }

    fn number_of(request: usize, crc: u16) -> Option<i64> {
        match request {
            1 => Some(2),
            4 => Some(4),
            5 => Some(i64::from(crc)),
            _ => None,
        }
    }

    fn put_reply(request: &[u8], number: Option<i64>, reply: &mut Out) {
        let Ok(message) = read(request) else {
            return;
        };
        let mut binds: Vec<Bind<'_>> = message.binds.collect();
        if let Some(number) = number {
            binds[0].value = Value::Integer(number);
        }
        let parts = MessageParts { community: message.community, kind: Kind::Response, request: message.request, status: 0, index: 0, binds: &binds };
        let _ = write(&parts, reply);
    }

    pub fn replies_to(text: &[u8]) -> Option<[Out; REQUESTS]> {
        let mut centre = new_centre()?;
        let mut replies = array::from_fn(|_| Out::new());
        let mut request = Out::new();
        centre.command(publication(text), &mut request).ok()?;
        let crc = crc(text, 0, 0);
        for (at, reply) in replies.iter_mut().enumerate() {
            if at == REQUESTS - 1 {
                centre.tick(&mut request);
            }
            put_reply(request.as_slice(), number_of(at, crc), reply);
            centre.receive(reply.as_slice(), &mut request);
        }
        Some(replies)
    }

    fn published(text: &[u8], replies: &[Out; REQUESTS], out: &mut Out) -> u64 {
        let Some(mut centre) = new_centre() else {
            return 0;
        };
        if centre.command(publication(text), out).is_err() {
            return 0;
        }
        let mut sum = out.as_slice().len() as u64;
        let [first @ .., last] = replies;
        for reply in first {
            centre.receive(reply.as_slice(), out);
            sum += out.as_slice().len() as u64;
        }
        centre.tick(out);
        sum += out.as_slice().len() as u64;
        centre.receive(last.as_slice(), out);
        sum + u64::from(centre.last() == Ended::Accepted)
    }

    pub fn publication_times(text: &[u8], times: u32) -> u64 {
        let Some(replies) = replies_to(text) else {
            return 0;
        };
        let mut out = Out::new();
        (0..times).fold(0, |sum, _| sum + published(black_box(text), black_box(&replies), &mut out))
    }

    fn waited(text: &[u8], ticks: u8, times: u32) -> u64 {
        let Some(mut centre) = new_centre() else {
            return 0;
        };
        let mut out = Out::new();
        let mut sum = 0;
        for _ in 0..times {
            if centre.command(publication(black_box(text)), &mut out).is_ok() {
                sum += out.as_slice().len() as u64;
            }
            for _ in 0..ticks {
                centre.tick(&mut out);
                sum += out.as_slice().len() as u64;
            }
            centre.restart();
        }
        sum
    }

    pub fn command_times(text: &[u8], times: u32) -> u64 {
        waited(text, 0, times)
    }

    pub fn ticks_times(text: &[u8], times: u32) -> u64 {
        waited(text, 2, times)
    }

    pub fn resend_times(text: &[u8], times: u32) -> u64 {
        waited(text, 3, times)
    }

    pub fn foreign_times(datagram: &[u8], times: u32) -> u64 {
        let Some(mut centre) = new_centre() else {
            return 0;
        };
        let mut out = Out::new();
        if centre.command(publication(b"A"), &mut out).is_err() {
            return 0;
        }
        let mut sum = 0;
        for _ in 0..times {
            centre.receive(black_box(datagram), &mut out);
            sum += out.as_slice().len() as u64 + u64::from(centre.busy());
        }
        sum
    }
}
