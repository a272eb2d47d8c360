//! The same measures over a reader and a writer that are written by hand in plain Rust: every rule of reading that
//! dms_wire has, with the same faults and places, each binding checked once.

#![forbid(unsafe_code)]

pub use measures::{read_times, walk_times, write_times};
pub use message::{Bind, Binds, Kind, MAX_DATAGRAM, Message, MessageParts, Oid, Value};
pub use reading::{is_name, read};
pub use writing::{Out, size_of_element, size_of_number, write};

mod message {
    pub const MAX_DATAGRAM: usize = 1472;

    #[derive(Clone, Copy, Debug, PartialEq, Eq)]
    pub enum FaultKind {
        Truncated,
        BadTag,
        BadLength,
        LengthPast,
        BadInteger,
        BadName,
        BadVersion,
        TrailingBytes,
        TooLong,
    }

    #[derive(Clone, Copy, Debug, PartialEq, Eq)]
    pub struct Fault {
        pub kind: FaultKind,
        pub place: usize,
    }

    #[derive(Clone, Copy)]
    pub enum Kind {
        Get,
        GetNext,
        Response,
        Set,
    }

    #[derive(Clone, Copy)]
    pub struct Oid<'a> {
        pub content: &'a [u8],
    }

    #[derive(Clone, Copy)]
    pub enum Value<'a> {
        Integer(i64),
        Octets(&'a [u8]),
        Null,
        Name(Oid<'a>),
        Address([u8; 4]),
        Counter(u32),
        Gauge(u32),
        Ticks(u32),
        Opaque(&'a [u8]),
    }

    #[derive(Clone, Copy)]
    pub struct Bind<'a> {
        pub name: Oid<'a>,
        pub value: Value<'a>,
    }

    #[derive(Clone, Copy)]
    pub struct Binds<'a> {
        pub content: &'a [u8],
    }

    pub struct Message<'a> {
        pub community: &'a [u8],
        pub kind: Kind,
        pub request: i64,
        pub status: i64,
        pub index: i64,
        pub binds: Binds<'a>,
        /// Whether each length of the bindings is in its shortest form.
        pub is_shortest: bool,
    }

    pub struct MessageParts<'a> {
        pub community: &'a [u8],
        pub kind: Kind,
        pub request: i64,
        pub status: i64,
        pub index: i64,
        pub binds: &'a [Bind<'a>],
    }
}

mod reading {
    use super::message::*;

    /// The octets of an element that are left, and where they end in the datagram.
    #[derive(Clone, Copy)]
    struct Cursor<'a> {
        octets: &'a [u8],
        end: usize,
    }

    #[cold]
    fn fault<T>(kind: FaultKind, place: usize) -> Result<T, Fault> {
        Err(Fault { kind, place })
    }

    impl<'a> Cursor<'a> {
        /// Where what is left begins in the datagram.
        #[inline]
        fn place(&self) -> usize {
            self.end - self.octets.len()
        }

        #[inline]
        fn octet(&mut self) -> Result<u8, Fault> {
            let [first, rest @ ..] = self.octets else {
                return fault(FaultKind::Truncated, self.end);
            };
            self.octets = rest;
            Ok(*first)
        }

        fn tag(&mut self, wanted: u8) -> Result<(), Fault> {
            match self.octets {
                [first, rest @ ..] if *first == wanted => {
                    self.octets = rest;
                    Ok(())
                }
                [] => fault(FaultKind::Truncated, self.end),
                _ => fault(FaultKind::BadTag, self.place()),
            }
        }

        /// A length; `longer` where it is not in its shortest form.
        fn length(&mut self, longer: &mut bool) -> Result<usize, Fault> {
            let place = self.place();
            let first = self.octet()?;
            if first < 128 {
                return Ok(usize::from(first));
            }
            if first == 128 || first > 132 {
                return fault(FaultKind::BadLength, place);
            }
            let Some((digits, rest)) = self.octets.split_at_checked(usize::from(first - 128)) else {
                return fault(FaultKind::Truncated, self.end);
            };
            self.octets = rest;
            *longer |= digits[0] == 0 || matches!(digits, [..128]);
            Ok(digits.iter().fold(0, |number, digit| number << 8 | usize::from(*digit)))
        }

        #[inline(always)]
        fn short_content(&mut self, octets: &'a [u8]) -> Option<Cursor<'a>> {
            let [size @ ..128, rest @ ..] = octets else {
                return None;
            };
            let (octets, rest) = rest.split_at_checked(usize::from(*size))?;
            self.octets = rest;
            Some(Cursor { octets, end: self.end - rest.len() })
        }

        #[inline(always)]
        fn content(&mut self, past: FaultKind, longer: &mut bool) -> Result<Cursor<'a>, Fault> {
            match self.short_content(self.octets) {
                Some(content) => Ok(content),
                None => self.long_content(past, longer),
            }
        }

        fn long_content(&mut self, past: FaultKind, longer: &mut bool) -> Result<Cursor<'a>, Fault> {
            let before = self.place();
            let count = self.length(longer)?;
            let place = self.place();
            let Some((octets, rest)) = self.octets.split_at_checked(count) else {
                return fault(past, if past == FaultKind::Truncated { self.end } else { before });
            };
            self.octets = rest;
            Ok(Cursor { octets, end: place + count })
        }

        #[inline(always)]
        fn element(&mut self, tag: u8, longer: &mut bool) -> Result<Cursor<'a>, Fault> {
            if let [first, rest @ ..] = self.octets
                && *first == tag
                && let Some(content) = self.short_content(rest)
            {
                return Ok(content);
            }
            self.long_element(tag, longer)
        }

        fn long_element(&mut self, tag: u8, longer: &mut bool) -> Result<Cursor<'a>, Fault> {
            self.tag(tag)?;
            self.long_content(FaultKind::LengthPast, longer)
        }

        #[inline(always)]
        fn integer(&mut self, longer: &mut bool) -> Result<i64, Fault> {
            if let [2, 1, number, rest @ ..] = self.octets {
                self.octets = rest;
                return Ok(i64::from(*number as i8));
            }
            self.long_integer(longer)
        }

        fn long_integer(&mut self, longer: &mut bool) -> Result<i64, Fault> {
            integer_of(self.element(2, longer)?)
        }

        #[inline]
        fn ended(&self) -> Result<(), Fault> {
            if self.octets.is_empty() { Ok(()) } else { fault(FaultKind::TrailingBytes, self.place()) }
        }
    }

    /// The number of these octets, where it is in its shortest form and from -2^31 to 2^32 - 1.
    #[inline]
    fn number_in(octets: &[u8]) -> Option<i64> {
        let (number, shortest) = match *octets {
            [a] => return Some(i64::from(a as i8)),
            [a, b] => {
                let number = i16::from_be_bytes([a, b]);
                (i64::from(number), number != i16::from(b as i8))
            }
            [a, b, c] => {
                let number = i32::from_be_bytes([a, b, c, 0]) >> 8;
                (i64::from(number), number != i32::from(number as i16))
            }
            [a, b, c, d] => {
                let number = i32::from_be_bytes([a, b, c, d]);
                (i64::from(number), number != number << 8 >> 8)
            }
            [0, a @ 128..=255, b, c, d] => return Some(i64::from(u32::from_be_bytes([a, b, c, d]))),
            _ => return None,
        };
        shortest.then_some(number)
    }

    #[inline]
    fn integer_of(content: Cursor<'_>) -> Result<i64, Fault> {
        match number_in(content.octets) {
            Some(number) => Ok(number),
            None => fault(FaultKind::BadInteger, content.place()),
        }
    }

    #[inline]
    fn natural_of(content: Cursor<'_>) -> Result<(), Fault> {
        if integer_of(content)? >= 0 { Ok(()) } else { fault(FaultKind::BadInteger, content.place()) }
    }

    /// The octets that the names of a sign begin with: nine sub-identifiers.
    const DMS: [u8; 10] = [43, 6, 1, 4, 1, 137, 54, 4, 2, 3];

    /// How many sub-identifiers these octets are; none where they are not whole ones in the shortest form, below 2^32.
    #[inline(always)]
    fn sub_identifiers(octets: &[u8]) -> Option<usize> {
        let mut count = 0;
        let mut number: u32 = 0;
        for &octet in octets {
            if octet < 128 && number < 1 << 25 {
                count += 1;
                number = 0;
            } else if number >= 1 << 25 || number == 0 && octet == 128 {
                return None;
            } else {
                number = number << 7 | u32::from(octet & 127);
            }
        }
        (number == 0).then_some(count)
    }

    #[inline(always)]
    pub fn is_name(octets: &[u8]) -> bool {
        let count = match octets.strip_prefix(&DMS) {
            Some(rest) => sub_identifiers(rest).map(|count| count + 9),
            None => sub_identifiers(octets),
        };
        matches!(count, Some(1..=127))
    }

    #[inline(always)]
    fn name_of(content: Cursor<'_>) -> Result<(), Fault> {
        if is_name(content.octets) { Ok(()) } else { fault(FaultKind::BadName, content.place()) }
    }

    fn value(cursor: &mut Cursor<'_>, longer: &mut bool) -> Result<(), Fault> {
        let place = cursor.place();
        let tag = cursor.octet()?;
        if !matches!(tag, 2 | 4 | 5 | 6 | 64..=68) {
            return fault(FaultKind::BadTag, place);
        }
        let before = cursor.place();
        let content = cursor.content(FaultKind::LengthPast, longer)?;
        match tag {
            2 => integer_of(content).map(drop),
            5 if !content.octets.is_empty() => fault(FaultKind::BadLength, before),
            6 => name_of(content),
            64 if content.octets.len() != 4 => fault(FaultKind::BadLength, before),
            65..=67 => natural_of(content),
            _ => Ok(()),
        }
    }

    /// The name of a binding with short lengths and no value, and what follows the binding.
    #[inline(always)]
    fn null_binding(octets: &[u8]) -> Option<(&[u8], &[u8])> {
        let [48, members @ ..128, 6, size @ ..128, rest @ ..] = octets else {
            return None;
        };
        let (name, rest) = rest.split_at_checked(usize::from(*size))?;
        match rest {
            [5, 0, rest @ ..] if *members == *size + 4 => Some((name, rest)),
            _ => None,
        }
    }

    fn binding(cursor: &mut Cursor<'_>, longer: &mut bool) -> Result<(), Fault> {
        let mut content = cursor.element(48, longer)?;
        name_of(content.element(6, longer)?)?;
        value(&mut content, longer)?;
        content.ended()
    }

    /// The content of the element that the octets begin with, and what follows it: they were read before.
    #[inline]
    fn cut(octets: &[u8]) -> (&[u8], &[u8]) {
        match octets {
            [_, first @ ..128, rest @ ..] => rest.split_at(usize::from(*first)),
            _ => long_cut(octets),
        }
    }

    fn long_cut(octets: &[u8]) -> (&[u8], &[u8]) {
        let (digits, rest) = octets[2..].split_at(usize::from(octets[1] - 128));
        rest.split_at(digits.iter().fold(0, |number, digit| number << 8 | usize::from(*digit)))
    }

    #[inline]
    fn known_value(octets: &[u8]) -> Value<'_> {
        let (content, _) = cut(octets);
        let number = || number_in(content).unwrap_or(0);
        match octets[0] {
            2 => Value::Integer(number()),
            4 => Value::Octets(content),
            5 => Value::Null,
            6 => Value::Name(Oid { content }),
            64 => Value::Address([content[0], content[1], content[2], content[3]]),
            65 => Value::Counter(number() as u32),
            66 => Value::Gauge(number() as u32),
            67 => Value::Ticks(number() as u32),
            _ => Value::Opaque(content),
        }
    }

    impl<'a> Iterator for Binds<'a> {
        type Item = Bind<'a>;

        #[inline]
        fn next(&mut self) -> Option<Bind<'a>> {
            if self.content.is_empty() {
                return None;
            }
            let (members, rest) = cut(self.content);
            self.content = rest;
            let (content, value) = cut(members);
            Some(Bind { name: Oid { content }, value: known_value(value) })
        }
    }

    impl<'a> Binds<'a> {
        /// The content octets of the names.
        #[inline]
        pub fn names(self) -> impl Iterator<Item = &'a [u8]> {
            let mut rest = self.content;
            std::iter::from_fn(move || {
                if rest.is_empty() {
                    return None;
                }
                let (members, more) = cut(rest);
                rest = more;
                Some(cut(members).0)
            })
        }
    }

    fn kind_of(tag: u8) -> Option<Kind> {
        match tag {
            160 => Some(Kind::Get),
            161 => Some(Kind::GetNext),
            162 => Some(Kind::Response),
            163 => Some(Kind::Set),
            _ => None,
        }
    }

    pub fn read(octets: &[u8]) -> Result<Message<'_>, Fault> {
        if octets.len() > MAX_DATAGRAM {
            return fault(FaultKind::TooLong, MAX_DATAGRAM);
        }
        let (mut longer, mut bindings_longer) = (false, false);
        let mut datagram = Cursor { octets, end: octets.len() };
        datagram.tag(48)?;
        let mut inside = datagram.content(FaultKind::Truncated, &mut longer)?;
        if let [2, 1, 0, rest @ ..] = inside.octets {
            inside.octets = rest;
        } else {
            let version = inside.element(2, &mut longer)?;
            if integer_of(version)? != 0 {
                return fault(FaultKind::BadVersion, version.place());
            }
        }
        let community = inside.element(4, &mut longer)?.octets;
        let place = inside.place();
        let Some(kind) = kind_of(inside.octet()?) else {
            return fault(FaultKind::BadTag, place);
        };
        let mut pdu = inside.content(FaultKind::LengthPast, &mut longer)?;
        let request = pdu.integer(&mut longer)?;
        let status = pdu.integer(&mut longer)?;
        let index = pdu.integer(&mut longer)?;
        let mut bindings = pdu.element(48, &mut longer)?;
        let binds = Binds { content: bindings.octets };
        while !bindings.octets.is_empty() {
            match null_binding(bindings.octets) {
                Some((name, rest)) if is_name(name) => bindings.octets = rest,
                _ => binding(&mut bindings, &mut bindings_longer)?,
            }
        }
        pdu.ended()?;
        inside.ended()?;
        datagram.ended()?;
        Ok(Message { community, kind, request, status, index, binds, is_shortest: !bindings_longer })
    }
}

mod writing {
    use super::message::*;

    /// The room before the bindings: that of the longest heads and three numbers, and of most communities.
    const BEFORE: usize = 96;

    /// The room for the octets of a number that are written at once with those that count.
    const BEHIND: usize = 8;

    /// A datagram to send, from `start` to `end`: its bindings are written one behind the other, and then what stands before them
    /// from the last octet to the first, so that each length is known when it is written.
    pub struct Out {
        octets: [u8; BEFORE + MAX_DATAGRAM + BEHIND],
        start: usize,
        end: usize,
    }

    pub struct TooBig;

    impl Out {
        pub fn new() -> Out {
            Out { octets: [0; BEFORE + MAX_DATAGRAM + BEHIND], start: BEFORE, end: BEFORE }
        }

        #[inline]
        pub fn as_slice(&self) -> &[u8] {
            &self.octets[self.start..self.end]
        }

        #[inline]
        pub fn clear(&mut self) {
            (self.start, self.end) = (BEFORE, BEFORE);
        }

        /// Holds these octets, which are a datagram's.
        pub fn set(&mut self, octets: &[u8]) {
            self.clear();
            self.extend(octets);
        }

        #[inline]
        fn put<const N: usize>(&mut self, octets: [u8; N]) {
            self.octets[self.end..self.end + N].copy_from_slice(&octets);
            self.end += N;
        }

        #[inline]
        pub fn extend(&mut self, content: &[u8]) {
            self.octets[self.end..self.end + content.len()].copy_from_slice(content);
            self.end += content.len();
        }

        #[inline]
        fn head(&mut self, tag: u8, size: usize) {
            match size {
                0..128 => self.put([tag, size as u8]),
                128..256 => self.put([tag, 129, size as u8]),
                _ => self.put([tag, 130, (size >> 8) as u8, size as u8]),
            }
        }

        #[inline]
        fn element(&mut self, tag: u8, content: &[u8]) {
            self.head(tag, content.len());
            self.extend(content);
        }

        #[inline]
        fn number(&mut self, tag: u8, number: i64) {
            let size = size_of_number(number);
            self.put([tag, size as u8]);
            let shifted = (number << (64 - 8 * size)).to_be_bytes();
            self.octets[self.end..self.end + 8].copy_from_slice(&shifted);
            self.end += size;
        }

        #[inline]
        fn value(&mut self, value: &Value<'_>) {
            match value {
                Value::Integer(number) => self.number(2, *number),
                Value::Octets(octets) => self.element(4, octets),
                Value::Null => self.put([5, 0]),
                Value::Name(name) => self.element(6, name.content),
                Value::Address(octets) => self.element(64, octets),
                Value::Counter(number) => self.number(65, i64::from(*number)),
                Value::Gauge(number) => self.number(66, i64::from(*number)),
                Value::Ticks(number) => self.number(67, i64::from(*number)),
                Value::Opaque(octets) => self.element(68, octets),
            }
        }

        /// Writes a binding behind the others, where at most so many octets of bindings are written then; whether they are.
        #[inline]
        pub fn push(&mut self, name: &[u8], value: &Value<'_>, most: usize) -> bool {
            let members = size_of_element(name.len()) + size_of_value(value);
            if self.end + size_of_element(members) > BEFORE + most {
                return false;
            }
            self.head(48, members);
            self.element(6, name);
            self.value(value);
            true
        }

        #[inline]
        fn put_before<const N: usize>(&mut self, octets: [u8; N]) {
            self.start -= N;
            self.octets[self.start..self.start + N].copy_from_slice(&octets);
        }

        /// Writes the head of an element of so many octets before them.
        #[inline]
        fn head_before(&mut self, tag: u8, size: usize) {
            match size {
                0..128 => self.put_before([tag, size as u8]),
                128..256 => self.put_before([tag, 129, size as u8]),
                _ => self.put_before([tag, 130, (size >> 8) as u8, size as u8]),
            }
        }

        #[inline]
        fn number_before(&mut self, number: i64) {
            let size = size_of_number(number);
            self.octets[self.start - 8..self.start].copy_from_slice(&number.to_be_bytes());
            self.start -= size;
            self.put_before([2, size as u8]);
        }

        /// Moves what is written to the end of the room, as a long community wants it.
        #[cold]
        fn move_back(&mut self) {
            let start = BEFORE + MAX_DATAGRAM - (self.end - self.start);
            self.octets.copy_within(self.start..self.end, start);
            (self.start, self.end) = (start, BEFORE + MAX_DATAGRAM);
        }

        /// Writes what stands before the bindings of a message, which are written; whether it is a datagram.
        pub fn finish(&mut self, community: &[u8], tag: u8, request: i64, status: i64, index: i64) -> bool {
            self.head_before(48, self.end - self.start);
            if let (0..128, 0..128) = (status, index) {
                self.put_before([2, 1, status as u8, 2, 1, index as u8]);
            } else {
                self.number_before(index);
                self.number_before(status);
            }
            self.number_before(request);
            self.head_before(tag, self.end - self.start);
            if self.start < 12 + community.len() {
                self.move_back();
                if self.start < 12 + community.len() {
                    return false;
                }
            }
            self.start -= community.len();
            self.octets[self.start..self.start + community.len()].copy_from_slice(community);
            self.head_before(4, community.len());
            self.put_before([2, 1, 0]);
            self.head_before(48, self.end - self.start);
            self.end - self.start <= MAX_DATAGRAM
        }
    }

    /// How many octets a number takes in two's complement.
    #[inline]
    pub fn size_of_number(number: i64) -> usize {
        let bits = 64 - (number ^ number >> 63).leading_zeros() as usize;
        bits / 8 + 1
    }

    /// How many octets an element with a content of `size` octets takes.
    #[inline]
    pub fn size_of_element(size: usize) -> usize {
        let length = match size {
            0..128 => 1,
            128..256 => 2,
            _ => 3,
        };
        1 + length + size
    }

    #[inline]
    fn size_of_value(value: &Value<'_>) -> usize {
        size_of_element(match value {
            Value::Integer(number) => size_of_number(*number),
            Value::Octets(octets) | Value::Opaque(octets) => octets.len(),
            Value::Null => 0,
            Value::Name(name) => name.content.len(),
            Value::Address(_) => 4,
            Value::Counter(number) | Value::Gauge(number) | Value::Ticks(number) => {
                size_of_number(i64::from(*number))
            }
        })
    }

    pub fn write(parts: &MessageParts<'_>, out: &mut Out) -> Result<(), TooBig> {
        out.clear();
        let tag = match parts.kind {
            Kind::Get => 160,
            Kind::GetNext => 161,
            Kind::Response => 162,
            Kind::Set => 163,
        };
        let fit = parts.binds.iter().all(|bind| out.push(bind.name.content, &bind.value, MAX_DATAGRAM));
        if fit && out.finish(parts.community, tag, parts.request, parts.status, parts.index) { Ok(()) } else { Err(TooBig) }
    }
}

mod measures {
    use super::message::*;
    use super::{reading::read, writing::Out, writing::write};
    use std::hint::black_box;

    pub fn read_times(datagram: &[u8], times: u32) -> u64 {
        let mut sum = 0_u64;
        for _ in 0..times {
            if let Ok(message) = read(black_box(datagram)) {
                sum = sum.wrapping_add(message.request.unsigned_abs());
            }
        }
        sum
    }

    fn weight(value: &Value<'_>) -> u64 {
        match value {
            Value::Integer(number) => number.unsigned_abs(),
            Value::Octets(octets) | Value::Opaque(octets) => octets.len() as u64,
            Value::Null => 1,
            Value::Name(name) => name.content.len() as u64,
            Value::Address(octets) => u64::from(u32::from_be_bytes(*octets)),
            Value::Counter(number) | Value::Gauge(number) | Value::Ticks(number) => u64::from(*number),
        }
    }

    pub fn walk_times(datagram: &[u8], times: u32) -> u64 {
        let mut sum = 0_u64;
        for _ in 0..times {
            if let Ok(message) = read(black_box(datagram)) {
                for bind in message.binds {
                    sum = sum.wrapping_add(bind.name.content.len() as u64);
                    sum = sum.wrapping_add(weight(&bind.value));
                }
            }
        }
        sum
    }

    pub fn write_times(datagram: &[u8], times: u32) -> u64 {
        let Ok(message) = read(datagram) else {
            return 0;
        };
        let binds: Vec<Bind<'_>> = message.binds.collect();
        let mut parts = MessageParts {
            community: message.community,
            kind: message.kind,
            request: message.request,
            status: message.status,
            index: message.index,
            binds: &binds,
        };
        let mut out = Out::new();
        let mut sum = 0_u64;
        for time in 0..times {
            if write(black_box(&parts), &mut out).is_ok() {
                let written = out.as_slice();
                let octet = written.get(time as usize % MAX_DATAGRAM).copied().unwrap_or(0);
                sum = sum.wrapping_add(written.len() as u64 + u64::from(octet));
            }
            parts.request = parts.request.wrapping_sub(1);
        }
        sum
    }
}
