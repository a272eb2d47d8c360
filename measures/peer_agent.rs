//! An agent by hand in plain Rust: a sign of `peer_sign`, and objects beside it, in the order of their names and found by halving.
//! A SET looks each name up once: its objects are assigned where they were found.

#![forbid(unsafe_code)]

use crate::peer::{Kind, MAX_DATAGRAM, Message, Oid, Out, Value, is_name, read};
use crate::peer_sign::{BAD_VALUE, GEN_ERR, NO_SUCH_NAME, Name, RESPONSE, Refusal, Sign, TOO_BIG, repeat, room_before};
use std::cmp::Ordering;
use std::hint::black_box;

/// What a manager may write to an object. (The objects of the measures take numbers.)
#[allow(dead_code)]
#[derive(Clone, Copy)]
pub enum Access {
    ReadOnly,
    Number { least: i64, most: i64 },
    Octets { least: u16, most: u16 },
}

impl Access {
    fn admits(self, value: &Value<'_>) -> bool {
        match (self, value) {
            (Access::Number { least, most }, Value::Integer(number)) => (least..=most).contains(number),
            (Access::Octets { least, most }, Value::Octets(octets)) => (usize::from(least)..=usize::from(most)).contains(&octets.len()),
            _ => false,
        }
    }
}

/// A value with the octets that it holds.
enum Held {
    Integer(i64),
    Octets(Vec<u8>),
    Null,
    Name(Vec<u8>),
    Address([u8; 4]),
    Counter(u32),
    Gauge(u32),
    Ticks(u32),
    Opaque(Vec<u8>),
}

impl Held {
    fn of(value: &Value<'_>) -> Held {
        match *value {
            Value::Integer(number) => Held::Integer(number),
            Value::Octets(octets) => Held::Octets(octets.to_vec()),
            Value::Null => Held::Null,
            Value::Name(Oid { content }) => Held::Name(content.to_vec()),
            Value::Address(octets) => Held::Address(octets),
            Value::Counter(number) => Held::Counter(number),
            Value::Gauge(number) => Held::Gauge(number),
            Value::Ticks(number) => Held::Ticks(number),
            Value::Opaque(octets) => Held::Opaque(octets.to_vec()),
        }
    }

    #[inline]
    fn lent(&self) -> Value<'_> {
        match self {
            Held::Integer(number) => Value::Integer(*number),
            Held::Octets(octets) => Value::Octets(octets),
            Held::Null => Value::Null,
            Held::Name(content) => Value::Name(Oid { content }),
            Held::Address(octets) => Value::Address(*octets),
            Held::Counter(number) => Value::Counter(*number),
            Held::Gauge(number) => Value::Gauge(*number),
            Held::Ticks(number) => Value::Ticks(*number),
            Held::Opaque(octets) => Value::Opaque(octets),
        }
    }

    /// Takes a value of the same type, where the octets have room.
    fn set(&mut self, value: &Value<'_>) {
        match (self, value) {
            (Held::Integer(held), Value::Integer(number)) => *held = *number,
            (Held::Octets(held), Value::Octets(octets)) => {
                held.clear();
                held.extend_from_slice(octets);
            }
            _ => {}
        }
    }
}

pub struct Object {
    name: Box<[u8]>,
    value: Held,
    access: Access,
    is_set: bool,
    /// The last SET that named it.
    named_by: u64,
}

impl Object {
    pub fn parts(&self) -> (&[u8], Value<'_>, bool) {
        (&self.name, self.value.lent(), self.is_set)
    }
}

/// How many octets two names begin with that are the same, eight at a time.
#[inline]
fn same_octets(one: &[u8], other: &[u8]) -> usize {
    let (eights, others) = (one.as_chunks::<8>().0, other.as_chunks::<8>().0);
    let mut same = 0;
    for (eight, other) in eights.iter().zip(others) {
        let differing = u64::from_le_bytes(*eight) ^ u64::from_le_bytes(*other);
        if differing != 0 {
            return same + differing.trailing_zeros() as usize / 8;
        }
        same += 8;
    }
    same + one[same..].iter().zip(&other[same..]).take_while(|(octet, other)| octet == other).count()
}

/// The order of two names by their octets: where they first differ the longer number is the larger, as each is in its shortest form.
#[inline]
fn order(one: &[u8], other: &[u8]) -> Ordering {
    let same = same_octets(one, other);
    match (&one[same..], &other[same..]) {
        ([first @ ..128, ..], [second @ ..128, ..]) => first.cmp(second),
        ([], rest) => if rest.is_empty() { Ordering::Equal } else { Ordering::Less },
        (_, []) => Ordering::Greater,
        (rest, others) => {
            let size = |octets: &[u8]| octets.iter().position(|octet| *octet < 128);
            size(rest).cmp(&size(others)).then_with(|| rest[0].cmp(&others[0]))
        }
    }
}

/// Whether a message's community may write; none where the message is not for the sign.
#[inline]
fn may_write(message: &Message<'_>) -> Option<bool> {
    match message.community {
        b"admin" => Some(true),
        b"public" => Some(false),
        _ => None,
    }
}

/// A sign, and objects in the order of their names.
pub struct Agent {
    sign: Sign,
    objects: Vec<Object>,
    /// How many SETs were judged, and where the objects stand that the last one names.
    sets: u64,
    places: Vec<usize>,
}

impl Agent {
    pub fn new(sign: Sign) -> Agent {
        Agent { sign, objects: Vec::new(), sets: 0, places: Vec::new() }
    }

    pub fn objects(&self) -> &[Object] {
        &self.objects
    }

    #[inline]
    fn place_of(&self, name: &[u8]) -> Result<usize, usize> {
        self.objects.binary_search_by(|object| order(&object.name, name))
    }

    /// Publishes an object in place of the one of its name; whether that was done.
    pub fn publish(&mut self, name: &[u8], value: &Value<'_>, access: Access) -> bool {
        let fits = matches!(access, Access::ReadOnly) || access.admits(value);
        if !is_name(name) || !fits || self.sign.reads(name).is_some() {
            return false;
        }
        match self.place_of(name) {
            Ok(place) => {
                let object = &mut self.objects[place];
                (object.value, object.access, object.is_set) = (Held::of(value), access, false);
            }
            Err(place) => {
                self.objects.insert(place, Object { name: name.into(), value: Held::of(value), access, is_set: false, named_by: 0 });
            }
        }
        true
    }

    pub fn withdraw(&mut self, name: &[u8]) -> bool {
        self.place_of(name).map(|place| self.objects.remove(place)).is_ok()
    }

    /// Handles a datagram; whether there is a reply, in `out`.
    pub fn receive(&mut self, datagram: &[u8], out: &mut Out) -> bool {
        out.clear();
        let Ok(message) = read(datagram) else {
            return false;
        };
        let Some(may_write) = may_write(&message) else {
            return false;
        };
        match message.kind {
            Kind::Response => return false,
            Kind::Get => self.read_values(&message, false, out),
            Kind::GetNext => self.read_values(&message, true, out),
            Kind::Set => match self.set(may_write, &message) {
                Ok(()) => repeat(&message, 0, 0, out),
                Err(refusal) => repeat(&message, refusal.status, refusal.index, out),
            },
        }
        self.sign.was_heard();
        true
    }

    /// Writes the binding of a name's value; whether it fits, none where there is no such name.
    #[inline]
    fn put_value(&self, name: &[u8], most: usize, out: &mut Out) -> Option<bool> {
        if let Some(value) = self.sign.reads(name) {
            return Some(out.push(name, &value, most));
        }
        let object = &self.objects[self.place_of(name).ok()?];
        Some(out.push(name, &object.value.lent(), most))
    }

    /// Writes the binding that comes after a name, of the sign's and the objects; whether it fits, none where nothing comes.
    #[inline]
    fn put_next(&self, name: &[u8], most: usize, out: &mut Out) -> Option<bool> {
        let object = self.objects.get(self.objects.partition_point(|object| order(&object.name, name).is_le()));
        let instance = self.sign.next(name);
        let next = instance.map(Name::of);
        match (object, instance, next) {
            (None, None, _) => None,
            (Some(object), Some(_), Some(next)) if order(&object.name, next.content()).is_lt() => {
                Some(out.push(&object.name, &object.value.lent(), most))
            }
            (_, Some(instance), Some(next)) => Some(out.push(next.content(), &self.sign.value(instance)?, most)),
            (Some(object), ..) => Some(out.push(&object.name, &object.value.lent(), most)),
            (None, Some(_), None) => None,
        }
    }

    fn has(&self, name: &[u8], next: bool) -> bool {
        if next {
            self.sign.next(name).is_some() || self.objects.last().is_some_and(|object| order(&object.name, name).is_gt())
        } else {
            self.sign.reads(name).is_some() || self.place_of(name).is_ok()
        }
    }

    fn read_values(&self, message: &Message<'_>, next: bool, out: &mut Out) {
        let most = MAX_DATAGRAM.saturating_sub(room_before(message));
        let mut fits = true;
        let mut index = 0;
        for name in message.binds.names() {
            index += 1;
            let put = match (fits, next) {
                (true, true) => self.put_next(name, most, out),
                (true, false) => self.put_value(name, most, out),
                (false, _) => self.has(name, next).then_some(false),
            };
            match put {
                Some(put) => fits = put,
                None => return repeat(message, NO_SUCH_NAME, index, out),
            }
        }
        if !fits || !out.finish(message.community, RESPONSE, message.request, 0, 0) {
            repeat(message, TOO_BIG, 0, out);
        }
    }

    /// Whether all names are those of objects, and there is one; `places` has where these stand.
    fn are_all_named(&mut self, message: &Message<'_>) -> bool {
        self.places.clear();
        for name in message.binds.names() {
            let Ok(place) = self.place_of(name) else {
                return false;
            };
            self.places.push(place);
        }
        !self.places.is_empty()
    }

    fn set(&mut self, may_write: bool, message: &Message<'_>) -> Result<(), Refusal> {
        if !self.are_all_named(message) {
            return self.sign.set(may_write, message);
        }
        self.sets += 1;
        for (index, (bind, place)) in (1..).zip(message.binds.zip(&self.places)) {
            let object = &mut self.objects[*place];
            let status = match object.access {
                _ if !may_write => NO_SUCH_NAME,
                Access::ReadOnly => NO_SUCH_NAME,
                access if !access.admits(&bind.value) => BAD_VALUE,
                _ if object.named_by == self.sets => GEN_ERR,
                _ => 0,
            };
            if status != 0 {
                return Err(Refusal { index, status });
            }
            object.named_by = self.sets;
        }
        for (bind, place) in message.binds.zip(&self.places) {
            let object = &mut self.objects[*place];
            object.value.set(&bind.value);
            object.is_set = true;
        }
        Ok(())
    }
}

/// What a manager may write to each object, as `dms_measures_agent` has it.
const LEVELS: Access = Access::Number { least: 0, most: 255 };

pub fn publish(agent: &mut Agent, name: &[u8], number: u8) -> bool {
    agent.publish(name, &Value::Integer(number.into()), LEVELS)
}

/// The steps of a script, or the names of objects that stand one after another in the same way.
pub fn steps(mut script: &[u8]) -> impl Iterator<Item = &[u8]> {
    std::iter::from_fn(move || {
        let [high, low, rest @ ..] = script else {
            return None;
        };
        let (step, rest) = rest.split_at_checked(usize::from(u16::from_be_bytes([*high, *low])))?;
        script = rest;
        Some(step)
    })
}

/// A sign, and beside it an object of each of these names.
pub fn agent_of(sign: Sign, names: &[u8]) -> Agent {
    let mut agent = Agent::new(sign);
    for name in steps(names) {
        assert!(publish(&mut agent, name, 7));
    }
    agent
}

/// Hands an agent with these objects the script `times` times, as `dms_measures_agent`.
pub fn agent_times(sign: Sign, names: &[u8], script: &[u8], times: u32) -> u64 {
    let mut agent = agent_of(sign, names);
    let mut out = Out::new();
    let mut sum = 0_u64;
    for time in 0..times {
        for (place, datagram) in (time as usize..).zip(steps(black_box(script))) {
            agent.receive(datagram, &mut out);
            let octet = out.as_slice().get(place % MAX_DATAGRAM).copied().unwrap_or(0);
            sum = sum.wrapping_add(out.as_slice().len() as u64 + u64::from(octet));
        }
    }
    sum
}

/// Publishes an object of a name `times` times, as `dms_measures_publish`.
pub fn publish_times(sign: Sign, names: &[u8], name: &[u8], times: u32) -> u64 {
    let mut agent = agent_of(sign, names);
    let done: u64 = (0..times).map(|time| u64::from(publish(&mut agent, black_box(name), time as u8))).sum();
    done + agent.objects().len() as u64
}

/// The same, and each time the object is withdrawn again.
pub fn withdraw_times(sign: Sign, names: &[u8], name: &[u8], times: u32) -> u64 {
    let mut agent = agent_of(sign, names);
    let mut sum = 0;
    for time in 0..times {
        sum += u64::from(publish(&mut agent, black_box(name), time as u8)) + u64::from(agent.withdraw(black_box(name)));
    }
    sum + agent.objects().len() as u64
}
