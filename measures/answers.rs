//! What the calls by hand answer, each octet of it in one number: the same as `dms_answers_..` of the crate dms_measures.

use crate::peer::{Bind, MessageParts, Out, Value, read, write};
use crate::peer_agent::{self, Agent, agent_of, steps};
use crate::peer_centre::{Ended, REQUESTS, new_centre, publication, replies_to};
use crate::peer_replay;
use crate::peer_sign::{Sign, syntax_number};
use crate::peer_text::{Cell, Face, check, pages};

/// With a number after what was noted before: it depends on each of them and on their order.
pub fn noted(sum: u64, number: u64) -> u64 {
    sum.wrapping_mul(1_099_511_628_211).wrapping_add(number)
}

/// With these octets and how many they are.
fn octets_noted(sum: u64, octets: &[u8]) -> u64 {
    octets.iter().fold(noted(sum, octets.len() as u64), |sum, octet| noted(sum, u64::from(*octet)))
}

/// With a value: the number of its tag, and its content.
fn value_noted(sum: u64, value: &Value<'_>) -> u64 {
    match value {
        Value::Integer(number) => noted(noted(sum, 2), number.unsigned_abs()),
        Value::Octets(octets) => octets_noted(noted(sum, 4), octets),
        Value::Null => noted(sum, 5),
        Value::Name(name) => octets_noted(noted(sum, 6), name.content),
        Value::Address(octets) => octets_noted(noted(sum, 64), octets),
        Value::Counter(number) => noted(noted(sum, 65), u64::from(*number)),
        Value::Gauge(number) => noted(noted(sum, 66), u64::from(*number)),
        Value::Ticks(number) => noted(noted(sum, 67), u64::from(*number)),
        Value::Opaque(octets) => octets_noted(noted(sum, 68), octets),
    }
}

pub fn read_noted(datagram: &[u8]) -> u64 {
    match read(datagram) {
        Err(fault) => noted(fault.kind as u64 + 1, fault.place as u64),
        Ok(message) => {
            let sum = octets_noted(noted(0, message.request.unsigned_abs()), message.community);
            message.binds.fold(sum, |sum, bind| value_noted(octets_noted(sum, bind.name.content), &bind.value))
        }
    }
}

pub fn written(datagram: &[u8]) -> u64 {
    let Ok(message) = read(datagram) else {
        return 0;
    };
    let binds: Vec<Bind<'_>> = message.binds.collect();
    let parts = MessageParts {
        community: message.community,
        kind: message.kind,
        request: message.request,
        status: message.status,
        index: message.index,
        binds: &binds,
    };
    let mut out = Out::new();
    write(&parts, &mut out).map_or(0, |()| octets_noted(1, out.as_slice()))
}

pub fn checked(face: &Face, text: &[u8]) -> u64 {
    match check(face, text) {
        Ok(count) => noted(1, count as u64),
        Err((code, place)) => noted(noted(2, syntax_number(code).into()), place as u64),
    }
}

fn cell_noted(sum: u64, cell: &Cell) -> u64 {
    let sum = noted(noted(sum, cell.lit.into()), cell.colour.into());
    match cell.flash {
        None => noted(sum, 0),
        Some(flash) => noted(noted(noted(sum, 1 + u64::from(flash.dark_first)), flash.lit.into()), flash.dark.into()),
    }
}

pub fn drawn(face: &Face, text: &[u8]) -> u64 {
    let Ok(made) = pages(face, text) else {
        return 0;
    };
    made.iter().fold(noted(0, made.len() as u64), |sum, page| {
        let (on, off) = page.times;
        page.cells().fold(noted(noted(sum, on.into()), off.into()), cell_noted)
    })
}

fn played(sign: &mut Sign, script: &[u8], before: u64, out: &mut Out) -> u64 {
    let mut sum = before;
    let mut left = script;
    while let [high, low, rest @ ..] = left {
        let (datagram, rest) = rest.split_at(usize::from(u16::from_be_bytes([*high, *low])));
        if datagram.is_empty() {
            sign.tick();
        } else {
            let replied = sign.receive(datagram, out);
            sum = match sign.newly_accepted() {
                Some(code) => octets_noted(noted(sum, 2), &code),
                None => noted(sum, replied.into()),
            };
            sum = octets_noted(sum, out.as_slice());
        }
        left = rest;
    }
    sum
}

pub fn answered(mut sign: Sign, before: &[u8], script: &[u8]) -> u64 {
    let mut out = Out::new();
    [before, script, script].into_iter().fold(0, |sum, script| played(&mut sign, script, sum, &mut out))
}

fn objects_noted(sum: u64, agent: &Agent) -> u64 {
    agent.objects().iter().fold(noted(sum, agent.objects().len() as u64), |sum, object| {
        let (name, value, is_set) = object.parts();
        noted(value_noted(octets_noted(sum, name), &value), is_set.into())
    })
}

pub fn agent_answered(sign: Sign, names: &[u8], script: &[u8]) -> u64 {
    let mut agent = agent_of(sign, names);
    let mut out = Out::new();
    let mut sum = 0;
    for datagram in steps(script).chain(steps(script)) {
        let replied = agent.receive(datagram, &mut out);
        sum = octets_noted(noted(sum, replied.into()), out.as_slice());
    }
    objects_noted(sum, &agent)
}

pub fn objects_published(sign: Sign, names: &[u8], name: &[u8]) -> u64 {
    let mut agent = agent_of(sign, names);
    let mut sum = 0;
    for number in [1, 2] {
        let done = peer_agent::publish(&mut agent, name, number);
        sum = objects_noted(noted(sum, done.into()), &agent);
    }
    let found = agent.withdraw(name);
    objects_noted(noted(sum, found.into()), &agent)
}

pub fn published(text: &[u8]) -> u64 {
    let (Some(replies), Some(mut centre)) = (replies_to(text), new_centre()) else {
        return 0;
    };
    let mut out = Out::new();
    let taken = centre.command(publication(text), &mut out).is_ok();
    let mut sum = octets_noted(taken.into(), out.as_slice());
    for (at, reply) in replies.iter().enumerate() {
        if at == REQUESTS - 1 {
            centre.tick(&mut out);
            sum = octets_noted(sum, out.as_slice());
        }
        centre.receive(reply.as_slice(), &mut out);
        sum = octets_noted(sum, out.as_slice());
    }
    noted(sum, (centre.last() == Ended::Accepted).into())
}

pub fn waited(text: &[u8], ticks: u32) -> u64 {
    let Some(mut centre) = new_centre() else {
        return 0;
    };
    let mut out = Out::new();
    let mut sum = 0;
    for _ in 0..2 {
        let taken = centre.command(publication(text), &mut out).is_ok();
        sum = octets_noted(noted(sum, taken.into()), out.as_slice());
        for _ in 0..ticks {
            centre.tick(&mut out);
            sum = octets_noted(noted(sum, 1), out.as_slice());
        }
        centre.restart();
        sum = noted(sum, centre.busy().into());
    }
    sum
}

pub fn foreign(datagram: &[u8]) -> u64 {
    let Some(mut centre) = new_centre() else {
        return 0;
    };
    let mut out = Out::new();
    let taken = centre.command(publication(b"A"), &mut out).is_ok();
    let sum = octets_noted(taken.into(), out.as_slice());
    centre.receive(datagram, &mut out);
    noted(octets_noted(sum, out.as_slice()), centre.busy().into())
}

pub fn replayed(script: &[u8]) -> u64 {
    peer_replay::replayed(script).map_or(0, |report| octets_noted(1, &report))
}
