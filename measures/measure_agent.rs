//! Measures of an agent, beside the same of `peer_agent`: a sign with the most rows, and a thousand objects beside it whose names lie
//! between those of the sign, as the widths of the characters of ten fonts do.

use crate::peer::{Kind, Value};
use crate::peer_agent::{agent_times, publish_times, withdraw_times};
use crate::peer_sign::Sign;
use crate::measure_sign::{MOST, ROW, STATUS, asking, cell, script_of, setting, sign_of};
use crate::{Measure, answers};
use std::rc::Rc;

/// Does one thing with an agent that has objects of these names: its fonts, the names, and a script or a name.
type Exported =
    unsafe extern "C" fn(fonts: *const u8, fonts_size: usize, names: *const u8, names_size: usize, octets: *const u8, size: usize, times: u32) -> u64;
type AnswerExported =
    unsafe extern "C" fn(fonts: *const u8, fonts_size: usize, names: *const u8, names_size: usize, octets: *const u8, size: usize) -> u64;
type Plain = fn(sign: Sign, names: &[u8], octets: &[u8], times: u32) -> u64;
type AnswerPlain = fn(sign: Sign, names: &[u8], octets: &[u8]) -> u64;

#[link(name = "dms_measures", kind = "static")]
unsafe extern "C" {
    fn dms_answers_agent(
        fonts: *const u8, fonts_size: usize, names: *const u8, names_size: usize, script: *const u8, size: usize,
    ) -> u64;
    fn dms_answers_publish(
        fonts: *const u8, fonts_size: usize, names: *const u8, names_size: usize, name: *const u8, size: usize,
    ) -> u64;
    fn dms_measures_agent(
        fonts: *const u8, fonts_size: usize, names: *const u8, names_size: usize, script: *const u8, size: usize, times: u32,
    ) -> u64;
    fn dms_measures_publish(
        fonts: *const u8, fonts_size: usize, names: *const u8, names_size: usize, name: *const u8, size: usize, times: u32,
    ) -> u64;
    fn dms_measures_withdraw(
        fonts: *const u8, fonts_size: usize, names: *const u8, names_size: usize, name: *const u8, size: usize, times: u32,
    ) -> u64;
}

/// The name of the width of a character (32 to 131) in a font.
fn width(font: u8, character: u8) -> Vec<u8> {
    let mut name = vec![43, 6, 1, 4, 1, 137, 54, 4, 2, 3, 3, 4, 1, 2, font];
    match character {
        0..128 => name.push(character),
        _ => name.extend([129, character - 128]),
    }
    name
}

fn names() -> Vec<Vec<u8>> {
    (1..=10).flat_map(|font| (32..132).map(move |character| width(font, character))).collect()
}

/// A call over octets with an agent, that by hand, and what both answer.
fn compared(
    name: &str, (fonts, names): (&str, &[u8]), octets: Vec<u8>, (exported, plain): (Exported, Plain), (answer, answer_by_hand): (AnswerExported, AnswerPlain),
) -> Measure {
    let parts: Rc<[Vec<u8>; 3]> = Rc::new([fonts.as_bytes().to_vec(), names.to_vec(), octets]);
    let [first, second, third] = [parts.clone(), parts.clone(), parts.clone()];
    let sign = |fonts: &[u8]| sign_of(str::from_utf8(fonts).expect("fonts"), MOST);
    let proved = move |times| unsafe {
        let [fonts, names, octets] = &*parts;
        exported(fonts.as_ptr(), fonts.len(), names.as_ptr(), names.len(), octets.as_ptr(), octets.len(), times)
    };
    let by_hand = move |times| plain(sign(&first[0]), &first[1], &first[2], times);
    let answered = move || unsafe {
        let [fonts, names, octets] = &*second;
        answer(fonts.as_ptr(), fonts.len(), names.as_ptr(), names.len(), octets.as_ptr(), octets.len())
    };
    let answered_by_hand = move || answer_by_hand(sign(&third[0]), &third[1], &third[2]);
    Measure::new(name.to_string(), proved, by_hand).answering(answered, answered_by_hand)
}

/// Requests of one name, and what firmware publishes.
pub fn measures(fonts: &str) -> Vec<Measure> {
    let one = names()[617].clone();
    let requests = [
        ("Get of one of the sign's", asking(Kind::Get, &[cell(STATUS, ROW)])),
        ("Get of one of the objects", asking(Kind::Get, &[one.clone()])),
        ("GetNext at the front", asking(Kind::GetNext, &[vec![0]])),
        ("GetNext among the objects", asking(Kind::GetNext, &[one.clone()])),
        ("SET of one of the objects", setting(&[(one.clone(), Value::Integer(60))])),
    ];
    let all = script_of(&names());
    let of = (fonts, &all[..]);
    let calls: (Exported, Plain) = (dms_measures_agent, agent_times);
    let answers: (AnswerExported, AnswerPlain) = (dms_answers_agent, answers::agent_answered);
    let mut measures: Vec<Measure> =
        requests.into_iter().map(|(name, datagram)| compared(name, of, script_of(&[datagram]), calls, answers)).collect();
    let published: (AnswerExported, AnswerPlain) = (dms_answers_publish, answers::objects_published);
    measures.push(compared("publish one of the objects again", of, one, (dms_measures_publish, publish_times), published));
    let another = width(6, 150);
    measures.push(compared("publish another in the middle, and withdraw it", of, another, (dms_measures_withdraw, withdraw_times), published));
    measures
}
