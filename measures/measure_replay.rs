//! Measures of scripts, beside the same of `peer_replay`: publications and activations on a sign with 16, 64 and 16 rows.

use std::fmt::Write;

use crate::peer_sign::crc;
use crate::{AnswerExported, AnswerPlain, Exported, Measure, Plain, answers, over_octets, peer_replay};

/// How many events a script has.
const EVENTS: [usize; 4] = [2_500, 5_000, 10_000, 20_000];

/// A publication has seventeen events, and an activation after it three.
const CYCLE: usize = 20;

const TEXT: &[u8] = b"ROAD CLOSED";

#[link(name = "dms_measures", kind = "static")]
unsafe extern "C" {
    fn dms_answers_replay(script: *const u8, size: usize) -> u64;
    fn dms_measures_script_read(script: *const u8, size: usize, times: u32) -> u64;
    fn dms_measures_script_report(script: *const u8, size: usize, times: u32) -> u64;
    fn dms_measures_script_replay(script: *const u8, size: usize, times: u32) -> u64;
}

const MEASURES: [(&str, Exported, Plain); 3] = [
    ("reading", dms_measures_script_read, peer_replay::read_times),
    ("the report", dms_measures_script_report, peer_replay::report_times),
    ("the whole replay", dms_measures_script_replay, peer_replay::replay_times),
];

fn hexadecimal(octets: &[u8]) -> String {
    octets.iter().map(|octet| format!("{octet:02x}")).collect()
}

/// A sign with the most rows and these fonts, and so many events: each changeable row in turn is published and then activated again.
pub fn script_of(fonts: &str, events: usize) -> String {
    let mut script = String::from("size 256 64\ncommunities public admin\nrows 64 16\norder high\nhas 1 1\ndefaults 0 9 5 5 1 3 2 30 0\nfirst 1\n");
    let text = hexadecimal(TEXT);
    for _ in 0..16 {
        writeln!(script, "permanent {text} - 0 0 100").expect("a string");
    }
    script += fonts;
    script += "end\n";
    let both = |script: &mut String, places: std::ops::Range<usize>| {
        for place in places {
            writeln!(script, "to-sign {place}\nto-centre {place}").expect("a string");
        }
    };
    for cycle in 0..events / CYCLE {
        let row = 1 + cycle % 64;
        let at = 8 * cycle;
        writeln!(script, "publish 3 {row} {text} - 0 0 200 65535 255 192.0.2.1").expect("a string");
        both(&mut script, at..at + 4);
        script += "sign-tick\n";
        both(&mut script, at + 4..at + 6);
        script += "centre-tick\n";
        both(&mut script, at + 6..at + 7);
        writeln!(script, "activate ffffff03{row:04x}{:04x}c0000201", crc(TEXT, 0, 0)).expect("a string");
        both(&mut script, at + 7..at + 8);
    }
    script
}

/// Scripts of each length.
pub fn scripts(fonts: &str) -> Vec<Measure> {
    let measures = EVENTS.iter().flat_map(|events| {
        let script = script_of(fonts, *events);
        MEASURES.map(|(call, exported, plain)| {
            let answer = (dms_answers_replay as AnswerExported, answers::replayed as AnswerPlain);
            over_octets(format!("{call}, {events} events"), script.clone().into_bytes(), (exported, plain), answer)
        })
    });
    measures.collect()
}
