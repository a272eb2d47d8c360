//! Measures of the proved libraries beside the same by hand, in one program.
//!
//!     measure [TOPIC ..]                      the times of all measures, or of those of these topics
//!     measure --compare [TOPIC ..]            compares what both answer, octet by octet, and measures nothing
//!     measure --list [TOPIC ..]               their topics and names
//!     measure --instructions [TOPIC ..]       what measured.py has callgrind count: a part for no calls and one for some
//!     measure --count TOPIC NAME SIDE TIMES   does a measure so many times, `proved` or `by-hand`, for a profiler
//!
//! Each line has the topic, the name, the nanoseconds of a proved call and of one by hand, with tabs between them. A measure is taken
//! after both answered the same.

mod answers;
mod measure_agent;
mod measure_replay;
mod measure_sign;
mod peer;
mod peer_agent;
mod peer_centre;
mod peer_digits;
mod peer_replay;
mod peer_sign;
mod peer_text;

use peer_text::Face;
use std::ffi::{CString, c_char};
use std::hint::black_box;
use std::rc::Rc;
use std::time::Instant;
use std::{env, process};

/// Passes of a measure, of which the best counts. Those of the two sides take turns.
const PASSES: usize = 40;

/// The most calls whose sums are compared before the passes: the sign's measures sum up another octet of the reply in each.
const COMPARED: u32 = 1_472;

/// How long the calls of a pass take at least, in nanoseconds, and how many times as long as what is done once before them.
const PASS_NANOSECONDS: f64 = 2e6;
const TIMES_WHAT_IS_DONE_ONCE: f64 = 4.0;

/// How long the calls whose instructions are counted take at least, in nanoseconds under callgrind.
const PASS_COUNTED_NANOSECONDS: f64 = 2e7;

/// Does one thing so many times, and sums what came out.
pub type Call = Box<dyn Fn(u32) -> u64>;

/// What one thing answers, each octet of it in one number.
pub type Answer = Box<dyn Fn() -> u64>;

/// A proved call beside the same by hand.
pub struct Measure {
    name: String,
    proved: Call,
    by_hand: Call,
    answers: Option<[Answer; 2]>,
}

impl Measure {
    pub fn new(name: String, proved: impl Fn(u32) -> u64 + 'static, by_hand: impl Fn(u32) -> u64 + 'static) -> Measure {
        Measure { name, proved: Box::new(proved), by_hand: Box::new(by_hand), answers: None }
    }

    /// The same, with what the proved call and that by hand answer.
    pub fn answering(self, proved: impl Fn() -> u64 + 'static, by_hand: impl Fn() -> u64 + 'static) -> Measure {
        Measure { answers: Some([Box::new(proved), Box::new(by_hand)]), ..self }
    }

    /// Ends the program where the two sides differ.
    fn compare(&self, rounds: u32) {
        if let Some([proved, by_hand]) = &self.answers {
            assert_eq!(proved(), by_hand(), "what is answered: {}", self.name);
        }
        assert_eq!((self.proved)(rounds), (self.by_hand)(rounds), "what is summed: {}", self.name);
    }

    /// The nanoseconds of a proved call and of one by hand, without what is done once a pass.
    fn best(&self) -> [f64; 2] {
        let calls = [&self.proved, &self.by_hand];
        let times = calls.map(|call| calls_of_a_pass(call, PASS_NANOSECONDS, TIMES_WHAT_IS_DONE_ONCE));
        self.compare(times[0].clamp(3, COMPARED));
        let mut best = [[f64::INFINITY; 2]; 2];
        for _ in 0..PASSES {
            for side in 0..2 {
                best[side][0] = best[side][0].min(pass(calls[side], 0));
                best[side][1] = best[side][1].min(pass(calls[side], times[side]));
            }
        }
        [0, 1].map(|side| (best[side][1] - best[side][0]) / f64::from(times[side]))
    }
}

/// How many calls take so long at least, and so many times as long as what is done once before them.
fn calls_of_a_pass(call: &Call, nanoseconds: f64, times_once: f64) -> u32 {
    let least = |times| (0..3).map(|_| pass(call, times)).fold(f64::INFINITY, f64::min);
    let once = least(0);
    let wanted = nanoseconds.max(times_once * once);
    let mut times = 4;
    loop {
        let took = least(times) - once;
        if took >= wanted / 2.0 {
            return (f64::from(times) * wanted / took).ceil() as u32;
        }
        times *= 4;
    }
}

/// The nanoseconds of so many calls, and of what is done once before them.
fn pass(call: &Call, times: u32) -> f64 {
    let start = Instant::now();
    black_box(call(times));
    start.elapsed().as_nanos() as f64
}

/// Does one thing `times` times over a datagram, and sums what came out.
pub type Exported = unsafe extern "C" fn(datagram: *const u8, size: usize, times: u32) -> u64;
pub type Plain = fn(datagram: &[u8], times: u32) -> u64;

/// What is answered over octets.
pub type AnswerExported = unsafe extern "C" fn(octets: *const u8, size: usize) -> u64;
pub type AnswerPlain = fn(octets: &[u8]) -> u64;

/// A measure over octets, and what is answered over them.
pub fn over_octets(name: String, octets: Vec<u8>, (exported, plain): (Exported, Plain), (answer, answer_by_hand): (AnswerExported, AnswerPlain)) -> Measure {
    let octets: Rc<[u8]> = octets.into();
    let [first, second, third] = [octets.clone(), octets.clone(), octets.clone()];
    // The exports take a slice as its pointer and its length.
    let proved = move |times| unsafe { exported(octets.as_ptr(), octets.len(), times) };
    let measure = Measure::new(name, proved, move |times| plain(&first, times));
    measure.answering(move || unsafe { answer(second.as_ptr(), second.len()) }, move || answer_by_hand(&third))
}

/// Does one thing `times` times over a text, on the largest matrix with these fonts, and sums what came out.
type ExportedOfText = unsafe extern "C" fn(fonts: *const u8, fonts_size: usize, text: *const u8, size: usize, times: u32) -> u64;
type AnswerOfText = unsafe extern "C" fn(fonts: *const u8, fonts_size: usize, text: *const u8, size: usize) -> u64;

#[link(name = "counted", kind = "static")]
unsafe extern "C" {
    fn count_from_here();
    fn count_to_here(name: *const c_char);
}

#[link(name = "dms_measures", kind = "static")]
unsafe extern "C" {
    fn dms_answers_check(fonts: *const u8, fonts_size: usize, text: *const u8, size: usize) -> u64;
    fn dms_answers_foreign(datagram: *const u8, size: usize) -> u64;
    fn dms_answers_pages(fonts: *const u8, fonts_size: usize, text: *const u8, size: usize) -> u64;
    fn dms_answers_publication(text: *const u8, size: usize) -> u64;
    fn dms_answers_read(datagram: *const u8, size: usize) -> u64;
    fn dms_answers_waits(text: *const u8, size: usize, ticks: u32) -> u64;
    fn dms_answers_write(datagram: *const u8, size: usize) -> u64;
    fn dms_measures_cells(fonts: *const u8, fonts_size: usize, text: *const u8, size: usize, times: u32) -> u64;
    fn dms_measures_centre_command(text: *const u8, size: usize, times: u32) -> u64;
    fn dms_measures_centre_foreign(datagram: *const u8, size: usize, times: u32) -> u64;
    fn dms_measures_centre_publication(text: *const u8, size: usize, times: u32) -> u64;
    fn dms_measures_centre_resend(text: *const u8, size: usize, times: u32) -> u64;
    fn dms_measures_centre_ticks(text: *const u8, size: usize, times: u32) -> u64;
    fn dms_measures_check(fonts: *const u8, fonts_size: usize, text: *const u8, size: usize, times: u32) -> u64;
    fn dms_measures_crc(text: *const u8, size: usize, times: u32) -> u64;
    fn dms_measures_pages(fonts: *const u8, fonts_size: usize, text: *const u8, size: usize, times: u32) -> u64;
    fn dms_measures_read(datagram: *const u8, size: usize, times: u32) -> u64;
    fn dms_measures_walk(datagram: *const u8, size: usize, times: u32) -> u64;
    fn dms_measures_write(datagram: *const u8, size: usize, times: u32) -> u64;
}

/// A Get of one binding, and a GetNext of 205, in hexadecimal.
const GET: &str = include_str!("datagrams/get.hex");
const FULL: &str = include_str!("datagrams/full.hex");

fn octets_of(digits: &str) -> Vec<u8> {
    let digits = digits.trim();
    (0..digits.len()).step_by(2).filter_map(|at| u8::from_str_radix(&digits[at..at + 2], 16).ok()).collect()
}

/// Four fonts, each with the characters 32 to 126, wide as its number says: a font's header, then a line for each character.
/// Which bits are lit does not matter much; here about half of them.
fn fonts() -> String {
    let mut lines = String::new();
    for (number, height, width) in [(1, 7, 5), (2, 9, 6), (3, 11, 7), (4, 14, 8)] {
        lines += &format!("font {number} height {height} space 1 line 2 version {number:04x}\n");
        let mut bits = 1_u32;
        for character in 32..=126 {
            lines += &format!("glyph {character} {width} ");
            for _ in 0..(height * width + 7_u32) / 8 {
                bits = bits.wrapping_mul(1_664_525).wrapping_add(1_013_904_223);
                lines += &format!("{:02x}", bits >> 24);
            }
            lines += "\n";
        }
    }
    lines
}

/// Pieces of texts, of 64 octets each: the first page's upper and lower half, and the halves of each page behind it.
const PIECES: [&str; 4] = [
    "[jp2][jl2][fo1]ROAD WORK AHEAD[jl4][cf3]12 KM[nl][fl]LEFT[/fl] 1",
    "[jp3][nl2][fo2][jl3]KEEP RIGHT[nl][cf5][fo1]EXIT 14 CLOSED TODAY",
    "[np][jl3][jp2][cb1][pt30o5][fo3]SLIPPERY[nl1][cf7]ROAD SURFACES!",
    "[jp4][nl][fo4][jl2][flt5o3]SLOW[/fl][jl4]60[nl][fo1][cf9]REDUCED",
];

/// The text of so many pieces.
fn text_of(pieces: usize) -> String {
    (0..pieces).map(|at| PIECES[if at < 2 { at } else { 2 + at % 2 }]).collect()
}

/// A text's items: tags and characters. (It has no brackets beside those of its tags.)
fn items_of(text: &str) -> usize {
    text.split('[').map(|part| part.split(']').last().map_or(0, str::len)).sum::<usize>() + text.matches('[').count()
}

/// Four fonts whose text is made by this; a text, and a name for it.
struct Case {
    name: String,
    fonts: String,
    text: Vec<u8>,
}

/// A font of 255 characters of one column: the last of them is the last of the font.
fn full_font() -> String {
    let glyphs: String = (1..=255).map(|character| format!("glyph {character} 1 80\n")).collect();
    format!("font 1 height 1 space 0 line 0 version 0001\n{glyphs}")
}

/// Texts with items of all kinds, and the texts that are worst for one of the calls' parts, each at four sizes.
fn cases() -> Vec<Case> {
    let mut cases = Vec::new();
    for pieces in [1, 2, 4, 8] {
        let text = text_of(pieces);
        cases.push(Case { name: format!("{} octets, {} items", text.len(), items_of(&text)), fonts: fonts(), text: text.into_bytes() });
    }
    for count in [32, 64, 128, 256] {
        let columns = count.min(256);
        cases.push(Case { name: format!("{columns} times the last of 255"), fonts: full_font(), text: vec![255; columns] });
        cases.push(Case { name: format!("{} times [fo]", count / 2), fonts: fonts(), text: "[fo]".repeat(count / 2).into_bytes() });
        let lines = (count / 4).min(63);
        cases.push(Case { name: format!("{lines} new lines"), fonts: full_font(), text: "[nl0]".repeat(lines).into_bytes() });
        cases.push(Case { name: format!("{} octets, not closed", 2 * count), fonts: fonts(), text: [b"[", "a".repeat(2 * count - 1).as_bytes()].concat() });
    }
    cases
}

/// A good reply to the first request of a publication, with this community and this tag of its value.
fn first_reply(community: &[u8; 5], tag: u8) -> Vec<u8> {
    let pdu = b"\xa2\x22\x02\x01\x01\x02\x01\x00\x02\x01\x00\x30\x17\x30\x15";
    let name = b"\x06\x10\x2b\x06\x01\x04\x01\x89\x36\x04\x02\x03\x05\x08\x01\x09\x03\x01";
    [b"\x30\x2e\x02\x01\x00\x04\x05".as_slice(), community, pdu, name, &[tag, 1, 6]].concat()
}

/// Datagrams that do not answer the request that waits, each with a name for it.
fn foreign() -> [(&'static str, Vec<u8>); 4] {
    [
        ("other community, 48 octets", first_reply(b"other", 2)),
        ("bad last tag, 48 octets", first_reply(b"admin", 3)),
        ("garbage, 48 octets", vec![255; 48]),
        ("205 bindings, 1472 octets", octets_of(FULL)),
    ]
}

/// A call, that by hand, and what both answer, over octets.
type OverOctets = (&'static str, (Exported, Plain), (AnswerExported, AnswerPlain));

/// What is read of a datagram, and of those that differ from it in an octet or end before it does.
fn read_changed(datagram: &[u8], read: impl Fn(&[u8]) -> u64) -> u64 {
    let mut octets = datagram.to_vec();
    let mut sum = read(datagram);
    for at in 0..octets.len() {
        for change in [1, 2, 4, 8, 16, 32, 64, 128, 255] {
            octets[at] ^= change;
            sum = answers::noted(sum, read(&octets));
            octets[at] ^= change;
        }
        sum = answers::noted(sum, read(&octets[..at]));
    }
    sum
}

unsafe extern "C" fn read_changed_proved(datagram: *const u8, size: usize) -> u64 {
    let datagram = unsafe { std::slice::from_raw_parts(datagram, size) };
    read_changed(datagram, |octets| unsafe { dms_answers_read(octets.as_ptr(), octets.len()) })
}

fn read_changed_by_hand(datagram: &[u8]) -> u64 {
    read_changed(datagram, answers::read_noted)
}

/// Datagrams are read, read and walked, and written.
fn datagrams() -> Vec<Measure> {
    let calls: [OverOctets; 3] = [
        ("read", (dms_measures_read, peer::read_times), (read_changed_proved, read_changed_by_hand)),
        ("read and walk", (dms_measures_walk, peer::walk_times), (dms_answers_read, answers::read_noted)),
        ("write", (dms_measures_write, peer::write_times), (dms_answers_write, answers::written)),
    ];
    let all = [("a Get of one binding, 48 octets", GET), ("a GetNext of 205 bindings, 1,472 octets", FULL)];
    let measures = all.iter().flat_map(|(of, digits)| {
        calls.map(|(call, timed, answer)| over_octets(format!("{call}, {of}"), octets_of(digits), timed, answer))
    });
    measures.collect()
}

/// The checksum of texts of several sizes: what is summed are the checksums.
fn checksums() -> Vec<Measure> {
    let sizes = [64, 128, 256, 512];
    let measures = sizes.map(|size| {
        let text: Rc<[u8]> = (0..size).map(|at| (at * 7 + 13) as u8).collect();
        let same = text.clone();
        let proved = move |times| unsafe { dms_measures_crc(text.as_ptr(), text.len(), times) };
        let by_hand = move |times| (0..times).map(|time| u64::from(peer_sign::crc(black_box(&same), (time % 2) as u8, 0))).sum();
        Measure::new(format!("{size} octets"), proved, by_hand)
    });
    measures.into()
}

/// A call over each text, that by hand, and what both answer.
struct OfTexts {
    exported: ExportedOfText,
    by_hand: fn(&Face, &[u8], u32) -> u64,
    answer: AnswerOfText,
    answer_by_hand: fn(&Face, &[u8]) -> u64,
    /// Whether texts with a fault are left out.
    good: bool,
}

fn texts(call: OfTexts) -> Vec<Measure> {
    let mut measures = Vec::new();
    for Case { name, fonts, text } in cases() {
        let face = Rc::new(Face::largest(&fonts).expect("fonts"));
        if call.good && peer_text::check(&face, &text).is_err() {
            continue;
        }
        let OfTexts { exported, by_hand, answer, answer_by_hand, .. } = call;
        let octets: Rc<(String, Vec<u8>)> = Rc::new((fonts, text));
        let [first, second, third] = [octets.clone(), octets.clone(), octets.clone()];
        let same = face.clone();
        let proved = move |times| unsafe {
            let (fonts, text) = &*octets;
            exported(fonts.as_ptr(), fonts.len(), text.as_ptr(), text.len(), times)
        };
        let answered = move || unsafe {
            let (fonts, text) = &*second;
            answer(fonts.as_ptr(), fonts.len(), text.as_ptr(), text.len())
        };
        let measure = Measure::new(name, proved, move |times| by_hand(&face, &first.1, times));
        measures.push(measure.answering(answered, move || answer_by_hand(&same, &third.1)));
    }
    measures
}

/// Each text is checked.
fn checks() -> Vec<Measure> {
    let (exported, answer) = (dms_measures_check as ExportedOfText, dms_answers_check as AnswerOfText);
    texts(OfTexts { exported, by_hand: peer_text::check_times, answer, answer_by_hand: answers::checked, good: false })
}

/// The pages of each text are made.
fn pages() -> Vec<Measure> {
    let (exported, answer) = (dms_measures_pages as ExportedOfText, dms_answers_pages as AnswerOfText);
    texts(OfTexts { exported, by_hand: peer_text::pages_times, answer, answer_by_hand: answers::drawn, good: true })
}

/// Each cell of these pages is looked up.
fn cells() -> Vec<Measure> {
    let (exported, answer) = (dms_measures_cells as ExportedOfText, dms_answers_pages as AnswerOfText);
    texts(OfTexts { exported, by_hand: peer_text::cells_times, answer, answer_by_hand: answers::drawn, good: true })
}

/// What a central system sends while a publication waits for so many ticks.
fn waits(name: String, text: String, (exported, plain): (Exported, Plain), ticks: u32) -> Measure {
    let octets: Rc<str> = text.into();
    let [first, second, third] = [octets.clone(), octets.clone(), octets.clone()];
    let proved = move |times| unsafe { exported(octets.as_ptr(), octets.len(), times) };
    let measure = Measure::new(name, proved, move |times| plain(first.as_bytes(), times));
    let answered = move || unsafe { dms_answers_waits(second.as_ptr(), second.len(), ticks) };
    measure.answering(answered, move || answers::waited(third.as_bytes(), ticks))
}

/// The central system: publications, commands with and without ticks, and datagrams that do not answer what waits.
fn centre() -> Vec<Measure> {
    let publication: (Exported, Plain) = (dms_measures_centre_publication, peer_centre::publication_times);
    let published: (AnswerExported, AnswerPlain) = (dms_answers_publication, answers::published);
    let calls: [(&str, (Exported, Plain), u32); 3] = [
        ("a command and a restart", (dms_measures_centre_command, peer_centre::command_times), 0),
        ("the same with 2 ticks", (dms_measures_centre_ticks, peer_centre::ticks_times), 2),
        ("the same with a third, which sends again", (dms_measures_centre_resend, peer_centre::resend_times), 3),
    ];
    let of = |call: &str, pieces| format!("{call}, {} octets", text_of(pieces).len());
    let sizes = [0, 1, 2, 4, 8];
    let mut measures: Vec<Measure> =
        sizes.map(|pieces| over_octets(of("a publication", pieces), text_of(pieces).into_bytes(), publication, published)).into();
    for (call, timed, ticks) in calls {
        measures.extend(sizes.map(|pieces| waits(of(call, pieces), text_of(pieces), timed, ticks)));
    }
    let timed: (Exported, Plain) = (dms_measures_centre_foreign, peer_centre::foreign_times);
    let answer: (AnswerExported, AnswerPlain) = (dms_answers_foreign, answers::foreign);
    measures.extend(foreign().map(|(name, octets)| over_octets(format!("no answer: {name}"), octets, timed, answer)));
    measures
}

/// A topic, and what is measured of it.
type Topic = (&'static str, fn() -> Vec<Measure>);

const TOPICS: [Topic; 11] = [
    ("datagrams", datagrams),
    ("checksum", checksums),
    ("check", checks),
    ("pages", pages),
    ("cells of these pages", cells),
    ("sign with 1, 2 and 1 rows", || measure_sign::few(&fonts(), text_of(8).as_bytes())),
    ("sign with 16, 64 and 16 rows", || measure_sign::most(&fonts(), text_of(8).as_bytes())),
    ("growth of the sign with 1, 2 and 1 rows", || {
        measure_sign::growth(&fonts(), &[1, 2, 4, 8].map(|pieces| text_of(pieces).into_bytes()))
    }),
    ("agent with 1,000 objects", || measure_agent::measures(&fonts())),
    ("centre", centre),
    ("scripts", || measure_replay::scripts(&fonts())),
];

/// The measures of these topics, or of all.
fn of_topics(topics: &[&str]) -> impl Iterator<Item = (&'static str, Measure)> {
    let asked = TOPICS.iter().filter(|(topic, _)| topics.is_empty() || topics.contains(topic));
    asked.flat_map(|(topic, measures)| measures().into_iter().map(move |measure| (*topic, measure)))
}

/// Has callgrind count a measure: no calls, and some. It prints how many, for each side.
fn count_instructions(topic: &str, measure: &Measure) {
    measure.compare(3);
    print!("{topic}\t{}", measure.name);
    for call in [&measure.proved, &measure.by_hand] {
        let times = calls_of_a_pass(call, PASS_COUNTED_NANOSECONDS, TIMES_WHAT_IS_DONE_ONCE);
        for times in [0, times] {
            let name = CString::new(format!("{topic}/{}/{times}", measure.name)).expect("a name");
            unsafe { count_from_here() };
            black_box(call(times));
            unsafe { count_to_here(name.as_ptr()) };
        }
        print!("\t{times}");
    }
    println!();
}

/// Does a measure so many times.
fn count(topic: &str, name: &str, side: &str, times: &str) {
    let times = times.parse().expect("a number");
    let Some((_, measure)) = of_topics(&[topic]).find(|(_, measure)| measure.name == name) else {
        eprintln!("no such measure: --list names them");
        process::exit(2);
    };
    let call = if side == "by-hand" { measure.by_hand } else { measure.proved };
    println!("{}", call(times));
}

fn main() {
    let words: Vec<String> = env::args().skip(1).collect();
    let words: Vec<&str> = words.iter().map(String::as_str).collect();
    match words.as_slice() {
        ["--count", topic, name, side, times] => count(topic, name, side, times),
        ["--list", topics @ ..] => of_topics(topics).for_each(|(topic, measure)| println!("{topic}\t{}", measure.name)),
        ["--instructions", topics @ ..] => of_topics(topics).for_each(|(topic, measure)| count_instructions(topic, &measure)),
        ["--compare", topics @ ..] => {
            let compared = of_topics(topics).map(|(_, measure)| measure.compare(3)).count();
            println!("{compared} measures answer the same");
        }
        topics => {
            for (topic, measure) in of_topics(topics) {
                let [proved, by_hand] = measure.best();
                println!("{topic}\t{}\t{proved:.1}\t{by_hand:.1}", measure.name);
            }
        }
    }
}
