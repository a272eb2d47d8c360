//! Texts checked and drawn by hand, in plain Rust without `unsafe`: the same rules and the same faults as the proved libraries.

use std::collections::HashMap;
use std::ops::Range;

/// A character's picture: a row is a number, whose highest bit is the first column.
#[derive(Clone, Copy)]
struct Glyph<'a> {
    width: u32,
    rows: &'a [u32],
}

struct Font {
    number: u32,
    height: u32,
    character_spacing: u32,
    line_spacing: u32,
    version: u32,
    /// The columns of each character below 256, and its place among the pictures, and those of the characters above.
    widths: [u16; 256],
    /// The columns of each octet that spells a character by itself.
    plain: [u16; 256],
    low: [u8; 256],
    high: HashMap<u16, (u16, u8)>,
    /// The rows of all pictures, one behind the other.
    rows: Vec<u32>,
    glyphs: u8,
}

const NO_WIDTH: u16 = u16::MAX;

impl Font {
    #[inline(always)]
    fn width(&self, character: u16) -> Option<u32> {
        match self.widths.get(usize::from(character)) {
            Some(&NO_WIDTH) => None,
            Some(width) => Some(u32::from(*width)),
            None => self.high.get(&character).map(|(width, _)| u32::from(*width)),
        }
    }

    #[inline(always)]
    fn glyph(&self, character: u16) -> Option<Glyph<'_>> {
        let width = self.width(character)?;
        let place = match self.low.get(usize::from(character)) {
            Some(place) => *place,
            None => self.high.get(&character)?.1,
        };
        let height = self.height as usize;
        Some(Glyph { width, rows: self.rows.get(usize::from(place) * height..)?.get(..height)? })
    }

    fn of(words: [&[u8]; 5]) -> Option<Font> {
        let [number, height, character_spacing, line_spacing] = [words[0], words[1], words[2], words[3]].map(number);
        Some(Font {
            number: number?,
            height: height?,
            character_spacing: character_spacing?,
            line_spacing: line_spacing?,
            version: u32::from(hexadecimal(words[4])?),
            widths: [NO_WIDTH; 256],
            plain: [NO_WIDTH; 256],
            low: [0; 256],
            high: HashMap::new(),
            rows: Vec::new(),
            glyphs: 0,
        })
    }

    /// Adds a character whose bits are spelled in hexadecimal, row by row.
    fn add(&mut self, character: u16, width: u32, bits: &[u8]) -> Option<()> {
        if !(1..=32).contains(&width) {
            return None;
        }
        let mut pairs = bits.chunks_exact(2);
        let (mut held, mut count) = (0_u64, 0);
        for _ in 0..self.height {
            while count < width {
                let [high, low] = *pairs.next()? else {
                    return None;
                };
                held = held << 8 | u64::from(digit(high)? << 4 | digit(low)?);
                count += 8;
            }
            count -= width;
            self.rows.push(((held >> count) as u32) << (32 - width));
        }
        match self.widths.get_mut(usize::from(character)) {
            Some(slot) => {
                *slot = width as u16;
                self.low[usize::from(character)] = self.glyphs;
                if !matches!(character, 91 | 93) {
                    self.plain[usize::from(character)] = width as u16;
                }
            }
            None => drop(self.high.insert(character, (width as u16, self.glyphs))),
        }
        self.glyphs += 1;
        Some(())
    }
}

/// A number of at most nine digits.
fn number(word: &[u8]) -> Option<u32> {
    if word.is_empty() || word.len() > 9 {
        return None;
    }
    word.iter().try_fold(0, |number, octet| octet.is_ascii_digit().then(|| 10 * number + u32::from(octet - b'0')))
}

/// Fonts that are read line by line.
#[derive(Default)]
pub struct Fonts(Vec<Font>);

impl Fonts {
    pub fn add_line(&mut self, line: &[u8]) -> Option<()> {
        let mut words: [&[u8]; 11] = [&[]; 11];
        let mut count = 0;
        for word in line.split(|octet| *octet == b' ') {
            *words.get_mut(count)? = word;
            count += 1;
        }
        match words[..count] {
            [b"glyph", character, width, bits] => {
                let character = u16::try_from(number(character)?).ok()?;
                self.0.last_mut()?.add(character, number(width)?, bits)
            }
            [b"font", number, b"height", height, b"space", character, b"line", line, b"version", version] => {
                self.0.push(Font::of([number, height, character, line, version])?);
                Some(())
            }
            _ => None,
        }
    }
}

struct Defaults {
    background: u8,
    foreground: u8,
    flash_on: u8,
    flash_off: u8,
    font: u32,
    line: u8,
    page: u8,
    on: u8,
    off: u8,
}

pub struct Face {
    width: u32,
    height: u32,
    fonts: Vec<Font>,
    defaults: Defaults,
}

impl Face {
    fn font(&self, number: u32) -> Option<&Font> {
        self.fonts.iter().find(|font| font.number == number)
    }

    /// The largest matrix with these fonts.
    pub fn with(Fonts(fonts): Fonts) -> Face {
        let defaults = Defaults { background: 0, foreground: 9, flash_on: 5, flash_off: 5, font: 1, line: 3, page: 2, on: 30, off: 0 };
        Face { width: 256, height: 64, fonts, defaults }
    }

    /// The largest matrix with the fonts of these lines.
    pub fn largest(lines: &str) -> Option<Face> {
        let mut fonts = Fonts::default();
        lines.lines().try_for_each(|line| fonts.add_line(line.as_bytes()))?;
        Some(Face::with(fonts))
    }
}

// ---- the markup

#[derive(Clone, Copy, Debug, PartialEq)]
pub enum Code {
    Tag,
    Value,
    TooBig,
    NoFont,
    NoCharacter,
    Conflict,
    TooManyPages,
    Version,
}

#[derive(Clone, Copy)]
enum Item {
    Char(u16),
    Background(Option<u8>),
    Foreground(Option<u8>),
    Font(Option<(u8, Option<u16>)>),
    Flash { dark_first: bool, lit: Option<u8>, dark: Option<u8> },
    FlashEnd,
    JustLine(Option<u8>),
    JustPage(Option<u8>),
    NewLine(Option<u8>),
    NewPage,
    PageTime { lit: Option<u8>, dark: Option<u8> },
}

fn decimal(text: &[u8], low: u32, high: u32) -> Option<u8> {
    if text.is_empty() || text.len() > 5 {
        return None;
    }
    let mut number = 0_u32;
    for octet in text {
        if !octet.is_ascii_digit() {
            return None;
        }
        number = number * 10 + u32::from(octet - b'0');
    }
    (low..=high).contains(&number).then_some(number as u8)
}

fn value(text: &[u8], low: u32, high: u32) -> Option<Option<u8>> {
    if text.is_empty() { Some(None) } else { decimal(text, low, high).map(Some) }
}

fn hexadecimal(text: &[u8]) -> Option<u16> {
    if text.is_empty() || text.len() > 4 {
        return None;
    }
    text.iter().try_fold(0_u16, |number, octet| Some(number << 4 | u16::from(digit(*octet)?)))
}

/// What each octet is worth as a hexadecimal digit, and 255 where it is none.
const DIGITS: [u8; 256] = digits();

const fn digits() -> [u8; 256] {
    let mut table = [255; 256];
    let mut value = 0;
    while value < 16 {
        let octet = b"0123456789abcdef"[value as usize];
        table[octet as usize] = value;
        table[octet.to_ascii_uppercase() as usize] = value;
        value += 1;
    }
    table
}

#[inline]
pub fn digit(octet: u8) -> Option<u8> {
    match DIGITS[usize::from(octet)] {
        255 => None,
        value => Some(value),
    }
}

fn times(text: &[u8], letter: u8, high: u32) -> Option<(Option<u8>, Option<u8>)> {
    match text.iter().position(|octet| octet.to_ascii_lowercase() == letter) {
        Some(at) => Some((value(&text[..at], 0, high)?, value(&text[at + 1..], 0, high)?)),
        None => Some((value(text, 0, high)?, None)),
    }
}

fn font_value(text: &[u8]) -> Option<Option<(u8, Option<u16>)>> {
    if text.is_empty() {
        return Some(None);
    }
    match text.iter().position(|octet| *octet == b',') {
        Some(at) => {
            let number = decimal(&text[..at], 1, 255)?;
            let version = &text[at + 1..];
            if version.len() != 4 {
                return None;
            }
            Some(Some((number, Some(hexadecimal(version)?))))
        }
        None => Some(Some((decimal(text, 1, 255)?, None))),
    }
}

fn flash(text: &[u8]) -> Option<Item> {
    let Some((letter, rest)) = text.split_first() else {
        return Some(Item::Flash { dark_first: false, lit: None, dark: None });
    };
    match letter.to_ascii_lowercase() {
        b't' => times(rest, b'o', 99).map(|(lit, dark)| Item::Flash { dark_first: false, lit, dark }),
        b'o' => times(rest, b't', 99).map(|(dark, lit)| Item::Flash { dark_first: true, lit, dark }),
        _ => None,
    }
}

fn tag(body: &[u8]) -> Result<Item, Code> {
    let (name, text) = body.split_at_checked(2).ok_or(Code::Tag)?;
    let item = match [name[0].to_ascii_lowercase(), name[1].to_ascii_lowercase()] {
        [b'c' | b'p', b'b'] => value(text, 0, 9).map(Item::Background),
        [b'c', b'f'] => value(text, 0, 9).map(Item::Foreground),
        [b'f', b'o'] => font_value(text).map(Item::Font),
        [b'f', b'l'] => flash(text),
        [b'/', b'f'] => match text.split_first() {
            Some((letter, rest)) if letter.to_ascii_lowercase() == b'l' => rest.is_empty().then_some(Item::FlashEnd),
            _ => return Err(Code::Tag),
        },
        [b'h', b'c'] => hexadecimal(text).map(Item::Char),
        [b'j', b'l'] => value(text, 2, 4).map(Item::JustLine),
        [b'j', b'p'] => value(text, 2, 4).map(Item::JustPage),
        [b'n', b'l'] => value(text, 0, 9).map(Item::NewLine),
        [b'n', b'p'] => text.is_empty().then_some(Item::NewPage),
        [b'p', b't'] => times(text, b'o', 255).map(|(lit, dark)| Item::PageTime { lit, dark }),
        _ => return Err(Code::Tag),
    };
    item.ok_or(Code::Value)
}

/// The item at the start of a text that is not empty, and what is left after it.
#[inline]
fn item(text: &[u8]) -> Result<(Item, &[u8]), Code> {
    let (first, rest) = (text[0], &text[1..]);
    match first {
        b'[' if rest.first() == Some(&b'[') => Ok((Item::Char(91), &rest[1..])),
        b'[' => {
            let end = rest.iter().position(|octet| *octet == b']').ok_or(Code::Tag)?;
            Ok((tag(&rest[..end])?, &rest[end + 1..]))
        }
        b']' if rest.first() == Some(&b']') => Ok((Item::Char(93), &rest[1..])),
        b']' => Err(Code::Tag),
        octet => Ok((Item::Char(u16::from(octet)), rest)),
    }
}

// ---- whether a text has room

/// Blocks in a row: how much room they take, and the spacing of the last, where there is one.
#[derive(Clone, Copy, Default)]
struct Run {
    size: u32,
    spacing: Option<u32>,
}

impl Run {
    #[inline(always)]
    fn push(&mut self, size: u32, spacing: u32, gap: Option<u32>) {
        if let Some(last) = self.spacing {
            self.size += gap.unwrap_or((last + spacing + 1) / 2);
        }
        self.size += size;
        self.spacing = Some(spacing);
    }
}

/// Those at the beginning, in the middle and at the end.
type Runs = [Run; 3];

/// The most room that a run may take, of which those behind it are empty.
fn room(runs: &Runs, place: u8, whole: u32) -> u32 {
    let [first, middle, _] = runs;
    match place {
        2 => whole,
        3 => whole.saturating_sub(2 * first.size),
        _ if middle.size > 0 => (whole - middle.size) - (whole - middle.size) / 2,
        _ => whole.saturating_sub(first.size),
    }
}

fn last_place(runs: &Runs) -> u8 {
    (2..=4).rev().find(|place| runs[usize::from(place - 2)].spacing.is_some()).unwrap_or(0)
}

struct Checker<'a> {
    face: &'a Face,
    pages: usize,
    /// The lines of the page before this one, and what is above this one.
    lines: Runs,
    part: u8,
    gap: Option<u32>,
    /// This line's characters, and how many columns those of this side may take.
    characters: Runs,
    side: u8,
    columns: u32,
    any: bool,
    height: u32,
    spacing: u32,
    font: &'a Font,
}

impl<'a> Checker<'a> {
    fn new(face: &'a Face) -> Option<Checker<'a>> {
        let defaults = &face.defaults;
        Some(Checker {
            face,
            pages: 0,
            lines: Runs::default(),
            part: defaults.page,
            gap: None,
            characters: Runs::default(),
            side: defaults.line,
            columns: face.width,
            any: false,
            height: 0,
            spacing: 0,
            font: face.font(defaults.font)?,
        })
    }

    /// The lines of this part of the page, with this one.
    fn with_open_line(&self) -> Run {
        let (height, spacing) = if self.any { (self.height, self.spacing) } else { (self.font.height, self.font.line_spacing) };
        let mut lines = self.lines[usize::from(self.part - 2)];
        lines.push(height, spacing, self.gap);
        lines
    }

    fn closed(&self) -> Run {
        let lines = self.lines[usize::from(self.part - 2)];
        if self.any || lines.spacing.is_some() { self.with_open_line() } else { lines }
    }

    fn has_rows(&self, lines: Run) -> bool {
        lines.size <= room(&self.lines, self.part, self.face.height)
    }

    fn open(&mut self, gap: Option<u32>) {
        self.characters = Runs::default();
        self.columns = self.face.width;
        self.any = false;
        self.height = 0;
        self.spacing = 0;
        self.gap = gap;
    }

    #[inline(always)]
    fn character(&mut self, character: u16) -> Result<(), Code> {
        let font = self.font;
        let width = font.width(character).ok_or(Code::NoCharacter)?;
        let run = &mut self.characters[usize::from(self.side - 2)];
        run.push(width, font.character_spacing, None);
        if run.size > self.columns {
            return Err(Code::TooBig);
        }
        // The page takes more room only where the line grows.
        if !self.any || font.height > self.height || font.line_spacing > self.spacing {
            return self.grow();
        }
        Ok(())
    }

    /// How many of a text's octets spell characters by themselves that have room behind those before them and change nothing else.
    #[inline]
    fn run(&mut self, text: &[u8]) -> usize {
        let font = self.font;
        let run = &mut self.characters[usize::from(self.side - 2)];
        if run.spacing != Some(font.character_spacing) || font.height > self.height || font.line_spacing > self.spacing {
            return 0;
        }
        let mut size = run.size;
        let fits = |octet: &&u8| {
            let longer = size + font.character_spacing + u32::from(font.plain[usize::from(**octet)]);
            let fits = longer <= self.columns;
            size = if fits { longer } else { size };
            fits
        };
        let count = text.iter().take_while(fits).count();
        run.size = size;
        count
    }

    fn grow(&mut self) -> Result<(), Code> {
        self.any = true;
        self.height = self.height.max(self.font.height);
        self.spacing = self.spacing.max(self.font.line_spacing);
        if self.has_rows(self.with_open_line()) { Ok(()) } else { Err(Code::TooBig) }
    }

    fn take(&mut self, item: Item) -> Result<(), Code> {
        match item {
            Item::Char(character) => self.character(character)?,
            Item::NewLine(gap) => {
                let lines = self.with_open_line();
                if !self.has_rows(lines) {
                    return Err(Code::TooBig);
                }
                self.lines[usize::from(self.part - 2)] = lines;
                self.open(gap.map(u32::from));
            }
            Item::NewPage => {
                if !self.has_rows(self.closed()) {
                    return Err(Code::TooBig);
                }
                if self.pages + 1 >= 6 {
                    return Err(Code::TooManyPages);
                }
                self.lines = Runs::default();
                self.open(None);
                self.pages += 1;
            }
            Item::JustPage(part) => self.turn_to_part(part.unwrap_or(self.face.defaults.page))?,
            Item::JustLine(side) => {
                let side = side.unwrap_or(self.face.defaults.line);
                if side < last_place(&self.characters) {
                    return Err(Code::Conflict);
                }
                self.side = side;
                self.columns = room(&self.characters, side, self.face.width);
            }
            Item::Font(wanted) => {
                let (number, version) = wanted.map_or((self.face.defaults.font, None), |(number, version)| (u32::from(number), version));
                let font = self.face.font(number).ok_or(Code::NoFont)?;
                if version.is_some_and(|version| u32::from(version) != font.version) {
                    return Err(Code::Version);
                }
                self.font = font;
            }
            _ => {}
        }
        Ok(())
    }

    fn turn_to_part(&mut self, part: u8) -> Result<(), Code> {
        if part == self.part {
            return Ok(());
        }
        let lines = self.closed();
        let fits = self.has_rows(lines);
        self.lines[usize::from(self.part - 2)] = lines;
        if part <= last_place(&self.lines) {
            return Err(Code::Conflict);
        }
        if !fits {
            return Err(Code::TooBig);
        }
        self.open(None);
        self.part = part;
        Ok(())
    }
}

/// Walks a text while it fits, and hands over each item, or but the first of a run: the number of its pages, or its fault and where
/// it stands.
#[inline]
fn walk<const RUNS: bool>(face: &Face, text: &[u8], mut each: impl FnMut(Item)) -> Result<usize, (Code, usize)> {
    if text.len() > 512 {
        return Err((Code::TooBig, 512));
    }
    let Some(mut checker) = Checker::new(face) else {
        return Err((Code::NoFont, 0));
    };
    let mut rest = text;
    while let [first, more @ ..] = rest {
        let place = text.len() - rest.len();
        if !matches!(first, b'[' | b']') {
            checker.character(u16::from(*first)).map_err(|code| (code, place))?;
            each(Item::Char(u16::from(*first)));
            rest = if RUNS { &more[checker.run(more)..] } else { more };
            continue;
        }
        let (item, more) = item(rest).map_err(|code| (code, place))?;
        checker.take(item).map_err(|code| (code, place))?;
        each(item);
        rest = more;
    }
    if !checker.has_rows(checker.closed()) {
        return Err((Code::TooBig, text.len()));
    }
    Ok(checker.pages + 1)
}

/// The number of a text's pages, or its fault and where it stands.
pub fn check(face: &Face, text: &[u8]) -> Result<usize, (Code, usize)> {
    walk::<true>(face, text, |_| {})
}

// ---- pages

#[derive(Clone, Copy, PartialEq)]
pub struct Flash {
    pub dark_first: bool,
    pub lit: u8,
    pub dark: u8,
}

/// What a cell shows.
#[derive(Clone, Copy, PartialEq)]
pub struct Cell {
    pub lit: bool,
    pub colour: u8,
    pub flash: Option<Flash>,
}

/// A character where it is laid out.
struct Placed<'a> {
    glyph: Glyph<'a>,
    spacing: u32,
    height: u32,
    line_spacing: u32,
    foreground: u8,
    side: u8,
    flash: Option<Flash>,
}

/// The characters of a line, from one place among all to another.
struct Line {
    characters: Range<usize>,
    part: u8,
    height: u32,
    spacing: u32,
    gap: Option<u32>,
}

pub struct Page {
    width: u32,
    height: u32,
    pub times: (u8, u8),
    /// What cells show, the dark ones first, and the number of each cell among these.
    styles: Vec<Cell>,
    cells: Vec<u8>,
}

fn begin(place: u8, whole: u32, size: u32) -> u32 {
    match place {
        2 => 0,
        3 => (whole - size) / 2,
        _ => whole - size,
    }
}

/// Which of eight cells are lit, an octet for each.
const LIT: [u64; 256] = lit();

const fn lit() -> [u64; 256] {
    let mut table = [0; 256];
    let mut at = 0;
    while at < 256 {
        let mut column = 0;
        while column < 8 {
            if at >> (7 - column) & 1 == 1 {
                table[at] |= 0xff << (8 * column);
            }
            column += 1;
        }
        at += 1;
    }
    table
}

impl Page {
    fn drawn(face: &Face, laid: &LaidOut, lines: &[Line], characters: &[Placed<'_>]) -> Page {
        let styles = vec![Cell { lit: false, colour: laid.background, flash: None }];
        let cells = vec![0; (face.width * face.height) as usize];
        let mut page = Page { width: face.width, height: face.height, times: laid.times, styles, cells };
        for part in 2..=4 {
            let mut run = Run::default();
            for line in lines.iter().filter(|line| line.part == part) {
                run.push(line.height, line.spacing, line.gap);
            }
            let first = begin(part, face.height, run.size);
            let mut run = Run::default();
            for line in lines.iter().filter(|line| line.part == part) {
                run.push(line.height, line.spacing, line.gap);
                page.draw_line(&characters[line.characters.clone()], first + run.size);
            }
        }
        page
    }

    /// Draws a line's characters, those of each side behind one another.
    fn draw_line(&mut self, characters: &[Placed<'_>], bottom: u32) {
        let mut rest = characters;
        while let [first, ..] = rest {
            let count = rest.iter().position(|other| other.side != first.side).unwrap_or(rest.len());
            let (of_side, more) = rest.split_at(count);
            let mut run = Run::default();
            of_side.iter().for_each(|placed| run.push(placed.glyph.width, placed.spacing, None));
            let left = begin(first.side, self.width, run.size);
            let mut run = Run::default();
            for placed in of_side {
                run.push(placed.glyph.width, placed.spacing, None);
                self.draw(placed, left + run.size - placed.glyph.width, bottom - placed.height);
            }
            rest = more;
        }
    }

    /// The number of what such cells show. A text of 512 octets has fewer than 130.
    fn number(&mut self, placed: &Placed<'_>) -> u8 {
        let lit = Cell { lit: true, colour: placed.foreground, flash: placed.flash };
        let place = self.styles.iter().rposition(|other| *other == lit);
        place.unwrap_or_else(|| {
            self.styles.push(lit);
            self.styles.len() - 1
        }) as u8
    }

    fn draw(&mut self, placed: &Placed<'_>, x: u32, y: u32) {
        let numbers = u64::from_le_bytes([self.number(placed); 8]);
        let mut start = (y * self.width + x) as usize;
        for row in placed.glyph.rows {
            let [first, rest @ ..] = row.to_be_bytes();
            self.light(start, LIT[usize::from(first)] & numbers);
            if placed.glyph.width > 8 {
                for (octet, column) in rest.into_iter().zip([8, 16, 24]) {
                    self.light(start + column, LIT[usize::from(octet)] & numbers);
                }
            }
            start += self.width as usize;
        }
    }

    /// Lights cells of eight from a place on, of which those that are lit were dark.
    #[inline]
    fn light(&mut self, start: usize, numbers: u64) {
        if let Some(cells) = self.cells.get_mut(start..start + 8).and_then(|cells| cells.first_chunk_mut::<8>()) {
            *cells = (u64::from_le_bytes(*cells) | numbers).to_le_bytes();
        } else {
            let last = self.cells.get_mut(start..).into_iter().flatten();
            last.zip(numbers.to_le_bytes()).for_each(|(cell, number)| *cell |= number);
        }
    }

    /// What each cell shows, row by row.
    pub fn cells(&self) -> impl Iterator<Item = &Cell> {
        self.cells.iter().map(|number| &self.styles[usize::from(*number)])
    }

    fn row_weight(&self, y: u32) -> u64 {
        let start = (y * self.width) as usize;
        self.cells[start..start + self.width as usize].iter().map(|number| weight(&self.styles[usize::from(*number)])).sum()
    }
}

fn weight(cell: &Cell) -> u64 {
    let flash = cell.flash.map_or(0, |flash| u64::from(flash.lit) + u64::from(flash.dark));
    u64::from(cell.lit) + u64::from(cell.colour) + flash
}

/// A page's lines, from one place among all to another, and what the page has.
struct LaidOut {
    lines: Range<usize>,
    background: u8,
    times: (u8, u8),
}

/// A text that is being laid out.
struct Layout<'a> {
    face: &'a Face,
    pages: Vec<LaidOut>,
    lines: Vec<Line>,
    characters: Vec<Placed<'a>>,
    /// How many lines the pages before this one have, and how many characters the lines before this one.
    earlier_lines: usize,
    earlier_characters: usize,
    font: &'a Font,
    foreground: u8,
    flash: Option<Flash>,
    side: u8,
    background: u8,
    times: (u8, u8),
    part: u8,
    gap: Option<u32>,
}

impl<'a> Layout<'a> {
    fn new(face: &'a Face, most: usize) -> Option<Layout<'a>> {
        let defaults = &face.defaults;
        Some(Layout {
            face,
            pages: Vec::with_capacity(1),
            lines: Vec::with_capacity(8),
            characters: Vec::with_capacity(most),
            earlier_lines: 0,
            earlier_characters: 0,
            font: face.font(defaults.font)?,
            foreground: defaults.foreground,
            flash: None,
            side: defaults.line,
            background: defaults.background,
            times: (defaults.on, defaults.off),
            part: defaults.page,
            gap: None,
        })
    }

    fn close_line(&mut self) {
        let characters = self.earlier_characters..self.characters.len();
        let here = &self.characters[characters.clone()];
        let height = here.iter().map(|placed| placed.height).max().unwrap_or(self.font.height);
        let spacing = here.iter().map(|placed| placed.line_spacing).max().unwrap_or(self.font.line_spacing);
        let Layout { part, gap, .. } = *self;
        self.earlier_characters = characters.end;
        self.lines.push(Line { characters, part, height, spacing, gap });
    }

    fn close_part(&mut self) {
        let is_empty = self.characters.len() == self.earlier_characters;
        if !is_empty || self.lines[self.earlier_lines..].iter().any(|line| line.part == self.part) {
            self.close_line();
        }
        self.gap = None;
    }

    fn close_page(&mut self) {
        self.close_part();
        let Layout { background, times, .. } = *self;
        let lines = self.earlier_lines..self.lines.len();
        self.earlier_lines = lines.end;
        self.pages.push(LaidOut { lines, background, times });
    }

    #[inline(always)]
    fn character(&mut self, character: u16) {
        let Layout { font, foreground, flash, side, .. } = *self;
        if let Some(glyph) = font.glyph(character) {
            let Font { character_spacing: spacing, height, line_spacing, .. } = *font;
            self.characters.push(Placed { glyph, spacing, height, line_spacing, foreground, side, flash });
        }
    }

    #[inline(always)]
    fn take(&mut self, item: Item) {
        match item {
            Item::Char(character) => self.character(character),
            tag => self.take_tag(tag),
        }
    }

    fn take_tag(&mut self, item: Item) {
        let defaults = &self.face.defaults;
        match item {
            Item::Char(_) => {}
            Item::NewLine(above) => {
                self.close_line();
                self.gap = above.map(u32::from);
            }
            Item::NewPage => self.close_page(),
            Item::JustPage(other) => {
                let other = other.unwrap_or(defaults.page);
                if other != self.part {
                    self.close_part();
                    self.part = other;
                }
            }
            Item::JustLine(side) => self.side = side.unwrap_or(defaults.line),
            Item::Font(wanted) => {
                let number = wanted.map_or(defaults.font, |(number, _)| u32::from(number));
                self.font = self.face.font(number).unwrap_or(self.font);
            }
            Item::Background(colour) => self.background = colour.unwrap_or(defaults.background),
            Item::Foreground(colour) => self.foreground = colour.unwrap_or(defaults.foreground),
            Item::Flash { dark_first, lit, dark } => {
                let (lit, dark) = (lit.unwrap_or(defaults.flash_on), dark.unwrap_or(defaults.flash_off));
                self.flash = Some(Flash { dark_first, lit, dark });
            }
            Item::FlashEnd => self.flash = None,
            Item::PageTime { lit, dark } => self.times = (lit.unwrap_or(defaults.on), dark.unwrap_or(defaults.off)),
        }
    }
}

/// The pages of a text, or its fault and where it stands.
pub fn pages(face: &Face, text: &[u8]) -> Result<Vec<Page>, (Code, usize)> {
    let mut layout = Layout::new(face, text.len().min(512)).ok_or((Code::NoFont, 0))?;
    walk::<false>(face, text, |item| layout.take(item))?;
    layout.close_page();
    let Layout { pages, lines, characters, .. } = &layout;
    Ok(pages.iter().map(|page| Page::drawn(face, page, &lines[page.lines.clone()], characters)).collect())
}

// ---- what is measured

pub fn check_times(face: &Face, text: &[u8], times: u32) -> u64 {
    (0..times).map(|_| check(face, std::hint::black_box(text)).map_or(0, |pages| pages as u64)).sum()
}

pub fn pages_times(face: &Face, text: &[u8], times: u32) -> u64 {
    let made = |_| pages(face, std::hint::black_box(text)).map_or(0, |made| made.len() as u64 + made.iter().map(|page| page.cells().next().map_or(0, weight)).sum::<u64>());
    (0..times).map(made).sum()
}

pub fn cells_times(face: &Face, text: &[u8], times: u32) -> u64 {
    let Ok(made) = pages(face, text) else {
        return 0;
    };
    let all = |_| std::hint::black_box(&made).iter().map(|page| (0..page.height).map(|y| page.row_weight(y)).sum::<u64>()).sum::<u64>();
    (0..times).map(all).sum()
}
