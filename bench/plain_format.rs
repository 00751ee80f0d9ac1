//! What `qmapc format MAP OUT` does once more, by hand in plain Rust and with nothing proved, to compare speeds:
//! `rustc -O bench/plain_format.rs`. It reads a MAP text, keeps the map that the text means, and writes its
//! canonical text, or names the first fault with its line.

use std::fmt::{self, Display, Formatter};
use std::process::ExitCode;
use std::{env, fs};

const TEXT_LIMIT: usize = 67_108_864;
const EXTENT: i64 = 32768;

/// How many decimals a coordinate may have, and ten to that power.
const PLACES: usize = 3;
const UNIT: i64 = 1000;

/// The greatest component of a plane's normal in lowest terms.
const GREATEST: u128 = 1 << 26;

/// How many decimals a coordinate may have, and ten to that power.
const PLACES: usize = 3;
const UNIT: i64 = 1000;

/// The greatest component of a plane's normal in lowest terms.
const GREATEST: u128 = 1 << 26;

/// How many bytes of a text stand in the value itself.
const ROOM: usize = 22;

/// Bytes of a text, kept in place where they are few.
enum Text {
    Short(u8, [u8; ROOM]),
    Long(Box<[u8]>),
}

impl Text {
    #[inline]
    fn new(bytes: &[u8]) -> Text {
        if bytes.len() > ROOM {
            return Text::Long(bytes.into());
        }
        let mut room = [0; ROOM];
        room[..bytes.len()].copy_from_slice(bytes);
        Text::Short(bytes.len() as u8, room)
    }

    #[inline]
    fn as_slice(&self) -> &[u8] {
        match self {
            Text::Short(len, room) => &room[..usize::from(*len)],
            Text::Long(bytes) => bytes,
        }
    }
}

enum Mapping {
    Standard(Box<[Text; 5]>),
    Valve(Box<[Text; 11]>),
}

struct Face {
    /// In thousandths of a map unit.
    points: [[i32; 3]; 3],
    texture: Text,
    mapping: Mapping,
}

struct Entity {
    pairs: Vec<(Text, Text)>,
    brushes: Vec<Vec<Face>>,
}

#[derive(Clone, Copy)]
enum Kind {
    UnclosedQuote = 2,
    Unexpected,
    EndInside,
    BadNumber,
    Fraction,
    CoordinateRange,
    NoNormal,
    NoFaces,
    BadOrigin,
    NoEntity,
    PlaneTooFine,
}

const WORDS: [&str; 12] = [
    "text too long",
    "quote not closed",
    "unexpected",
    "end inside",
    "bad number",
    "fraction",
    "coordinate out of range",
    "no normal",
    "no faces",
    "bad origin",
    "no entity",
    "plane too fine",
];

struct Fault {
    number: usize,
    line: usize,
}

impl Display for Fault {
    fn fmt(&self, f: &mut Formatter) -> fmt::Result {
        write!(f, "map fault {} at line {}: {}", self.number, self.line, WORDS[self.number - 1])
    }
}

#[derive(Clone, Copy)]
struct Token<'a> {
    is_quoted: bool,
    bytes: &'a [u8],
    /// The offset behind it, with its closing quote.
    end: usize,
    line: usize,
}

impl Token<'_> {
    #[inline]
    fn mark(&self) -> Option<u8> {
        match self.bytes {
            [mark @ (b'{' | b'}' | b'(' | b')' | b'[' | b']')] if !self.is_quoted => Some(*mark),
            _ => None,
        }
    }
}

struct Reader<'a> {
    text: &'a [u8],
    at: usize,
    line: usize,
}

impl<'a> Reader<'a> {
    /// The fault of a token, or that the text is too long before its end.
    #[cold]
    fn refused(&self, kind: Kind, token: Token) -> Fault {
        if token.end > TEXT_LIMIT { self.too_long() } else { Fault { number: kind as usize, line: token.line } }
    }

    #[cold]
    fn too_long(&self) -> Fault {
        let line = 1 + self.text[..TEXT_LIMIT].iter().filter(|&&byte| byte == b'\n').count();
        Fault { number: 1, line }
    }

    /// The fault of the end of the text.
    #[cold]
    fn at_end(&self, kind: Kind, line: usize) -> Fault {
        if self.text.len() > TEXT_LIMIT { self.too_long() } else { Fault { number: kind as usize, line } }
    }

    #[inline]
    fn skip_gap(&mut self) {
        while let Some(&byte) = self.text.get(self.at) {
            if byte <= b' ' {
                self.line += usize::from(byte == b'\n');
                self.at += 1;
            } else if byte == b'/' && self.text.get(self.at + 1) == Some(&b'/') {
                let rest = &self.text[self.at..];
                self.at += rest.iter().position(|&byte| byte == b'\n').unwrap_or(rest.len());
            } else {
                break;
            }
        }
    }

    #[inline]
    fn next(&mut self) -> Result<Option<Token<'a>>, Fault> {
        self.skip_gap();
        let (start, line) = (self.at, self.line);
        let Some(&first) = self.text.get(start) else {
            return Ok(None);
        };
        if first == b'"' {
            return self.quoted(start + 1, line).map(Some);
        }
        let rest = &self.text[start..];
        let count = rest.iter().position(|&byte| byte <= b' ').unwrap_or(rest.len());
        self.at = start + count;
        Ok(Some(Token { is_quoted: false, bytes: &rest[..count], end: self.at, line }))
    }

    fn quoted(&mut self, start: usize, line: usize) -> Result<Token<'a>, Fault> {
        for (count, &byte) in self.text[start..].iter().enumerate() {
            if byte == b'"' {
                self.at = start + count + 1;
                return Ok(Token { is_quoted: true, bytes: &self.text[start..start + count], end: self.at, line });
            }
            self.line += usize::from(byte == b'\n');
        }
        Err(self.at_end(Kind::UnclosedQuote, line))
    }

    /// The next token, where the text may not end.
    #[inline]
    fn some(&mut self) -> Result<Token<'a>, Fault> {
        match self.next()? {
            Some(token) => Ok(token),
            None => Err(self.at_end(Kind::EndInside, self.line)),
        }
    }

    #[inline]
    fn expect(&mut self, mark: u8) -> Result<Token<'a>, Fault> {
        let token = self.some()?;
        if token.mark() == Some(mark) { Ok(token) } else { Err(self.refused(Kind::Unexpected, token)) }
    }

    /// A word that is not a mark.
    #[inline]
    fn name(&mut self) -> Result<Token<'a>, Fault> {
        let token = self.some()?;
        if token.is_quoted || token.mark().is_some() { Err(self.refused(Kind::Unexpected, token)) } else { Ok(token) }
    }

    #[inline]
    fn coordinate(&mut self) -> Result<i32, Fault> {
        let token = self.name()?;
        match decimal(token.bytes, PLACES) {
            Ok(value) if value.abs() <= EXTENT * UNIT => Ok(value as i32),
            Ok(_) => Err(self.refused(Kind::CoordinateRange, token)),
            Err(kind) => Err(self.refused(kind, token)),
        }
    }

    #[inline]
    fn face(&mut self) -> Result<Face, Fault> {
        let mut points = [[0; 3]; 3];
        for i in 0..3 {
            if i > 0 {
                self.expect(b'(')?;
            }
            points[i] = [self.coordinate()?, self.coordinate()?, self.coordinate()?];
            let close = self.expect(b')')?;
            if i == 2 {
                if let Some(kind) = fault_of_points(&points) {
                    return Err(self.refused(kind, close));
                }
            }
        }
        let token = self.some()?;
        if token.mark().is_some() {
            return Err(self.refused(Kind::Unexpected, token));
        }
        let texture = Text::new(token.bytes);
        let first = self.some()?;
        let mapping = match first.mark() {
            Some(b'[') => Mapping::Valve(self.axes()?),
            None if !first.is_quoted => Mapping::Standard(self.words(first)?),
            _ => return Err(self.refused(Kind::Unexpected, first)),
        };
        Ok(Face { points, texture, mapping })
    }

    #[inline]
    fn word(&mut self) -> Result<Text, Fault> {
        Ok(Text::new(self.name()?.bytes))
    }

    fn words(&mut self, first: Token) -> Result<Box<[Text; 5]>, Fault> {
        Ok(Box::new([Text::new(first.bytes), self.word()?, self.word()?, self.word()?, self.word()?]))
    }

    fn axes(&mut self) -> Result<Box<[Text; 11]>, Fault> {
        let [a, b, c, d] = [self.word()?, self.word()?, self.word()?, self.word()?];
        self.expect(b']')?;
        self.expect(b'[')?;
        let [e, f, g, h] = [self.word()?, self.word()?, self.word()?, self.word()?];
        self.expect(b']')?;
        Ok(Box::new([a, b, c, d, e, f, g, h, self.word()?, self.word()?, self.word()?]))
    }

    fn brush(&mut self) -> Result<Vec<Face>, Fault> {
        let mut faces = Vec::with_capacity(6);
        loop {
            let token = self.some()?;
            match token.mark() {
                Some(b'(') => faces.push(self.face()?),
                Some(b'}') if faces.is_empty() => return Err(self.refused(Kind::NoFaces, token)),
                Some(b'}') => return Ok(faces),
                _ => return Err(self.refused(Kind::Unexpected, token)),
            }
        }
    }

    fn entity(&mut self, is_world: bool) -> Result<Entity, Fault> {
        let (mut pairs, mut brushes) = (Vec::new(), Vec::new());
        let mut has_origin = is_world;
        loop {
            let token = self.some()?;
            match token.mark() {
                Some(b'{') => brushes.push(self.brush()?),
                Some(b'}') => return Ok(Entity { pairs, brushes }),
                None if token.is_quoted => {
                    let value = self.some()?;
                    if !value.is_quoted {
                        return Err(self.refused(Kind::Unexpected, value));
                    }
                    if !has_origin && token.bytes == b"origin" {
                        has_origin = true;
                        if !is_origin(value.bytes) {
                            return Err(self.refused(Kind::BadOrigin, value));
                        }
                    }
                    pairs.push((Text::new(token.bytes), Text::new(value.bytes)));
                }
                _ => return Err(self.refused(Kind::Unexpected, token)),
            }
        }
    }

    fn map(&mut self) -> Result<Vec<Entity>, Fault> {
        let mut entities = Vec::new();
        while let Some(token) = self.next()? {
            if token.mark() != Some(b'{') {
                return Err(self.refused(Kind::Unexpected, token));
            }
            let entity = self.entity(entities.is_empty())?;
            entities.push(entity);
        }
        if entities.is_empty() || self.text.len() > TEXT_LIMIT {
            return Err(self.at_end(Kind::NoEntity, self.line));
        }
        Ok(entities)
    }
}

/// The number that a word spells in units of `10^-places`, where its value is at most 1,000,000,000.
#[inline]
fn decimal(word: &[u8], places: usize) -> Result<i64, Kind> {
    let (sign, unsigned) = match word {
        [b'-', rest @ ..] => (-1, rest),
        [b'+', rest @ ..] => (1, rest),
        _ => (1, word),
    };
    let mut value: i64 = 0;
    let mut count = 0;
    while let Some(&byte @ b'0'..=b'9') = unsigned.get(count) {
        value = (value * 10 + i64::from(byte - b'0')).min(1_000_000_001);
        count += 1;
    }
    let unit = 10_i64.pow(places as u32);
    if count == unsigned.len() && count > 0 {
        return if value > 1_000_000_000 { Err(Kind::CoordinateRange) } else { Ok(sign * value * unit) };
    }
    let decimals = match &unsigned[count..] {
        [b'.', decimals @ ..] if count + decimals.len() > 0 => decimals,
        _ => return Err(Kind::BadNumber),
    };
    with_decimals(sign, value, decimals, places)
}

fn with_decimals(sign: i64, whole: i64, decimals: &[u8], places: usize) -> Result<i64, Kind> {
    if !decimals.iter().all(u8::is_ascii_digit) {
        return Err(Kind::BadNumber);
    }
    let (kept, others) = decimals.split_at(decimals.len().min(places));
    if others.iter().any(|&byte| byte != b'0') {
        return Err(Kind::Fraction);
    }
    let mut value = whole;
    for byte in kept {
        value = value * 10 + i64::from(byte - b'0');
    }
    value *= 10_i64.pow((places - kept.len()) as u32);
    if value > 1_000_000_000 * 10_i64.pow(places as u32) { Err(Kind::CoordinateRange) } else { Ok(sign * value) }
}

/// Whether a value is three numbers strictly between -32768 and 32768, with six decimals at most.
fn is_origin(value: &[u8]) -> bool {
    let bound = EXTENT * 1_000_000;
    let mut count = 0;
    for word in value.split(|&byte| byte <= b' ').filter(|word| !word.is_empty()) {
        count += 1;
        if !matches!(decimal(word, 6), Ok(number) if number.abs() < bound) {
            return false;
        }
    }
    count == 3
}

/// Why three points give no plane, if they give none.
#[inline]
fn fault_of_points([a, b, c]: &[[i32; 3]; 3]) -> Option<Kind> {
    let step = |to: &[i32; 3]| [0, 1, 2].map(|i| i64::from(to[i] - b[i]));
    let (u, v) = (step(a), step(c));
    let normal = [u[1] * v[2] - u[2] * v[1], u[2] * v[0] - u[0] * v[2], u[0] * v[1] - u[1] * v[0]];
    if normal == [0; 3] {
        return Some(Kind::NoNormal);
    }
    let most = normal.iter().fold(0, |most, n| most.max(n.unsigned_abs()));
    let is_whole = [a, b, c].iter().all(|point| point.iter().all(|&n| i64::from(n) % UNIT == 0));
    if is_whole && u128::from(most) <= GREATEST * 1_000_000 {
        return None;
    }
    is_too_fine(normal, b).then_some(Kind::PlaneTooFine)
}

#[cold]
fn is_too_fine(normal: [i64; 3], at: &[i32; 3]) -> bool {
    let components = normal.map(|n| u128::from(n.unsigned_abs()) * 1000);
    let distance: i128 = (0..3).map(|i| i128::from(normal[i]) * i128::from(at[i])).sum();
    let factor = components.iter().fold(distance.unsigned_abs(), |factor, &n| common_divisor(factor, n));
    components.iter().any(|&n| n / factor > GREATEST)
}

fn common_divisor(mut a: u128, mut b: u128) -> u128 {
    while b != 0 {
        (a, b) = (b, a % b);
    }
    a
}

#[inline]
fn put_number(out: &mut Vec<u8>, number: i32) {
    let mut digits = [b' '; 16];
    let mut start = 15;
    let mut left = number.unsigned_abs();
    let mut decimals = left % UNIT as u32;
    left /= UNIT as u32;
    if decimals > 0 {
        let mut count = PLACES;
        while decimals % 10 == 0 {
            decimals /= 10;
            count -= 1;
        }
        for _ in 0..count {
            start -= 1;
            digits[start] = b'0' + (decimals % 10) as u8;
            decimals /= 10;
        }
        start -= 1;
        digits[start] = b'.';
    }
    loop {
        start -= 1;
        digits[start] = b'0' + (left % 10) as u8;
        left /= 10;
        if left == 0 {
            break;
        }
    }
    if number < 0 {
        start -= 1;
        digits[start] = b'-';
    }
    out.extend_from_slice(&digits[start..]);
}

#[inline]
fn put(out: &mut Vec<u8>, bytes: &[u8], behind: u8) {
    out.reserve(bytes.len() + 1);
    out.extend_from_slice(bytes);
    out.push(behind);
}

fn put_quoted(out: &mut Vec<u8>, bytes: &[u8], behind: u8) {
    out.push(b'"');
    put(out, bytes, b'"');
    out.push(behind);
}

fn needs_quotes(name: &[u8]) -> bool {
    matches!(name, [] | [b'{' | b'}' | b'(' | b')' | b'[' | b']'] | [b'/', b'/', ..])
        || name.iter().any(|&byte| byte <= b' ')
}

fn put_words(out: &mut Vec<u8>, words: &[Text]) {
    for word in words {
        put(out, word.as_slice(), b' ');
    }
}

fn put_face(out: &mut Vec<u8>, face: &Face) {
    for point in &face.points {
        out.extend_from_slice(b"( ");
        for &number in point {
            put_number(out, number);
        }
        out.extend_from_slice(b") ");
    }
    let name = face.texture.as_slice();
    if needs_quotes(name) {
        put_quoted(out, name, b' ');
    } else {
        put(out, name, b' ');
    }
    match &face.mapping {
        Mapping::Standard(words) => put_words(out, &words[..]),
        Mapping::Valve(words) => {
            out.extend_from_slice(b"[ ");
            put_words(out, &words[..4]);
            out.extend_from_slice(b"] [ ");
            put_words(out, &words[4..8]);
            out.extend_from_slice(b"] ");
            put_words(out, &words[8..]);
        }
    }
    if let Some(last) = out.last_mut() {
        *last = b'\n';
    }
}

fn put_entity(out: &mut Vec<u8>, entity: &Entity) {
    out.extend_from_slice(b"{\n");
    for (key, value) in &entity.pairs {
        put_quoted(out, key.as_slice(), b' ');
        put_quoted(out, value.as_slice(), b'\n');
    }
    for brush in &entity.brushes {
        out.extend_from_slice(b"{\n");
        for face in brush {
            put_face(out, face);
        }
        out.extend_from_slice(b"}\n");
    }
    out.extend_from_slice(b"}\n");
}

fn main() -> ExitCode {
    let words: Vec<String> = env::args().skip(1).collect();
    let [map, out] = &words[..] else {
        return ExitCode::from(1);
    };
    let Ok(text) = fs::read(map) else {
        return ExitCode::from(2);
    };
    let entities = match (Reader { text: &text, at: 0, line: 1 }).map() {
        Ok(entities) => entities,
        Err(fault) => {
            println!("{fault}");
            return ExitCode::from(4);
        }
    };
    drop(text);
    let mut file = Vec::new();
    for entity in &entities {
        put_entity(&mut file, entity);
    }
    println!("entities {}", entities.len());
    println!("brushes {}", entities.iter().map(|entity| entity.brushes.len()).sum::<usize>());
    drop(entities);
    if fs::write(out, &file).is_err() {
        return ExitCode::from(3);
    }
    ExitCode::SUCCESS
}
