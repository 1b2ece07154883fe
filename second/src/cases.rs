//! The case file: bytes and numbers only, readable with fixed buffers and no heap.
//!
//! Each case begins with ten little-endian 32-bit numbers: kind, words, bytes, a, b, c, d, e, f, g; then `words`
//! words of two bytes, of an image or a tree, then `bytes` text bytes. `REUSE` in place of a count takes the image or the text of the
//! case before. The answer file has one line per case, decimal numbers joined by commas and ended by LF.

use std::rc::Rc;

use crate::engine::Engine;
use crate::sets::Set;
use crate::text::Form;

/// A count that takes the image or text of the case before.
pub const REUSE: u32 = 0xFFFF_FFFF;
/// The most words of an image or a tree in a case file, and the most words of a room for the reader. (A comparison
/// also prints larger trees.)
pub const MOST_WORDS: usize = 20_700;
/// The most text bytes of a case, and the most bytes of a room for the writers, the moves and the printout. (A comparison also
/// prints longer texts and lends more room.)
pub const MOST_BYTES: usize = 65_600;
/// The most words of a tree in a case file. (A comparison also lends larger ones.)
pub const MOST_TREE: usize = 40_000;

pub type Image = Rc<Vec<u16>>;
pub type Text = Rc<Vec<u8>>;

/// One call of an entry point.
#[derive(Clone, Debug, PartialEq, Eq)]
pub enum Case {
    Shape {
        image: Image,
    },
    Scan {
        image: Image,
        text: Text,
        start: u32,
        set: Set,
        allowance: u32,
    },
    Read {
        text: Text,
        room: u32,
    },
    Write {
        form: Form,
        image: Image,
        room: u32,
    },
    /// A move to a form from the other one.
    Move {
        to: Form,
        text: Text,
        room: u32,
    },
    Check {
        image: Image,
    },
    Parse {
        image: Image,
        text: Text,
        tree: u32,
        allowance: u32,
    },
    Leaf {
        text: Text,
        words: [u16; 4],
    },
    /// The tree stands where other kinds have an image.
    Print {
        text: Text,
        tree: Image,
        room: u32,
    },
}

impl Case {
    pub fn kind(&self) -> u32 {
        match self {
            Case::Shape { .. } => 1,
            Case::Scan { .. } => 2,
            Case::Read { .. } => 3,
            Case::Write {
                form: Form::One, ..
            } => 4,
            Case::Check { .. } => 5,
            Case::Parse { .. } => 6,
            Case::Leaf { .. } => 7,
            Case::Print { .. } => 8,
            Case::Write {
                form: Form::Two, ..
            } => 9,
            Case::Move { to: Form::Two, .. } => 10,
            Case::Move { to: Form::One, .. } => 11,
        }
    }

    pub fn name(&self) -> &'static str {
        match self {
            Case::Shape { .. } => "shape",
            Case::Scan { .. } => "scan",
            Case::Read { .. } => "read",
            Case::Write {
                form: Form::One, ..
            } => "write",
            Case::Write {
                form: Form::Two, ..
            } => "write2",
            Case::Move { to: Form::Two, .. } => "form2",
            Case::Move { to: Form::One, .. } => "form1",
            Case::Check { .. } => "check",
            Case::Parse { .. } => "parse",
            Case::Leaf { .. } => "leaf",
            Case::Print { .. } => "print",
        }
    }

    pub fn image(&self) -> Option<&Image> {
        match self {
            Case::Shape { image }
            | Case::Scan { image, .. }
            | Case::Write { image, .. }
            | Case::Check { image }
            | Case::Parse { image, .. }
            | Case::Print { tree: image, .. } => Some(image),
            Case::Read { .. } | Case::Move { .. } | Case::Leaf { .. } => None,
        }
    }

    pub fn text(&self) -> Option<&Text> {
        match self {
            Case::Scan { text, .. }
            | Case::Read { text, .. }
            | Case::Move { text, .. }
            | Case::Parse { text, .. }
            | Case::Leaf { text, .. }
            | Case::Print { text, .. } => Some(text),
            Case::Shape { .. } | Case::Write { .. } | Case::Check { .. } => None,
        }
    }

    /// The numbers a to g.
    fn numbers(&self) -> [u32; 7] {
        match *self {
            Case::Shape { .. } | Case::Check { .. } => [0; 7],
            Case::Scan {
                start,
                set,
                allowance,
                ..
            } => [start, set as u32, (set >> 32) as u32, allowance, 0, 0, 0],
            Case::Read { room, .. }
            | Case::Write { room, .. }
            | Case::Move { room, .. }
            | Case::Print { room, .. } => [room, 0, 0, 0, 0, 0, 0],
            Case::Parse {
                tree, allowance, ..
            } => [tree, allowance, 0, 0, 0, 0, 0],
            Case::Leaf { words, .. } => {
                let [a, b, c, d] = words.map(u32::from);
                [a, b, c, d, 0, 0, 0]
            }
        }
    }
}

/// Writes cases, leaving out an image or text that equals the one before.
#[derive(Default)]
pub struct CaseWriter {
    pub bytes: Vec<u8>,
    pub cases: usize,
    image: Option<Image>,
    text: Option<Text>,
}

impl CaseWriter {
    pub fn new() -> CaseWriter {
        CaseWriter::default()
    }

    pub fn put(&mut self, case: &Case) {
        let image = fresh(case.image(), &mut self.image);
        let text = fresh(case.text(), &mut self.text);
        let words = image.as_ref().map_or(REUSE, |image| image.len() as u32);
        let bytes = text.as_ref().map_or(REUSE, |text| text.len() as u32);
        assert!(words == REUSE || words as usize <= MOST_WORDS);
        assert!(bytes == REUSE || bytes as usize <= MOST_BYTES);
        for number in [case.kind(), words, bytes]
            .into_iter()
            .chain(case.numbers())
        {
            self.bytes.extend(number.to_le_bytes());
        }
        for word in image.iter().flat_map(|image| image.iter()) {
            self.bytes.extend(word.to_le_bytes());
        }
        if let Some(text) = text {
            self.bytes.extend(text.iter());
        }
        self.cases += 1;
    }
}

/// The content that has to be written: `None` where the one before serves. A case that uses none keeps the one
/// before, and the first case of a file writes an empty one.
fn fresh<T: Default + PartialEq>(
    used: Option<&Rc<T>>,
    before: &mut Option<Rc<T>>,
) -> Option<Rc<T>> {
    let content = match (used, before.as_ref()) {
        (Some(used), Some(before)) if used == before => return None,
        (None, Some(_)) => return None,
        (Some(used), _) => used.clone(),
        (None, None) => Rc::default(),
    };
    *before = Some(content.clone());
    Some(content)
}

/// Reads cases; the error says what is wrong with the file.
pub struct CaseReader<'f> {
    rest: &'f [u8],
    image: Image,
    text: Text,
}

impl<'f> CaseReader<'f> {
    pub fn new(file: &'f [u8]) -> CaseReader<'f> {
        CaseReader {
            rest: file,
            image: Image::default(),
            text: Text::default(),
        }
    }

    fn take(&mut self, count: usize) -> Result<&'f [u8], String> {
        let (front, rest) = self
            .rest
            .split_at_checked(count)
            .ok_or("the file ends inside a case")?;
        self.rest = rest;
        Ok(front)
    }

    fn number(&mut self) -> Result<u32, String> {
        let bytes = self.take(4)?;
        Ok(u32::from_le_bytes([bytes[0], bytes[1], bytes[2], bytes[3]]))
    }

    fn case(&mut self) -> Result<Case, String> {
        let kind = self.number()?;
        let words = self.number()?;
        let bytes = self.number()?;
        let mut numbers = [0; 7];
        for number in &mut numbers {
            *number = self.number()?;
        }
        if words != REUSE {
            let count = limited(words, MOST_WORDS, "image words")?;
            let content = self.take(2 * count)?;
            let pair = |pair: &[u8]| u16::from_le_bytes([pair[0], pair[1]]);
            self.image = Rc::new(content.chunks_exact(2).map(pair).collect());
        }
        if bytes != REUSE {
            let count = limited(bytes, MOST_BYTES, "text bytes")?;
            self.text = Rc::new(self.take(count)?.to_vec());
        }
        let (image, text) = (self.image.clone(), self.text.clone());
        let [a, b, c, d, ..] = numbers;
        Ok(match kind {
            1 => Case::Shape { image },
            2 => Case::Scan {
                image,
                text,
                start: a,
                set: Set::from(b) | Set::from(c) << 32,
                allowance: d,
            },
            3 => Case::Read {
                text,
                room: limited(a, MOST_WORDS, "words of room")? as u32,
            },
            4 | 9 => Case::Write {
                form: if kind == 4 { Form::One } else { Form::Two },
                image,
                room: limited(a, MOST_BYTES, "bytes of room")? as u32,
            },
            10 | 11 => Case::Move {
                to: if kind == 11 { Form::One } else { Form::Two },
                text,
                room: limited(a, MOST_BYTES, "bytes of room")? as u32,
            },
            5 => Case::Check { image },
            6 => Case::Parse {
                image,
                text,
                tree: limited(a, MOST_TREE, "words of tree")? as u32,
                allowance: b,
            },
            7 => {
                let mut words = [0; 4];
                for (word, number) in words.iter_mut().zip(numbers) {
                    *word = limited(number, 65_535, "a record's word")? as u16;
                }
                Case::Leaf { text, words }
            }
            8 => Case::Print {
                text,
                tree: image,
                room: limited(a, MOST_BYTES, "bytes of room")? as u32,
            },
            _ => return Err(format!("no case is of kind {kind}")),
        })
    }
}

fn limited(number: u32, most: usize, what: &str) -> Result<usize, String> {
    let number = number as usize;
    if number <= most {
        Ok(number)
    } else {
        Err(format!("{number} {what}, over {most}"))
    }
}

impl Iterator for CaseReader<'_> {
    type Item = Result<Case, String>;

    fn next(&mut self) -> Option<Result<Case, String>> {
        if self.rest.is_empty() {
            return None;
        }
        let case = self.case();
        if case.is_err() {
            self.rest = &[];
        }
        Some(case)
    }
}

/// h = 1, then h = (h*257 + x + 1) mod 4294967291 for each element x.
pub fn checksum<X: Into<u64>>(elements: impl IntoIterator<Item = X>) -> u64 {
    elements
        .into_iter()
        .fold(1, |h, x| (h * 257 + x.into() + 1) % 4_294_967_291)
}

/// A lent buffer of words before the call.
pub fn word_pattern(count: u32) -> Vec<u16> {
    (0..u64::from(count))
        .map(|i| (i * 40_503 + 12_345) as u16)
        .collect()
}

/// A lent buffer of bytes before the call.
pub fn byte_pattern(count: u32) -> Vec<u8> {
    (0..u64::from(count))
        .map(|i| (i * 167 + 91) as u8)
        .collect()
}

/// The numbers that an engine gives for a case, and the checksum of what it was lent or gives back.
pub fn answer(engine: &Engine, case: &Case) -> Vec<u64> {
    match case {
        Case::Shape { image } => {
            let shaped = (engine.shape)(image);
            vec![shaped.code.into(), shaped.place.into()]
        }
        Case::Scan {
            image,
            text,
            start,
            set,
            allowance,
        } => {
            let scanned = (engine.scan)(image, text, *start as usize, *set, *allowance);
            vec![
                scanned.code.into(),
                scanned.place.into(),
                scanned.set,
                scanned.length.into(),
                scanned.moves.into(),
            ]
        }
        Case::Read { text, room } => {
            let mut lent = word_pattern(*room);
            let read = (engine.read)(text, &mut lent);
            vec![read.code.into(), read.number.into(), checksum(lent)]
        }
        Case::Write { form, image, room } => {
            let mut lent = byte_pattern(*room);
            let write = match form {
                Form::One => engine.write,
                Form::Two => engine.write2,
            };
            let written = write(image, &mut lent);
            vec![written.code.into(), written.number.into(), checksum(lent)]
        }
        Case::Move { to, text, room } => {
            let mut lent = byte_pattern(*room);
            let change = match to {
                Form::One => engine.form1,
                Form::Two => engine.form2,
            };
            let written = change(text, &mut lent);
            vec![written.code.into(), written.number.into(), checksum(lent)]
        }
        Case::Check { image } => {
            let checked = (engine.check)(image);
            let [a, b, c] = checked.numbers.map(u64::from);
            vec![checked.code.into(), a, b, c]
        }
        Case::Parse {
            image,
            text,
            tree,
            allowance,
        } => {
            let mut lent = word_pattern(*tree);
            let parsed = (engine.parse)(image, text, &mut lent, *allowance);
            vec![
                parsed.code.into(),
                parsed.place.into(),
                parsed.length.into(),
                parsed.terminal.into(),
                parsed.records.into(),
                parsed.moves.into(),
                checksum(lent),
            ]
        }
        Case::Leaf { text, words } => {
            let (start, length) = (engine.leaf)(text, *words);
            // A part that is not within the text is a difference like any other.
            let part = text.get(start..start + length).unwrap_or_default();
            vec![start as u64, length as u64, checksum(part.iter().copied())]
        }
        Case::Print { text, tree, room } => {
            let mut lent = byte_pattern(*room);
            let printed = (engine.print)(text, tree, &mut lent);
            vec![printed.code.into(), printed.number, checksum(lent)]
        }
    }
}

/// Numbers joined by commas.
pub fn line(numbers: &[u64]) -> String {
    let numbers: Vec<String> = numbers.iter().map(u64::to_string).collect();
    numbers.join(",")
}

/// The answer file of a case file. A leaf's line lacks the start: a program that gets the part itself does not see
/// where it stands.
pub fn answers(engine: &Engine, file: &[u8]) -> Result<String, String> {
    let mut lines = String::new();
    for (number, case) in CaseReader::new(file).enumerate() {
        let case = case.map_err(|wrong| format!("case {number}: {wrong}"))?;
        let numbers = answer(engine, &case);
        let seen = match case {
            Case::Leaf { .. } => &numbers[1..],
            _ => &numbers,
        };
        lines.push_str(&line(seen));
        lines.push('\n');
    }
    Ok(lines)
}
