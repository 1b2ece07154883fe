//! The text in its two forms: the reader, a writer of each form, and the moves from one to the other. The forms differ in their first line and
//! in how the cells of `act`, `goto` and `move` stand in a line; all else is said once.

use crate::image::{Pack, Sizes, PROD_SYMBOLS, SIZE_COUNT, SIZE_LIMITS};
use crate::numbers::{DONE, ROOM_SMALL, SHAPE, TEXT_FORM, TEXT_LIMIT, TEXT_LONG};
use crate::sets::{self, Set};
use crate::shape;

/// What the reader, the writers and the moves give: the code and its number (words or bytes written, place, or size needed).
#[derive(Clone, Copy, Debug, PartialEq, Eq)]
pub struct Written {
    pub code: u32,
    pub number: u32,
}

impl Written {
    fn new(code: u32, number: usize) -> Written {
        Written {
            code,
            number: number as u32,
        }
    }
}

/// The forms of a pack text, which its first line tells apart.
#[derive(Clone, Copy, Debug, PartialEq, Eq, PartialOrd, Ord)]
pub enum Form {
    /// `pack=1`: a row of cells has all of them.
    One,
    /// `pack=2`: a row of cells has those that are not 0, each behind its column and a colon.
    Two,
}

impl Form {
    pub const ALL: [Form; 2] = [Form::One, Form::Two];

    pub fn number(self) -> u16 {
        match self {
            Form::One => 1,
            Form::Two => 2,
        }
    }

    pub fn other(self) -> Form {
        match self {
            Form::One => Form::Two,
            Form::Two => Form::One,
        }
    }

    /// The form that a text's first line names.
    pub fn of(text: &[u8]) -> Option<Form> {
        let mut reader = Reader::new(text);
        reader.first_line().ok()
    }
}

/// Word 0 of an image, whatever the form of its text.
const FIRST_WORD: u16 = 1;

/// The lines of a text, by the name before the `=`, and what may follow the last one.
#[derive(Clone, Copy, Debug, PartialEq, Eq, PartialOrd, Ord)]
pub enum Line {
    Pack,
    Size,
    Layout,
    Dom,
    Prod,
    Act,
    Goto,
    Class,
    Move,
    Scan,
    Group,
    AfterLast,
}

impl Line {
    pub const ALL: [Line; 12] = [
        Line::Pack,
        Line::Size,
        Line::Layout,
        Line::Dom,
        Line::Prod,
        Line::Act,
        Line::Goto,
        Line::Class,
        Line::Move,
        Line::Scan,
        Line::Group,
        Line::AfterLast,
    ];

    pub fn name(self) -> &'static str {
        match self {
            Line::Pack => "pack",
            Line::Size => "size",
            Line::Layout => "layout",
            Line::Dom => "dom",
            Line::Prod => "prod",
            Line::Act => "act",
            Line::Goto => "goto",
            Line::Class => "class",
            Line::Move => "move",
            Line::Scan => "scan",
            Line::Group => "group",
            Line::AfterLast => "after the last",
        }
    }
}

/// A text not of the form: the line that is due and the place where it should stand.
#[derive(Clone, Copy, Debug, PartialEq, Eq)]
pub struct Malformed {
    pub line: Line,
    pub place: usize,
}

/// Reads a pack text of either form into the lent room.
pub fn read(text: &[u8], room: &mut [u16]) -> Written {
    match image_of(text, |_| true) {
        Ok(image) => deliver(&image, room),
        Err(refused) => refused,
    }
}

/// Writes the text of form 1 of an image into the lent room.
pub fn write(image: &[u16], room: &mut [u8]) -> Written {
    write_in(Form::One, image, room)
}

/// Writes the text of form 2 of an image into the lent room.
pub fn write2(image: &[u16], room: &mut [u8]) -> Written {
    write_in(Form::Two, image, room)
}

pub fn write_in(form: Form, image: &[u16], room: &mut [u8]) -> Written {
    match shape::pack(image) {
        Ok(pack) => deliver_text(&text_in(form, &pack), room),
        Err(fault) => Written::new(SHAPE, fault.place),
    }
}

/// Moves a text of form 1 to form 2, into the lent room.
pub fn form2(text: &[u8], room: &mut [u8]) -> Written {
    move_to(Form::Two, text, room)
}

/// Moves a text of form 2 to form 1, into the lent room.
pub fn form1(text: &[u8], room: &mut [u8]) -> Written {
    move_to(Form::One, text, room)
}

/// Refuses 2, 1 and 4 for the source, then 2 and 3 for the target.
pub fn move_to(form: Form, text: &[u8], room: &mut [u8]) -> Written {
    match image_of(text, |found| found == form.other()) {
        Ok(image) => deliver_text(&text_in(form, &Pack::new(&image)), room),
        Err(refused) => refused,
    }
}

/// The image of a text that is not too long, in a form that is wanted, and of good shape; or the refusal.
fn image_of(text: &[u8], wanted: impl Fn(Form) -> bool) -> Result<Vec<u16>, Written> {
    if text.len() > TEXT_LIMIT {
        return Err(Written::new(TEXT_LONG, 0));
    }
    if !Form::of(text).is_some_and(wanted) {
        return Err(Written::new(TEXT_FORM, 0));
    }
    let image = words_of(text).map_err(|malformed| Written::new(TEXT_FORM, malformed.place))?;
    match shape::pack(&image) {
        Ok(_) => Ok(image),
        Err(fault) => Err(Written::new(SHAPE, fault.place)),
    }
}

fn deliver_text(text: &[u8], room: &mut [u8]) -> Written {
    if text.len() > TEXT_LIMIT {
        return Written::new(TEXT_LONG, 0);
    }
    deliver(text, room)
}

/// Puts the output at the front of the room, if there is room for all of it.
fn deliver<X: Copy>(output: &[X], room: &mut [X]) -> Written {
    match room.get_mut(..output.len()) {
        None => Written::new(ROOM_SMALL, output.len()),
        Some(front) => {
            front.copy_from_slice(output);
            Written::new(DONE, output.len())
        }
    }
}

/// The words of a text of either form, of whatever shape.
pub fn words_of(text: &[u8]) -> Result<Vec<u16>, Malformed> {
    let mut reader = Reader::new(text);
    let form = reader.first_line()?;
    reader.line(Line::Size, size_line)?;
    let sizes = Sizes::from_words(&reader.words[1..]);
    reader.lines(1, Line::Layout, |fields, words| sets_line(fields, words, 1))?;
    reader.lines(sizes.terminals, Line::Dom, |fields, words| {
        sets_line(fields, words, 1)
    })?;
    reader.lines(sizes.productions, Line::Prod, prod_line)?;
    reader.lines(sizes.states, Line::Act, |fields, words| {
        cells_line(form, fields, words, sizes.terminals)
    })?;
    reader.lines(sizes.states, Line::Goto, |fields, words| {
        cells_line(form, fields, words, sizes.nonterminals)
    })?;
    reader.lines(sizes.ranges, Line::Class, |fields, words| {
        numbers_line(fields, words, 3)
    })?;
    reader.lines(sizes.scan_states, Line::Move, |fields, words| {
        cells_line(form, fields, words, sizes.classes)
    })?;
    reader.lines(sizes.scan_states, Line::Scan, |fields, words| {
        sets_line(fields, words, 3)
    })?;
    reader.lines(sizes.groups, Line::Group, group_line)?;
    reader.finish()
}

struct Reader<'t> {
    text: &'t [u8],
    /// The start of the line that is due.
    place: usize,
    words: Vec<u16>,
}

/// The fields of one line.
type Fields<'f> = [&'f [u8]];

impl<'t> Reader<'t> {
    fn new(text: &'t [u8]) -> Reader<'t> {
        Reader {
            text,
            place: 0,
            words: Vec::new(),
        }
    }

    /// Reads `pack=1` or `pack=2`. The image begins alike in both forms.
    fn first_line(&mut self) -> Result<Form, Malformed> {
        let mut form = None;
        self.line(Line::Pack, |fields, words| {
            let [field] = fields else {
                return None;
            };
            let number = number(field)?;
            form = Form::ALL.into_iter().find(|form| form.number() == number);
            words.push(FIRST_WORD);
            form.map(|_| ())
        })?;
        form.ok_or(Malformed {
            line: Line::Pack,
            place: 0,
        })
    }

    /// Reads the line that is due; `form` appends its words, or says that it is not of the form.
    fn line<F>(&mut self, line: Line, form: F) -> Result<(), Malformed>
    where
        F: FnOnce(&Fields, &mut Vec<u16>) -> Option<()>,
    {
        let place = self.place;
        let malformed = Malformed { line, place };
        let rest = &self.text[place..];
        let end = rest.iter().position(|&b| b == b'\n').ok_or(malformed)?;
        let fields = rest[..end]
            .strip_prefix(line.name().as_bytes())
            .and_then(|rest| rest.strip_prefix(b"="))
            .ok_or(malformed)?;
        let fields: Vec<&[u8]> = fields.split(|&b| b == b',').collect();
        form(&fields, &mut self.words).ok_or(malformed)?;
        self.place += end + 1;
        Ok(())
    }

    fn lines<F>(&mut self, times: usize, line: Line, form: F) -> Result<(), Malformed>
    where
        F: Fn(&Fields, &mut Vec<u16>) -> Option<()>,
    {
        (0..times).try_for_each(|_| self.line(line, &form))
    }

    fn finish(self) -> Result<Vec<u16>, Malformed> {
        if self.place == self.text.len() {
            Ok(self.words)
        } else {
            Err(Malformed {
                line: Line::AfterLast,
                place: self.place,
            })
        }
    }
}

fn size_line(fields: &Fields, words: &mut Vec<u16>) -> Option<()> {
    numbers_line(fields, words, SIZE_COUNT)?;
    let in_range = words[1..]
        .iter()
        .zip(SIZE_LIMITS)
        .all(|(size, (least, greatest))| (least..=greatest).contains(size));
    in_range.then_some(())
}

fn prod_line(fields: &Fields, words: &mut Vec<u16>) -> Option<()> {
    let len = usize::from(number(fields.get(1)?)?);
    if len > PROD_SYMBOLS {
        return None;
    }
    numbers_line(fields, words, 2 + len)?;
    words.resize(words.len() + PROD_SYMBOLS - len, 0);
    Some(())
}

fn group_line(fields: &Fields, words: &mut Vec<u16>) -> Option<()> {
    let (set, chosen) = fields.split_at_checked(1)?;
    sets_line(set, words, 1)?;
    numbers_line(chosen, words, 1)
}

fn numbers_line(fields: &Fields, words: &mut Vec<u16>, count: usize) -> Option<()> {
    if fields.len() != count {
        return None;
    }
    for field in fields {
        words.push(number(field)?);
    }
    Some(())
}

/// A row of cells, full or sparse.
fn cells_line(form: Form, fields: &Fields, words: &mut Vec<u16>, count: usize) -> Option<()> {
    match form {
        Form::One => numbers_line(fields, words, count),
        Form::Two => sparse_line(fields, words, count),
    }
}

/// The cells that are not 0 as column:code, columns rising and inside the row. The line may be empty after its `=`.
fn sparse_line(fields: &Fields, words: &mut Vec<u16>, count: usize) -> Option<()> {
    let mut row = vec![0; count];
    // The least column that may come next.
    let mut least = 0;
    for field in fields.iter().filter(|_| *fields != [b""]) {
        let colon = field.iter().position(|&b| b == b':')?;
        let column = usize::from(number(&field[..colon])?);
        let code = number(&field[colon + 1..])?;
        if column < least || code == 0 {
            return None;
        }
        *row.get_mut(column)? = code;
        least = column + 1;
    }
    words.extend(row);
    Some(())
}

fn sets_line(fields: &Fields, words: &mut Vec<u16>, count: usize) -> Option<()> {
    if fields.len() != count {
        return None;
    }
    for field in fields {
        words.extend(sets::to_words(set(field)?));
    }
    Some(())
}

/// Decimal 0..65535 without leading zeros.
fn number(field: &[u8]) -> Option<u16> {
    let digits = (1..=5).contains(&field.len()) && field.iter().all(u8::is_ascii_digit);
    let leading_zero = field.len() > 1 && field[0] == b'0';
    if !digits || leading_zero {
        return None;
    }
    let value = field
        .iter()
        .fold(0, |value: u32, digit| value * 10 + u32::from(digit - b'0'));
    u16::try_from(value).ok()
}

/// 16 lowercase hex digits, highest first.
fn set(field: &[u8]) -> Option<Set> {
    if field.len() != 16 {
        return None;
    }
    field.iter().try_fold(sets::EMPTY, |set, &digit| {
        let value = match digit {
            b'0'..=b'9' => digit - b'0',
            b'a'..=b'f' => digit - b'a' + 10,
            _ => return None,
        };
        Some(set << 4 | Set::from(value))
    })
}

/// The text of form 1 of a pack whose sizes, total length and production lengths are good.
pub fn text_of(pack: &Pack) -> Vec<u8> {
    text_in(Form::One, pack)
}

/// The text of such a pack in a form.
pub fn text_in(form: Form, pack: &Pack) -> Vec<u8> {
    let sizes = pack.sizes;
    let mut text = Writer(String::new());
    text.numbers(Line::Pack, &[form.number()]);
    text.numbers(Line::Size, &sizes.to_words());
    text.sets(Line::Layout, &[pack.layout()]);
    for t in 0..sizes.terminals {
        text.sets(Line::Dom, &[pack.dom(t)]);
    }
    for p in 0..sizes.productions {
        let first = pack.prod_place(p);
        text.numbers(Line::Prod, &pack.words()[first..first + 2 + pack.len(p)]);
    }
    for s in 0..sizes.states {
        text.cells(form, Line::Act, pack.act_row(s));
    }
    for s in 0..sizes.states {
        text.cells(form, Line::Goto, pack.goto_row(s));
    }
    for r in 0..sizes.ranges {
        let range = pack.range(r);
        text.numbers(Line::Class, &[range.lo, range.hi, range.class]);
    }
    for q in 0..sizes.scan_states {
        text.cells(form, Line::Move, pack.move_row(q));
    }
    for q in 0..sizes.scan_states {
        text.sets(Line::Scan, &[pack.acc(q), pack.rej(q), pack.poss(q)]);
    }
    for g in 0..sizes.groups {
        let chosen = pack.chosen(g).to_string();
        text.line(Line::Group, [hex(pack.group(g)), chosen].into_iter());
    }
    text.0.into_bytes()
}

struct Writer(String);

impl Writer {
    fn line(&mut self, line: Line, fields: impl Iterator<Item = String>) {
        self.0.push_str(line.name());
        self.0.push('=');
        for (i, field) in fields.enumerate() {
            if i > 0 {
                self.0.push(',');
            }
            self.0.push_str(&field);
        }
        self.0.push('\n');
    }

    fn numbers(&mut self, line: Line, numbers: &[u16]) {
        self.line(line, numbers.iter().map(u16::to_string));
    }

    fn cells(&mut self, form: Form, line: Line, row: &[u16]) {
        match form {
            Form::One => self.numbers(line, row),
            Form::Two => {
                let cells = row.iter().enumerate().filter(|(_, &code)| code != 0);
                self.line(line, cells.map(|(column, code)| format!("{column}:{code}")));
            }
        }
    }

    fn sets(&mut self, line: Line, sets: &[Set]) {
        self.line(line, sets.iter().map(|&set| hex(set)));
    }
}

fn hex(set: Set) -> String {
    format!("{set:016x}")
}
