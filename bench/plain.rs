//! Shape, the scan called by itself, the reader, the writers and the moves between the forms, the check, the parse and the printout in plain safe Rust, written from
//! documents 01 and 02 the obvious way: each test leaves at the first wrong word, line or place. Only the entry points at the end, which
//! turn C's pointers into slices, hold `unsafe`.

struct Pack {
    terminals: usize,
    nonterminals: usize,
    productions: usize,
    states: usize,
    scan_states: usize,
    classes: usize,
    ranges: usize,
    groups: usize,
    /// The first word of each table, and the number of words of the whole image.
    dom: usize,
    prod: usize,
    act: usize,
    goto: usize,
    class: usize,
    moves: usize,
    scan: usize,
    group: usize,
    end: usize,
}

impl Pack {
    fn of(img: &[u16]) -> Pack {
        let size = |i: usize| usize::from(img[i]);
        let (terminals, nonterminals, productions, states) = (size(1), size(2), size(3), size(4));
        let (scan_states, classes, ranges, groups) = (size(5), size(6), size(7), size(8));
        let dom = 13;
        let prod = dom + terminals * 4;
        let act = prod + productions * 16;
        let goto = act + states * terminals;
        let class = goto + states * nonterminals;
        let moves = class + ranges * 3;
        let scan = moves + scan_states * classes;
        let group = scan + scan_states * 12;
        let end = group + groups * 5;
        Pack {
            terminals,
            nonterminals,
            productions,
            states,
            scan_states,
            classes,
            ranges,
            groups,
            dom,
            prod,
            act,
            goto,
            class,
            moves,
            scan,
            group,
            end,
        }
    }
}

fn set_at(img: &[u16], i: usize) -> u64 {
    let words = &img[i..i + 4];
    u64::from(words[0]) | u64::from(words[1]) << 16 | u64::from(words[2]) << 32 | u64::from(words[3]) << 48
}

fn has(set: u64, t: usize) -> bool {
    t < 64 && set >> t & 1 != 0
}

fn below(t: usize) -> u64 {
    if t < 64 {
        (1 << t) - 1
    } else {
        u64::MAX
    }
}

fn symbol_right(p: &Pack, layout: u64, symbol: usize) -> bool {
    if symbol < 64 {
        symbol != 0 && symbol < p.terminals && !has(layout, symbol)
    } else {
        symbol < 64 + p.nonterminals
    }
}

fn action_right(p: &Pack, layout: u64, t: usize, code: usize) -> bool {
    if code == 0 {
        true
    } else if has(layout, t) {
        false
    } else if code == 1 {
        t == 0
    } else if code % 2 == 0 {
        t != 0 && (code - 2) / 2 < p.states
    } else {
        (code - 3) / 2 < p.productions
    }
}

const LEAST: [u16; 9] = [1, 1, 1, 1, 1, 1, 1, 0, 0];
const GREATEST: [u16; 9] = [1, 64, 32, 128, 128, 128, 32, 64, 32];

/// The tables, or the place of the first wrong word.
fn shape(img: &[u16]) -> Result<Pack, usize> {
    for i in 0..9 {
        if img.len() <= i || img[i] < LEAST[i] || img[i] > GREATEST[i] {
            return Err(i);
        }
    }
    let p = Pack::of(img);
    if img.len() != p.end {
        return Err(img.len().min(p.end));
    }

    let never = !below(p.terminals) | 1;
    let layout = set_at(img, 9);
    if layout & never != 0 {
        return Err(9);
    }
    for t in 0..p.terminals {
        let at = p.dom + t * 4;
        let set = set_at(img, at);
        let wrong = if t == 0 { set != 0 } else { set & never != 0 || has(set, t) };
        if wrong {
            return Err(at);
        }
    }
    for i in 0..p.productions {
        let at = p.prod + i * 16;
        let production = &img[at..at + 16];
        if usize::from(production[0]) >= p.nonterminals {
            return Err(at);
        }
        let len = usize::from(production[1]);
        if len > 14 {
            return Err(at + 1);
        }
        for (k, &symbol) in production[2..].iter().enumerate() {
            let right = if k < len { symbol_right(&p, layout, usize::from(symbol)) } else { symbol == 0 };
            if !right {
                return Err(at + 2 + k);
            }
        }
    }
    for s in 0..p.states {
        let at = p.act + s * p.terminals;
        for (t, &code) in img[at..at + p.terminals].iter().enumerate() {
            if !action_right(&p, layout, t, usize::from(code)) {
                return Err(at + t);
            }
        }
    }
    for (i, &code) in img[p.goto..p.class].iter().enumerate() {
        if usize::from(code) > p.states {
            return Err(p.goto + i);
        }
    }
    for r in 0..p.ranges {
        let at = p.class + r * 3;
        if r != 0 && img[at] <= img[at - 2] {
            return Err(at);
        }
        if img[at + 1] < img[at] || img[at + 1] > 255 {
            return Err(at + 1);
        }
        if usize::from(img[at + 2]) >= p.classes {
            return Err(at + 2);
        }
    }
    for (i, &code) in img[p.moves..p.scan].iter().enumerate() {
        if usize::from(code) > p.scan_states {
            return Err(p.moves + i);
        }
    }
    for q in 0..p.scan_states {
        let at = p.scan + q * 12;
        let (acc, rej, poss) = (set_at(img, at), set_at(img, at + 4), set_at(img, at + 8));
        if acc & never != 0 || q == 0 && acc != 0 {
            return Err(at);
        }
        if rej & never != 0 || q == 0 && rej != 0 || acc & rej != 0 {
            return Err(at + 4);
        }
        if poss & never != 0 {
            return Err(at + 8);
        }
    }
    for g in 0..p.groups {
        let at = p.group + g * 5;
        let set = set_at(img, at);
        if set & never != 0 || set.count_ones() < 2 {
            return Err(at);
        }
        if (0..g).any(|earlier| set_at(img, p.group + earlier * 5) == set) {
            return Err(at);
        }
        if !has(set, usize::from(img[at + 4])) {
            return Err(at + 4);
        }
    }
    Ok(p)
}

/// Ranges rise: the one that holds the byte is found by halves. A byte in none has class 0.
fn class_of(img: &[u16], p: &Pack, byte: u8) -> usize {
    let (mut from, mut to) = (0, p.ranges);
    while from < to {
        let middle = (from + to) / 2;
        let range = &img[p.class + middle * 3..p.class + middle * 3 + 3];
        if u16::from(byte) < range[0] {
            to = middle;
        } else if u16::from(byte) > range[1] {
            from = middle + 1;
        } else {
            return usize::from(range[2]);
        }
    }
    0
}

/// A pack, and the moves taken so far over all scans of one call.
struct Scanner<'i> {
    img: &'i [u16],
    p: Pack,
    moves: u32,
    allowance: u32,
}

/// A match: the set and the length.
type Found = Option<(u64, usize)>;

/// A move would go beyond the allowance.
struct UsedUp;

impl<'i> Scanner<'i> {
    fn new(img: &'i [u16], p: Pack, allowance: u32) -> Scanner<'i> {
        Scanner { img, p, moves: 0, allowance }
    }

    fn scan(&mut self, text: &[u8], valid: u64) -> Result<Found, UsedUp> {
        let (img, p) = (self.img, &self.p);
        let mut found = None;
        let (mut state, mut moves) = (0, self.moves);
        for (&byte, length) in text.iter().zip(1..) {
            if set_at(img, p.scan + state * 12 + 8) & valid == 0 {
                break;
            }
            let to = usize::from(img[p.moves + state * p.classes + class_of(img, p, byte)]);
            if to == 0 {
                break;
            }
            if moves == self.allowance {
                self.moves = moves;
                return Err(UsedUp);
            }
            state = to - 1;
            moves += 1;
            let acc = set_at(img, p.scan + state * 12) & valid;
            if acc != 0 {
                found = Some((acc, length));
            } else if set_at(img, p.scan + state * 12 + 4) & valid != 0 {
                found = None;
            }
        }
        self.moves = moves;
        Ok(found)
    }
}

/// Code, place, set, length and moves.
fn scan(img: &[u16], text: &[u8], start: usize, set: u64, allowance: u32) -> [u64; 5] {
    if text.len() > 65535 {
        return [6, 0, 0, 0, 0];
    }
    let p = match shape(img) {
        Ok(p) => p,
        Err(place) => return [4, place as u64, 0, 0, 0],
    };
    let start = start.min(text.len());
    let valid = set & below(p.terminals) & !1;
    let mut scanner = Scanner::new(img, p, allowance);
    let (code, found) = match scanner.scan(&text[start..], valid) {
        Ok(found) => (0, found),
        Err(UsedUp) => (13, None),
    };
    let (set, length) = found.unwrap_or((0, 0));
    [code, start as u64, set, length as u64, u64::from(scanner.moves)]
}

struct Reader<'t> {
    text: &'t [u8],
    at: usize,
    line: usize,
    image: Vec<u16>,
    form: u16,
}

/// A line is not of the form.
struct Malformed;

impl Reader<'_> {
    fn take(&mut self, byte: u8) -> Result<(), Malformed> {
        if self.text.get(self.at) != Some(&byte) {
            return Err(Malformed);
        }
        self.at += 1;
        Ok(())
    }

    /// The line's name and its `=`.
    fn name(&mut self, name: &str) -> Result<(), Malformed> {
        self.line = self.at;
        if !self.text[self.at..].starts_with(name.as_bytes()) {
            return Err(Malformed);
        }
        self.at += name.len();
        Ok(())
    }

    fn decimal(&mut self) -> Result<u16, Malformed> {
        if self.take(b'0').is_ok() {
            return Ok(0);
        }
        let first = self.at;
        let mut number: u32 = 0;
        while let Some(byte @ b'0'..=b'9') = self.text.get(self.at) {
            number = number * 10 + u32::from(byte - b'0');
            if number > 65535 {
                return Err(Malformed);
            }
            self.at += 1;
        }
        if self.at == first {
            return Err(Malformed);
        }
        Ok(number as u16)
    }

    fn number(&mut self) -> Result<(), Malformed> {
        let number = self.decimal()?;
        self.image.push(number);
        Ok(())
    }

    /// A row of cells: all of them in form 1, and in form 2 those that are not 0, each behind its column and a colon.
    fn cells_line(&mut self, name: &str, count: usize) -> Result<(), Malformed> {
        if self.form == 1 {
            return self.numbers_line(name, count);
        }
        self.name(name)?;
        let first = self.image.len();
        self.image.resize(first + count, 0);
        let mut least = 0;
        while self.take(b'\n').is_err() {
            if least != 0 {
                self.take(b',')?;
            }
            let column = usize::from(self.decimal()?);
            self.take(b':')?;
            let code = self.decimal()?;
            if column < least || column >= count || code == 0 {
                return Err(Malformed);
            }
            self.image[first + column] = code;
            least = column + 1;
        }
        Ok(())
    }

    fn set(&mut self) -> Result<(), Malformed> {
        let digits = self.text.get(self.at..self.at + 16).ok_or(Malformed)?;
        let mut set: u64 = 0;
        for &digit in digits {
            let value = match digit {
                b'0'..=b'9' => digit - b'0',
                b'a'..=b'f' => digit - b'a' + 10,
                _ => return Err(Malformed),
            };
            set = set << 4 | u64::from(value);
        }
        self.at += 16;
        self.image.extend([set as u16, (set >> 16) as u16, (set >> 32) as u16, (set >> 48) as u16]);
        Ok(())
    }

    fn numbers_line(&mut self, name: &str, count: usize) -> Result<(), Malformed> {
        self.name(name)?;
        for i in 0..count {
            if i != 0 {
                self.take(b',')?;
            }
            self.number()?;
        }
        self.take(b'\n')
    }

    fn sets_line(&mut self, name: &str, count: usize) -> Result<(), Malformed> {
        self.name(name)?;
        for i in 0..count {
            if i != 0 {
                self.take(b',')?;
            }
            self.set()?;
        }
        self.take(b'\n')
    }

    fn production_line(&mut self) -> Result<(), Malformed> {
        self.name("prod=")?;
        self.number()?;
        self.take(b',')?;
        self.number()?;
        let len = usize::from(self.image[self.image.len() - 1]);
        if len > 14 {
            return Err(Malformed);
        }
        for _ in 0..len {
            self.take(b',')?;
            self.number()?;
        }
        self.image.resize(self.image.len() + 14 - len, 0);
        self.take(b'\n')
    }

    fn group_line(&mut self) -> Result<(), Malformed> {
        self.name("group=")?;
        self.set()?;
        self.take(b',')?;
        self.number()?;
        self.take(b'\n')
    }

    /// The lines of a text of one of the forms.
    fn lines(&mut self, forms: &[u16]) -> Result<(), Malformed> {
        self.numbers_line("pack=", 1)?;
        self.form = self.image[0];
        self.image[0] = 1;
        if !forms.contains(&self.form) {
            return Err(Malformed);
        }
        self.numbers_line("size=", 8)?;
        if (0..9).any(|i| self.image[i] < LEAST[i] || self.image[i] > GREATEST[i]) {
            return Err(Malformed);
        }
        let p = Pack::of(&self.image);
        self.sets_line("layout=", 1)?;
        (0..p.terminals).try_for_each(|_| self.sets_line("dom=", 1))?;
        (0..p.productions).try_for_each(|_| self.production_line())?;
        (0..p.states).try_for_each(|_| self.cells_line("act=", p.terminals))?;
        (0..p.states).try_for_each(|_| self.cells_line("goto=", p.nonterminals))?;
        (0..p.ranges).try_for_each(|_| self.numbers_line("class=", 3))?;
        (0..p.scan_states).try_for_each(|_| self.cells_line("move=", p.classes))?;
        (0..p.scan_states).try_for_each(|_| self.sets_line("scan=", 3))?;
        (0..p.groups).try_for_each(|_| self.group_line())?;
        self.line = self.at;
        if self.at == self.text.len() {
            Ok(())
        } else {
            Err(Malformed)
        }
    }
}

/// The image of a text of one of the forms, and where its tables stand; or code and number of the refusal.
fn image_of(text: &[u8], forms: &[u16]) -> Result<(Vec<u16>, Pack), [u64; 2]> {
    if text.len() > 65535 {
        return Err([2, 0]);
    }
    let mut reader = Reader {
        text,
        at: 0,
        line: 0,
        image: Vec::with_capacity(text.len()),
        form: 0,
    };
    if reader.lines(forms).is_err() {
        return Err([1, reader.line as u64]);
    }
    let image = reader.image;
    match shape(&image) {
        Ok(p) => Ok((image, p)),
        Err(place) => Err([4, place as u64]),
    }
}

/// Code and number.
fn read(text: &[u8], buffer: &mut [u16]) -> [u64; 2] {
    let image = match image_of(text, &[1, 2]) {
        Ok((image, _)) => image,
        Err(refused) => return refused,
    };
    match buffer.get_mut(..image.len()) {
        None => [3, image.len() as u64],
        Some(front) => {
            front.copy_from_slice(&image);
            [0, image.len() as u64]
        }
    }
}

fn put_number(text: &mut Vec<u8>, number: u16) {
    if number >= 10000 {
        text.push(b'0' + (number / 10000) as u8);
    }
    if number >= 1000 {
        text.push(b'0' + (number / 1000 % 10) as u8);
    }
    if number >= 100 {
        text.push(b'0' + (number / 100 % 10) as u8);
    }
    if number >= 10 {
        text.push(b'0' + (number / 10 % 10) as u8);
    }
    text.push(b'0' + (number % 10) as u8);
}

fn put_set(text: &mut Vec<u8>, words: &[u16]) {
    for word in words.iter().rev() {
        for shift in [12, 8, 4, 0] {
            text.push(b"0123456789abcdef"[usize::from(word >> shift & 15)]);
        }
    }
}

fn put_numbers(text: &mut Vec<u8>, name: &str, numbers: &[u16]) {
    text.extend_from_slice(name.as_bytes());
    for (i, &number) in numbers.iter().enumerate() {
        if i != 0 {
            text.push(b',');
        }
        put_number(text, number);
    }
    text.push(b'\n');
}

fn put_cells(text: &mut Vec<u8>, form: u16, name: &str, row: &[u16]) {
    if form == 1 {
        return put_numbers(text, name, row);
    }
    text.extend_from_slice(name.as_bytes());
    let mut first = true;
    for (column, &code) in row.iter().enumerate() {
        if code != 0 {
            if !first {
                text.push(b',');
            }
            first = false;
            put_number(text, column as u16);
            text.push(b':');
            put_number(text, code);
        }
    }
    text.push(b'\n');
}

fn put_sets(text: &mut Vec<u8>, name: &str, words: &[u16]) {
    text.extend_from_slice(name.as_bytes());
    for (i, set) in words.chunks_exact(4).enumerate() {
        if i != 0 {
            text.push(b',');
        }
        put_set(text, set);
    }
    text.push(b'\n');
}

/// Code and number.
fn write(img: &[u16], form: u16, buffer: &mut [u8]) -> [u64; 2] {
    match shape(img) {
        Ok(p) => write_form(img, &p, form, buffer),
        Err(place) => [4, place as u64],
    }
}

/// Code and number of the move from a form to another one.
fn reform(text: &[u8], from: u16, to: u16, buffer: &mut [u8]) -> [u64; 2] {
    match image_of(text, &[from]) {
        Ok((image, p)) => write_form(&image, &p, to, buffer),
        Err(refused) => refused,
    }
}

/// Writes a good image.
fn write_form(img: &[u16], p: &Pack, form: u16, buffer: &mut [u8]) -> [u64; 2] {
    let mut text = Vec::with_capacity(img.len() * 4);
    put_numbers(&mut text, "pack=", &[form]);
    put_numbers(&mut text, "size=", &img[1..9]);
    put_sets(&mut text, "layout=", &img[9..13]);
    for set in img[p.dom..p.prod].chunks_exact(4) {
        put_sets(&mut text, "dom=", set);
    }
    for production in img[p.prod..p.act].chunks_exact(16) {
        put_numbers(&mut text, "prod=", &production[..2 + usize::from(production[1])]);
    }
    for row in img[p.act..p.goto].chunks_exact(p.terminals) {
        put_cells(&mut text, form, "act=", row);
    }
    for row in img[p.goto..p.class].chunks_exact(p.nonterminals) {
        put_cells(&mut text, form, "goto=", row);
    }
    for range in img[p.class..p.moves].chunks_exact(3) {
        put_numbers(&mut text, "class=", range);
    }
    for row in img[p.moves..p.scan].chunks_exact(p.classes) {
        put_cells(&mut text, form, "move=", row);
    }
    for sets in img[p.scan..p.group].chunks_exact(12) {
        put_sets(&mut text, "scan=", sets);
    }
    for group in img[p.group..p.end].chunks_exact(5) {
        text.extend_from_slice(b"group=");
        put_set(&mut text, &group[..4]);
        text.push(b',');
        put_number(&mut text, group[4]);
        text.push(b'\n');
    }
    if text.len() > 65535 {
        return [2, 0];
    }
    match buffer.get_mut(..text.len()) {
        None => [3, text.len() as u64],
        Some(front) => {
            front.copy_from_slice(&text);
            [0, text.len() as u64]
        }
    }
}

fn valid_set(img: &[u16], p: &Pack, s: usize) -> u64 {
    let row = &img[p.act + s * p.terminals..p.act + (s + 1) * p.terminals];
    row.iter().enumerate().filter(|(_, &code)| code != 0).fold(0, |set, (t, _)| set | 1 << t)
}

/// The chosen terminal of the group that equals the set.
fn chosen_of(img: &[u16], p: &Pack, set: u64) -> Option<usize> {
    img[p.group..p.end].chunks_exact(5).find(|group| set_at(group, 0) == set).map(|group| usize::from(group[4]))
}

fn k1(img: &[u16], p: &Pack, q: usize) -> bool {
    let rej = set_at(img, p.scan + q * 12 + 4);
    let matching = set_at(img, p.scan + q * 12) | rej;
    let mut outranked = 0;
    for t in 0..p.terminals {
        if has(matching, t) && set_at(img, p.dom + t * 4) & matching != 0 {
            outranked |= 1 << t;
        }
    }
    rej == outranked
}

fn k2(img: &[u16], p: &Pack, q: usize) -> bool {
    let poss = set_at(img, p.scan + q * 12 + 8);
    let matching = set_at(img, p.scan + q * 12) | set_at(img, p.scan + q * 12 + 4);
    let within = |to: usize| set_at(img, p.scan + (to - 1) * 12 + 8) & !poss == 0;
    let row = &img[p.moves + q * p.classes..p.moves + (q + 1) * p.classes];
    matching & !poss == 0 && row.iter().all(|&to| to == 0 || within(usize::from(to)))
}

/// For each state the edges into it: where each comes from, and its symbol.
fn edges(img: &[u16], p: &Pack) -> Vec<Vec<(usize, usize)>> {
    let mut into = vec![Vec::new(); p.states];
    for s in 0..p.states {
        for t in 0..p.terminals {
            let code = usize::from(img[p.act + s * p.terminals + t]);
            if code >= 2 && code % 2 == 0 {
                into[(code - 2) / 2].push((s, t));
            }
        }
        for n in 0..p.nonterminals {
            let code = usize::from(img[p.goto + s * p.nonterminals + n]);
            if code != 0 {
                into[code - 1].push((s, 64 + n));
            }
        }
    }
    into
}

/// K5 of one reduction, after K4: the first edge's symbol is that of all.
fn goes_back(img: &[u16], p: &Pack, into: &[Vec<(usize, usize)>], s: usize, production: usize) -> bool {
    let words = &img[p.prod + production * 16..p.prod + production * 16 + 16];
    let (lhs, len) = (usize::from(words[0]), usize::from(words[1]));
    let mut reached = [false; 128];
    reached[s] = true;
    for &symbol in words[2..2 + len].iter().rev() {
        let mut before = [false; 128];
        for v in (0..p.states).filter(|&v| reached[v]) {
            if v == 0 || into[v].first().is_some_and(|&(_, carried)| carried != usize::from(symbol)) {
                return false;
            }
            for &(from, _) in &into[v] {
                before[from] = true;
            }
        }
        reached = before;
    }
    (0..p.states).all(|v| !reached[v] || img[p.goto + v * p.nonterminals + lhs] != 0)
}

/// The first production of a row whose reduction fails.
fn k5(img: &[u16], p: &Pack, into: &[Vec<(usize, usize)>], s: usize) -> Option<usize> {
    let mut reduces = [false; 128];
    for t in 0..p.terminals {
        let code = usize::from(img[p.act + s * p.terminals + t]);
        if code >= 3 && code % 2 == 1 {
            reduces[(code - 3) / 2] = true;
        }
    }
    (0..p.productions).find(|&i| reduces[i] && !goes_back(img, p, into, s, i))
}

fn k6(img: &[u16], p: &Pack, into: &[Vec<(usize, usize)>], s: usize) -> bool {
    img[p.act + s * p.terminals] != 1 || s != 0 && into[s].iter().all(|&edge| edge == (0, 64))
}

/// Code, number and places.
fn check(img: &[u16]) -> [u64; 4] {
    let p = match shape(img) {
        Ok(p) => p,
        Err(place) => return [4, place as u64, 0, 0],
    };
    if let Some(q) = (0..p.scan_states).find(|&q| !k1(img, &p, q)) {
        return [5, 1, q as u64, 0];
    }
    if let Some(q) = (0..p.scan_states).find(|&q| !k2(img, &p, q)) {
        return [5, 2, q as u64, 0];
    }
    for s in 0..p.states {
        let sought = valid_set(img, &p, s) | set_at(img, 9);
        for q in 0..p.scan_states {
            let seen = set_at(img, p.scan + q * 12) & sought;
            if seen.count_ones() > 1 && chosen_of(img, &p, seen).is_none() {
                return [5, 3, s as u64, q as u64];
            }
        }
    }
    let into = edges(img, &p);
    let several = |v: usize| into[v].iter().any(|edge| edge.1 != into[v][0].1);
    if let Some(v) = (0..p.states).find(|&v| several(v) || v == 0 && !into[v].is_empty()) {
        return [5, 4, v as u64, 0];
    }
    for s in 0..p.states {
        if let Some(production) = k5(img, &p, &into, s) {
            return [5, 5, s as u64, production as u64];
        }
    }
    if let Some(s) = (0..p.states).find(|&s| !k6(img, &p, &into, s)) {
        return [5, 6, s as u64, 0];
    }
    [0; 4]
}

struct Run<'i, 'l> {
    scanner: Scanner<'i>,
    layout: u64,
    text: &'l [u8],
    place: usize,
    tree: &'l mut [u16],
    records: usize,
    stack: [u16; 512],
    height: usize,
}

/// How a run ends: code, length and terminal.
struct End(u64, usize, usize);

impl From<UsedUp> for End {
    fn from(_: UsedUp) -> End {
        End(13, 0, 0)
    }
}

impl Run<'_, '_> {
    fn scan(&mut self, valid: u64) -> Result<Found, UsedUp> {
        self.scanner.scan(&self.text[self.place..], valid)
    }

    /// The terminal and the length of what the state on top sees past layout; 0 and 0 at the end of the text.
    fn token(&mut self, top: usize) -> Result<(usize, usize), End> {
        let sought = (valid_set(self.scanner.img, &self.scanner.p, top) | self.layout) & !1;
        while self.place < self.text.len() {
            let (terminal, length) = self.matched(sought)?;
            if !has(self.layout, terminal) {
                return Ok((terminal, length));
            }
            self.place += length;
        }
        Ok((0, 0))
    }

    /// The terminal and the length of what a scan for a set matches, a token or layout.
    fn matched(&mut self, sought: u64) -> Result<(usize, usize), End> {
        let Some((set, length)) = self.scan(sought)? else {
            let others = below(self.scanner.p.terminals) & !1 & !self.layout;
            return Err(match self.scan(others)? {
                Some((set, length)) => End(8, length, set.trailing_zeros() as usize),
                None => End(7, 0, 0),
            });
        };
        if set.count_ones() == 1 {
            return Ok((set.trailing_zeros() as usize, length));
        }
        match chosen_of(self.scanner.img, &self.scanner.p, set) {
            Some(terminal) => Ok((terminal, length)),
            None => Err(End(9, length, 0)),
        }
    }

    /// Writes a record and pushes a state on the lowest `height` ones.
    fn write_and_push(&mut self, height: usize, record: [usize; 4], state: usize) -> Result<(), End> {
        let room = (self.tree.len() / 4).min(65535);
        if self.records == room {
            return Err(End(11, 0, 0));
        }
        if height == 512 {
            return Err(End(12, 0, 0));
        }
        self.tree[self.records * 4..self.records * 4 + 4].copy_from_slice(&record.map(|word| word as u16));
        self.records += 1;
        self.stack[height] = state as u16;
        self.height = height + 1;
        Ok(())
    }

    fn reduce(&mut self, production: usize) -> Result<(), End> {
        let (img, p) = (self.scanner.img, &self.scanner.p);
        let at = p.prod + production * 16;
        let (lhs, len) = (usize::from(img[at]), usize::from(img[at + 1]));
        if self.height < len + 1 {
            return Err(End(10, 0, 0));
        }
        let height = self.height - len;
        let uncovered = usize::from(self.stack[height - 1]);
        match usize::from(img[p.goto + uncovered * p.nonterminals + lhs]) {
            0 => Err(End(10, 0, 0)),
            code => self.write_and_push(height, [64 + lhs, production, len, uncovered], code - 1),
        }
    }

    fn step(&mut self) -> Result<(), End> {
        let top = usize::from(self.stack[self.height - 1]);
        let (terminal, length) = self.token(top)?;
        let p = &self.scanner.p;
        match usize::from(self.scanner.img[p.act + top * p.terminals + terminal]) {
            0 => Err(End(8, 0, 0)),
            1 if self.height == 2 => Err(End(0, 0, 0)),
            1 => Err(End(10, 0, 0)),
            code if code % 2 == 1 => self.reduce((code - 3) / 2),
            code => {
                self.write_and_push(self.height, [terminal, self.place, length, top], (code - 2) / 2)?;
                self.place += length;
                Ok(())
            }
        }
    }

    fn run(&mut self) -> End {
        loop {
            if let Err(end) = self.step() {
                return end;
            }
        }
    }
}

/// Code, place, length, terminal, records and moves.
fn parse(img: &[u16], text: &[u8], tree: &mut [u16], allowance: u32) -> [u64; 6] {
    if text.len() > 65535 {
        return [6, 0, 0, 0, 0, 0];
    }
    let p = match shape(img) {
        Ok(p) => p,
        Err(place) => return [4, place as u64, 0, 0, 0, 0],
    };
    let mut run = Run {
        scanner: Scanner::new(img, p, allowance),
        layout: set_at(img, 9),
        text,
        place: 0,
        tree,
        records: 0,
        stack: [0; 512],
        height: 1,
    };
    let End(code, length, terminal) = run.run();
    [code, run.place as u64, length as u64, terminal as u64, run.records as u64, u64::from(run.scanner.moves)]
}

/// Is this one whole tree of at most 256 nodes on each way down? The error is the code.
fn one_tree(tree: &[u16]) -> Result<(), u64> {
    if tree.len() % 4 != 0 {
        return Err(14);
    }
    // The nodes on the longest way down each tree that is nobody's child yet.
    let mut roots: Vec<u32> = Vec::new();
    for record in tree.chunks_exact(4) {
        match record[0] {
            0 => return Err(14),
            1..=63 => roots.push(0),
            _ => {
                let first = roots.len().checked_sub(usize::from(record[2])).ok_or(14_u64)?;
                let below = roots[first..].iter().max().copied().unwrap_or(0);
                roots.truncate(first);
                roots.push(below + 1);
            }
        }
    }
    match roots[..] {
        [nodes] if nodes <= 256 => Ok(()),
        [_] => Err(15),
        _ => Err(14),
    }
}

fn leaf<'t>(text: &'t [u8], record: &[u16]) -> &'t [u8] {
    let start = usize::from(record[1]);
    text.get(start..start + usize::from(record[2])).unwrap_or(&[])
}

fn is_escaped(byte: u8) -> bool {
    matches!(byte, b'[' | b']' | b'\\')
}

fn digits(number: u16) -> usize {
    match number {
        0..=9 => 1,
        10..=99 => 2,
        100..=999 => 3,
        1000..=9999 => 4,
        _ => 5,
    }
}

fn printed_size(text: &[u8], tree: &[u16]) -> u64 {
    let mut size = 0;
    for record in tree.chunks_exact(4) {
        size += match record[0] {
            1..=63 => {
                let bytes = leaf(text, record);
                digits(record[0]) + 3 + bytes.len() + bytes.iter().filter(|&&byte| is_escaped(byte)).count()
            }
            _ => digits(record[1]) + 2 + usize::from(record[2]),
        } as u64;
    }
    size
}

/// Prints from the last record to the first, and from the end of the printout to its front.
struct Printer<'l> {
    text: &'l [u8],
    records: std::slice::ChunksExact<'l, u16>,
    printout: &'l mut [u8],
    at: usize,
}

impl Printer<'_> {
    fn put(&mut self, byte: u8) {
        self.at -= 1;
        self.printout[self.at] = byte;
    }

    fn put_number(&mut self, number: u16) {
        let mut left = number;
        loop {
            self.put(b'0' + (left % 10) as u8);
            left /= 10;
            if left == 0 {
                return;
            }
        }
    }

    fn put_tree(&mut self) {
        let Some(record) = self.records.next_back() else {
            return;
        };
        if record[0] >= 64 {
            self.put(b')');
            for _ in 0..record[2] {
                self.put_tree();
                self.put(b' ');
            }
            self.put_number(record[1]);
            self.put(b'(');
            return;
        }
        self.put(b']');
        for &byte in leaf(self.text, record).iter().rev() {
            self.put(byte);
            if is_escaped(byte) {
                self.put(b'\\');
            }
        }
        self.put(b'[');
        self.put(b':');
        self.put_number(record[0]);
    }
}

/// Code and number.
fn print(text: &[u8], tree: &[u16], buffer: &mut [u8]) -> [u64; 2] {
    if let Err(code) = one_tree(tree) {
        return [code, 0];
    }
    let size = printed_size(text, tree);
    if size > buffer.len() as u64 {
        return [3, size];
    }
    let at = size as usize;
    let printout = &mut buffer[..at];
    let records = tree.chunks_exact(4);
    Printer { text, records, printout, at }.put_tree();
    [0, size]
}

fn tell(out: &mut [u64], numbers: &[u64]) -> usize {
    if out.len() < numbers.len() {
        return 0;
    }
    out[..numbers.len()].copy_from_slice(numbers);
    numbers.len()
}

/// # Safety
/// Each pointer has as many elements behind it as its length says.
#[no_mangle]
pub unsafe extern "C" fn plain_rust_shape(img: *const u16, img_words: usize, out: *mut u64, out_len: usize) -> usize {
    let img = std::slice::from_raw_parts(img, img_words);
    let out = std::slice::from_raw_parts_mut(out, out_len);
    match shape(img) {
        Ok(_) => tell(out, &[0, 0]),
        Err(place) => tell(out, &[4, place as u64]),
    }
}

/// # Safety
/// Each pointer has as many elements behind it as its length says.
#[no_mangle]
#[allow(clippy::too_many_arguments)]
pub unsafe extern "C" fn plain_rust_scan(
    img: *const u16,
    img_words: usize,
    text: *const u8,
    text_bytes: usize,
    start: usize,
    set: u64,
    allowance: u32,
    out: *mut u64,
    out_len: usize,
) -> usize {
    let img = std::slice::from_raw_parts(img, img_words);
    let text = std::slice::from_raw_parts(text, text_bytes);
    let out = std::slice::from_raw_parts_mut(out, out_len);
    tell(out, &scan(img, text, start, set, allowance))
}

/// # Safety
/// Each pointer has as many elements behind it as its length says.
#[no_mangle]
pub unsafe extern "C" fn plain_rust_read(
    text: *const u8,
    text_bytes: usize,
    buffer: *mut u16,
    buffer_words: usize,
    out: *mut u64,
    out_len: usize,
) -> usize {
    let text = std::slice::from_raw_parts(text, text_bytes);
    let buffer = std::slice::from_raw_parts_mut(buffer, buffer_words);
    let out = std::slice::from_raw_parts_mut(out, out_len);
    tell(out, &read(text, buffer))
}

/// # Safety
/// Each pointer has as many elements behind it as its length says.
#[no_mangle]
pub unsafe extern "C" fn plain_rust_write(
    img: *const u16,
    img_words: usize,
    buffer: *mut u8,
    buffer_bytes: usize,
    out: *mut u64,
    out_len: usize,
) -> usize {
    let img = std::slice::from_raw_parts(img, img_words);
    let buffer = std::slice::from_raw_parts_mut(buffer, buffer_bytes);
    let out = std::slice::from_raw_parts_mut(out, out_len);
    tell(out, &write(img, 1, buffer))
}

/// # Safety
/// Each pointer has as many elements behind it as its length says.
#[no_mangle]
pub unsafe extern "C" fn plain_rust_write2(
    img: *const u16,
    img_words: usize,
    buffer: *mut u8,
    buffer_bytes: usize,
    out: *mut u64,
    out_len: usize,
) -> usize {
    let img = std::slice::from_raw_parts(img, img_words);
    let buffer = std::slice::from_raw_parts_mut(buffer, buffer_bytes);
    let out = std::slice::from_raw_parts_mut(out, out_len);
    tell(out, &write(img, 2, buffer))
}

/// # Safety
/// Each pointer has as many elements behind it as its length says.
#[no_mangle]
pub unsafe extern "C" fn plain_rust_form2(
    text: *const u8,
    text_bytes: usize,
    buffer: *mut u8,
    buffer_bytes: usize,
    out: *mut u64,
    out_len: usize,
) -> usize {
    let text = std::slice::from_raw_parts(text, text_bytes);
    let buffer = std::slice::from_raw_parts_mut(buffer, buffer_bytes);
    let out = std::slice::from_raw_parts_mut(out, out_len);
    tell(out, &reform(text, 1, 2, buffer))
}

/// # Safety
/// Each pointer has as many elements behind it as its length says.
#[no_mangle]
pub unsafe extern "C" fn plain_rust_form1(
    text: *const u8,
    text_bytes: usize,
    buffer: *mut u8,
    buffer_bytes: usize,
    out: *mut u64,
    out_len: usize,
) -> usize {
    let text = std::slice::from_raw_parts(text, text_bytes);
    let buffer = std::slice::from_raw_parts_mut(buffer, buffer_bytes);
    let out = std::slice::from_raw_parts_mut(out, out_len);
    tell(out, &reform(text, 2, 1, buffer))
}

/// # Safety
/// Each pointer has as many elements behind it as its length says.
#[no_mangle]
pub unsafe extern "C" fn plain_rust_check(img: *const u16, img_words: usize, out: *mut u64, out_len: usize) -> usize {
    let img = std::slice::from_raw_parts(img, img_words);
    let out = std::slice::from_raw_parts_mut(out, out_len);
    tell(out, &check(img))
}

/// # Safety
/// Each pointer has as many elements behind it as its length says.
#[no_mangle]
#[allow(clippy::too_many_arguments)]
pub unsafe extern "C" fn plain_rust_parse(
    img: *const u16,
    img_words: usize,
    text: *const u8,
    text_bytes: usize,
    tree: *mut u16,
    tree_words: usize,
    allowance: u32,
    out: *mut u64,
    out_len: usize,
) -> usize {
    let img = std::slice::from_raw_parts(img, img_words);
    let text = std::slice::from_raw_parts(text, text_bytes);
    let tree = std::slice::from_raw_parts_mut(tree, tree_words);
    let out = std::slice::from_raw_parts_mut(out, out_len);
    tell(out, &parse(img, text, tree, allowance))
}

/// # Safety
/// Each pointer has as many elements behind it as its length says.
#[no_mangle]
#[allow(clippy::too_many_arguments)]
pub unsafe extern "C" fn plain_rust_print(
    text: *const u8,
    text_bytes: usize,
    tree: *const u16,
    tree_words: usize,
    buffer: *mut u8,
    buffer_bytes: usize,
    out: *mut u64,
    out_len: usize,
) -> usize {
    let text = std::slice::from_raw_parts(text, text_bytes);
    let tree = std::slice::from_raw_parts(tree, tree_words);
    let buffer = std::slice::from_raw_parts_mut(buffer, buffer_bytes);
    let out = std::slice::from_raw_parts_mut(out, out_len);
    tell(out, &print(text, tree, buffer))
}
