//! The readers of Bookshelf files written by hand in plain Rust, without their proofs.

#![allow(dead_code)]

#[derive(Debug)]
pub enum Kind {
    BadHeader,
    BadLine,
    BadNumber,
    CountMismatch { told: u64, found: u64 },
}

#[derive(Debug)]
pub struct Fault {
    pub line: u64,
    pub kind: Kind,
}

pub struct NodeLine<'a> {
    pub line: u64,
    pub name: &'a [u8],
    pub width: i64,
    pub height: i64,
    pub fixed: bool,
    /// Whether it is marked as one that allows overlap.
    pub overlap: bool,
}

#[derive(Clone, Copy)]
pub enum Orient {
    N,
    S,
    E,
    W,
    FN,
    FS,
    FE,
    FW,
}

impl Orient {
    pub fn word(self) -> &'static [u8] {
        match self {
            Self::N => b"N",
            Self::S => b"S",
            Self::E => b"E",
            Self::W => b"W",
            Self::FN => b"FN",
            Self::FS => b"FS",
            Self::FE => b"FE",
            Self::FW => b"FW",
        }
    }
}

pub struct PlaceLine<'a> {
    pub line: u64,
    pub name: &'a [u8],
    pub x: i64,
    pub y: i64,
    pub orient: Orient,
    pub fixed: bool,
    /// Whether it is marked as one that allows overlap.
    pub overlap: bool,
}

fn is_blank(byte: u8) -> bool {
    matches!(byte, b' ' | b'\t' | b'\r')
}

/// The words of a line, in one buffer that is used again.
fn words_in<'a>(words: &mut Vec<&'a [u8]>, line: &'a [u8]) {
    words.clear();
    for run in line.split(|byte| is_blank(*byte)) {
        let mut run = run;
        while let [b':', rest @ ..] = run {
            words.push(&run[..1]);
            run = rest;
        }
        let mut end = run.len();
        while end > 0 && run[end - 1] == b':' {
            end -= 1;
        }
        if end > 0 {
            words.push(&run[..end]);
        }
        for at in end..run.len() {
            words.push(&run[at..at + 1]);
        }
    }
}

pub fn whole_of(word: &[u8]) -> Result<u64, Kind> {
    if word.is_empty() || word.len() > 30 {
        return Err(Kind::BadNumber);
    }
    let mut value: u64 = 0;
    for byte in word {
        if !byte.is_ascii_digit() {
            return Err(Kind::BadNumber);
        }
        value = (value * 10 + u64::from(*byte - b'0')).min((1 << 40) + 1);
    }
    if value > 1 << 40 {
        return Err(Kind::BadNumber);
    }
    Ok(value)
}

fn digits(number: u128, bytes: &[u8]) -> (u128, &[u8]) {
    let mut number = number;
    let mut rest = bytes;
    while let [byte, behind @ ..] = rest {
        if !byte.is_ascii_digit() {
            break;
        }
        number = number * 10 + u128::from(*byte - b'0');
        rest = behind;
    }
    (number, rest)
}

fn split_sign(word: &[u8]) -> (bool, &[u8]) {
    match word {
        [b'-', rest @ ..] => (true, rest),
        [b'+', rest @ ..] => (false, rest),
        _ => (false, word),
    }
}

fn number_of(word: &[u8]) -> Result<i64, Kind> {
    if word.len() > 30 {
        return Err(Kind::BadNumber);
    }
    let (negative, unsigned) = split_sign(word);
    let (mut number, mut rest) = digits(0, unsigned);
    let mut count = unsigned.len() - rest.len();
    let mut fraction = 0;
    if let [b'.', behind @ ..] = rest {
        (number, rest) = digits(number, behind);
        fraction = behind.len() - rest.len();
        count += fraction;
    }
    if count == 0 {
        return Err(Kind::BadNumber);
    }
    let mut places = 6 - fraction as i128;
    if let [b'e' | b'E', signed @ ..] = rest {
        let (down, unsigned) = split_sign(signed);
        let (moved, end) = digits(0, unsigned);
        if unsigned.is_empty() || !end.is_empty() {
            return Err(Kind::BadNumber);
        }
        places += if down {
            -(moved as i128)
        } else {
            moved as i128
        };
    } else if !rest.is_empty() {
        return Err(Kind::BadNumber);
    }
    const MOST: u128 = 1_000_000_000_000;
    let size = if number == 0 || places < -30 {
        0
    } else if places >= 0 {
        if places > 12 || number > MOST {
            return Err(Kind::BadNumber);
        }
        number * 10u128.pow(places as u32)
    } else {
        number / 10u128.pow(-places as u32)
    };
    if size > MOST {
        return Err(Kind::BadNumber);
    }
    Ok(if negative {
        -(size as i64)
    } else {
        size as i64
    })
}

fn size_of(word: &[u8]) -> Result<i64, Kind> {
    match number_of(word)? {
        size if size < 0 => Err(Kind::BadNumber),
        size => Ok(size),
    }
}

fn is_header(kind: &[u8], words: &[&[u8]]) -> bool {
    match words {
        [ucla, name, version, ..] => {
            ucla.eq_ignore_ascii_case(b"ucla")
                && name.eq_ignore_ascii_case(kind)
                && *version == b"1.0"
        }
        _ => false,
    }
}

fn is_keyed(key: &[u8], words: &[&[u8]]) -> bool {
    matches!(words, [word, colon, ..] if *colon == b":" && word.eq_ignore_ascii_case(key))
}

fn count_of(told: bool, words: &[&[u8]]) -> Result<u64, Kind> {
    match words {
        [_, _, number] if !told => whole_of(number),
        _ => Err(Kind::BadLine),
    }
}

/// Each line that has words and is no comment, with its number; then the number behind the last line.
pub fn each_line<'a>(
    text: &'a [u8],
    mut take: impl FnMut(u64, &[&'a [u8]]) -> Result<(), Kind>,
) -> Result<u64, Fault> {
    let mut words = Vec::new();
    let mut rest = text;
    let mut number = 1;
    while !rest.is_empty() {
        let end = rest.iter().position(|byte| *byte == b'\n');
        let (line, behind) = match end {
            Some(end) => (&rest[..end], &rest[end + 1..]),
            None => (rest, &rest[rest.len()..]),
        };
        words_in(&mut words, line);
        if words.first().is_some_and(|word| word[0] != b'#') {
            take(number, &words).map_err(|kind| Fault { line: number, kind })?;
        }
        rest = behind;
        number += 1;
    }
    Ok(number)
}

/// The record of each line behind the header, in a file that has no counts.
fn records_behind_header<'a, Record>(
    text: &'a [u8],
    format: &[u8],
    record_of: impl Fn(u64, &[&'a [u8]]) -> Result<Record, Kind>,
) -> Result<Vec<Record>, Fault> {
    let mut begun = false;
    let mut records = Vec::new();
    let end = each_line(text, |number, words| {
        if begun {
            records.push(record_of(number, words)?);
        } else if is_header(format, words) {
            begun = true;
        } else {
            return Err(Kind::BadHeader);
        }
        Ok(())
    })?;
    if begun {
        Ok(records)
    } else {
        Err(Fault {
            line: end,
            kind: Kind::BadHeader,
        })
    }
}

/// Whether a mark of a fixed node allows overlap: it is `plain`, or the same with `_NI` behind it. None for another word.
fn overlap_of(word: &[u8], plain: &[u8]) -> Option<bool> {
    let (front, end) = word.split_at_checked(plain.len())?;
    let overlap = end.eq_ignore_ascii_case(b"_ni");
    (front.eq_ignore_ascii_case(plain) && (overlap || end.is_empty())).then_some(overlap)
}

fn node_of<'a>(line: u64, words: &[&'a [u8]]) -> Result<NodeLine<'a>, Kind> {
    let (name, width, height, mark) = match words {
        [name, width, height] => (name, width, height, None),
        [name, width, height, mark] => {
            let overlap = overlap_of(mark, b"terminal").ok_or(Kind::BadLine)?;
            (name, width, height, Some(overlap))
        }
        _ => return Err(Kind::BadLine),
    };
    Ok(NodeLine {
        line,
        name,
        width: size_of(width)?,
        height: size_of(height)?,
        fixed: mark.is_some(),
        overlap: mark.unwrap_or(false),
    })
}

pub fn read_nodes(text: &[u8]) -> Result<Vec<NodeLine<'_>>, Fault> {
    let mut begun = false;
    let mut total = None;
    let mut terminals = None;
    let mut lines = Vec::new();
    let end = each_line(text, |number, words| {
        if !begun {
            if !is_header(b"nodes", words) {
                return Err(Kind::BadHeader);
            }
            begun = true;
        } else if is_keyed(b"numnodes", words) {
            total = Some(count_of(total.is_some(), words)?);
        } else if is_keyed(b"numterminals", words) {
            terminals = Some(count_of(terminals.is_some(), words)?);
        } else {
            lines.push(node_of(number, words)?);
        }
        Ok(())
    })?;
    let found = lines.len() as u64;
    let kind = match total {
        _ if !begun => Kind::BadHeader,
        None => Kind::BadLine,
        Some(told) if told != found => Kind::CountMismatch { told, found },
        Some(_) => return Ok(lines),
    };
    Err(Fault { line: end, kind })
}

fn orient_of(word: &[u8]) -> Option<Orient> {
    const ORIENTS: [(&[u8], Orient); 8] = [
        (b"n", Orient::N),
        (b"s", Orient::S),
        (b"e", Orient::E),
        (b"w", Orient::W),
        (b"fn", Orient::FN),
        (b"fs", Orient::FS),
        (b"fe", Orient::FE),
        (b"fw", Orient::FW),
    ];
    ORIENTS
        .iter()
        .find(|(name, _)| word.eq_ignore_ascii_case(name))
        .map(|(_, orient)| *orient)
}

fn place_of<'a>(line: u64, words: &[&'a [u8]]) -> Result<PlaceLine<'a>, Kind> {
    let mark = match words {
        [_, _, _, .., mark] => overlap_of(mark, b"/fixed"),
        _ => None,
    };
    let front = &words[..words.len() - usize::from(mark.is_some())];
    let (name, x, y, orient) = match front {
        [name, x, y] => (name, x, y, Orient::N),
        [name, x, y, colon, orient] if *colon == b":" => {
            (name, x, y, orient_of(orient).ok_or(Kind::BadLine)?)
        }
        _ => return Err(Kind::BadLine),
    };
    Ok(PlaceLine {
        line,
        name,
        x: number_of(x)?,
        y: number_of(y)?,
        orient,
        fixed: mark.is_some(),
        overlap: mark.unwrap_or(false),
    })
}

pub fn read_pl(text: &[u8]) -> Result<Vec<PlaceLine<'_>>, Fault> {
    records_behind_header(text, b"pl", place_of)
}

pub struct PinLine<'a> {
    pub line: u64,
    pub node: &'a [u8],
    pub dx: i64,
    pub dy: i64,
}

pub struct NetBlock<'a> {
    pub name: Option<&'a [u8]>,
    pub pins: Vec<PinLine<'a>>,
}

fn pin_of<'a>(line: u64, words: &[&'a [u8]]) -> Result<PinLine<'a>, Kind> {
    fn is_direction(word: &[u8]) -> bool {
        matches!(word, b"I" | b"O" | b"B" | b"i" | b"o" | b"b")
    }
    let (node, dx, dy) = match words {
        [node] => (node, 0, 0),
        [node, direction] if is_direction(direction) => (node, 0, 0),
        [node, direction, colon, x, y] if is_direction(direction) && *colon == b":" => {
            (node, number_of(x)?, number_of(y)?)
        }
        _ => return Err(Kind::BadLine),
    };
    Ok(PinLine { line, node, dx, dy })
}

struct NetsSoFar<'a> {
    begun: bool,
    total: Option<u64>,
    pin_total: Option<u64>,
    pub pins: u64,
    degree: u64,
    nets: Vec<NetBlock<'a>>,
}

impl<'a> NetsSoFar<'a> {
    fn close(&self) -> Result<(), Kind> {
        match self.nets.last() {
            Some(net) if (net.pins.len() as u64) < self.degree => Err(Kind::CountMismatch {
                told: self.degree,
                found: net.pins.len() as u64,
            }),
            _ => Ok(()),
        }
    }

    fn keep(&mut self, number: u64, words: &[&'a [u8]]) -> Result<(), Kind> {
        if !self.begun {
            if !is_header(b"nets", words) {
                return Err(Kind::BadHeader);
            }
            self.begun = true;
        } else if is_keyed(b"numnets", words) {
            self.total = Some(count_of(self.total.is_some(), words)?);
        } else if is_keyed(b"numpins", words) {
            self.pin_total = Some(count_of(self.pin_total.is_some(), words)?);
        } else if is_keyed(b"netdegree", words) {
            self.close()?;
            let (degree, name) = match words {
                [_, _, degree] => (degree, None),
                [_, _, degree, name] => (degree, Some(*name)),
                _ => return Err(Kind::BadLine),
            };
            self.degree = whole_of(degree)?;
            self.nets.push(NetBlock {
                name,
                pins: Vec::new(),
            });
        } else {
            let Some(net) = self.nets.last_mut() else {
                return Err(Kind::BadLine);
            };
            let pin = pin_of(number, words)?;
            if net.pins.len() as u64 == self.degree {
                let told = self.degree;
                return Err(Kind::CountMismatch {
                    told,
                    found: told + 1,
                });
            }
            net.pins.push(pin);
            self.pins += 1;
        }
        Ok(())
    }

    fn fault(&self) -> Option<Kind> {
        if !self.begun {
            return Some(Kind::BadHeader);
        }
        if let Err(kind) = self.close() {
            return Some(kind);
        }
        let (Some(nets), Some(pins)) = (self.total, self.pin_total) else {
            return Some(Kind::BadLine);
        };
        for (told, found) in [(nets, self.nets.len() as u64), (pins, self.pins)] {
            if told != found {
                return Some(Kind::CountMismatch { told, found });
            }
        }
        None
    }
}

pub fn read_nets(text: &[u8]) -> Result<Vec<NetBlock<'_>>, Fault> {
    let mut so_far = NetsSoFar {
        begun: false,
        total: None,
        pin_total: None,
        pins: 0,
        degree: 0,
        nets: Vec::new(),
    };
    let line = each_line(text, |number, words| so_far.keep(number, words))?;
    match so_far.fault() {
        Some(kind) => Err(Fault { line, kind }),
        None => Ok(so_far.nets),
    }
}

pub struct WeightLine<'a> {
    pub name: &'a [u8],
    pub weight: i64,
}

pub fn read_wts(text: &[u8]) -> Result<Vec<WeightLine<'_>>, Fault> {
    records_behind_header(text, b"wts", |_, words| match words {
        [name, weight, ..] => Ok(WeightLine {
            name,
            weight: number_of(weight)?,
        }),
        _ => Err(Kind::BadLine),
    })
}

pub struct SubrowLine {
    pub x: i64,
    pub sites: u64,
}

pub struct RowBlock {
    pub y: i64,
    pub height: i64,
    pub pitch: i64,
    pub subrows: Vec<SubrowLine>,
}

#[derive(Default)]
struct BlockSoFar {
    y: Option<i64>,
    height: Option<i64>,
    width: Option<i64>,
    spacing: Option<i64>,
    orient: bool,
    symmetry: bool,
    subrows: Vec<SubrowLine>,
}

fn positive_of(word: &[u8]) -> Result<i64, Kind> {
    match number_of(word)? {
        size if size <= 0 => Err(Kind::BadNumber),
        size => Ok(size),
    }
}

fn once<'w, 'a, T>(told: &Option<T>, words: &'w [&'a [u8]]) -> Result<&'w &'a [u8], Kind> {
    match words {
        [_, _, word] if told.is_none() => Ok(word),
        _ => Err(Kind::BadLine),
    }
}

impl BlockSoFar {
    fn keep(&mut self, words: &[&[u8]]) -> Result<(), Kind> {
        if is_keyed(b"coordinate", words) {
            self.y = Some(number_of(once(&self.y, words)?)?);
        } else if is_keyed(b"height", words) {
            self.height = Some(positive_of(once(&self.height, words)?)?);
        } else if is_keyed(b"sitewidth", words) {
            self.width = Some(positive_of(once(&self.width, words)?)?);
        } else if is_keyed(b"sitespacing", words) {
            self.spacing = Some(positive_of(once(&self.spacing, words)?)?);
        } else if is_keyed(b"siteorient", words) && !self.orient {
            self.orient = true;
        } else if is_keyed(b"sitesymmetry", words) && !self.symmetry {
            self.symmetry = true;
        } else if is_keyed(b"subroworigin", words) {
            let [_, _, x, many, colon, sites] = words else {
                return Err(Kind::BadLine);
            };
            if !many.eq_ignore_ascii_case(b"numsites") || *colon != b":" {
                return Err(Kind::BadLine);
            }
            self.subrows.push(SubrowLine {
                x: number_of(x)?,
                sites: whole_of(sites)?,
            });
        } else {
            return Err(Kind::BadLine);
        }
        Ok(())
    }

    fn row(self) -> Result<RowBlock, Kind> {
        let (Some(y), Some(height), Some(pitch)) =
            (self.y, self.height, self.spacing.or(self.width))
        else {
            return Err(Kind::BadLine);
        };
        Ok(RowBlock {
            y,
            height,
            pitch,
            subrows: self.subrows,
        })
    }
}

pub fn read_scl(text: &[u8]) -> Result<Vec<RowBlock>, Fault> {
    let mut begun = false;
    let mut total = None;
    let mut open: Option<BlockSoFar> = None;
    let mut rows = Vec::new();
    let end = each_line(text, |_, words| {
        if !begun {
            if !is_header(b"scl", words) {
                return Err(Kind::BadHeader);
            }
            begun = true;
        } else if let Some(block) = &mut open {
            if matches!(words, [word] if word.eq_ignore_ascii_case(b"end")) {
                rows.push(open.take().unwrap_or_default().row()?);
            } else {
                block.keep(words)?;
            }
        } else if is_keyed(b"numrows", words) {
            total = Some(count_of(total.is_some(), words)?);
        } else if matches!(words, [a, b] if a.eq_ignore_ascii_case(b"corerow") && b.eq_ignore_ascii_case(b"horizontal"))
        {
            open = Some(BlockSoFar::default());
        } else {
            return Err(Kind::BadLine);
        }
        Ok(())
    })?;
    let found = rows.len() as u64;
    let kind = match total {
        _ if !begun => Kind::BadHeader,
        _ if open.is_some() => Kind::BadLine,
        None => Kind::BadLine,
        Some(told) if told != found => Kind::CountMismatch { told, found },
        Some(_) => return Ok(rows),
    };
    Err(Fault { line: end, kind })
}
