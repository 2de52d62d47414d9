//! The work of `tesseract fold` in plain Rust, over std's `BTreeSet`, and the records that
//! both are timed on: `peer fold` reads records and writes the pieces at the last `DONE`, `peer generate MODE
//! RECORDS PIECES` writes so many lines of records with about so many pieces of vertices or of edges held.
use std::cmp::Ordering;
use std::collections::BTreeSet;
use std::error::Error;
use std::io::{self, BufWriter, Read, Write};

const MOST_MEMBERS: usize = 8;
const MOST_LINES: u64 = 4_000_000_000_000;
const LINE_BYTES: usize = 4096;
const BLOCK_BYTES: usize = 1 << 16;
const ID_DIGITS: usize = 10;
const STAMP_DIGITS: usize = 20;

#[derive(Clone, Copy, PartialEq, Eq, PartialOrd, Ord)]
enum Mode {
    Vertex,
    Edge,
}

/// Vertices or edges, ascending. A vertex is its id, and an edge the id of its lower end and then that of its
/// higher one, with 32 bits each.
#[derive(Clone, Copy)]
struct Piece {
    mode: Mode,
    len: u8,
    members: [u64; MOST_MEMBERS],
}

impl Piece {
    fn empty(mode: Mode) -> Piece {
        Piece {
            mode,
            len: 0,
            members: [0; MOST_MEMBERS],
        }
    }

    fn members(&self) -> &[u64] {
        &self.members[..usize::from(self.len)]
    }

    /// Adds a member after the others, if it is of their mode and above them and there is room.
    fn push(&mut self, (mode, member): (Mode, u64)) -> Option<()> {
        let follows = self.members().last().is_none_or(|last| *last < member);
        if mode != self.mode || !follows {
            return None;
        }
        *self.members.get_mut(usize::from(self.len))? = member;
        self.len += 1;
        Some(())
    }
}

impl Ord for Piece {
    fn cmp(&self, other: &Piece) -> Ordering {
        self.mode
            .cmp(&other.mode)
            .then_with(|| self.members().cmp(other.members()))
    }
}

impl PartialOrd for Piece {
    fn partial_cmp(&self, other: &Piece) -> Option<Ordering> {
        Some(self.cmp(other))
    }
}

impl PartialEq for Piece {
    fn eq(&self, other: &Piece) -> bool {
        self.mode == other.mode && self.members() == other.members()
    }
}

impl Eq for Piece {}

#[derive(Clone, Copy, PartialEq, Eq)]
enum Kind {
    Rem,
    New,
}

enum Record {
    Nothing,
    Head,
    Change {
        kind: Kind,
        stamp: u64,
        piece: Piece,
    },
    Done {
        stamp: u64,
        count: Option<u64>,
    },
}

fn read_number(word: &[u8], digits: usize) -> Option<u64> {
    if word.len() > digits {
        return None;
    }
    let mut number = 0_u64;
    for byte in word {
        let digit = byte.wrapping_sub(b'0');
        if digit > 9 {
            return None;
        }
        number = number.checked_mul(10)?.checked_add(u64::from(digit))?;
    }
    Some(number)
}

fn read_id(word: &[u8]) -> Option<u32> {
    u32::try_from(read_number(word, ID_DIGITS)?).ok()
}

fn read_member(word: &[u8]) -> Option<(Mode, u64)> {
    let Some(dash) = word.iter().position(|byte| *byte == b'-') else {
        return Some((Mode::Vertex, u64::from(read_id(word)?)));
    };
    let (low, high) = (read_id(&word[..dash])?, read_id(&word[dash + 1..])?);
    (low < high).then_some((Mode::Edge, edge(low, high)))
}

fn edge(low: u32, high: u32) -> u64 {
    u64::from(low) << 32 | u64::from(high)
}

fn read_record(line: &[u8]) -> Option<Record> {
    let is_blank = |byte: &u8| *byte == b' ' || *byte == b'\t';
    let mut words = line.split(is_blank).filter(|word| !word.is_empty());
    let Some(first) = words.next() else {
        return Some(Record::Nothing);
    };
    let kind = match first {
        b"REM" => Some(Kind::Rem),
        b"NEW" => Some(Kind::New),
        b"DONE" => None,
        b"records" => return words.eq([b"2"]).then_some(Record::Head),
        [b'#', ..] => return Some(Record::Nothing),
        _ => return None,
    };
    let stamp = read_number(words.next()?, STAMP_DIGITS)?;
    let Some(kind) = kind else {
        let count = match words.next() {
            None => None,
            Some(word) => Some(read_number(word, STAMP_DIGITS)?),
        };
        return words
            .next()
            .is_none()
            .then_some(Record::Done { stamp, count });
    };
    let first = read_member(words.next()?)?;
    let mut piece = Piece::empty(first.0);
    piece.push(first)?;
    for word in words {
        piece.push(read_member(word)?)?;
    }
    Some(Record::Change { kind, stamp, piece })
}

/// The pieces that are there, and what the open timestamp has changed.
#[derive(Default)]
struct Fold {
    has_counts: Option<bool>,
    mode: Option<Mode>,
    done: u64,
    pieces: BTreeSet<Piece>,
    open: Vec<(Kind, Piece)>,
}

impl Fold {
    fn take(&mut self, line: &[u8]) -> Result<(), &'static str> {
        match read_record(line).ok_or("BadLine")? {
            Record::Nothing => Ok(()),
            Record::Head if self.has_counts.is_some() => Err("WrongForm"),
            Record::Head => {
                self.has_counts = Some(true);
                Ok(())
            }
            Record::Change { kind, stamp, piece } => self.change(kind, stamp, piece),
            Record::Done { stamp, count } => self.close(stamp, count),
        }
    }

    fn close(&mut self, stamp: u64, count: Option<u64>) -> Result<(), &'static str> {
        if count.is_some() != *self.has_counts.get_or_insert(false) {
            return Err("WrongForm");
        }
        if !self.is_open(stamp) {
            return Err("OutOfOrder");
        }
        if count.is_some_and(|said| said != self.pieces.len() as u64) {
            return Err("WrongCount");
        }
        self.done = stamp;
        self.open.clear();
        Ok(())
    }

    fn change(&mut self, kind: Kind, stamp: u64, piece: Piece) -> Result<(), &'static str> {
        if self.mode.is_some_and(|mode| mode != piece.mode) {
            return Err("MixedModes");
        }
        let is_next = match self.open.last() {
            None => true,
            Some((before, last)) if *before == kind => *last < piece,
            Some((before, _)) => *before == Kind::Rem,
        };
        if !self.is_open(stamp) || !is_next {
            return Err("OutOfOrder");
        }
        match kind {
            Kind::Rem if !self.pieces.remove(&piece) => return Err("RemovesAbsent"),
            Kind::New if !self.pieces.insert(piece) => return Err("AddsPresent"),
            _ => {}
        }
        self.open.push((kind, piece));
        self.mode = Some(piece.mode);
        self.has_counts.get_or_insert(false);
        Ok(())
    }

    fn is_open(&self, stamp: u64) -> bool {
        self.done.checked_add(1) == Some(stamp)
    }

    /// The pieces at the last timestamp that is done.
    fn settled(mut self) -> BTreeSet<Piece> {
        while let Some((kind, piece)) = self.open.pop() {
            match kind {
                Kind::Rem => self.pieces.insert(piece),
                Kind::New => self.pieces.remove(&piece),
            };
        }
        self.pieces
    }
}

fn without_cr(line: &[u8]) -> &[u8] {
    line.strip_suffix(b"\r").unwrap_or(line)
}

fn fold(mut input: impl Read) -> Result<BTreeSet<Piece>, Box<dyn Error>> {
    let mut fold = Fold::default();
    let mut block = vec![0; BLOCK_BYTES];
    let mut filled = 0;
    let mut lines = 0;
    loop {
        let read = input.read(&mut block[filled..])?;
        if read == 0 {
            return Ok(fold.settled());
        }
        filled += read;
        let mut start = 0;
        while start < filled {
            let end = block[start..filled].iter().position(|byte| *byte == b'\n');
            if lines == MOST_LINES {
                return Err(format!("limit: Lines {}", lines + 1).into());
            }
            if end.unwrap_or(filled - start) > LINE_BYTES {
                return Err(format!("limit: LineBytes {}", lines + 1).into());
            }
            let Some(end) = end else { break };
            lines += 1;
            fold.take(without_cr(&block[start..start + end]))
                .map_err(|kind| format!("input: line {lines}: {kind}"))?;
            start += end + 1;
        }
        block.copy_within(start..filled, 0);
        filled -= start;
    }
}

fn put_number(out: &mut impl Write, mut number: u64) -> io::Result<()> {
    let mut digits = [b'0'; STAMP_DIGITS];
    let mut start = digits.len() - 1;
    loop {
        digits[start] = b'0' + (number % 10) as u8;
        number /= 10;
        if number == 0 {
            return out.write_all(&digits[start..]);
        }
        start -= 1;
    }
}

fn put_members(out: &mut impl Write, piece: &Piece) -> io::Result<()> {
    for (place, member) in piece.members().iter().enumerate() {
        if place > 0 {
            out.write_all(b" ")?;
        }
        if piece.mode == Mode::Edge {
            put_number(out, member >> 32)?;
            out.write_all(b"-")?;
        }
        put_number(out, member & u64::from(u32::MAX))?;
    }
    out.write_all(b"\n")
}

/// SplitMix64 of a counter.
struct Draws {
    count: u64,
}

impl Draws {
    fn below(&mut self, end: u64) -> u64 {
        self.count = self.count.wrapping_add(1);
        let a = self.count.wrapping_mul(0x9e37_79b9_7f4a_7c15);
        let b = (a ^ (a >> 30)).wrapping_mul(0xbf58_476d_1ce4_e5b9);
        let c = (b ^ (b >> 27)).wrapping_mul(0x94d0_49bb_1331_11eb);
        (c ^ (c >> 31)) % end
    }

    fn vertex(&mut self) -> u32 {
        1 + self.below(10_000_000) as u32
    }

    fn member(&mut self, mode: Mode) -> u64 {
        let first = self.vertex();
        if mode == Mode::Vertex {
            return u64::from(first);
        }
        loop {
            let second = self.vertex();
            if second != first {
                return edge(first.min(second), first.max(second));
            }
        }
    }

    /// One to four members, over ten million vertices.
    fn piece(&mut self, mode: Mode) -> Piece {
        let len = 1 + self.below(4);
        let mut members = BTreeSet::new();
        while (members.len() as u64) < len {
            members.insert(self.member(mode));
        }
        let mut piece = Piece::empty(mode);
        for member in members {
            piece.push((mode, member));
        }
        piece
    }
}

fn put_records(
    out: &mut impl Write,
    word: &str,
    stamp: u64,
    pieces: &BTreeSet<Piece>,
) -> io::Result<()> {
    for piece in pieces {
        write!(out, "{word} {stamp} ")?;
        put_members(out, piece)?;
    }
    Ok(())
}

/// Up to eight pieces go and up to eight come at each timestamp; none goes while fewer are there than wanted.
fn generate(out: &mut impl Write, mode: Mode, records: u64, wanted: usize) -> io::Result<()> {
    let mut draws = Draws { count: 0 };
    let mut pieces = BTreeSet::new();
    let mut places = Vec::new();
    let mut stamp = 0;
    let mut left = records;
    while left > 0 {
        stamp += 1;
        left -= 1;
        let goes = if places.len() < wanted {
            0
        } else {
            draws.below(9).min(left)
        };
        left -= goes;
        let comes = draws.below(9).min(left);
        left -= comes;
        // What comes is drawn before anything goes, so that no piece does both.
        let mut coming = BTreeSet::new();
        while (coming.len() as u64) < comes {
            let piece = draws.piece(mode);
            if pieces.insert(piece) {
                coming.insert(piece);
            }
        }
        let mut going = BTreeSet::new();
        for _ in 0..goes {
            let piece = places.swap_remove(draws.below(places.len() as u64) as usize);
            pieces.remove(&piece);
            going.insert(piece);
        }
        places.extend(&coming);
        put_records(out, "REM", stamp, &going)?;
        put_records(out, "NEW", stamp, &coming)?;
        writeln!(out, "DONE {stamp}")?;
    }
    Ok(())
}

fn main() -> Result<(), Box<dyn Error>> {
    let words: Vec<String> = std::env::args().skip(1).collect();
    let words: Vec<&str> = words.iter().map(String::as_str).collect();
    let mut out = BufWriter::with_capacity(BLOCK_BYTES, io::stdout().lock());
    match words.as_slice() {
        ["fold"] => {
            for piece in &fold(io::stdin().lock())? {
                put_members(&mut out, piece)?;
            }
        }
        ["generate", "vertices", records, wanted] => {
            generate(&mut out, Mode::Vertex, records.parse()?, wanted.parse()?)?
        }
        ["generate", "edges", records, wanted] => {
            generate(&mut out, Mode::Edge, records.parse()?, wanted.parse()?)?
        }
        _ => return Err("usage: peer fold | peer generate vertices|edges RECORDS PIECES".into()),
    }
    out.flush()?;
    Ok(())
}
