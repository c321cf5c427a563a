//! What `wb run` does with a script of arrivals alone, as one would write it in plain Rust: a line is read, its digits are turned into
//! bytes and these into a drawop, whose fields are checked; one worker takes it over through a channel, and a map tells whether its
//! name is new, held with the same data, or held with other data. Nothing is proved of it, and it knows no other line.
use std::collections::HashMap;
use std::collections::hash_map::Entry;
use std::io::{BufRead, Write};
use std::process::ExitCode;
use std::sync::mpsc::sync_channel;
use std::thread;

/// How many drawops wait for the worker, as in `wb run`.
const WAITING: usize = 64;

#[derive(Clone, Copy, PartialEq, Eq, Hash)]
struct Name {
    source: u32,
    creator: u32,
    number: u32,
    seq: u32,
}

#[derive(PartialEq, Eq)]
enum Op {
    Stroke { kind: u8, ends: [u16; 4], glyph: u8 },
    Text { x: u16, y: u16, bytes: Vec<u8> },
    Aimed { kind: u8, source: u32, seq: u32 },
}

#[derive(PartialEq, Eq)]
struct Drawop {
    name: Name,
    time: u64,
    op: Op,
}

/// Takes numbers from the front of some bytes.
struct Reader<'a>(&'a [u8]);

impl<'a> Reader<'a> {
    fn take<const N: usize>(&mut self) -> Option<[u8; N]> {
        let (front, rest) = self.0.split_at_checked(N)?;
        self.0 = rest;
        front.try_into().ok()
    }

    fn u8(&mut self) -> Option<u8> {
        Some(u8::from_be_bytes(self.take()?))
    }

    fn u32(&mut self) -> Option<u32> {
        Some(u32::from_be_bytes(self.take()?))
    }

    fn u64(&mut self) -> Option<u64> {
        Some(u64::from_be_bytes(self.take()?))
    }

    fn coordinate(&mut self) -> Option<u16> {
        Some(u16::from_be_bytes(self.take()?)).filter(|it| *it <= 4095)
    }

    fn seq(&mut self) -> Option<u32> {
        self.u32().filter(|it| *it > 0)
    }
}

fn read_op(reader: &mut Reader, name: Name) -> Option<Op> {
    Some(match reader.u8()? {
        kind @ (1 | 2) => {
            let ends = [reader.coordinate()?, reader.coordinate()?, reader.coordinate()?, reader.coordinate()?];
            Op::Stroke { kind, ends, glyph: reader.u8().filter(|it| (b'!'..=b'~').contains(it))? }
        }
        3 => {
            let (x, y, count) = (reader.coordinate()?, reader.coordinate()?, reader.u8()?);
            let bytes = reader.0.get(..count.into()).filter(|it| (1..=64).contains(&it.len()))?;
            reader.0 = &reader.0[bytes.len()..];
            bytes.iter().all(|it| (b' '..=b'~').contains(it)).then(|| Op::Text { x, y, bytes: bytes.to_vec() })?
        }
        kind @ (4 | 5) => {
            let (source, seq) = (reader.u32()?, reader.seq()?);
            ((source, seq) != (name.source, name.seq)).then_some(Op::Aimed { kind, source, seq })?
        }
        _ => return None,
    })
}

fn read_drawop(bytes: &[u8]) -> Option<Drawop> {
    let mut reader = Reader(bytes);
    let head: [u8; 4] = reader.take()?;
    if head != [b'W', b'B', 1, 1] || reader.u32()? as usize != reader.0.len() {
        return None;
    }
    let (source, creator, number) = (reader.u32()?, reader.u32()?, reader.u32()?);
    let name = Name { source, creator, number, seq: reader.seq()? };
    let (time, op) = (reader.u64()?, read_op(&mut reader, name)?);
    reader.0.is_empty().then_some(Drawop { name, time, op })
}

fn digit(byte: u8) -> Option<u8> {
    match byte {
        b'0'..=b'9' => Some(byte - b'0'),
        b'a'..=b'f' => Some(byte - b'a' + 10),
        b'A'..=b'F' => Some(byte - b'A' + 10),
        _ => None,
    }
}

fn unhex(digits: &[u8], bytes: &mut Vec<u8>) -> Option<()> {
    bytes.clear();
    if digits.len() % 2 == 1 {
        return None;
    }
    for pair in digits.chunks_exact(2) {
        bytes.push(digit(pair[0])? << 4 | digit(pair[1])?);
    }
    Some(())
}

/// The counts of a batch: new, held with the same data, held with other data, and lost for want of a cell.
#[derive(Default)]
struct Counts {
    fresh: u32,
    again: u32,
    clash: u32,
    full: u32,
}

fn take_over(board: &mut HashMap<Name, Drawop>, cells: usize, drawop: Drawop, counts: &mut Counts) {
    let is_full = board.len() >= cells;
    match board.entry(drawop.name) {
        Entry::Occupied(held) if *held.get() == drawop => counts.again += 1,
        Entry::Occupied(_) => counts.clash += 1,
        Entry::Vacant(_) if is_full => counts.full += 1,
        Entry::Vacant(place) => {
            place.insert(drawop);
            counts.fresh += 1;
        }
    }
}

fn run() -> Option<Counts> {
    let mut lines = std::io::stdin().lock();
    let (mut line, mut bytes) = (Vec::new(), Vec::new());
    lines.read_until(b'\n', &mut line).ok()?;
    let opening = std::str::from_utf8(line.trim_ascii_end()).ok()?;
    let cells: usize = opening.strip_prefix("board ")?.split(' ').nth(1)?.parse().ok()?;
    let (sender, receiver) = sync_channel::<Drawop>(WAITING);
    let worker = thread::spawn(move || {
        let (mut board, mut counts) = (HashMap::new(), Counts::default());
        for drawop in receiver {
            take_over(&mut board, cells, drawop, &mut counts);
        }
        counts
    });
    loop {
        line.clear();
        if lines.read_until(b'\n', &mut line).ok()? == 0 {
            break;
        }
        unhex(line.trim_ascii_end().strip_prefix(b"arrive ")?, &mut bytes)?;
        sender.send(read_drawop(&bytes)?).ok()?;
    }
    drop(sender);
    worker.join().ok()
}

fn main() -> ExitCode {
    let Some(Counts { fresh, again, clash, full }) = run() else {
        return ExitCode::FAILURE;
    };
    match writeln!(std::io::stdout(), "batch {fresh} {again} {clash} {full}") {
        Ok(()) => ExitCode::SUCCESS,
        Err(_) => ExitCode::FAILURE,
    }
}
