//! Drawings with types and in words, and the bytes of a drawop (docs/PROTOCOL.md).
use std::fmt;
use std::str::FromStr;

/// A page: the member that created it, and its number.
#[derive(Clone, Copy, Debug, PartialEq, Eq, Hash)]
pub struct Page {
    pub creator: u32,
    pub number: u32,
}

impl fmt::Display for Page {
    fn fmt(&self, to: &mut fmt::Formatter<'_>) -> fmt::Result {
        write!(to, "{}/{}", self.creator, self.number)
    }
}

/// What is drawn: a line between two cells, the four sides of a rectangle, a text, and what hides a drawop of the page or shows it again.
#[derive(Clone, Debug, PartialEq, Eq)]
pub enum Drawing {
    Line([u16; 4], u8),
    Frame([u16; 4], u8),
    Text(u16, u16, String),
    Delete(u32, u32),
    Restore(u32, u32),
}

/// A drawop. Its source, its page and its number are its name, which no other has.
#[derive(Clone, Debug, PartialEq, Eq)]
pub struct Drawop {
    pub source: u32,
    pub page: Page,
    pub number: u32,
    pub time: u64,
    pub drawing: Drawing,
}

const HEAD: usize = 8;
const FIELDS: usize = 33;

/// A text of more letters takes the second version, and so does a restore.
const SHORT_TEXT: usize = 40;

impl Drawing {
    fn kind(&self) -> u8 {
        match self {
            Drawing::Line(..) => 1,
            Drawing::Frame(..) => 2,
            Drawing::Text(..) => 3,
            Drawing::Delete(..) => 4,
            Drawing::Restore(..) => 5,
        }
    }

    fn fields(&self) -> Vec<u8> {
        match self {
            Drawing::Line(ends, glyph) | Drawing::Frame(ends, glyph) => ends.iter().flat_map(|it| it.to_be_bytes()).chain([*glyph]).collect(),
            Drawing::Text(x, y, text) => {
                let length = u8::try_from(text.len()).unwrap_or(u8::MAX);
                [x.to_be_bytes(), y.to_be_bytes()].concat().into_iter().chain([length]).chain(text.bytes()).collect()
            }
            Drawing::Delete(source, number) | Drawing::Restore(source, number) => [source.to_be_bytes(), number.to_be_bytes()].concat(),
        }
    }

    /// The drawop of this drawing that has no name yet: the host gives it one, and says what is wrong with its fields.
    pub(crate) fn draft(&self, page: Page, time: u64) -> Vec<u8> {
        let fields = self.fields();
        let version = match self {
            Drawing::Text(_, _, text) if text.len() > SHORT_TEXT => 2,
            Drawing::Restore(..) => 2,
            _ => 1,
        };
        let mut bytes = vec![b'W', b'B', version, 1];
        bytes.extend(((FIELDS - HEAD + fields.len()) as u32).to_be_bytes());
        for number in [u32::MAX, page.creator, page.number, u32::MAX] {
            bytes.extend(number.to_be_bytes());
        }
        bytes.extend(time.to_be_bytes());
        bytes.push(self.kind());
        bytes.extend(fields);
        bytes
    }

    fn read(kind: u8, fields: &[u8]) -> Option<Drawing> {
        let short = |at: usize| fields.get(2 * at..2 * at + 2).map(|it| u16::from_be_bytes([it[0], it[1]]));
        match (kind, fields.len()) {
            (1 | 2, 9) => {
                let ends = [short(0)?, short(1)?, short(2)?, short(3)?];
                Some(if kind == 1 { Drawing::Line(ends, fields[8]) } else { Drawing::Frame(ends, fields[8]) })
            }
            (3, 5..) if fields.len() == 5 + usize::from(fields[4]) => Some(Drawing::Text(short(0)?, short(1)?, String::from_utf8(fields[5..].to_vec()).ok()?)),
            (4, 8) => Some(Drawing::Delete(long(fields, 0)?, long(fields, 4)?)),
            (5, 8) => Some(Drawing::Restore(long(fields, 0)?, long(fields, 4)?)),
            _ => None,
        }
    }
}

impl fmt::Display for Drawing {
    fn fmt(&self, to: &mut fmt::Formatter<'_>) -> fmt::Result {
        match self {
            Drawing::Line([a, b, c, d], glyph) => write!(to, "line {a} {b} {c} {d} {}", char::from(*glyph)),
            Drawing::Frame([a, b, c, d], glyph) => write!(to, "frame {a} {b} {c} {d} {}", char::from(*glyph)),
            Drawing::Text(x, y, text) => write!(to, "text {x} {y} \"{}\"", text.replace('\\', "\\\\").replace('"', "\\\"")),
            Drawing::Delete(source, number) => write!(to, "delete {source} {number}"),
            Drawing::Restore(source, number) => write!(to, "restore {source} {number}"),
        }
    }
}

/// The words are no drawing.
#[derive(Clone, Copy, Debug, PartialEq, Eq)]
pub struct NoDrawing;

impl fmt::Display for NoDrawing {
    fn fmt(&self, to: &mut fmt::Formatter<'_>) -> fmt::Result {
        write!(to, "no drawing")
    }
}

impl std::error::Error for NoDrawing {}

impl FromStr for Drawing {
    type Err = NoDrawing;

    /// A drawing in words, as `line 0 0 4 0 *`.
    fn from_str(words: &str) -> Result<Drawing, NoDrawing> {
        in_words(words).ok_or(NoDrawing)
    }
}

fn in_words(words: &str) -> Option<Drawing> {
    let (kind, rest) = words.split_once(' ')?;
    if kind == "text" {
        let mut parts = rest.splitn(3, ' ');
        let (x, y) = (parts.next()?.parse().ok()?, parts.next()?.parse().ok()?);
        return Some(Drawing::Text(x, y, unquoted(parts.next()?.strip_prefix('"')?.strip_suffix('"')?)?));
    }
    let parts: Vec<&str> = rest.split(' ').collect();
    match (kind, parts.as_slice()) {
        ("line" | "frame", [a, b, c, d, glyph]) if glyph.len() == 1 => {
            let ends = [a.parse().ok()?, b.parse().ok()?, c.parse().ok()?, d.parse().ok()?];
            Some(if kind == "line" { Drawing::Line(ends, glyph.as_bytes()[0]) } else { Drawing::Frame(ends, glyph.as_bytes()[0]) })
        }
        ("delete", [source, number]) => Some(Drawing::Delete(source.parse().ok()?, number.parse().ok()?)),
        ("restore", [source, number]) => Some(Drawing::Restore(source.parse().ok()?, number.parse().ok()?)),
        _ => None,
    }
}

/// A text without the backslashes before its quotes and backslashes.
fn unquoted(text: &str) -> Option<String> {
    let mut letters = text.chars();
    let mut found = String::new();
    while let Some(letter) = letters.next() {
        match letter {
            '\\' => found.push(letters.next().filter(|it| matches!(it, '"' | '\\'))?),
            '"' => return None,
            other => found.push(other),
        }
    }
    Some(found)
}

fn long(bytes: &[u8], at: usize) -> Option<u32> {
    Some(u32::from_be_bytes(bytes.get(at..at + 4)?.try_into().ok()?))
}

impl Drawop {
    /// The drawop of a datagram, if it has one. A host says whether its numbers are in their ranges.
    pub fn read(datagram: &[u8]) -> Option<Drawop> {
        if datagram.get(..2)? != b"WB" || *datagram.get(3)? != 1 {
            return None;
        }
        let page = Page { creator: long(datagram, 12)?, number: long(datagram, 16)? };
        let time = u64::from_be_bytes(datagram.get(24..32)?.try_into().ok()?);
        let drawing = Drawing::read(*datagram.get(32)?, &datagram[FIELDS..])?;
        Some(Drawop { source: long(datagram, 8)?, page, number: long(datagram, 20)?, time, drawing })
    }
}

impl fmt::Display for Drawop {
    /// As a host writes it: `draw 7 7/1 1 10 line 0 0 4 0 *`.
    fn fmt(&self, to: &mut fmt::Formatter<'_>) -> fmt::Result {
        write!(to, "draw {} {} {} {} {}", self.source, self.page, self.number, self.time, self.drawing)
    }
}
