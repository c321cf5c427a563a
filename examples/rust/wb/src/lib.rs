//! One member of a shared whiteboard, in this process: a host of the library libwb. It has no socket, no clock and no thread; hand it what comes and
//! what time it is, and send what it answers.
//!
//! A host goes from thread to thread, and is used by one at a time. It is closed when it is dropped.

mod drawing;

pub use drawing::{Drawing, Drawop, NoDrawing, Page};

use std::ffi::CStr;
use std::fmt;
use std::ptr::null_mut;

/// What the library says of itself, in lines: its version, the digest of its sources, and whether they are proved.
pub fn version() -> &'static str {
    // SAFETY: it is a text that ends and that nobody frees.
    unsafe { CStr::from_ptr(wb_sys::wb_version()) }.to_str().unwrap_or_default()
}

/// A call that the program made was refused, and changed nothing: why, in the words of `wb host`. Or the host has ended.
#[derive(Clone, Debug, PartialEq, Eq)]
pub enum Fault {
    Refused(String),
    Ended,
}

impl fmt::Display for Fault {
    fn fmt(&self, to: &mut fmt::Formatter<'_>) -> fmt::Result {
        match self {
            Fault::Refused(why) => write!(to, "{why}"),
            Fault::Ended => write!(to, "the host ended"),
        }
    }
}

impl std::error::Error for Fault {}

/// What became of a drawop that came in or was drawn.
#[derive(Clone, Copy, Debug, PartialEq, Eq)]
pub enum Became {
    New,
    Again,
    Clash,
    Full,
}

/// What a call came to.
#[derive(Clone, Debug, Default, PartialEq, Eq)]
pub struct Answer {
    /// What a judged host has recorded: put it on the disk before anything is sent.
    pub records: Vec<String>,
    /// Datagrams to be sent to all others.
    pub send: Vec<Vec<u8>>,
    pub became: Option<Became>,
    /// The drawop that is held now and was not before.
    pub drawop: Option<Drawop>,
}

/// The kinds of events that are told apart here.
const SENT: u32 = 1;
const NEW: u32 = 2;
const AGAIN: u32 = 3;
const CLASH: u32 = 4;
const LEFT: u32 = 5;
const RECORD: u32 = 13;

/// The question for what a page shows, and for its canvas.
const VIEW: u32 = 2;
const CANVAS: u32 = 7;

pub struct Host {
    held: wb_sys::Host,
    room: Vec<u8>,
    me: u32,
    is_judged: bool,
}

// SAFETY: a host has no global and no thread, and `&mut self` gives its calls an order.
unsafe impl Send for Host {}

impl Host {
    /// A member of this number, which no other member of the session has. It listens for these microseconds before it draws: 0 only for a number that
    /// never drew. Nobody should guess the seed.
    pub fn open(me: u32, seed: u64, listen: u64) -> Result<Host, Fault> {
        let mut host = Host::closed(me)?;
        host.must(&format!("board {me} 65535 1 {seed}"))?;
        host.must(&format!("keep 4000 {listen}"))?;
        Ok(host)
    }

    /// A judged host, which goes on from its record: `head` is the record's line `board`, and `held` are its other lines. Its clock begins at `now`,
    /// above its record, and the time of day is in microseconds since 1970.
    pub fn judged<'a>(me: u32, head: &str, held: impl Iterator<Item = &'a str>, now: u64, listen: u64, time_of_day: u64) -> Result<Host, Fault> {
        let mut host = Host::closed(me)?;
        host.must(head)?;
        host.is_judged = true;
        host.must(&format!("judge {now} 4000 {listen} {time_of_day} - -"))?;
        for line in held {
            host.must(&format!("held {line}"))?;
        }
        Ok(host)
    }

    fn closed(me: u32) -> Result<Host, Fault> {
        let mut host = Host { held: wb_sys::Host { at: null_mut(), is_open: false }, room: vec![0; 1 << 14], me, is_judged: false };
        // SAFETY: the place is closed, and nothing else writes it.
        if unsafe { wb_sys::wb_open(&mut host.held) } == wb_sys::DONE {
            Ok(host)
        } else {
            Err(Fault::Ended)
        }
    }

    // ---- by lines

    /// What a line prints, without the line that closes its block, as of `wb host`.
    pub fn must(&mut self, line: &str) -> Result<String, Fault> {
        let mut size = 0;
        // SAFETY: the line, the room and the size lie apart, and none of their pointers is null.
        let mut status = unsafe { wb_sys::wb_line(&mut self.held, line.as_ptr(), line.len(), self.room.as_mut_ptr(), self.room.len(), &mut size) };
        if status == wb_sys::WAITS {
            self.room.resize(size, 0);
            // SAFETY: as above.
            status = unsafe { wb_sys::wb_block(&mut self.held, self.room.as_mut_ptr(), self.room.len(), &mut size) };
        }
        if status != wb_sys::DONE {
            return Err(Fault::Ended);
        }
        let block = String::from_utf8_lossy(&self.room[..size]).into_owned();
        let close = block.trim_end().rfind('\n').map_or(0, |at| at + 1);
        match block[close..].trim_end().strip_prefix("refused ") {
            Some(why) => Err(Fault::Refused(why.to_string())),
            None => Ok(block[..close].to_string()),
        }
    }

    // ---- by bytes

    /// A datagram came in. Bytes that are none, or that no host takes, are refused; this program is not to blame.
    pub fn came(&mut self, now: u64, datagram: &[u8]) -> Result<Answer, Fault> {
        // SAFETY: the datagram is not the host's, and its pointer is not null.
        let status = unsafe { wb_sys::wb_came(&mut self.held, now, datagram.as_ptr(), datagram.len()) };
        Ok(told(self.answer(status)?, Some(datagram)))
    }

    /// The same at a judged host, from the place that has this number. What it drops it takes for lost.
    pub fn came_from(&mut self, now: u64, place: u64, datagram: &[u8]) -> Result<Answer, Fault> {
        // SAFETY: as above.
        let status = unsafe { wb_sys::wb_came_from(&mut self.held, now, place, 0, false, datagram.as_ptr(), datagram.len()) };
        Ok(told(self.answer(status)?, Some(datagram)))
    }

    /// The time of day, in microseconds since 1970, at a judged host.
    pub fn wall(&mut self, now: u64, time_of_day: u64) -> Result<Answer, Fault> {
        // SAFETY: the place is the host's.
        let status = unsafe { wb_sys::wb_wall(&mut self.held, now, time_of_day) };
        self.answer(status)
    }

    /// Time is `now`: to be called when the clock comes to `due`, and before more is handed in then.
    pub fn tick(&mut self, now: u64) -> Result<Answer, Fault> {
        // SAFETY: the place is the host's.
        let status = unsafe { wb_sys::wb_tick(&mut self.held, now) };
        self.answer(status)
    }

    /// The user draws on a page. If two drawops cover one cell, the one with the greater time is seen: use the microseconds of the time of day.
    pub fn add(&mut self, now: u64, time: u64, page: Page, drawing: &Drawing) -> Result<Answer, Fault> {
        let draft = drawing.draft(page, time);
        // SAFETY: the draft is not the host's, and its pointer is not null.
        let status = unsafe { wb_sys::wb_add(&mut self.held, now, draft.as_ptr(), draft.len()) };
        if status == wb_sys::FULL {
            return Ok(Answer { became: Some(Became::Full), ..Answer::default() });
        }
        if status >= wb_sys::NO_DATAGRAM {
            return Err(self.fault_of(now, time, page, drawing));
        }
        let mut answer = self.answer(status)?;
        if answer.became == Some(Became::New) {
            answer.drawop = answer.send.iter().rev().filter_map(|it| Drawop::read(it)).find(|it| it.source == self.me);
        }
        Ok(answer)
    }

    /// What is wrong with a drawing that is refused, as its line is.
    fn fault_of(&mut self, now: u64, time: u64, page: Page, drawing: &Drawing) -> Fault {
        let words = drawing.to_string();
        if words.contains('\n') {
            return Fault::Refused("a line feed in a drawing".into());
        }
        let line = if self.is_judged { format!("add {now} {page} {words}") } else { format!("add {now} {time} {page} {words}") };
        self.must(&line).err().unwrap_or(Fault::Refused("no drawing".into()))
    }

    /// The moment at which to call `tick` next.
    pub fn due(&mut self) -> Option<u64> {
        // SAFETY: the place is the host's.
        Some(unsafe { wb_sys::wb_due(&mut self.held) }).filter(|it| *it != wb_sys::NEVER)
    }

    /// What a page shows, in the order of painting.
    pub fn view(&mut self, page: Page) -> Result<Vec<Drawop>, Fault> {
        Ok(self.ask(VIEW, page, 0, 0)?.iter().filter_map(|it| Drawop::read(it)).collect())
    }

    /// The rows of a page's canvas, 1 to 200 wide and 1 to 100 high.
    pub fn show(&mut self, page: Page, width: u32, height: u32) -> Result<String, Fault> {
        let rows = self.ask(CANVAS, page, width, height)?;
        Ok(rows.first().map(|it| String::from_utf8_lossy(it).into_owned()).unwrap_or_default())
    }

    fn ask(&mut self, question: u32, page: Page, width: u32, height: u32) -> Result<Vec<Vec<u8>>, Fault> {
        // SAFETY: the place is the host's.
        let status = unsafe { wb_sys::wb_ask(&mut self.held, question, page.creator, page.number, width, height) };
        Ok(self.events(status)?.into_iter().map(|(_, bytes)| bytes).collect())
    }

    fn answer(&mut self, status: u32) -> Result<Answer, Fault> {
        let mut answer = Answer::default();
        for (kind, bytes) in self.events(status)? {
            match kind {
                SENT => answer.send.push(bytes),
                NEW => answer.became = Some(Became::New),
                AGAIN => answer.became = Some(Became::Again),
                CLASH => answer.became = Some(Became::Clash),
                LEFT => answer.became = Some(Became::Full),
                RECORD => answer.records.push(bytes.iter().map(|it| char::from(*it)).collect()),
                _ => {}
            }
        }
        Ok(answer)
    }

    /// The events of a call that has this status.
    fn events(&mut self, status: u32) -> Result<Vec<(u32, Vec<u8>)>, Fault> {
        match status {
            wb_sys::DONE => {}
            wb_sys::CLOSED | wb_sys::MEMORY => return Err(Fault::Ended),
            other => return Err(Fault::Refused(refusal(other))),
        }
        let (mut found, mut kind, mut size) = (Vec::new(), 0, 0);
        loop {
            // SAFETY: the kind, the room and the size lie apart, and none of their pointers is null.
            match unsafe { wb_sys::wb_event(&mut self.held, &mut kind, self.room.as_mut_ptr(), self.room.len(), &mut size) } {
                wb_sys::DONE => found.push((kind, self.room[..size].to_vec())),
                wb_sys::WAITS => self.room.resize(size, 0),
                wb_sys::NOTHING => return Ok(found),
                _ => return Err(Fault::Ended),
            }
        }
    }
}

impl Drop for Host {
    fn drop(&mut self) {
        // SAFETY: the place is one that the library wrote, or a closed one.
        unsafe { wb_sys::wb_close(&mut self.held) }
    }
}

fn told(mut answer: Answer, datagram: Option<&[u8]>) -> Answer {
    if answer.became == Some(Became::New) {
        answer.drawop = datagram.and_then(Drawop::read);
    }
    answer
}

/// Why a call was refused, by its status (wb.h).
fn refusal(status: u32) -> String {
    const WHY: [&str; 13] = [
        "not kept", "number", "back in time", "listening", "ours", "too many", "no drawop", "no question", "judged", "not judged", "twin", "full", "number",
    ];
    match status {
        wb_sys::NO_DATAGRAM.. => format!("datagram {}", status - 100),
        _ => (status as usize).checked_sub(7).and_then(|at| WHY.get(at)).map_or(format!("status {status}"), |it| it.to_string()),
    }
}

#[cfg(test)]
mod tests {
    use super::*;

    const PAGE: Page = Page { creator: 1, number: 1 };

    fn words(host: &mut Host, drawing: Drawing) -> String {
        host.add(1, 2, PAGE, &drawing).expect_err("it is refused").to_string()
    }

    #[test]
    fn what_is_refused_says_why() {
        let mut host = Host::open(1, 42, 0).unwrap();
        assert_eq!(words(&mut host, Drawing::Text(0, 0, "\u{1f600}".into())), "word 7: text byte outside space to ~");
        assert_eq!(words(&mut host, Drawing::Text(0, 0, "x".repeat(300))), "word 7: text of 0 or over 64 bytes");
        assert_eq!(words(&mut host, Drawing::Line([0, 0, 4096, 0], b'*')), "word 7: number");
        assert_eq!(words(&mut host, Drawing::Delete(1, 1)), "word 6: target is the drawop itself");
        assert_eq!(words(&mut host, Drawing::Text(0, 0, "a\nb".into())), "a line feed in a drawing");
        assert_eq!(host.came(1, b"WB"), Err(Fault::Refused("datagram 1".into())));
        assert_eq!(host.tick(1 << 48), Err(Fault::Refused("number".into())));
    }

    #[test]
    fn drawings_are_those_of_their_words() {
        for words in ["line 0 1 4 1 *", "frame 3 2 10 6 !", "text 1 1 \"say \\\"hi\\\" \\\\\"", "delete 7 1", "restore 7 1"] {
            let drawing: Drawing = words.parse().unwrap();
            assert_eq!(drawing.to_string(), words);
            let mut host = Host::open(1, 42, 0).unwrap();
            let drawop = host.add(5, 10, PAGE, &drawing).unwrap().drawop.unwrap();
            assert_eq!(drawop.to_string(), format!("draw 1 1/1 1 10 {words}"));
        }
        for words in ["line 0 1 4 1", "text 1 1 \"say \"hi\"\"", "circle 1 2 3", "delete 1"] {
            assert_eq!(words.parse::<Drawing>(), Err(NoDrawing));
        }
    }

    #[test]
    fn the_library_is_of_the_version_of_this_crate() {
        assert!(version().starts_with(concat!("wb ", env!("CARGO_PKG_VERSION"), "\n")), "{}", version());
    }

    #[test]
    fn a_judged_host_goes_on_from_its_record() {
        let mut host = Host::judged(7, "board 7 100 1 42", std::iter::empty(), 0, 0, 1_764_000_000_000_000).unwrap();
        let answer = host.add(10, 0, PAGE, &Drawing::Line([0, 0, 4, 0], b'*')).unwrap();
        assert_eq!(answer.records[0], "tick 10");
        assert_eq!(answer.send.len(), 1);
        let mut again = Host::judged(7, "board 7 100 1 42", answer.records.iter().map(String::as_str), 11, 0, 1_764_000_000_000_011).unwrap();
        assert_eq!(again.view(PAGE), host.view(PAGE));
        assert_eq!(again.add(12, 0, PAGE, &Drawing::Delete(7, 1)).unwrap().drawop.unwrap().number, 2);
        assert_eq!(again.came_from(13, 5, b"WB").unwrap(), Answer::default());
    }
}
