//! A member over UDP with a record: as examples/member.py, with the same arguments and the same input.
//!
//!     cargo run --example member ME PORT RECORD OTHER ..
use std::fs::{File, OpenOptions};
use std::io::{self, BufRead, Read, Seek, SeekFrom, Write};
use std::net::{SocketAddr, UdpSocket};
use std::sync::mpsc::{channel, Receiver, RecvTimeoutError, Sender};
use std::thread;
use std::time::{Duration, Instant, SystemTime, UNIX_EPOCH};

use wb::{Answer, Drawing, Fault, Host, Page};

const PAGE: Page = Page { creator: 1, number: 1 };

/// Microseconds for which a member that starts anew only listens, and after which a host gets the time of day again.
const LISTENING: u64 = 6_000_000;
const MINUTE: u64 = 60_000_000;

enum Event {
    Came(Vec<u8>, u64),
    Typed(String),
    End,
}

struct Member {
    host: Host,
    record: File,
    network: UdpSocket,
    others: Vec<SocketAddr>,
    clock: Instant,
    begun: u64,
}

fn time_of_day() -> u64 {
    SystemTime::now().duration_since(UNIX_EPOCH).map_or(0, |it| it.as_micros() as u64)
}

/// The record's file, and its lines. A last line that was cut off was not sent.
fn read_record(path: &str) -> io::Result<(File, Vec<String>)> {
    let mut file = OpenOptions::new().read(true).write(true).create(true).truncate(false).open(path)?;
    let mut bytes = Vec::new();
    file.read_to_end(&mut bytes)?;
    let whole = bytes.iter().rposition(|it| *it == b'\n').map_or(0, |at| at + 1);
    file.set_len(whole as u64)?;
    file.seek(SeekFrom::End(0))?;
    Ok((file, String::from_utf8_lossy(&bytes[..whole]).lines().map(String::from).collect()))
}

impl Member {
    fn open(me: u32, path: &str, network: UdpSocket, others: Vec<SocketAddr>) -> Result<Member, Box<dyn std::error::Error>> {
        let (mut record, mut lines) = read_record(path)?;
        if lines.is_empty() {
            let seed = time_of_day().wrapping_mul(u64::from(std::process::id()));
            lines.push(format!("board {me} 65535 1 {seed}"));
            writeln!(record, "{}", lines[0])?;
        }
        let begun = lines.iter().filter_map(|it| it.strip_prefix("tick ")?.parse::<u64>().ok()).max().map_or(0, |it| it + 1);
        let held = lines[1..].iter().map(String::as_str);
        let host = Host::judged(me, &lines[0], held, begun, LISTENING, time_of_day())?;
        Ok(Member { host, record, network, others, clock: Instant::now(), begun })
    }

    fn now(&self) -> u64 {
        self.begun + self.clock.elapsed().as_micros() as u64
    }

    /// What a call came to: recorded, on the disk, sent, and shown.
    fn obey(&mut self, answer: Answer) -> io::Result<()> {
        for line in &answer.records {
            writeln!(self.record, "{line}")?;
        }
        if !answer.send.is_empty() {
            self.record.sync_data()?;
        }
        for datagram in &answer.send {
            for other in &self.others {
                // one that does not arrive is lost, as any may be
                let _ = self.network.send_to(datagram, other);
            }
        }
        if answer.drawop.is_some() {
            print!("{}", self.host.show(PAGE, 40, 12).unwrap_or_default());
            io::stdout().flush()?;
        }
        Ok(())
    }

    fn draw(&mut self, words: &str) -> Result<(), Box<dyn std::error::Error>> {
        let drawing: Drawing = match words.parse() {
            Ok(drawing) => drawing,
            Err(fault) => {
                eprintln!("{fault}");
                return Ok(());
            }
        };
        let (now, told) = (self.now(), self.host.wall(self.now(), time_of_day())?);
        self.obey(told)?;
        match self.host.add(now.max(self.now()), 0, PAGE, &drawing) {
            Ok(answer) => self.obey(answer)?,
            Err(Fault::Refused(why)) => eprintln!("{why}"),
            Err(fault) => return Err(fault.into()),
        }
        Ok(())
    }

    fn run(&mut self, events: &Receiver<Event>) -> Result<(), Box<dyn std::error::Error>> {
        let (ready, mut told, mut typed) = (self.begun + LISTENING, self.begun, Vec::<String>::new());
        loop {
            let now = self.now();
            if self.host.due().is_some_and(|due| due <= now) {
                let answer = self.host.tick(now)?;
                self.obey(answer)?;
            }
            if now >= told + MINUTE {
                told = now;
                let answer = self.host.wall(now, time_of_day())?;
                self.obey(answer)?;
            }
            if now >= ready {
                for words in std::mem::take(&mut typed) {
                    self.draw(&words)?;
                }
            }
            let next = self.host.due().unwrap_or(u64::MAX).min(told + MINUTE).min(if now < ready { ready } else { u64::MAX });
            match events.recv_timeout(Duration::from_micros(next.saturating_sub(self.now()))) {
                Ok(Event::Came(datagram, place)) => {
                    let answer = self.host.came_from(self.now(), place, &datagram)?;
                    self.obey(answer)?;
                }
                Ok(Event::Typed(words)) => typed.push(words),
                Ok(Event::End) | Err(RecvTimeoutError::Disconnected) => return Ok(()),
                Err(RecvTimeoutError::Timeout) => {}
            }
        }
    }
}

/// Hears the network, and reads the input, each by a thread of its own.
fn listen(network: UdpSocket, to: Sender<Event>) {
    let typing = to.clone();
    thread::spawn(move || {
        let mut room = vec![0; 65_536];
        while let Ok((size, from)) = network.recv_from(&mut room) {
            let SocketAddr::V4(from) = from else { continue };
            let place = u64::from(u32::from(*from.ip())) << 16 | u64::from(from.port());
            if to.send(Event::Came(room[..size].to_vec(), place)).is_err() {
                return;
            }
        }
    });
    thread::spawn(move || {
        for words in io::stdin().lock().lines().map_while(Result::ok) {
            let _ = typing.send(Event::Typed(words));
        }
        let _ = typing.send(Event::End);
    });
}

fn main() -> Result<(), Box<dyn std::error::Error>> {
    let words: Vec<String> = std::env::args().skip(1).collect();
    let [me, port, path, others @ ..] = words.as_slice() else { return Err("member ME PORT RECORD OTHER ..".into()) };
    let network = UdpSocket::bind(("127.0.0.1", port.parse()?))?;
    let others = others.iter().map(|it| Ok(SocketAddr::from(([127, 0, 0, 1], it.parse::<u16>()?)))).collect::<Result<Vec<_>, std::num::ParseIntError>>()?;
    let (to, events) = channel();
    listen(network.try_clone()?, to);
    Member::open(me.parse()?, path, network, others)?.run(&events)
}
