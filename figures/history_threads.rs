//! Times of claims by several threads at one list behind a lock, in plain Rust: what `wb_history` is compared with.
//! `figures/history_threads.py` runs it:
//!
//!     PROGRAM CASE THREADS ROUNDS LOCK
//!
//! The cases and what is printed are those of `history_threads.rt.in`, and LOCK is `mutex` or `rwlock`. Each thread gets what a
//! pass gives: a list of its own of all that it has seen, an index of the names, and of each claim the place and which
//! drawops it had not seen. The lock holds a list alone. A thread holds it while it copies what came since, and adds;
//! it puts names into its index after.
//!
//! Not given is what a pass promises beside: a thread that is stopped inside the lock stops all others, a viewer waits
//! for a writer, and how many steps a call takes has no bound, so none are counted.

use std::collections::HashMap;
use std::hash::{BuildHasherDefault, Hasher};
use std::hint::black_box;
use std::sync::atomic::{AtomicUsize, Ordering};
use std::sync::{Mutex, RwLock};
use std::time::Instant;

const COUNT: u32 = 60_000;

/// How many drawops a viewer reads in each turn, the last that it has seen.
const LAST: usize = 64;

#[derive(Clone, Copy, PartialEq, Eq, Hash)]
struct Name {
    source: u32,
    creator: u32,
    number: u32,
    seq: u32,
}

/// As large as a drawop of the whiteboard: 96 bytes.
#[derive(Clone, Copy, PartialEq, Eq)]
struct Drawop {
    name: Name,
    time: u64,
    operation: [u64; 9],
}

enum Claim {
    Added(u32),
    Present(u32),
    Clash(u32),
}

/// Folds each word by one multiplication, as the hasher of the whiteboard's index does.
#[derive(Default)]
struct Fold(u64);

impl Hasher for Fold {
    fn write(&mut self, bytes: &[u8]) {
        for byte in bytes {
            self.write_u64(u64::from(*byte));
        }
    }

    fn write_u32(&mut self, word: u32) {
        self.write_u64(u64::from(word));
    }

    fn write_u64(&mut self, word: u64) {
        let product = u128::from(self.0 ^ word ^ 0x9e37_79b9_7f4a_7c15) * 0xa076_1d64_78bd_642f;
        self.0 = (product as u64) ^ ((product >> 64) as u64);
    }

    fn finish(&self) -> u64 {
        self.0
    }
}

/// What one thread has seen, in order of place, with the places of the names, and the places that it added.
#[derive(Clone, Default)]
struct Seen {
    drawops: Vec<Drawop>,
    places: HashMap<Name, u32, BuildHasherDefault<Fold>>,
    mine: Vec<u32>,
}

impl Seen {
    fn answer(&self, drawop: &Drawop, place: u32) -> Claim {
        if self.drawops[place as usize] == *drawop {
            Claim::Present(place)
        } else {
            Claim::Clash(place)
        }
    }

    /// Copies what the list has more. It answers the place of the name, where it is among that.
    fn copy(&mut self, list: &[Drawop], name: Option<Name>) -> Option<u32> {
        let mut found = None;
        for drawop in &list[self.drawops.len()..] {
            if Some(drawop.name) == name {
                found = Some(self.drawops.len() as u32);
            }
            self.drawops.push(*drawop);
        }
        found
    }

    /// Puts names into the index that are not there.
    fn index(&mut self) {
        for place in self.places.len()..self.drawops.len() {
            self.places.insert(self.drawops[place].name, place as u32);
        }
    }

    /// Copies what the list has more, and adds the drawop where its name is not among that.
    fn add(&mut self, list: &mut Vec<Drawop>, drawop: &Drawop) -> Option<u32> {
        let found = self.copy(list, Some(drawop.name));
        if found.is_none() {
            self.mine.push(list.len() as u32);
            self.drawops.push(*drawop);
            list.push(*drawop);
        }
        found
    }
}

/// A list that threads share.
trait Shared: Sync {
    fn new() -> Self;

    /// Reads on, and adds the drawop unless one of the list has its name: then it answers the place.
    fn add(&self, seen: &mut Seen, drawop: &Drawop) -> Option<u32>;

    fn refresh(&self, seen: &mut Seen);
}

impl Shared for Mutex<Vec<Drawop>> {
    fn new() -> Self {
        Mutex::new(Vec::with_capacity(COUNT as usize))
    }

    fn add(&self, seen: &mut Seen, drawop: &Drawop) -> Option<u32> {
        seen.add(&mut self.lock().unwrap(), drawop)
    }

    fn refresh(&self, seen: &mut Seen) {
        seen.copy(&self.lock().unwrap(), None);
        seen.index();
    }
}

impl Shared for RwLock<Vec<Drawop>> {
    fn new() -> Self {
        RwLock::new(Vec::with_capacity(COUNT as usize))
    }

    fn add(&self, seen: &mut Seen, drawop: &Drawop) -> Option<u32> {
        let found = seen.copy(&self.read().unwrap(), Some(drawop.name));
        if found.is_some() {
            return found;
        }
        seen.add(&mut self.write().unwrap(), drawop)
    }

    fn refresh(&self, seen: &mut Seen) {
        seen.copy(&self.read().unwrap(), None);
        seen.index();
    }
}

fn claim<S: Shared>(shared: &S, seen: &mut Seen, drawop: &Drawop) -> Claim {
    if let Some(place) = seen.places.get(&drawop.name) {
        return seen.answer(drawop, *place);
    }
    let found = shared.add(seen, drawop);
    seen.index();
    match found {
        Some(place) => seen.answer(drawop, place),
        None => Claim::Added(seen.drawops.len() as u32 - 1),
    }
}

/// Drawops of forty sources in turn.
fn drawops() -> Vec<Drawop> {
    let name = |place| Name {
        source: place % 40,
        creator: 7,
        number: 1,
        seq: place / 40 + 1,
    };
    (0..COUNT)
        .map(|place| Drawop {
            name: name(place),
            time: 1_000,
            operation: [3; 9],
        })
        .collect()
}

/// Threads that wait for one another: none goes on before all have come.
struct Start {
    wanted: usize,
    here: AtomicUsize,
}

impl Start {
    fn wait(&self) {
        self.here.fetch_add(1, Ordering::SeqCst);
        while self.here.load(Ordering::SeqCst) < self.wanted {
            std::thread::yield_now();
        }
    }
}

/// What threads did.
#[derive(Clone, Copy, Default)]
struct Done {
    claiming: u64,
    viewing: u64,
    turns: u64,
    longest: u64,
    read: u64,
}

impl Done {
    fn and(self, other: Done) -> Done {
        Done {
            claiming: self.claiming.max(other.claiming),
            viewing: self.viewing + other.viewing,
            turns: self.turns + other.turns,
            longest: self.longest.max(other.longest),
            read: self.read + other.read,
        }
    }
}

fn claims<S: Shared>(shared: &S, seen: &mut Seen, part: &[Drawop], start: &Start) -> Done {
    start.wait();
    let begun = Instant::now();
    let mut places = 0u64;
    for drawop in part {
        let (Claim::Added(place) | Claim::Present(place) | Claim::Clash(place)) =
            claim(shared, seen, drawop);
        places += u64::from(place);
    }
    black_box(places);
    Done {
        claiming: begun.elapsed().as_nanos() as u64,
        ..Done::default()
    }
}

fn turn<S: Shared>(shared: &S, seen: &mut Seen) -> Done {
    let begun = Instant::now();
    shared.refresh(seen);
    let read = seen.drawops.iter().rev().take(LAST).map(|drawop| drawop.time).sum();
    let nanoseconds = begun.elapsed().as_nanos() as u64;
    Done {
        claiming: 0,
        viewing: nanoseconds,
        turns: 1,
        longest: nanoseconds,
        read,
    }
}

fn views<S: Shared>(shared: &S, seen: &mut Seen, start: &Start) -> Done {
    start.wait();
    let mut done = Done::default();
    while seen.drawops.len() < COUNT as usize {
        done = done.and(turn(shared, seen));
    }
    done
}

fn round<S: Shared>(case: &str, all: &[Drawop], threads: usize) -> Done {
    let shared = S::new();
    let mut seen = Seen::default();
    if case == "known" {
        for drawop in all {
            claim(&shared, &mut seen, drawop);
        }
    }
    let mut passes: Vec<Seen> = (0..threads).map(|_| seen.clone()).collect();
    let start = Start {
        wanted: threads,
        here: AtomicUsize::new(0),
    };
    let each = all.len() / threads;
    let (shared, start) = (&shared, &start);
    std::thread::scope(|scope| {
        let work = |(thread, seen)| {
            scope.spawn(move || match case {
                "new" => claims(shared, seen, &all[each * thread..each * (thread + 1)], start),
                "viewers" if thread > 0 => views(shared, seen, start),
                _ => claims(shared, seen, all, start),
            })
        };
        let handles: Vec<_> = passes.iter_mut().enumerate().map(work).collect();
        let done = handles.into_iter().map(|handle| handle.join().unwrap());
        done.fold(Done::default(), Done::and)
    })
}

fn main() {
    let words: Vec<String> = std::env::args().collect();
    let [_, case, threads, rounds, lock] = words.as_slice() else {
        panic!("CASE THREADS ROUNDS LOCK");
    };
    let (threads, rounds): (usize, u32) = (threads.parse().unwrap(), rounds.parse().unwrap());
    let all = drawops();
    for _ in 0..rounds {
        let done = match lock.as_str() {
            "mutex" => round::<Mutex<Vec<Drawop>>>(case, &all, threads),
            _ => round::<RwLock<Vec<Drawop>>>(case, &all, threads),
        };
        let Done { claiming, viewing, turns, longest, read } = done;
        println!("{claiming} 0 {viewing} {turns} {longest} {read}");
    }
}
