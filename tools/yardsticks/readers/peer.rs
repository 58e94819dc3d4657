//! Readers beside one writer in plain Rust: pages of an ordered map, copied out.
//!
//!     peer left_right|own busy|idle READERS SECONDS BLOCKS ROWS
//!
//! `left_right` keeps two maps, a word that says which is read, and a word for each reader; the writer puts a block of 256 rows into the
//! map that is not read, turns the readers over to it, waits for those that are still in the other, and puts the block there too. Under
//! `own` each reader has a map of its own, and the writer another: what the machine itself does to readers beside a writer.
use std::cell::UnsafeCell;
use std::collections::BTreeMap;
use std::hint::{black_box, spin_loop};
use std::ops::Bound::{Excluded, Unbounded};
use std::sync::atomic::{AtomicBool, AtomicUsize, Ordering::SeqCst};
use std::time::{Duration, Instant};

const BLOCK: i64 = 256;
type Map = BTreeMap<[i64; 2], i64>;

fn mixed(seed: u64, turn: u64) -> u64 {
    let begin = turn.wrapping_mul(0x9E37_79B9_7F4A_7C15).wrapping_add(seed.wrapping_mul(0xBF58_476D_1CE4_E5B9));
    let once = (begin ^ (begin >> 30)).wrapping_mul(0xBF58_476D_1CE4_E5B9);
    let twice = (once ^ (once >> 27)).wrapping_mul(0x94D0_49BB_1331_11EB);
    twice ^ (twice >> 31)
}

fn put(map: &mut Map, block: i64, count: i64) {
    for row in 0..BLOCK {
        map.insert([block, row], count);
    }
}

fn page(map: &Map, after: [i64; 2], rows: usize, page: &mut Vec<([i64; 2], i64)>) {
    page.clear();
    page.extend(map.range((Excluded(after), Unbounded)).take(rows).map(|(row, count)| (*row, *count)));
}

/// Alone in its cache lines.
#[repr(align(128))]
struct Word(AtomicUsize);

/// The maps, and in the way of `left_right` which is read and where each reader is: a word that is odd is inside.
struct Shared {
    maps: Vec<UnsafeCell<Map>>,
    read: Word,
    places: Vec<Word>,
    left_right: bool,
}

// A map is written by the writer alone, and not while a reader is inside of it.
unsafe impl Sync for Shared {}

impl Shared {
    fn read(&self, reader: usize, after: [i64; 2], rows: usize, out: &mut Vec<([i64; 2], i64)>) {
        if !self.left_right {
            return page(unsafe { &*self.maps[reader].get() }, after, rows, out);
        }
        self.places[reader].0.fetch_add(1, SeqCst);
        page(unsafe { &*self.maps[self.read.0.load(SeqCst)].get() }, after, rows, out);
        self.places[reader].0.fetch_add(1, SeqCst);
    }

    fn publish(&self, block: i64, count: i64) {
        if !self.left_right {
            return put(unsafe { &mut *self.maps[self.maps.len() - 1].get() }, block, count);
        }
        let was = self.read.0.load(SeqCst);
        put(unsafe { &mut *self.maps[1 - was].get() }, block, count);
        self.read.0.store(1 - was, SeqCst);
        for place in &self.places {
            let seen = place.0.load(SeqCst);
            let mut turns = 0u32;
            while seen % 2 == 1 && place.0.load(SeqCst) == seen {
                turns += 1;
                if turns % 1024 == 0 { std::thread::yield_now() } else { spin_loop() }
            }
        }
        put(unsafe { &mut *self.maps[was].get() }, block, count);
    }
}

fn main() {
    let words: Vec<String> = std::env::args().collect();
    let number = |place: usize| words[place].parse::<u64>().unwrap();
    let (left_right, busy) = (words[1] == "left_right", words[2] == "busy");
    let (readers, length) = (number(3) as usize, Duration::from_secs(number(4)));
    let (blocks, rows) = (number(5), number(6) as usize);
    let mut map = Map::new();
    (0..blocks as i64).for_each(|block| put(&mut map, block, 1));
    let shared = Shared {
        maps: (0..if left_right { 2 } else { readers + 1 }).map(|_| UnsafeCell::new(map.clone())).collect(),
        read: Word(AtomicUsize::new(0)),
        places: (0..readers).map(|_| Word(AtomicUsize::new(0))).collect(),
        left_right,
    };
    let (shared, over) = (&shared, &AtomicBool::new(false));
    let read = |reader: usize| {
        let (mut times, mut longest, mut pages, mut out) = ([0u64; 65], 0, 0u64, Vec::with_capacity(256));
        let begin = Instant::now();
        for turn in 0.. {
            let from = Instant::now();
            if from - begin >= length {
                break;
            }
            let drawn = mixed(reader as u64, turn);
            shared.read(reader, [(drawn % blocks) as i64, (drawn >> 32) as i64 % BLOCK], rows, &mut out);
            let took = from.elapsed().as_nanos() as u64;
            black_box(&out);
            times[64 - took.leading_zeros() as usize] += 1;
            longest = longest.max(took);
            pages += 1;
        }
        (times, longest, pages)
    };
    let (found, nights) = std::thread::scope(|scope| {
        let started: Vec<_> = (0..readers).map(|reader| scope.spawn(move || read(reader))).collect();
        let writer = scope.spawn(move || {
            let mut nights = 0u64;
            while busy && !over.load(SeqCst) {
                nights += 1;
                shared.publish((nights % blocks) as i64, 1 + (nights % 7) as i64);
            }
            nights
        });
        let found: Vec<_> = started.into_iter().map(|reader| reader.join().unwrap()).collect();
        over.store(true, SeqCst);
        (found, writer.join().unwrap())
    });
    let pages: u64 = found.iter().map(|one| one.2).sum();
    println!("pages {pages} nights {nights} reopened 0");
    for of_thousand in [500, 999, 1000] {
        let (mut seen, mut place) = (0, 0);
        loop {
            seen += found.iter().map(|one| one.0[place]).sum::<u64>();
            if seen >= pages * of_thousand / 1000 || place == 64 {
                break;
            }
            place += 1;
        }
        println!("below {of_thousand} {}", 1u128 << place);
    }
    println!("longest {}", found.iter().map(|one| one.1).max().unwrap());
}
