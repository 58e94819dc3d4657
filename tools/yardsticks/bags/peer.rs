//! The same steps in plain Rust: an ordered map of heap rows, and rows side by side in one sorted array.
use std::collections::BTreeMap;
use std::time::Instant;

const ROWS: usize = 1_000_000;
const CHANGES: usize = 10_000;
const MANY: usize = 300_000;

fn next(state: u64) -> u64 {
    let a = state ^ (state << 13);
    let b = a ^ (a >> 7);
    b ^ (b << 17)
}

fn random_rows(seed: u64, rows: usize) -> Vec<[i64; 2]> {
    let mut state = seed;
    (0..rows)
        .map(|_| {
            state = next(state);
            [(state % 1_000_000) as i64, (state >> 32) as i64]
        })
        .collect()
}

fn map_of(rows: &[[i64; 2]]) -> BTreeMap<Vec<i64>, i64> {
    let mut bag = BTreeMap::new();
    for row in rows {
        *bag.entry(row.to_vec()).or_insert(0) += 1;
    }
    bag
}

fn merge_into(map: &mut BTreeMap<Vec<i64>, i64>, changed: &BTreeMap<Vec<i64>, i64>) {
    for (row, count) in changed {
        let stored = map.entry(row.clone()).or_insert(0);
        *stored += count;
        if *stored == 0 {
            map.remove(row);
        }
    }
}

/// Rows rise, each once, with its count.
fn array_of(rows: &[[i64; 2]]) -> Vec<([i64; 2], i64)> {
    let mut sorted = rows.to_vec();
    sorted.sort();
    let mut bag: Vec<([i64; 2], i64)> = Vec::new();
    for row in sorted {
        match bag.last_mut() {
            Some(last) if last.0 == row => last.1 += 1,
            _ => bag.push((row, 1)),
        }
    }
    bag
}

/// One pass over both.
fn merged(bag: &[([i64; 2], i64)], changes: &[([i64; 2], i64)]) -> Vec<([i64; 2], i64)> {
    let mut sum = Vec::with_capacity(bag.len() + changes.len());
    let (mut i, mut j) = (0, 0);
    while i < bag.len() || j < changes.len() {
        if j == changes.len() || (i < bag.len() && bag[i].0 < changes[j].0) {
            sum.push(bag[i]);
            i += 1;
        } else if i == bag.len() || changes[j].0 < bag[i].0 {
            sum.push(changes[j]);
            j += 1;
        } else {
            let count = bag[i].1 + changes[j].1;
            if count != 0 {
                sum.push((bag[i].0, count));
            }
            i += 1;
            j += 1;
        }
    }
    sum
}

/// Runs a step and prints its microseconds.
fn timed<T>(name: &str, step: impl FnOnce() -> T) -> T {
    let start = Instant::now();
    let made = step();
    println!("{name} {} us", start.elapsed().as_micros());
    made
}

fn main() {
    let rows = random_rows(88172645463325252, ROWS);
    let changes = random_rows(1234567, CHANGES);
    let many = random_rows(7654321, MANY);
    let mut rising = rows.clone();
    rising.sort();

    let mut map = timed("map", || map_of(&rows));
    let in_order = timed("map_rising", || map_of(&rising));
    let (few, more) = (map_of(&changes), map_of(&many));
    timed("map_merge", || merge_into(&mut map, &few));
    timed("map_merge_many", || merge_into(&mut map, &more));

    let array = timed("array", || array_of(&rows));
    timed("array_rising", || array_of(&rising));
    let (few, more) = (array_of(&changes), array_of(&many));
    let array = timed("array_merge", || merged(&array, &few));
    let array = timed("array_merge_many", || merged(&array, &more));
    assert_eq!((map.len(), in_order.len()), (array.len(), rows.len()));
}
