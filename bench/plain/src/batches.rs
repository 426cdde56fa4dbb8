//! The heavy keys of a stream by sums that are lowered in batches (Misra and Gries 1982, in batches as Anderson et al. 2017),
//! over pieces of the text: the way of heavy's report, with no proof.

use crate::counting::Map;
use crate::reading;
use crate::report::write_heavy;
use std::hint::black_box;
use std::io::{self, Read};
use std::thread;
use std::time::Instant;

/// The most keys of a worker's sums before they are lowered, or 2 (k + 1) where that is more.
const ROOM: usize = 4096;

/// Sums by key, from each of which at most `lost` was taken.
struct Batches {
    sums: Map<Box<[u8]>, u64>,
    room: usize,
    lost: u64,
    total: u64,
}

impl Batches {
    fn new(k: usize) -> Batches {
        Batches { sums: Map::default(), room: ROOM.max(2 * (k + 1)), lost: 0, total: 0 }
    }

    fn add(&mut self, key: &[u8], weight: u64) {
        self.total += weight;
        if let Some(sum) = self.sums.get_mut(key) {
            *sum += weight;
        } else {
            self.sums.insert(key.into(), weight);
            self.settle();
        }
    }

    /// Takes the middle sum from each where there are more than the room has, and drops those that aren't above it.
    fn settle(&mut self) {
        if self.sums.len() <= self.room {
            return;
        }
        let mut numbers: Vec<u64> = self.sums.values().copied().collect();
        let place = numbers.len() - self.room / 2 - 1;
        let (_, &mut level, _) = numbers.select_nth_unstable(place);
        self.sums.retain(|_, sum| {
            *sum = sum.saturating_sub(level);
            *sum > 0
        });
        self.lost += level;
    }

    fn merge(mut self, other: Batches) -> Batches {
        self.total += other.total;
        self.lost += other.lost;
        for (key, sum) in other.sums {
            *self.sums.entry(key).or_default() += sum;
        }
        self.settle();
        self
    }
}

/// Runs a function over each piece in a thread of its own, and gives what they make.
fn on_each<'t, T: Send>(pieces: &[&'t [u8]], run: impl Fn(&'t [u8]) -> T + Sync) -> Vec<T> {
    thread::scope(|scope| {
        let running: Vec<_> = pieces.iter().map(|&piece| scope.spawn(|| run(piece))).collect();
        running.into_iter().map(|worker| worker.join().unwrap()).collect()
    })
}

/// The weights of some keys in a piece.
fn counted(piece: &[u8], candidates: &Map<&[u8], usize>) -> Vec<u64> {
    let mut weights = vec![0; candidates.len()];
    reading::each_line_of(piece, |key, weight| {
        if let Some(&place) = candidates.get(key) {
            weights[place] += weight;
        }
    });
    weights
}

/// The keys that can be heavy.
fn candidates(all: &Batches, k: usize) -> Vec<&[u8]> {
    let reaches = |sum: &u64| u128::from(sum + all.lost) * (k as u128 + 1) > u128::from(all.total);
    all.sums.iter().filter(|(_, sum)| reaches(sum)).map(|(key, _)| &**key).collect()
}

/// Keys with their places.
fn places<'k>(keys: &[&'k [u8]]) -> Map<&'k [u8], usize> {
    keys.iter().enumerate().map(|(place, &key)| (key, place)).collect()
}

/// The sums of a text.
fn batches_of(text: &[u8], k: usize) -> Batches {
    let mut batches = Batches::new(k);
    reading::each_line_of(text, |key, weight| batches.add(key, weight));
    batches
}

/// Writes the heavy keys: by one pass where nothing was lost, and else by two.
pub fn report(k: usize, workers: usize) {
    let mut text = Vec::new();
    io::stdin().lock().read_to_end(&mut text).expect("input");
    let pieces = reading::pieces(&text, workers);
    let all = on_each(&pieces, |piece| batches_of(piece, k));
    let all = all.into_iter().reduce(Batches::merge).expect("a piece");
    let keys = candidates(&all, k);
    if all.lost == 0 {
        return write_heavy(k, all.total, keys.iter().map(|&key| (key, all.sums[key])));
    }
    let places = places(&keys);
    let weights = on_each(&pieces, |piece| counted(piece, &places));
    let sum_of = |place: usize| weights.iter().map(|of_piece| of_piece[place]).sum::<u64>();
    write_heavy(k, all.total, keys.iter().enumerate().map(|(place, &key)| (key, sum_of(place))));
}

/// Reads the text, splits it and reads the numbers, and writes the total: what any report does at the least.
pub fn total(workers: usize) {
    let mut text = Vec::new();
    io::stdin().lock().read_to_end(&mut text).expect("input");
    let totals = on_each(&reading::pieces(&text, workers), |piece| {
        let mut total = 0;
        reading::each_line_of(piece, |key, weight| total += weight + key.len() as u64 / 4097);
        total
    });
    println!("{}", totals.iter().sum::<u64>());
}

/// Times a stage of a report by one thread over the text of standard input, which is read before, but for `bytes`: the
/// nanoseconds of all records.
pub fn stage(name: &str, k: usize) -> u128 {
    if name == "bytes" {
        let (start, mut buffer) = (Instant::now(), vec![0; 65_536]);
        while io::stdin().lock().read(&mut buffer).expect("input") > 0 {}
        return start.elapsed().as_nanos();
    }
    let mut text = Vec::new();
    io::stdin().lock().read_to_end(&mut text).expect("input");
    let all = batches_of(&text, k);
    let places = places(&candidates(&all, k));
    let (start, mut sum) = (Instant::now(), 0);
    match name {
        "scan" => reading::each_line_of(&text, |key, _| sum += key.len() as u64),
        "number" => reading::each_line_of(&text, |key, weight| sum += key.len() as u64 + weight),
        "tally" => sum = batches_of(&text, k).total,
        _ => sum = counted(&text, &places).len() as u64,
    }
    black_box(sum);
    start.elapsed().as_nanos()
}
