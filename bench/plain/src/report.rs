//! The heavy keys of a stream: in the shape of heavy's report, and by a map that holds every key.

use crate::counting::{Map, Saving};
use crate::reading::{self, Item};
use crate::table;
use std::io::{self, Read, Write};
use std::sync::atomic::{AtomicU64, Ordering};
use std::thread;

/// What a worker does of the first pass.
fn first_pass<'a>(items: &'a [Item], k: usize, cells: &[AtomicU64]) -> Saving<&'a [u8]> {
    let mut saving = Saving::<&'a [u8]>::new(k);
    let mut own = table::cells();
    for (key, weight) in items {
        saving.add(key, *weight, || key);
        table::add(&mut own, key, *weight);
    }
    for (cell, sum) in cells.iter().zip(own) {
        cell.fetch_add(sum, Ordering::SeqCst);
    }
    saving
}

/// What a worker does of the second pass.
fn second_pass(items: &[Item], candidates: &Map<&[u8], usize>, sums: &[AtomicU64]) {
    let mut own = vec![0; sums.len()];
    for (key, weight) in items {
        if let Some(&place) = candidates.get(&**key) {
            own[place] += weight;
        }
    }
    for (cell, sum) in sums.iter().zip(own) {
        cell.fetch_add(sum, Ordering::SeqCst);
    }
}

/// Keeps the stream, goes over it twice with so many threads, and writes the heavy keys.
pub fn by_two_passes(k: usize, workers: usize) {
    let items = reading::items();
    let total: u64 = items.iter().map(|item| item.1).sum();
    let pieces: Vec<&[Item]> = items.chunks(items.len().div_ceil(workers).max(1)).collect();
    let cells: Vec<AtomicU64> = table::cells().into_iter().map(AtomicU64::new).collect();
    let mut keys: Vec<&[u8]> = thread::scope(|scope| {
        let running: Vec<_> =
            pieces.iter().map(|piece| scope.spawn(|| first_pass(piece, k, &cells))).collect();
        running.into_iter().flat_map(|worker| worker.join().unwrap().into_keys()).collect()
    });
    keys.sort_unstable();
    keys.dedup();
    let candidates: Map<&[u8], usize> = keys.iter().enumerate().map(|(place, &key)| (key, place)).collect();
    let sums: Vec<AtomicU64> = keys.iter().map(|_| AtomicU64::new(0)).collect();
    thread::scope(|scope| {
        for piece in &pieces {
            scope.spawn(|| second_pass(piece, &candidates, &sums));
        }
    });
    write_heavy(k, total, keys.iter().zip(&sums).map(|(&key, sum)| (key, sum.load(Ordering::SeqCst))));
}

/// The sum of each key, and the total.
#[derive(Default)]
struct Group {
    sums: Map<Box<[u8]>, u64>,
    total: u64,
}

impl Group {
    fn add(&mut self, key: &[u8], weight: u64) {
        self.total += weight;
        match self.sums.get_mut(key) {
            Some(sum) => *sum += weight,
            None => {
                self.sums.insert(key.into(), weight);
            }
        }
    }

    fn merge(mut self, other: Group) -> Group {
        self.total += other.total;
        for (key, weight) in other.sums {
            *self.sums.entry(key).or_default() += weight;
        }
        self
    }

    fn write_heavy(&self, k: usize) {
        write_heavy(k, self.total, self.sums.iter().map(|(key, &sum)| (&**key, sum)));
    }
}

/// A hash group-by, as a user would write it: the sum of each key, and then those that are heavy.
pub fn by_group(k: usize) {
    let mut group = Group::default();
    reading::each_record(|key, weight| group.add(key, weight));
    group.write_heavy(k);
}

/// The same over pieces of the text, in as many threads, each of which has a map of its own.
pub fn by_groups(k: usize, workers: usize) {
    let mut text = Vec::new();
    io::stdin().lock().read_to_end(&mut text).expect("input");
    let groups: Vec<Group> = thread::scope(|scope| {
        let running: Vec<_> = reading::pieces(&text, workers)
            .into_iter()
            .map(|piece| {
                scope.spawn(move || {
                    let mut group = Group::default();
                    reading::each_record_of(piece, |key, weight| group.add(key, weight));
                    group
                })
            })
            .collect();
        running.into_iter().map(|worker| worker.join().unwrap()).collect()
    });
    groups.into_iter().reduce(Group::merge).unwrap_or_default().write_heavy(k);
}

/// Writes the keys above the share 1/(k+1), by falling weight and then key.
pub fn write_heavy<'a>(k: usize, total: u64, sums: impl Iterator<Item = (&'a [u8], u64)>) {
    let mut rows: Vec<_> = sums.filter(|row| u128::from(row.1) * (k as u128 + 1) > u128::from(total)).collect();
    rows.sort_unstable_by(|a, b| b.1.cmp(&a.1).then(a.0.cmp(b.0)));
    let mut out = io::stdout().lock();
    for (key, weight) in rows {
        out.write_all(key).and_then(|()| writeln!(out, ",{weight}")).expect("output");
    }
}
