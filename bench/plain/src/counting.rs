//! Maps from keys, Misra-Gries, and Space-Saving over a map and a heap.

use std::borrow::Borrow;
use std::collections::HashMap;
use std::hash::{BuildHasherDefault, Hash, Hasher};

/// A map with a fast hash of bytes.
pub type Map<K, V> = HashMap<K, V, BuildHasherDefault<Fast>>;

/// A hash that takes eight bytes at a time.
#[derive(Default)]
pub struct Fast(u64);

impl Hasher for Fast {
    fn write(&mut self, bytes: &[u8]) {
        for chunk in bytes.chunks(8) {
            let mut word = [0; 8];
            word[..chunk.len()].copy_from_slice(chunk);
            self.0 = (self.0.rotate_left(5) ^ u64::from_le_bytes(word)).wrapping_mul(0x517c_c1b7_2722_0a95);
        }
    }

    fn write_usize(&mut self, _length: usize) {}

    fn finish(&self) -> u64 {
        self.0.rotate_left(26)
    }
}

/// Misra-Gries: where no counter is free, all are lowered by what the least of them and the item have.
pub fn misra_gries(counters: &mut Map<Box<[u8]>, u64>, k: usize, key: &[u8], weight: u64) {
    if let Some(counter) = counters.get_mut(key) {
        *counter += weight;
    } else if counters.len() < k {
        counters.insert(key.into(), weight);
    } else {
        let by = counters.values().copied().min().unwrap_or(0).min(weight);
        counters.retain(|_, counter| {
            *counter -= by;
            *counter > 0
        });
        if weight > by {
            counters.insert(key.into(), weight - by);
        }
    }
}

/// Space-Saving with a hash map from keys to places in a heap of counters.
pub struct Saving<K> {
    room: usize,
    places: Map<K, usize>,
    heap: Vec<(u64, K)>,
}

impl<K: Borrow<[u8]> + Clone + Eq + Hash + Ord> Saving<K> {
    pub fn new(k: usize) -> Saving<K> {
        Saving { room: k + 1, places: Map::default(), heap: Vec::new() }
    }

    /// Adds an item, whose key is made only where it comes to be monitored.
    pub fn add(&mut self, key: &[u8], weight: u64, make: impl Fn() -> K) {
        if let Some(&place) = self.places.get(key) {
            self.heap[place].0 += weight;
            self.sink(place);
        } else if self.heap.len() < self.room {
            let place = self.heap.len();
            self.heap.push((weight, make()));
            self.places.insert(make(), place);
            self.rise(place);
        } else {
            self.places.remove(self.heap[0].1.borrow());
            self.heap[0] = (self.heap[0].0 + weight, make());
            self.places.insert(make(), 0);
            self.sink(0);
        }
    }

    pub fn into_keys(self) -> impl Iterator<Item = K> {
        self.heap.into_iter().map(|(_, key)| key)
    }

    fn swap(&mut self, a: usize, b: usize) {
        self.heap.swap(a, b);
        *self.places.get_mut(self.heap[a].1.borrow()).unwrap() = a;
        *self.places.get_mut(self.heap[b].1.borrow()).unwrap() = b;
    }

    fn sink(&mut self, mut at: usize) {
        loop {
            let mut least = at;
            for child in [2 * at + 1, 2 * at + 2] {
                if child < self.heap.len() && self.heap[child] < self.heap[least] {
                    least = child;
                }
            }
            if least == at {
                return;
            }
            self.swap(at, least);
            at = least;
        }
    }

    fn rise(&mut self, mut at: usize) {
        while at > 0 && self.heap[at] < self.heap[(at - 1) / 2] {
            self.swap(at, (at - 1) / 2);
            at = (at - 1) / 2;
        }
    }
}
