//! The unproved programs that the measurements set beside `heavy` and `heavy_bench`.
//!
//! plain report K WORKERS < FILE          the heavy keys, in the shape of heavy's report
//! plain group K < FILE                   the heavy keys, by a map that holds the sum of every key
//! plain groups K WORKERS < FILE          the same over pieces of the text, a map for each worker, merged at the end
//! plain batches K WORKERS < FILE         the heavy keys, by sums over pieces of the text that are lowered in batches
//! plain total WORKERS < FILE             the total weight over pieces of the text: reading, splitting and numbers alone
//! plain stage STAGE K < FILE             prints the nanoseconds that a stage of a report takes for all records, as heavy_bench
//!                                        does; STAGE is bytes, scan, number, tally or count
//! plain mg|ss K < FILE                   counts by Misra and Gries or by Space-Saving, no record kept
//! plain columns K KEY WEIGHT < FILE      as mg, by the columns with these numbers, over the crate csv alone
//! plain table < FILE                     a Count-Min table, no record kept
//! plain confirm KEYS < FILE              the weight of each key that the file KEYS lists, one a line; no record kept
//! plain time WHAT K < FILE               prints nanoseconds for each item of a stream that is kept; WHAT is read, ss
//!                                        or table

mod batches;
mod counting;
mod reading;
mod report;
mod table;

use counting::{Map, Saving};
use std::time::Instant;

fn confirm(keys: &str) {
    let keys = std::fs::read(keys).expect("keys");
    let keys = keys.split(|&byte| byte == b'\n').filter(|key| !key.is_empty());
    let mut weights: Map<Box<[u8]>, u64> = keys.map(|key| (key.into(), 0)).collect();
    reading::each_record(|key, weight| {
        if let Some(sum) = weights.get_mut(key) {
            *sum += weight;
        }
    });
    println!("{}", weights.values().sum::<u64>());
}

/// Times what is done of each item of a stream, or reading it.
fn time(what: &str, k: usize) {
    let mut start = Instant::now();
    let items = reading::items();
    if what != "read" {
        start = Instant::now();
    }
    let (mut saving, mut cells) = (Saving::<&[u8]>::new(k), table::cells());
    for (key, weight) in &items {
        match what {
            "ss" => saving.add(key, *weight, || &**key),
            "table" => table::add(&mut cells, key, *weight),
            _ => {}
        }
    }
    let nanoseconds = start.elapsed().as_nanos() as usize / items.len().max(1);
    assert!(saving.into_keys().count() <= k + 1 && cells.iter().sum::<u64>() < u64::MAX);
    println!("{nanoseconds}");
}

fn main() {
    let words: Vec<String> = std::env::args().collect();
    let number = |i: usize| words[i].parse::<usize>().expect("number");
    match words[1].as_str() {
        "report" => report::by_two_passes(number(2), number(3)),
        "group" => report::by_group(number(2)),
        "groups" => report::by_groups(number(2), number(3)),
        "batches" => batches::report(number(2), number(3)),
        "total" => batches::total(number(2)),
        "stage" => println!("{}", batches::stage(&words[2], number(3))),
        "mg" => {
            let (k, mut counters) = (number(2), Map::default());
            reading::each_record(|key, weight| counting::misra_gries(&mut counters, k, key, weight));
            println!("{}", counters.len());
        }
        "columns" => {
            let (k, mut counters) = (number(2), Map::default());
            let add = |key: &[u8], weight| counting::misra_gries(&mut counters, k, key, weight);
            reading::each_in_columns(number(3), number(4), add);
            println!("{}", counters.len());
        }
        "ss" => {
            let mut saving = Saving::<Box<[u8]>>::new(number(2));
            reading::each_record(|key, weight| saving.add(key, weight, || key.into()));
            for key in saving.into_keys() {
                println!("{}", String::from_utf8_lossy(&key));
            }
        }
        "table" => {
            let mut cells = table::cells();
            reading::each_record(|key, weight| table::add(&mut cells, key, weight));
            println!("{}", cells[0]);
        }
        "confirm" => confirm(&words[2]),
        _ => time(&words[2], number(3)),
    }
}
