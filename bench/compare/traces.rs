//! Traces put together of their spans in plain Rust, for `scan.rs` and `bench/plain_server.rs`.

use std::cmp::Reverse;
use std::collections::HashMap;
use std::hash::Hash;

/// The spans of each trace in their order, the traces by their first spans.
pub fn gathered<T, K: Eq + Hash>(spans: impl Iterator<Item = T>, trace: impl Fn(&T) -> K) -> Vec<Vec<T>> {
    let mut places: HashMap<K, usize> = HashMap::new();
    let mut traces: Vec<Vec<T>> = Vec::new();
    spans.for_each(|span| {
        let place = *places.entry(trace(&span)).or_insert(traces.len());
        if place == traces.len() {
            traces.push(Vec::new());
        }
        traces[place].push(span);
    });
    traces
}

/// The trace with the latest first start in front, the later one of two alike; so many at most where that isn't 0.
pub fn latest<T>(mut traces: Vec<Vec<T>>, start: impl Fn(&T) -> i64, limit: usize) -> Vec<Vec<T>> {
    traces.reverse();
    traces.sort_by_key(|spans| Reverse(start(&spans[0])));
    if limit > 0 {
        traces.truncate(limit);
    }
    traces
}
