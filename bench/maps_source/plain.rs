//! Look-ups in the maps of Rust's library, with nothing around them: see bench/maps.

use std::collections::{BTreeMap, HashMap};
use std::hash::Hash;
use std::time::Instant;

const ROUND: usize = 1024;
const ROUNDS: usize = 64;

/// A key of `N` places, of which the first is used.
#[derive(Clone, Copy, PartialEq, Eq, PartialOrd, Ord, Hash)]
struct Key<const N: usize>([i64; N]);

impl<const N: usize> Key<N> {
    fn new(number: usize) -> Self {
        let mut places = [0; N];
        places[0] = number as i64;
        Key(places)
    }
}

/// A map that counts keys.
trait Counts<K> {
    const NAME: &'static str;
    fn empty() -> Self;
    fn add(&mut self, key: K);
    fn count(&mut self, key: &K) -> Option<&mut u64>;
}

impl<K: Ord> Counts<K> for BTreeMap<K, u64> {
    const NAME: &'static str = "BTreeMap";

    fn empty() -> Self {
        BTreeMap::new()
    }

    fn add(&mut self, key: K) {
        *self.entry(key).or_insert(0) += 1;
    }

    fn count(&mut self, key: &K) -> Option<&mut u64> {
        self.get_mut(key)
    }
}

impl<K: Hash + Eq> Counts<K> for HashMap<K, u64> {
    const NAME: &'static str = "HashMap";

    fn empty() -> Self {
        HashMap::new()
    }

    fn add(&mut self, key: K) {
        *self.entry(key).or_insert(0) += 1;
    }

    fn count(&mut self, key: &K) -> Option<&mut u64> {
        self.get_mut(key)
    }
}

/// A number below `room`, a power of two, for each number below it, in an order that looks like
/// none.
fn mixed(number: usize, room: usize) -> usize {
    (0..3).fold(number, |mixed, _| {
        let mixed = mixed * 603_913 % room;
        mixed ^ mixed >> 5
    })
}

/// The key at a place: each of the keys below `held` stands at one of the places below it.
fn scattered_key(place: usize, held: usize) -> usize {
    let room = held.next_power_of_two();
    let mut key = mixed(place % held, room);
    while key >= held {
        key = mixed(key, room);
    }
    key
}

/// The key at a place of those that are held, or, with `step`, of those that come later.
fn key_at(is_scattered: bool, held: usize, place: usize, step: usize) -> usize {
    if is_scattered { scattered_key(place, held) } else { place * step % held }
}

fn measure<const N: usize, M: Counts<Key<N>>>(is_scattered: bool, held: usize) {
    let mut counts = M::empty();
    for place in 0..held {
        counts.add(Key::new(key_at(is_scattered, held, place, 1)));
    }
    let mut least = f64::MAX;
    let mut missed = 0;
    for round in 0..ROUNDS {
        let keys: Vec<Key<N>> = (0..ROUND)
            .map(|place| Key::new(key_at(is_scattered, held, round * ROUND + place, 7919)))
            .collect();
        let start = Instant::now();
        for key in &keys {
            match counts.count(key) {
                Some(count) => *count += 1,
                None => missed += 1,
            }
        }
        least = least.min(start.elapsed().as_nanos() as f64 / ROUND as f64);
    }
    assert_eq!(missed, 0);
    let order = if is_scattered { "scattered" } else { "stepping" };
    println!("{} {N} {order} {held} {least}", M::NAME);
}

fn measure_both<const N: usize, M: Counts<Key<N>>>() {
    for is_scattered in [false, true] {
        for held in [1024, 1_000_448] {
            measure::<N, M>(is_scattered, held);
        }
    }
}

fn main() {
    measure_both::<1, BTreeMap<_, _>>();
    measure_both::<2, BTreeMap<_, _>>();
    measure_both::<17, BTreeMap<_, _>>();
    measure_both::<2, HashMap<_, _>>();
}
