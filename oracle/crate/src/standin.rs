//! Document 01's stand-ins, the capacities, and the arrival-ordered map.
use crate::tables::{A, B, T};
use std::sync::atomic::AtomicUsize;

/// The capacities, those of the trial unless set: unit records, and the sources kept, one fewer than counted records.
pub static UNITS_TRACKED: AtomicUsize = AtomicUsize::new(256);
pub static SOURCES_COUNTED: AtomicUsize = AtomicUsize::new(64);

pub fn fade(d: u64) -> f64 {
    match B.get((d / 2000) as usize) {
        Some(b) => f64::from_bits(A[(d % 2000) as usize]) * f64::from_bits(*b),
        None => 0.0,
    }
}

pub fn bucket_of(want: f64) -> usize {
    if want.is_nan() || want <= 1.0 {
        return 0;
    }
    // T[b] is the least double w with w^16 >= 2^b
    T.partition_point(|t| f64::from_bits(*t) <= want) - 1
}

/// `min`, `max` and `clamp` as document 01 fixes them: of two equal values the first.
pub trait Doc01 {
    fn max01(self, other: Self) -> Self;
    fn min01(self, other: Self) -> Self;
    fn clamp01(self, low: Self, high: Self) -> Self;
}

impl Doc01 for f64 {
    fn max01(self, other: f64) -> f64 {
        if self >= other || other.is_nan() { self } else { other }
    }

    fn min01(self, other: f64) -> f64 {
        if self <= other || other.is_nan() { self } else { other }
    }

    fn clamp01(self, low: f64, high: f64) -> f64 {
        let raised = if self < low { low } else { self };
        if raised > high { high } else { raised }
    }
}

/// A map that keeps the order of arrival; the first match is found.
pub struct OrderedMap<K, V>(Vec<(K, V)>);

impl<K, V> Default for OrderedMap<K, V> {
    fn default() -> Self {
        Self(Vec::new())
    }
}

pub struct Slot<'a, K, V>(&'a mut OrderedMap<K, V>, K);

impl<'a, K: PartialEq + Copy, V: Default> Slot<'a, K, V> {
    pub fn or_default(self) -> &'a mut V {
        let rows = &mut self.0 .0;
        let at = rows.iter().position(|(k, _)| *k == self.1).unwrap_or_else(|| {
            rows.push((self.1, V::default()));
            rows.len() - 1
        });
        &mut rows[at].1
    }
}

impl<K: PartialEq + Copy, V> OrderedMap<K, V> {
    pub fn new() -> Self {
        Self(Vec::new())
    }

    pub fn len(&self) -> usize {
        self.0.len()
    }

    pub fn contains_key(&self, k: &K) -> bool {
        self.get(k).is_some()
    }

    pub fn get(&self, k: &K) -> Option<&V> {
        self.0.iter().find(|(a, _)| a == k).map(|(_, v)| v)
    }

    pub fn get_mut(&mut self, k: &K) -> Option<&mut V> {
        self.0.iter_mut().find(|(a, _)| a == k).map(|(_, v)| v)
    }

    /// Adds a row at the end, also where the key is there already.
    pub fn insert(&mut self, k: K, v: V) {
        self.0.push((k, v));
    }

    pub fn retain(&mut self, mut keeps: impl FnMut(&K, &mut V) -> bool) {
        self.0.retain_mut(|(k, v)| keeps(k, v));
    }

    pub fn values(&self) -> impl Iterator<Item = &V> {
        self.0.iter().map(|(_, v)| v)
    }

    pub fn iter(&self) -> impl Iterator<Item = (&K, &V)> {
        self.0.iter().map(|(k, v)| (k, v))
    }

    pub fn entry(&mut self, k: K) -> Slot<'_, K, V> {
        Slot(self, k)
    }
}
