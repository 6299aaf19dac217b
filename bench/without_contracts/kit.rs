//! Small stand-ins for the parts of the kit that the search uses: `Vec`, the map in insertion order, the generator of ChaCha20. No allocation fails.
#![allow(dead_code)]
use std::collections::HashMap;
use std::ops::{Deref, DerefMut};

pub mod prelude {
    pub use crate::{CollectIn, Global, Vec};
}

#[derive(Clone, Copy, Debug, PartialEq, Eq)]
pub struct Global;

static GLOBAL: Global = Global;

#[derive(Clone, Copy, Debug, PartialEq, Eq)]
pub struct AllocError;

pub type AllocFailed = AllocError;

type Taken<T> = Result<T, AllocError>;

pub trait CollectIn: Iterator + Sized {
    fn collect_in(self, _: Global) -> Taken<Vec<Self::Item>> {
        Ok(Vec(self.collect()))
    }
}

impl<I: Iterator> CollectIn for I {}

#[derive(Debug, PartialEq, Eq)]
pub struct Vec<T>(pub std::vec::Vec<T>);

impl<T> Vec<T> {
    pub const fn new(_: Global) -> Self {
        Vec(std::vec::Vec::new())
    }

    pub fn with_capacity(_: Global, count: usize) -> Taken<Self> {
        Ok(Vec(std::vec::Vec::with_capacity(count)))
    }

    #[inline]
    pub fn push(&mut self, item: T) -> Taken<()> {
        self.0.push(item);
        Ok(())
    }

    #[inline]
    pub fn push_reserved(&mut self, item: T) {
        self.0.push(item)
    }

    #[inline]
    pub fn pop(&mut self) -> Option<T> {
        self.0.pop()
    }

    #[inline]
    pub fn insert(&mut self, index: usize, item: T) -> Taken<()> {
        self.0.insert(index, item);
        Ok(())
    }

    #[inline]
    pub fn remove(&mut self, index: usize) -> T {
        self.0.remove(index)
    }

    #[inline]
    pub fn swap_remove(&mut self, index: usize) -> T {
        self.0.swap_remove(index)
    }

    #[inline]
    pub fn clear(&mut self) {
        self.0.clear()
    }

    #[inline]
    pub fn truncate(&mut self, count: usize) {
        self.0.truncate(count)
    }

    pub fn reserve(&mut self, count: usize) -> Taken<()> {
        self.0.reserve(count);
        Ok(())
    }

    pub fn allocator(&self) -> &Global {
        &GLOBAL
    }

    #[inline]
    pub fn as_slice(&self) -> &[T] {
        &self.0
    }

    #[inline]
    pub fn as_mut_slice(&mut self) -> &mut [T] {
        &mut self.0
    }
}

impl<T: Clone> Vec<T> {
    pub fn resize(&mut self, count: usize, item: T) -> Taken<()> {
        self.0.resize(count, item);
        Ok(())
    }

    pub fn extend_from_slice(&mut self, items: &[T]) -> Taken<()> {
        self.0.extend_from_slice(items);
        Ok(())
    }

    pub fn from_slice(_: Global, items: &[T]) -> Taken<Self> {
        Ok(Vec(items.to_vec()))
    }

    pub fn clone(&self) -> Taken<Self> {
        Ok(Vec(self.0.clone()))
    }
}

impl<T> Deref for Vec<T> {
    type Target = [T];

    #[inline]
    fn deref(&self) -> &[T] {
        &self.0
    }
}

impl<T> DerefMut for Vec<T> {
    #[inline]
    fn deref_mut(&mut self) -> &mut [T] {
        &mut self.0
    }
}

impl<T> IntoIterator for Vec<T> {
    type Item = T;
    type IntoIter = std::vec::IntoIter<T>;

    fn into_iter(self) -> Self::IntoIter {
        self.0.into_iter()
    }
}

impl<'a, T> IntoIterator for &'a Vec<T> {
    type Item = &'a T;
    type IntoIter = std::slice::Iter<'a, T>;

    fn into_iter(self) -> Self::IntoIter {
        self.0.iter()
    }
}

impl<'a, T> IntoIterator for &'a mut Vec<T> {
    type Item = &'a mut T;
    type IntoIter = std::slice::IterMut<'a, T>;

    fn into_iter(self) -> Self::IntoIter {
        self.0.iter_mut()
    }
}

/// The kit's `vec![in alloc; ..]`.
#[macro_export]
macro_rules! vec_in {
    ($item:expr; $count:expr) => {
        Ok::<_, $crate::AllocError>($crate::Vec(std::vec![$item; $count]))
    };
    ($($item:expr),*) => {
        Ok::<_, $crate::AllocError>($crate::Vec(std::vec![$($item),*]))
    };
}

#[derive(Debug)]
pub struct IndexMap<K, V> {
    entries: std::vec::Vec<(K, V)>,
    places: HashMap<K, usize>,
}

impl<K: Copy + Ord + std::hash::Hash, V: Clone> IndexMap<K, V> {
    pub fn new(_: Global) -> Self {
        IndexMap {
            entries: std::vec::Vec::new(),
            places: HashMap::new(),
        }
    }

    pub fn get(&self, key: &K) -> Option<&V> {
        self.places.get(key).map(|place| &self.entries[*place].1)
    }

    pub fn get_index(&self, place: usize) -> Option<(&K, &V)> {
        self.entries.get(place).map(|entry| (&entry.0, &entry.1))
    }

    pub fn len(&self) -> usize {
        self.entries.len()
    }

    pub fn last(&self) -> Option<(&K, &V)> {
        self.entries.last().map(|entry| (&entry.0, &entry.1))
    }

    pub fn keys(&self) -> impl Iterator<Item = &K> {
        self.entries.iter().map(|entry| &entry.0)
    }

    pub fn insert(&mut self, key: K, value: V) -> Taken<Option<V>> {
        self.places.insert(key, self.entries.len());
        self.entries.push((key, value));
        Ok(None)
    }

    pub fn insert_before(&mut self, place: usize, key: K, value: V) -> Taken<(usize, Option<V>)> {
        self.entries.insert(place, (key, value));
        self.note_places();
        Ok((place, None))
    }

    pub fn shift_remove(&mut self, key: &K) -> Option<V> {
        let place = *self.places.get(key)?;
        let (_, value) = self.entries.remove(place);
        self.note_places();
        Some(value)
    }

    pub fn binary_search_keys(&self, key: &K) -> Result<usize, usize> {
        self.entries.binary_search_by(|entry| entry.0.cmp(key))
    }

    pub fn reserve(&mut self, _: usize) -> Taken<()> {
        Ok(())
    }

    pub fn clone(&self) -> Taken<Self> {
        Ok(IndexMap {
            entries: self.entries.clone(),
            places: self.places.clone(),
        })
    }

    fn note_places(&mut self) {
        self.places = self.entries.iter().enumerate().map(|(place, entry)| (entry.0, place)).collect();
    }
}

impl<'a, K, V> IntoIterator for &'a IndexMap<K, V> {
    type Item = (&'a K, &'a V);
    type IntoIter = std::iter::Map<std::slice::Iter<'a, (K, V)>, fn(&'a (K, V)) -> Self::Item>;

    fn into_iter(self) -> Self::IntoIter {
        self.entries.iter().map(|entry| (&entry.0, &entry.1))
    }
}

/// ChaCha20's key stream (RFC 8439), block by block, with a counter of 64 bits.
pub struct ChaCha20Rng {
    key: [u32; 8],
    block: u64,
    used: usize,
    words: [u32; 16],
}

impl ChaCha20Rng {
    pub fn from_seed(seed: [u8; 32]) -> Self {
        let mut key = [0; 8];
        for (word, bytes) in key.iter_mut().zip(seed.chunks(4)) {
            *word = u32::from_le_bytes(bytes.try_into().unwrap());
        }
        ChaCha20Rng {
            key,
            block: 0,
            used: 16,
            words: [0; 16],
        }
    }

    pub fn set_word_pos(&mut self, place: u128) {
        self.block = (place / 16) as u64;
        self.used = 16;
    }

    pub fn next_word(&mut self) -> u32 {
        if self.used == 16 {
            self.make_block();
        }
        self.used += 1;
        self.words[self.used - 1]
    }

    fn make_block(&mut self) {
        let mut start = [0; 16];
        start[..4].copy_from_slice(&[0x61707865, 0x3320646e, 0x79622d32, 0x6b206574]);
        start[4..12].copy_from_slice(&self.key);
        start[12] = self.block as u32;
        start[13] = (self.block >> 32) as u32;
        let mut state = start;
        for _ in 0..10 {
            for column in 0..4 {
                quarter_round(&mut state, column, 4 + column, 8 + column, 12 + column);
            }
            for column in 0..4 {
                quarter_round(&mut state, column, 4 + (column + 1) % 4, 8 + (column + 2) % 4, 12 + (column + 3) % 4);
            }
        }
        for place in 0..16 {
            self.words[place] = state[place].wrapping_add(start[place]);
        }
        self.block += 1;
        self.used = 0;
    }
}

fn quarter_round(state: &mut [u32; 16], a: usize, b: usize, c: usize, d: usize) {
    for (to, from, mixed, turn) in [(a, b, d, 16), (c, d, b, 12), (a, b, d, 8), (c, d, b, 7)] {
        state[to] = state[to].wrapping_add(state[from]);
        state[mixed] = (state[mixed] ^ state[to]).rotate_left(turn);
    }
}

pub fn memchr(byte: u8, text: &[u8]) -> Option<usize> {
    text.iter().position(|it| *it == byte)
}

/// The decimal digits of a number.
pub struct Buffer(String);

impl Buffer {
    pub fn new() -> Self {
        Buffer(String::new())
    }

    pub fn format<T: ToString>(&mut self, number: T) -> &str {
        self.0 = number.to_string();
        &self.0
    }
}

/// A handle that can log.
pub trait Log {
    fn log(&self, said: std::fmt::Arguments);
}

/// Prints each attempt on standard error.
pub struct Attempts;

impl Log for Attempts {
    fn log(&self, said: std::fmt::Arguments) {
        eprintln!("{said}");
    }
}

#[macro_export]
macro_rules! info {
    ($rt:expr; $($said:tt)+) => {
        $crate::Log::log($rt, format_args!($($said)+))
    };
}
