// Copied from scripts/erase/std_tests/src/rattle/collections.rs: do not edit here.
//! A map whose calls that take memory can fail.

use super::alloc::{AllocError, Global};
use std::borrow::Borrow;
use std::cmp::Ordering;
use std::ops::{Bound, RangeBounds};

/// How many entries a piece has at most.
const MOST: usize = 128;

type Pieces<K, V> = std::vec::Vec<std::vec::Vec<(K, V)>>;
type Entry<'a, K, V> = (&'a K, &'a V);
type All<'a, K, V> = std::iter::Flatten<std::slice::Iter<'a, std::vec::Vec<(K, V)>>>;

/// A map by sorted pieces, none of which is empty: that of the standard library stops the program where memory lacks.
#[derive(Debug)]
pub struct BTreeMap<K, V> {
    pieces: Pieces<K, V>,
    len: usize,
}

impl<K, V> Default for BTreeMap<K, V> {
    fn default() -> BTreeMap<K, V> {
        BTreeMap {
            pieces: std::vec::Vec::new(),
            len: 0,
        }
    }
}

fn parts<K, V>(entry: &(K, V)) -> Entry<'_, K, V> {
    (&entry.0, &entry.1)
}

/// A piece of one entry.
fn one<K, V>(key: K, value: V) -> Result<std::vec::Vec<(K, V)>, AllocError> {
    let mut piece = std::vec::Vec::new();
    piece.try_reserve(1)?;
    piece.push((key, value));
    Ok(piece)
}

impl<K: Ord, V> BTreeMap<K, V> {
    /// No keys. It takes no memory.
    pub fn new(_alloc: Global) -> BTreeMap<K, V> {
        BTreeMap::default()
    }

    /// Where a key stands, or would: the piece, and the place in it.
    fn place<Q: Ord + ?Sized>(&self, key: &Q) -> (usize, Result<usize, usize>)
    where
        K: Borrow<Q>,
    {
        let behind = self.pieces.partition_point(|it| it[0].0.borrow() <= key);
        match self.pieces.get(behind.saturating_sub(1)) {
            Some(piece) => {
                let place = piece.binary_search_by(|it| it.0.borrow().cmp(key));
                (behind.saturating_sub(1), place)
            }
            None => (0, Err(0)),
        }
    }

    /// Cuts a piece that is full in two.
    fn split(&mut self, piece: usize) -> Result<(), AllocError> {
        let mut back = std::vec::Vec::new();
        back.try_reserve_exact(MOST)?;
        self.pieces.try_reserve(1)?;
        back.extend(self.pieces[piece].drain(MOST / 2..));
        self.pieces.insert(piece + 1, back);
        Ok(())
    }

    /// Gives a key a value, and returns the one that it had.
    pub fn insert(&mut self, key: K, value: V) -> Result<Option<V>, AllocError> {
        if self.pieces.is_empty() {
            self.pieces.try_reserve(1)?;
            self.pieces.push(one(key, value)?);
            self.len = 1;
            return Ok(None);
        }
        let (mut piece, place) = self.place(&key);
        let mut place = match place {
            Ok(place) => {
                let old = &mut self.pieces[piece][place].1;
                return Ok(Some(std::mem::replace(old, value)));
            }
            Err(place) => place,
        };
        if self.pieces[piece].len() == MOST {
            self.split(piece)?;
            if place > MOST / 2 {
                piece += 1;
                place -= MOST / 2;
            }
        }
        self.pieces[piece].try_reserve(1)?;
        self.pieces[piece].insert(place, (key, value));
        self.len += 1;
        Ok(None)
    }

    pub fn get<Q: Ord + ?Sized>(&self, key: &Q) -> Option<&V>
    where
        K: Borrow<Q>,
    {
        let (piece, place) = self.place(key);
        let place = place.ok()?;
        Some(&self.pieces[piece][place].1)
    }

    pub fn get_mut<Q: Ord + ?Sized>(&mut self, key: &Q) -> Option<&mut V>
    where
        K: Borrow<Q>,
    {
        let (piece, place) = self.place(key);
        let place = place.ok()?;
        Some(&mut self.pieces[piece][place].1)
    }

    pub fn remove<Q: Ord + ?Sized>(&mut self, key: &Q) -> Option<V>
    where
        K: Borrow<Q>,
    {
        let (piece, place) = self.place(key);
        let place = place.ok()?;
        let (_, value) = self.pieces[piece].remove(place);
        if self.pieces[piece].is_empty() {
            self.pieces.remove(piece);
        }
        self.len -= 1;
        Some(value)
    }

    pub fn iter_mut(&mut self) -> impl Iterator<Item = (&K, &mut V)> {
        self.pieces
            .iter_mut()
            .flatten()
            .map(|it| (&it.0, &mut it.1))
    }

    pub fn values_mut(&mut self) -> impl Iterator<Item = &mut V> {
        self.pieces.iter_mut().flatten().map(|it| &mut it.1)
    }

    pub fn len(&self) -> usize {
        self.len
    }

    pub fn is_empty(&self) -> bool {
        self.len == 0
    }

    pub fn iter(&self) -> impl Iterator<Item = Entry<'_, K, V>> {
        self.pieces.iter().flatten().map(parts)
    }

    pub fn range<R: RangeBounds<K>>(&self, range: R) -> impl Iterator<Item = Entry<'_, K, V>> {
        let is_before = |key: &K| match range.start_bound() {
            Bound::Included(first) => key < first,
            Bound::Excluded(first) => key.cmp(first) != Ordering::Greater,
            Bound::Unbounded => false,
        };
        let piece = self
            .pieces
            .partition_point(|it| it.last().map_or(true, |last| is_before(&last.0)));
        let place = self
            .pieces
            .get(piece)
            .map_or(0, |it| it.partition_point(|it| is_before(&it.0)));
        self.pieces[piece..]
            .iter()
            .flatten()
            .skip(place)
            .take_while(move |it| match range.end_bound() {
                Bound::Included(last) => it.0 <= *last,
                Bound::Excluded(last) => it.0 < *last,
                Bound::Unbounded => true,
            })
            .map(parts)
    }
}

impl<K, V> IntoIterator for BTreeMap<K, V> {
    type Item = (K, V);
    type IntoIter = std::iter::Flatten<std::vec::IntoIter<std::vec::Vec<(K, V)>>>;

    fn into_iter(self) -> Self::IntoIter {
        self.pieces.into_iter().flatten()
    }
}

impl<'a, K, V> IntoIterator for &'a BTreeMap<K, V> {
    type Item = Entry<'a, K, V>;
    type IntoIter = std::iter::Map<All<'a, K, V>, fn(&'a (K, V)) -> Entry<'a, K, V>>;

    fn into_iter(self) -> Self::IntoIter {
        self.pieces.iter().flatten().map(parts)
    }
}
