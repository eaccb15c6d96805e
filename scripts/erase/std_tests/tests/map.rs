//! The map of erased builds beside that of the standard library: what each call of both answers.

use linkwire::rattle::alloc::Global;
use linkwire::rattle::collections::BTreeMap;
use std::ops::Bound::{Excluded, Included};

/// Numbers in an order that looks like none.
struct Numbers(u64);

impl Numbers {
    fn below(&mut self, end: u64) -> u64 {
        self.0 ^= self.0 << 13;
        self.0 ^= self.0 >> 7;
        self.0 ^= self.0 << 17;
        self.0 % end
    }
}

/// 4,000 calls on both, with keys below `end`, and then each part of both.
fn answers_alike(numbers: &mut Numbers, end: u64) {
    let mut own = BTreeMap::new(Global);
    let mut other = std::collections::BTreeMap::new();
    assert!(own.get(&0).is_none() && own.remove(&0).is_none() && own.range(..).next().is_none());
    for value in 0..4000u64 {
        let key = numbers.below(end);
        match numbers.below(4) {
            0 => assert_eq!(own.remove(&key), other.remove(&key)),
            1 => assert_eq!(own.get_mut(&key), other.get_mut(&key)),
            _ => assert_eq!(own.insert(key, value), Ok(other.insert(key, value))),
        }
        assert_eq!(own.get(&key), other.get(&key));
        assert_eq!((own.len(), own.is_empty()), (other.len(), other.is_empty()));
    }
    for _ in 0..200 {
        let first = numbers.below(end);
        let last = first + numbers.below(end);
        assert!(own.range(first..last).eq(other.range(first..last)));
        assert!(own.range(..=last).eq(other.range(..=last)));
        let within = (Excluded(first), Included(last + 1));
        assert!(own.range(within).eq(other.range(within)));
    }
    own.values_mut().for_each(|value| *value += 1);
    own.iter_mut().for_each(|(key, value)| *value += *key);
    other.iter_mut().for_each(|(key, value)| *value += *key + 1);
    assert!(own.iter().eq(&other) && (&own).into_iter().eq(&other));
    assert!(own.into_iter().eq(other));
}

#[test]
fn map() {
    let mut numbers = Numbers(88_172_645_463_325_252);
    for end in [1, 3, 40, 300, 3000] {
        answers_alike(&mut numbers, end);
    }
}
