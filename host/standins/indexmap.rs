//! Stands in for indexmap: pairs in order of insertion, found by a hashed table of their places, with the same hasher as there. A key
//! keeps the place and the text of its first insertion.
use std::borrow::Borrow;
use std::hash::{BuildHasher, Hash, RandomState};

#[derive(Debug, Clone)]
pub struct IndexMap<K, V> {
    pairs: Vec<Pair<K, V>>,
    /// For a hash, from its place on: the number of a pair, from 1, or 0. The length is a power of two, and at least half are 0.
    table: Vec<u32>,
    hasher: RandomState,
}

#[derive(Debug, Clone)]
struct Pair<K, V> {
    hash: u64,
    key: K,
    value: V,
}

impl<K, V> Default for IndexMap<K, V> {
    fn default() -> Self {
        Self { pairs: Vec::new(), table: Vec::new(), hasher: RandomState::new() }
    }
}

impl<K: Hash + Eq, V> IndexMap<K, V> {
    pub fn new() -> Self {
        Self::default()
    }

    pub fn get<Q: Hash + Eq + ?Sized>(&self, key: &Q) -> Option<&V>
    where
        K: Borrow<Q>,
    {
        if self.pairs.is_empty() {
            return None;
        }
        let at = self.place(self.hasher.hash_one(key), key).ok()?;
        Some(&self.pairs[at].value)
    }

    pub fn contains_key<Q: Hash + Eq + ?Sized>(&self, key: &Q) -> bool
    where
        K: Borrow<Q>,
    {
        self.get(key).is_some()
    }

    pub fn insert(&mut self, key: K, value: V) -> Option<V> {
        self.reserve(1);
        let hash = self.hasher.hash_one(&key);
        match self.place(hash, &key) {
            Ok(at) => Some(std::mem::replace(&mut self.pairs[at].value, value)),
            Err(free) => {
                self.pairs.push(Pair { hash, key, value });
                self.table[free] = self.pairs.len() as u32;
                None
            }
        }
    }

    pub fn reserve(&mut self, more: usize) {
        let least = 2 * (self.pairs.len() + more);
        if self.table.len() >= least {
            return;
        }
        let length = least.next_power_of_two().max(8);
        self.pairs.reserve(length / 2 - self.pairs.len());
        self.table = vec![0; length];
        for (at, pair) in self.pairs.iter().enumerate() {
            let mut place = pair.hash as usize & (length - 1);
            while self.table[place] != 0 {
                place = (place + 1) & (length - 1);
            }
            self.table[place] = at as u32 + 1;
        }
    }

    /// The index of a key's pair, or the place in the table where its number would go. The table isn't empty.
    fn place<Q: Eq + ?Sized>(&self, hash: u64, key: &Q) -> Result<usize, usize>
    where
        K: Borrow<Q>,
    {
        let mask = self.table.len() - 1;
        let mut place = hash as usize & mask;
        loop {
            match self.table[place] as usize {
                0 => return Err(place),
                number => {
                    let pair = &self.pairs[number - 1];
                    if pair.hash == hash && pair.key.borrow() == key {
                        return Ok(number - 1);
                    }
                }
            }
            place = (place + 1) & mask;
        }
    }

    pub fn iter(&self) -> impl Iterator<Item = (&K, &V)> {
        self.pairs.iter().map(|pair| (&pair.key, &pair.value))
    }

    pub fn values(&self) -> impl Iterator<Item = &V> {
        self.pairs.iter().map(|pair| &pair.value)
    }

    pub fn len(&self) -> usize {
        self.pairs.len()
    }

    pub fn is_empty(&self) -> bool {
        self.pairs.is_empty()
    }
}

impl<K: Hash + Eq, V> FromIterator<(K, V)> for IndexMap<K, V> {
    fn from_iter<I: IntoIterator<Item = (K, V)>>(pairs: I) -> Self {
        let mut map = Self::new();
        for (key, value) in pairs {
            map.insert(key, value);
        }
        map
    }
}
