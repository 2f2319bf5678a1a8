//! Stand-in for indexmap: a vector of entries with a hash index over it.
//! It is used while a CaseExpr is built, never while it runs.
use std::collections::HashMap;
use std::hash::{BuildHasher, Hash, RandomState};

#[derive(Debug, Clone)]
pub struct IndexMap<K, V> {
    entries: Vec<(K, V)>,
    index: HashMap<u64, Vec<usize>>,
    state: RandomState,
}

impl<K: Hash + Eq, V> IndexMap<K, V> {
    pub fn with_capacity(n: usize) -> Self {
        IndexMap {
            entries: Vec::with_capacity(n),
            index: HashMap::with_capacity(n),
            state: RandomState::new(),
        }
    }
    fn place(&self, k: &K) -> Option<usize> {
        self.index
            .get(&self.state.hash_one(k))?
            .iter()
            .copied()
            .find(|i| self.entries[*i].0 == *k)
    }
    pub fn contains_key(&self, k: &K) -> bool {
        self.place(k).is_some()
    }
    pub fn get(&self, k: &K) -> Option<&V> {
        self.place(k).map(|i| &self.entries[i].1)
    }
    pub fn insert(&mut self, k: K, v: V) -> Option<V> {
        match self.place(&k) {
            Some(i) => Some(std::mem::replace(&mut self.entries[i].1, v)),
            None => {
                let h = self.state.hash_one(&k);
                self.index.entry(h).or_default().push(self.entries.len());
                self.entries.push((k, v));
                None
            }
        }
    }
    pub fn iter(&self) -> impl Iterator<Item = (&K, &V)> {
        self.entries.iter().map(|(k, v)| (k, v))
    }
}

impl<K: Hash + Eq, V> FromIterator<(K, V)> for IndexMap<K, V> {
    fn from_iter<I: IntoIterator<Item = (K, V)>>(iter: I) -> Self {
        let mut m = IndexMap::with_capacity(0);
        for (k, v) in iter {
            m.insert(k, v);
        }
        m
    }
}

impl<K, V> IntoIterator for IndexMap<K, V> {
    type Item = (K, V);
    type IntoIter = std::vec::IntoIter<(K, V)>;
    fn into_iter(self) -> Self::IntoIter {
        self.entries.into_iter()
    }
}
