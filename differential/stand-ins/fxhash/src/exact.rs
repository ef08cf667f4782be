//! A hasher that keeps every byte it is given and answers a number of its own for each different record, because the
//! published hash collides on made-up input and would hide a formula.
use std::cell::RefCell;
use std::collections::HashMap;
use std::hash::Hasher;

/// The published crate's map has its own hash in front; what a map answers doesn't depend on it.
pub type FxHashMap<K, V> = HashMap<K, V>;

thread_local! {
    /// The records seen so far in this thread, each with its number.
    static RECORDS: RefCell<HashMap<Vec<u8>, u64>> = RefCell::new(HashMap::new());
}

/// Forgets the records, between two searches that share no hash.
pub fn forget() {
    RECORDS.with(|records| *records.borrow_mut() = HashMap::new());
}

#[derive(Default, Clone)]
pub struct FxHasher64 {
    record: Vec<u8>,
}

impl Hasher for FxHasher64 {
    fn write(&mut self, bytes: &[u8]) {
        self.record.extend_from_slice(bytes);
    }

    fn finish(&self) -> u64 {
        RECORDS.with(|records| {
            let mut records = records.borrow_mut();
            let next = records.len() as u64;
            *records.entry(self.record.clone()).or_insert(next)
        })
    }
}
