//! The bare hash table: no datagrams, no peers, no owners. A Get finds the value, a Set puts a new copy of it.
use crate::draw::Draw;
use crate::setting::{key, Mix, VALUE};
use std::collections::HashMap;
use std::hint::black_box;

pub struct Table {
    table: HashMap<u64, Vec<u8>>,
    value: Vec<u8>,
    draw: Draw,
}

impl Table {
    pub fn new(records: u64) -> Table {
        let value = vec![7; VALUE];
        let entry = |i| (key(i), value.clone());
        Table {
            table: (0..records).map(entry).collect(),
            value,
            draw: Draw::new(1),
        }
    }

    pub fn run(&mut self, mix: Mix, requests: u64) {
        let records = self.table.len() as u64;
        for i in 0..requests {
            let key = key(self.draw.below(records));
            if mix == Mix::Gets || mix == Mix::Both && i % 2 == 0 {
                black_box(self.table.get(&key));
            } else {
                let value = black_box(&self.value).to_vec();
                black_box(self.table.insert(key, value));
            }
        }
    }
}
