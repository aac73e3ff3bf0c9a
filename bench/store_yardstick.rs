// The table of nodes in plain Rust: a hash map from nodes to ids, with the same fields. It can't find a node by its id,
// as the proved table can.
// Arguments: as those of the proved driver.
use std::collections::HashMap;
use std::hash::{BuildHasherDefault, Hasher};

/// One wide multiplication for each word that is written, as the proved table's default.
#[derive(Default)]
struct Fold(u64);

impl Hasher for Fold {
    fn finish(&self) -> u64 {
        self.0
    }
    fn write(&mut self, bytes: &[u8]) {
        for chunk in bytes.chunks(8) {
            let mut word = [0u8; 8];
            word[..chunk.len()].copy_from_slice(chunk);
            self.write_u64(u64::from_le_bytes(word));
        }
    }
    fn write_u8(&mut self, n: u8) {
        self.write_u64(n as u64);
    }
    fn write_u32(&mut self, n: u32) {
        self.write_u64(n as u64);
    }
    fn write_usize(&mut self, n: usize) {
        self.write_u64(n as u64);
    }
    fn write_u64(&mut self, n: u64) {
        let wide = (self.0 ^ n ^ 0x243f_6a88_85a3_08d3) as u128 * 0x9e37_79b9_7f4a_7c15_f39c_c060_5ced_c835u128 as u64 as u128;
        self.0 = (wide as u64) ^ (wide >> 64) as u64;
    }
}

type Map<K, V> = HashMap<K, V, BuildHasherDefault<Fold>>;

#[derive(Clone, Copy, PartialEq, Eq, Hash)]
struct Amp {
    num: [i128; 4],
    power: u32,
}

#[derive(Clone, Copy, PartialEq, Eq, Hash)]
struct Span {
    left: u32,
    right: u32,
    end: u32,
}

#[derive(PartialEq, Eq, Hash)]
enum Spans {
    One(Span),
    More(Vec<Span>),
}

#[derive(PartialEq, Eq, Hash)]
enum Node {
    Leaf(Box<Amp>),
    Inner(Spans),
}

struct Store {
    ids: Map<Node, u32>,
    taken: u64,
    limit: u64,
}

impl Store {
    fn add(&mut self, node: Node, cost: u64) -> Option<u32> {
        if let Some(id) = self.ids.get(&node) {
            return Some(*id);
        }
        if cost > self.limit - self.taken {
            self.taken = self.limit;
            return None;
        }
        self.taken += cost;
        let id = self.ids.len() as u32;
        self.ids.insert(node, id);
        Some(id)
    }
    fn leaf(&mut self, label: Amp) -> Option<u32> {
        self.add(Node::Leaf(Box::new(label)), 1)
    }
    fn one(&mut self, left: u32, right: u32) -> Option<u32> {
        self.add(Node::Inner(Spans::One(Span { left, right, end: 1 })), 1)
    }
    fn more(&mut self, spans: Vec<Span>) -> Option<u32> {
        let cost = spans.last()?.end as u64;
        self.add(Node::Inner(Spans::More(spans)), cost)
    }
}

fn run(what: &str, count: u32, times: u32) -> Option<u32> {
    let mut store = Store { ids: Map::default(), taken: 0, limit: 1_000_000_000 };
    let mut memo: Map<u32, u32> = Map::default();
    let mut found = 0;
    for _ in 0..times {
        if what == "leaf" {
            for i in 0..count {
                found ^= store.leaf(Amp { num: [i as i128, 1, 0, 0], power: 0 })?;
            }
            continue;
        }
        let mut id = store.leaf(Amp { num: [1, 0, 0, 0], power: 0 })?;
        for _ in 0..count {
            id = store.one(id, id)?;
            if what == "memo" {
                if memo.get(&id).is_some() {
                    found += 1;
                } else {
                    memo.insert(id, id);
                }
            }
        }
    }
    if count == u32::MAX {
        store.more(vec![])?;
    }
    Some(found)
}

fn main() {
    let words: Vec<String> = std::env::args().collect();
    let found = run(&words[1], words[2].parse().unwrap(), words[3].parse().unwrap());
    std::process::exit(if found == Some(u32::MAX) { 1 } else { 0 });
}
