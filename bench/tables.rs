//! Tables and receipts as the driver makes and reads them; offsets are document 01's, as requests [1], [4] and [5] change them.
use crate::sides::{Random, PLAIN};

pub const HEADER: usize = 54;
pub const ROW: usize = 22;
pub const SLOT: usize = 76;

pub fn get(bytes: &[u8], at: usize, width: usize) -> u64 {
    bytes[at..at + width].iter().fold(0, |n, b| n << 8 | *b as u64)
}

pub fn put(bytes: &mut [u8], at: usize, width: usize, n: u64) {
    bytes[at..at + width].copy_from_slice(&n.to_be_bytes()[8 - width..]);
}

/// The mark of document 01's own tables, which every call but a carry now refuses.
pub const OLD_MARK: &[u8; 4] = b"A2MT";

pub fn table_bytes(logs: u64, slots: u64) -> usize {
    HEADER + ROW * logs as usize + SLOT * slots as usize
}

pub fn logs(t: &[u8]) -> u64 {
    t[4] as u64
}

pub fn slots(t: &[u8]) -> u64 {
    get(t, 6, 2)
}

pub fn row_at(log: u64) -> usize {
    HEADER + ROW * log as usize
}

/// Slots count from 1.
pub fn slot_at(t: &[u8], slot: u64) -> usize {
    row_at(logs(t)) + SLOT * (slot as usize - 1)
}

/// The lowest and highest position of a log.
pub fn bounds(t: &[u8], log: u64) -> (u64, u64) {
    (get(t, row_at(log), 8), get(t, row_at(log) + 8, 8))
}

/// The positions of a log's entries, of a whole table.
pub fn positions(t: &[u8], log: u64) -> Vec<u64> {
    let mut found = Vec::new();
    let mut slot = get(t, row_at(log) + 16, 2);
    while slot != 0 {
        let at = slot_at(t, slot);
        found.push(get(t, at + 4, 8));
        slot = get(t, at + 2, 2);
    }
    found
}

/// Where a log's reserve stands.
pub fn reserve_at(log: u64) -> usize {
    row_at(log) + 20
}

/// What all logs of a table that is whole but for its reserves lack of them, and what all but this one lack.
pub fn lacks(t: &[u8], log: u64) -> (u64, u64) {
    let lack = |g: u64| get(t, reserve_at(g), 2).saturating_sub(positions(t, g).len() as u64);
    let all: u64 = (0..logs(t)).map(lack).sum();
    (all, all - if log < logs(t) { lack(log) } else { 0 })
}

/// The slots of the free chain; of a torn table as far as it goes, at most as many as there are.
pub fn free_chain(t: &[u8]) -> Vec<u64> {
    let mut found = Vec::new();
    let mut slot = get(t, 16, 2);
    while slot != 0 && slot <= slots(t) && (found.len() as u64) < slots(t) {
        found.push(slot);
        slot = get(t, slot_at(t, slot) + 2, 2);
    }
    found
}

/// The number of free slots that the header names.
pub fn named_free(t: &[u8]) -> u64 {
    get(t, 18, 2)
}

/// The last free slot that the header names, 0 if none.
pub fn named_last(t: &[u8]) -> u64 {
    get(t, 52, 2)
}

/// Makes the header's number and last free slot true of the free chain, as far as that goes.
pub fn name_free(t: &mut [u8]) {
    let chain = free_chain(t);
    put(t, 18, 2, chain.len() as u64);
    put(t, 52, 2, chain.last().copied().unwrap_or(0));
}

/// The same chains over slots in another order: a whole table stays whole.
pub fn shuffle(t: &mut [u8], random: &mut Random) {
    let (g, s) = (logs(t), slots(t));
    let mut to: Vec<u64> = (0..=s).collect();
    for i in (2..=s).rev() {
        to.swap(i as usize, 1 + random.below(i) as usize);
    }
    let before = t.to_vec();
    let moved = |slot: u64| if slot <= s { to[slot as usize] } else { slot };
    for at in [16, 52] {
        put(t, at, 2, moved(get(&before, at, 2)));
    }
    for log in 0..g {
        for at in [row_at(log) + 16, row_at(log) + 18] {
            put(t, at, 2, moved(get(&before, at, 2)));
        }
    }
    for i in 1..=s {
        let (from, at) = (slot_at(&before, i), slot_at(&before, to[i as usize]));
        t[at..at + SLOT].copy_from_slice(&before[from..from + SLOT]);
        put(t, at + 2, 2, moved(get(&before, from + 2, 2)));
    }
}

/// A table with so many entries, one to each log in turn, at positions from 1 without gaps.
pub fn filled(g: u64, s: u64, entries: u64, random: &mut Random) -> Vec<u8> {
    filled_with(&vec![0; g as usize], s, entries, random)
}

/// The same, with these reserves.
pub fn filled_with(reserves: &[u64], s: u64, entries: u64, random: &mut Random) -> Vec<u8> {
    let g = reserves.len() as u64;
    let mut t = vec![0; table_bytes(g, s)];
    let key = random.bytes(32);
    assert_eq!(PLAIN.format(&mut t, g, s, 7, &key, reserves).number, 0);
    let (mut low, mut high) = (0, 0);
    for i in 0..entries {
        assert_eq!(PLAIN.append(&mut t, i % g, &random.bytes(32), &mut low, &mut high).number, 0);
    }
    t
}

/// A receipt's fields; `write` makes its 160 bytes, possible or not.
#[derive(Clone)]
pub struct Receipt {
    pub name: [u8; 6],
    pub kind: u8,
    pub log: u8,
    pub keeper: u64,
    pub position: u64,
    pub reference: u64,
    pub nonce: Vec<u8>,
    pub pair: Vec<u8>,
}

impl Receipt {
    pub fn assigned(keeper: u64, log: u8, position: u64, nonce: &[u8], pair: &[u8]) -> Receipt {
        Receipt {
            name: *b"LOOKUP",
            kind: 1,
            log,
            keeper,
            position,
            reference: position,
            nonce: nonce.to_vec(),
            pair: pair.to_vec(),
        }
    }

    /// The end of a fresh log.
    pub fn fresh_end(keeper: u64, log: u8, nonce: &[u8]) -> Receipt {
        let name = *b"END\0\0\0";
        Receipt { name, kind: 0, reference: 0, ..Receipt::assigned(keeper, log, 0, nonce, &[0; 64]) }
    }

    pub fn write(&self, key: &[u8]) -> Vec<u8> {
        let mut c = vec![0; 160];
        c[..6].copy_from_slice(&self.name);
        c[6] = self.kind;
        c[7] = self.log;
        put(&mut c, 8, 8, self.keeper);
        put(&mut c, 16, 8, self.position);
        put(&mut c, 24, 8, self.reference);
        c[32..64].copy_from_slice(&self.nonce);
        c[64..128].copy_from_slice(&self.pair);
        retag(&mut c, key);
        c
    }
}

/// Writes the tag that belongs to a receipt's first 128 bytes.
pub fn retag(receipt: &mut [u8], key: &[u8]) {
    let (text, tag) = receipt.split_at_mut(128);
    assert_eq!(PLAIN.tag(key, text, tag).number, 0);
}
