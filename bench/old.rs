//! Tables of document 01's own layout, written from what they say, and the present tables that say the same. Request [8] carries
//! the one into the other.
use crate::sides::Random;
use crate::tables::{get, logs, put, HEADER, OLD_MARK, ROW, SLOT};

/// Document 01's header and rows.
const OLD_HEADER: usize = 52;
const OLD_ROW: usize = 20;

pub struct Entry {
    pub slot: u64,
    pub position: u64,
    /// Value and digest.
    pub pair: Vec<u8>,
}

/// A log's bounds, and its entries by rising position.
pub struct Log {
    pub low: u64,
    pub high: u64,
    pub entries: Vec<Entry>,
}

/// What a table without reserves says; the free slots in the order of their chain.
pub struct Said {
    pub keeper: u64,
    pub key: Vec<u8>,
    pub logs: Vec<Log>,
    pub free: Vec<u64>,
}

/// A field of an old table, where the copy has it, and the numbers in it that leave the table whole: all others tear it.
pub struct Field {
    pub at: usize,
    pub in_copy: usize,
    pub width: usize,
    pub from: u64,
    pub to: u64,
}

impl Said {
    /// Any whole table with so many entries: logs fresh or not, gaps and lows at random, slots in any order.
    pub fn random(g: u64, s: u64, held: u64, random: &mut Random) -> Said {
        let mut slots: Vec<u64> = (1..=s).collect();
        for i in (1..slots.len()).rev() {
            slots.swap(i, random.below(i as u64 + 1) as usize);
        }
        let (taken, free) = slots.split_at(held as usize);
        let some = 1 + random.below(g);
        let mut shares = vec![Vec::new(); g as usize];
        for slot in taken {
            shares[(random.below(some) + g - some) as usize].push(*slot);
        }
        let logs = shares.iter().map(|slots| Log::random(slots, random)).collect();
        Said { keeper: random.next(), key: random.bytes(32), logs, free: free.to_vec() }
    }

    fn counts(&self) -> (usize, usize) {
        (self.logs.len(), self.free.len() + self.logs.iter().map(|log| log.entries.len()).sum::<usize>())
    }

    /// In document 01's layout.
    pub fn old(&self) -> Vec<u8> {
        self.write(OLD_MARK, OLD_HEADER, OLD_ROW)
    }

    /// In the present layout: the number of free slots, the last of them, and reserves of 0.
    pub fn copy(&self) -> Vec<u8> {
        let mut t = self.write(b"A2MU", HEADER, ROW);
        put(&mut t, 18, 2, self.free.len() as u64);
        put(&mut t, 52, 2, self.free.last().copied().unwrap_or(0));
        t
    }

    fn write(&self, mark: &[u8; 4], header: usize, row: usize) -> Vec<u8> {
        let (g, s) = self.counts();
        let mut t = vec![0; header + row * g + SLOT * s];
        let slot_at = |slot: u64| header + row * g + SLOT * (slot as usize - 1);
        t[..4].copy_from_slice(mark);
        t[4] = g as u8;
        put(&mut t, 6, 2, s as u64);
        put(&mut t, 8, 8, self.keeper);
        t[20..52].copy_from_slice(&self.key);
        put(&mut t, 16, 2, self.free.first().copied().unwrap_or(0));
        for (slot, next) in linked(&self.free) {
            put(&mut t, slot_at(slot) + 2, 2, next);
        }
        for (i, log) in self.logs.iter().enumerate() {
            let (at, slots) = (header + row * i, log.slots());
            put(&mut t, at, 8, log.low);
            put(&mut t, at + 8, 8, log.high);
            put(&mut t, at + 16, 2, slots.first().copied().unwrap_or(0));
            put(&mut t, at + 18, 2, slots.last().copied().unwrap_or(0));
            for (entry, (slot, next)) in log.entries.iter().zip(linked(&slots)) {
                let at = slot_at(slot);
                t[at] = i as u8 + 1;
                put(&mut t, at + 2, 2, next);
                put(&mut t, at + 4, 8, entry.position);
                t[at + 12..at + 76].copy_from_slice(&entry.pair);
            }
        }
        t
    }

    /// Every byte of the old table is in one of these. One number changed in a whole table leaves it whole only where document
    /// 01 asks nothing of it, or asks for less: keeper number, key, values and digests; a position between its neighbours; an L
    /// above 0 and not above the lowest position.
    pub fn fields(&self) -> Vec<Field> {
        let ((g, s), old) = (self.counts(), self.old());
        let mut fields = Vec::new();
        let mut add = |at: usize, in_copy: usize, width: usize, range: Option<(u64, u64)>| {
            let now = get(&old, at, width);
            let (from, to) = range.unwrap_or((now, now));
            fields.push(Field { at, in_copy, width, from, to });
        };
        let any = Some((0, u64::MAX));
        for (at, width) in [(0, 4), (4, 1), (5, 1), (6, 2), (16, 2), (18, 2)] {
            add(at, at, width, None);
        }
        for at in [8, 20, 28, 36, 44] {
            add(at, at, 8, any);
        }
        for (i, log) in self.logs.iter().enumerate() {
            let (at, in_copy) = (OLD_HEADER + OLD_ROW * i, HEADER + ROW * i);
            add(at, in_copy, 8, log.entries.first().map(|lowest| (1, lowest.position)));
            for (from, width) in [(8, 8), (16, 2), (18, 2)] {
                add(at + from, in_copy + from, width, None);
            }
        }
        let slot_at = |header: usize, row: usize, slot: u64| header + row * g + SLOT * (slot as usize - 1);
        for slot in 1..=s as u64 {
            let (at, in_copy) = (slot_at(OLD_HEADER, OLD_ROW, slot), slot_at(HEADER, ROW, slot));
            for (from, width) in [(0, 1), (1, 1), (2, 2)] {
                add(at + from, in_copy + from, width, None);
            }
            let found = self.logs.iter().find_map(|log| Some((log, log.slots().iter().position(|n| *n == slot)?)));
            let position = found.and_then(|(log, i)| {
                let above = log.entries.get(i + 1)?.position;
                let below = if i == 0 { log.low - 1 } else { log.entries[i - 1].position };
                Some((below + 1, above - 1))
            });
            add(at + 4, in_copy + 4, 8, position);
            for from in (12..76).step_by(8) {
                add(at + from, in_copy + from, 8, found.and(any));
            }
        }
        assert_eq!(fields.iter().map(|f| f.width).sum::<usize>(), old.len());
        fields
    }
}

impl Log {
    fn random(slots: &[u64], random: &mut Random) -> Log {
        let mut position = match random.below(3) {
            0 => 0,
            1 => random.below(100),
            _ => random.next() >> 1,
        };
        let mut entries = Vec::new();
        for slot in slots {
            position += 1 + match random.below(8) {
                0 => random.next() >> 20,
                1 | 2 => random.below(5),
                _ => 0,
            };
            let pair = if random.once_in(8) { vec![0; 64] } else { random.bytes(64) };
            entries.push(Entry { slot: *slot, position, pair });
        }
        let Some(last) = entries.last_mut() else {
            return Log { low: 1, high: 0, entries };
        };
        if random.once_in(6) {
            last.position = u64::MAX;
        }
        let (high, lowest) = (last.position, entries[0].position);
        let low = match random.below(3) {
            0 => 1,
            1 => lowest,
            _ => 1 + random.below(lowest),
        };
        Log { low, high, entries }
    }

    fn slots(&self) -> Vec<u64> {
        self.entries.iter().map(|entry| entry.slot).collect()
    }
}

/// Slots with the next of each, 0 after the last.
fn linked(slots: &[u64]) -> Vec<(u64, u64)> {
    slots.iter().copied().zip(slots[1.min(slots.len())..].iter().copied().chain([0])).collect()
}

/// What a table of the present layout and of its own length says, torn or not, in document 01's: without the number of free
/// slots, the last of them and the reserves.
pub fn old_of(t: &[u8]) -> Vec<u8> {
    let (rows, slots) = t[HEADER..].split_at(ROW * logs(t) as usize);
    let mut old = t[..OLD_HEADER].to_vec();
    old[..4].copy_from_slice(OLD_MARK);
    put(&mut old, 18, 2, 0);
    for row in rows.chunks(ROW) {
        old.extend_from_slice(&row[..OLD_ROW]);
    }
    old.extend_from_slice(slots);
    old
}
