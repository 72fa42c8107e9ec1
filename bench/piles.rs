//! Piles of receipts, honest and doctored, and what request [13] says of them: the driver's own reading, which knows how each
//! receipt was made.
use crate::sides::Random;
use crate::tables::{get, Receipt};

pub struct Made {
    fields: Receipt,
    pub bytes: Vec<u8>,
    /// A possible entry with a member's keeper number.
    pub hashed: bool,
    /// Such a one with the tag of that member's key.
    pub accepted: bool,
}

impl Made {
    pub fn good(fields: Receipt, key: &[u8]) -> Made {
        let bytes = fields.write(key);
        Made { fields, bytes, hashed: true, accepted: true }
    }

    /// A receipt that a call wrote for a member's table.
    pub fn written(c: &[u8]) -> Made {
        let fields = Receipt {
            name: c[..6].try_into().unwrap(),
            kind: c[6],
            log: c[7],
            keeper: get(c, 8, 8),
            position: get(c, 16, 8),
            reference: get(c, 24, 8),
            nonce: c[32..64].to_vec(),
            pair: c[64..128].to_vec(),
        };
        Made { fields, bytes: c.to_vec(), hashed: true, accepted: true }
    }

    /// With the tag of its fields, none that is hashed.
    pub fn passed_over(fields: Receipt, key: &[u8]) -> Made {
        Made { hashed: false, accepted: false, ..Made::good(fields, key) }
    }

    /// With a tag that is wrong.
    pub fn forged(fields: Receipt, key: &[u8]) -> Made {
        Made { accepted: false, ..Made::good(fields, key) }
    }
}

pub struct Station(pub Vec<(u64, Vec<u8>)>);

impl Station {
    /// So many members, all with different keeper numbers below 2^63.
    pub fn random(members: u64, random: &mut Random) -> Station {
        let apart = if random.once_in(2) { 1 } else { 1 + random.below(1 << 40) };
        let first = random.below(4000);
        Station((0..members).map(|m| (first + apart * m, random.bytes(32))).collect())
    }

    pub fn roster(&self) -> Vec<u8> {
        self.0.iter().flat_map(|(number, key)| [&number.to_be_bytes()[..], &key[..]].concat()).collect()
    }

    /// A receipt of a member on one of few positions, so that a pile has several on one. Every member has its own value for
    /// each of them; once in `lies` times it tells another story. Once in `strays` times the receipt is none that counts.
    pub fn receipt(&self, lies: u64, strays: u64, random: &mut Random) -> Made {
        let m = if random.once_in(3) { random.below(self.0.len() as u64) as usize } else { 0 };
        let (number, key) = &self.0[m];
        let (log, position) = (random.once_in(4) as u8, random.pick(&[1, 77, 77, u64::MAX - 1]));
        let nonce = random.bytes(32);
        let mut told = Random(number.wrapping_mul(64) + position % 16 + 16 * log as u64);
        let mut fields = Receipt::assigned(*number, log, position, &nonce, &told.bytes(64));
        // The second position was skipped, the others are assigned.
        let lie = random.once_in(lies);
        if (position == 77) != lie {
            fields.kind = 2;
            fields.reference = position + 1 + random.below(2) * (u64::MAX - 1 - position);
            if random.once_in(2) {
                fields.pair = vec![0; 64];
            }
        } else if lie || random.once_in(lies) {
            fields.pair[random.below(64) as usize] ^= 1 << random.below(8);
        }
        match random.below(12) {
            0 => fields = Receipt { kind: 0, reference: random.below(position), pair: vec![0; 64], ..fields },
            1 => fields = Receipt { kind: 3, reference: u64::MAX, pair: vec![0; 64], ..fields },
            2 => fields = Receipt::fresh_end(*number, log, &nonce),
            3 | 4 if fields.kind == 1 => fields.name = *b"END\0\0\0",
            _ => {}
        }
        if !random.once_in(strays) {
            return Made::good(fields, key);
        }
        match random.below(8) {
            // A stranger's number under a member's key.
            0 => Made::passed_over(Receipt { keeper: number ^ 1 << 63, ..fields }, key),
            // A member's number under a stranger's key.
            1 => Made::forged(fields, &random.bytes(32)),
            2 if self.0.len() > 1 => Made::forged(fields, &self.0[(m + 1) % self.0.len()].1),
            2 | 3 => {
                let mut made = Made::forged(fields, key);
                made.bytes[128 + random.below(32) as usize] ^= 1 << random.below(8);
                made
            }
            // A nonce of another question.
            4 => {
                let mut made = Made::forged(fields, key);
                made.bytes[32 + random.below(32) as usize] ^= 1 << random.below(8);
                made
            }
            _ => Made::passed_over(impossible(fields, random), key),
        }
    }
}

/// No possible entry.
fn impossible(fields: Receipt, random: &mut Random) -> Receipt {
    match random.below(6) {
        0 => Receipt { kind: random.pick(&[4, 5, 255]), ..fields },
        1 => Receipt { log: random.pick(&[16, 17, 255]), ..fields },
        2 => Receipt { name: random.pick(&[*b"lookup", *b"LOOKUQ", *b"END\0\0P", *b"\0\0\0END"]), ..fields },
        3 => Receipt { kind: 1, reference: fields.position ^ 1, ..fields },
        4 => Receipt { name: *b"END\0\0\0", kind: 2, position: 5, reference: 6, ..fields },
        _ => Receipt { name: *b"LOOKUP", position: 0, reference: 0, ..fields },
    }
}

/// "both assigned with different values or digests, or one assigned and one skipped"
fn contradict(a: &Receipt, b: &Receipt) -> bool {
    let stories = match (a.kind, b.kind) {
        (1, 1) => a.pair != b.pair,
        (1, 2) | (2, 1) => true,
        _ => false,
    };
    stories && (a.keeper, a.log, a.position) == (b.keeper, b.log, b.position)
}

/// "the first pair, by first then second place, of roster members' accepted receipts"
pub fn first_pair(pile: &[Made]) -> Option<(u64, u64)> {
    let places = || (0..pile.len()).filter(|p| pile[*p].accepted);
    let pairs = places().flat_map(|p| places().filter(move |q| p < *q).map(move |q| (p, q)));
    let mut found = pairs.filter(|(p, q)| contradict(&pile[*p].fields, &pile[*q].fields));
    found.next().map(|(p, q)| (p as u64, q as u64))
}

pub fn pile_bytes(pile: &[Made]) -> Vec<u8> {
    pile.iter().flat_map(|made| made.bytes.clone()).collect()
}

/// 17, 12 and 9, in this order, or 0.
pub fn refusal(profile: (u64, u64), roster: &[u8], pile_bytes: usize) -> u64 {
    let (n, k) = (profile.0 as u128, profile.1 as u128);
    if !(1..=32).contains(&n) || 2 * k <= n || k > n {
        return 17;
    }
    let mut numbers: Vec<&[u8]> = roster.chunks(40).map(|item| &item[..item.len().min(8)]).collect();
    numbers.sort();
    numbers.dedup();
    if roster.len() as u128 != 40 * n || numbers.len() as u128 != n {
        return 12;
    }
    if pile_bytes % 160 != 0 || pile_bytes > 32 * 160 { 9 } else { 0 }
}
