//! The differential check: the same calls on both sides, and every number, block count, result and lent byte compared.
use crate::old::{old_of, Entry, Field, Log, Said};
use crate::piles::{first_pair, pile_bytes, refusal, Made, Station};
use crate::sides::{KeeperResult, Random, Run, Side, Verdict, KEEPER, PLAIN};
use crate::tables::*;

pub const CALLS: [&str; 23] = [
    "hash", "tag", "format", "check", "free", "carry", "append", "advance", "truncate", "lookup", "end", "pack",
    "split", "survey advance", "survey lookup", "survey close", "verify", "verify end", "certify", "contradiction",
    "receipt sentence", "certificate sentence", "compare",
];
const HASH: usize = 0;
const TAG: usize = 1;
const FORMAT: usize = 2;
const CHECK: usize = 3;
const FREE: usize = 4;
const CARRY: usize = 5;
const APPEND: usize = 6;
const ADVANCE: usize = 7;
const TRUNCATE: usize = 8;
const LOOKUP: usize = 9;
const END: usize = 10;
const PACK: usize = 11;
const SPLIT: usize = 12;
const SURVEY_ADVANCE: usize = 13;
const SURVEY_LOOKUP: usize = 14;
const SURVEY_CLOSE: usize = 15;
const VERIFY: usize = 16;
const VERIFY_END: usize = 17;
const CERTIFY: usize = 18;
const CONTRADICTION: usize = 19;
const RECEIPT_SENTENCE: usize = 20;
const CERTIFICATE_SENTENCE: usize = 21;
const COMPARE: usize = 22;

/// The numbers that calls return: 15 is for lines of a script.
const NUMBERS: [usize; 17] = [0, 1, 2, 3, 4, 5, 7, 8, 9, 10, 11, 12, 13, 14, 16, 17, 18];

/// What is spoiled of plain C's first accepted answer to a call, to see that the check finds it. A promise is its first
/// answer 16, old the table that a carry reads.
#[derive(Clone, Copy, PartialEq, Debug)]
pub enum Part {
    Number,
    Blocks,
    Result,
    Byte,
    BehindTheBuffer,
    Reserve,
    Promise,
    Old,
}

impl Part {
    const ALL: [Part; 8] = [
        Part::Number,
        Part::Blocks,
        Part::Result,
        Part::Byte,
        Part::BehindTheBuffer,
        Part::Reserve,
        Part::Promise,
        Part::Old,
    ];

    /// Whether an answer to the call has it.
    fn is_of(self, call: usize) -> bool {
        match self {
            Part::Blocks => ![CHECK, FREE, PACK, SPLIT, RECEIPT_SENTENCE, CERTIFICATE_SENTENCE].contains(&call),
            Part::Byte | Part::BehindTheBuffer => ![PACK, SPLIT].contains(&call),
            Part::Reserve => [FORMAT, CARRY].contains(&call),
            Part::Promise => [APPEND, ADVANCE, SURVEY_ADVANCE, SURVEY_CLOSE].contains(&call),
            Part::Old => call == CARRY,
            _ => true,
        }
    }
}

/// Results stand at this before a call, and after a refused one. It is other than 0 in every byte.
const UNTOUCHED: u64 = 0xa9b8_c7d6_e5f4_a3b2;
/// Guard bytes around a lent buffer, more than a slot has. Zero bytes look like a free slot to who reads too far.
const GUARDS: usize = 96;
const GUARD: [u8; 2] = [0, 0xc3];

/// A lent buffer between guard bytes, at an alignment of its own.
pub struct Lent {
    bytes: Vec<u8>,
    at: usize,
    len: usize,
    guard: u8,
}

impl Lent {
    fn new(content: &[u8], shift: usize) -> Lent {
        let (at, guard) = (GUARDS + shift, GUARD[shift % 2]);
        let mut bytes = vec![guard; at + content.len() + GUARDS];
        bytes[at..at + content.len()].copy_from_slice(content);
        Lent { bytes, at, len: content.len(), guard }
    }

    fn get(&self) -> &[u8] {
        &self.bytes[self.at..self.at + self.len]
    }

    fn get_mut(&mut self) -> &mut [u8] {
        &mut self.bytes[self.at..self.at + self.len]
    }

    fn guarded(&self) -> bool {
        let outside = |b: &[u8]| b.iter().all(|x| *x == self.guard);
        outside(&self.bytes[..self.at]) && outside(&self.bytes[self.at + self.len..])
    }
}

/// What both sides answered.
struct Answer {
    number: u64,
    blocks: u64,
    results: [u64; 5],
    lent: Vec<Vec<u8>>,
}

pub struct Check {
    random: Random,
    /// Answers by call and number.
    pub counts: [[u64; 19]; CALLS.len()],
    /// Accepted comparisons of runs by verdict, accepted lookups by kind, accepted ends, of fresh logs and of others, and
    /// accepted piles, without a contradiction and with one.
    pub verdicts: [u64; 3],
    pub kinds: [u64; 4],
    pub ends: [u64; 2],
    pub piles: [u64; 2],
    pub longest: usize,
    spoil: Option<(usize, Part)>,
}

type Checked<T> = Result<T, String>;

fn hex(bytes: &[u8]) -> String {
    bytes.iter().map(|b| format!("{b:02x}")).collect()
}

/// What a call returns that counts no blocks.
fn alone(number: u8) -> KeeperResult {
    KeeperResult { number: number as u64, blocks: 0 }
}

/// The blocks of a padded message: a byte, zero bytes and the length in 8 follow it.
fn padded(bytes: usize) -> u64 {
    (bytes as u64 + 1 + 8).div_ceil(64)
}

/// The answer, if it reports so many blocks.
fn reports(call: usize, answer: Answer, blocks: u64) -> Checked<Answer> {
    if answer.blocks == blocks {
        return Ok(answer);
    }
    Err(format!("{}: answer {} with {} blocks, not {blocks}", CALLS[call], answer.number, answer.blocks))
}

/// The same, of a call that hashes where it is accepted and only there.
fn reports_if_done(call: usize, answer: Answer, blocks: u64) -> Checked<Answer> {
    let due = if answer.number == 0 { blocks } else { 0 };
    reports(call, answer, due)
}

impl Check {
    pub fn new(seed: u64, spoil: Option<(usize, Part)>) -> Check {
        Check {
            random: Random(seed),
            counts: [[0; 19]; CALLS.len()],
            verdicts: [0; 3],
            kinds: [0; 4],
            ends: [0; 2],
            piles: [0; 2],
            longest: 0,
            spoil,
        }
    }

    pub fn cases(&self) -> u64 {
        self.counts.iter().flatten().sum()
    }

    /// Runs one call on both sides, each on its own copy of what is lent.
    fn case(
        &mut self, call: usize, lent: &[&[u8]], run: impl Fn(&Side, &mut [Lent], &mut [u64; 5]) -> KeeperResult,
        says: impl Fn() -> String,
    ) -> Checked<Answer> {
        let shifts: Vec<usize> = lent.iter().map(|_| self.random.below(32) as usize).collect();
        let mut both = Vec::new();
        for side in [&KEEPER, &PLAIN] {
            let mut own: Vec<Lent> = lent.iter().zip(&shifts).map(|(b, s)| Lent::new(b, *s)).collect();
            let mut results = [UNTOUCHED; 5];
            let returned = run(side, &mut own, &mut results);
            both.push((returned, results, own));
        }
        let (mut plain, keeper) = (both.pop().unwrap(), both.pop().unwrap());
        if let Some((at, part)) = self.spoil {
            if at == call && plain.0.number == if part == Part::Promise { 16 } else { 0 } {
                self.spoil = None;
                match part {
                    Part::Number => plain.0.number = 1,
                    Part::Blocks => plain.0.blocks += 1,
                    Part::Result => plain.1[0] ^= 1,
                    Part::Byte => *plain.2[0].get_mut().last_mut().unwrap() ^= 1,
                    Part::BehindTheBuffer => *plain.2[0].bytes.last_mut().unwrap() ^= 1,
                    Part::Reserve => plain.2[0].get_mut()[reserve_at(0) + 1] ^= 1,
                    Part::Promise => plain.0.number = 5,
                    Part::Old => plain.2[1].get_mut()[0] ^= 1,
                }
            }
        }
        let mut wrong = Vec::new();
        if keeper.0.number != plain.0.number {
            wrong.push("the numbers differ".to_string());
        }
        if keeper.0.blocks != plain.0.blocks {
            wrong.push("the blocks differ".to_string());
        }
        if keeper.1 != plain.1 {
            wrong.push("the results differ".to_string());
        }
        for (i, (k, p)) in keeper.2.iter().zip(&plain.2).enumerate() {
            if k.get() != p.get() {
                let at = k.get().iter().zip(p.get()).position(|(x, y)| x != y).unwrap();
                wrong.push(format!("the bytes of buffer {i} differ, first at {at}"));
            }
        }
        for (side, (returned, results, own)) in [(&KEEPER, &keeper), (&PLAIN, &plain)] {
            if !NUMBERS.contains(&(returned.number as usize)) {
                wrong.push(format!("{}: no number of a call", side.name));
            }
            if own.iter().any(|b| !b.guarded()) {
                wrong.push(format!("{}: wrote outside a buffer", side.name));
            }
            let same = own.iter().zip(lent).all(|(now, before)| now.get() == *before) && *results == [UNTOUCHED; 5];
            if returned.number != 0 && !same {
                wrong.push(format!("{}: refused, and changed something", side.name));
            }
        }
        if !wrong.is_empty() {
            let mut text = format!("{}: {}\n  {}\n", CALLS[call], wrong.join("; "), says());
            for (i, b) in lent.iter().enumerate() {
                text += &format!("  buffer {i} before, {} bytes at alignment {}: {}\n", b.len(), shifts[i], hex(b));
            }
            for (side, (returned, results, own)) in [(&KEEPER, &keeper), (&PLAIN, &plain)] {
                let KeeperResult { number, blocks } = returned;
                text += &format!("  {}: number {number}, blocks {blocks}, results {results:x?}\n", side.name);
                for (i, b) in own.iter().enumerate() {
                    if b.get() != lent[i] {
                        text += &format!("    buffer {i} after: {}\n", hex(b.get()));
                    }
                }
            }
            return Err(text);
        }
        let KeeperResult { number, blocks } = keeper.0;
        self.counts[call][number as usize] += 1;
        let lent = keeper.2.iter().map(|b| b.get().to_vec()).collect();
        Ok(Answer { number, blocks, results: keeper.1, lent })
    }

    // ---- one function for each call; the first lent buffer is the one that it writes ----

    fn hash(&mut self, message: &[u8], digest_bytes: usize) -> Checked<Answer> {
        let digest = self.random.bytes(digest_bytes);
        self.longest = self.longest.max(message.len());
        let run = |side: &Side, b: &mut [Lent], _: &mut [u64; 5]| {
            let (digest, message) = b.split_at_mut(1);
            side.hash(message[0].get(), digest[0].get_mut())
        };
        let says = || format!("digest {digest_bytes}, message {}", message.len());
        let answer = self.case(HASH, &[&digest, message], run, says)?;
        reports_if_done(HASH, answer, padded(message.len()))
    }

    fn tag(&mut self, key: &[u8], text: &[u8], tag_bytes: usize) -> Checked<Answer> {
        let tag = self.random.bytes(tag_bytes);
        let run = |side: &Side, b: &mut [Lent], _: &mut [u64; 5]| {
            let (tag, rest) = b.split_at_mut(1);
            side.tag(rest[0].get(), rest[1].get(), tag[0].get_mut())
        };
        let answer = self.case(TAG, &[&tag, key, text], run, || "tag, key, text".to_string())?;
        let long = if key.len() > 64 { padded(key.len()) } else { 0 };
        reports_if_done(TAG, answer, long + padded(64 + text.len()) + padded(64 + 32))
    }

    fn format(
        &mut self, table: &[u8], g: u64, s: u64, keeper: u64, key: &[u8], reserves: &[u64],
    ) -> Checked<Answer> {
        // Beside them stand numbers that no slots allow, for who reads too far.
        let lent = [&[u64::MAX], reserves, &[u64::MAX]].concat();
        let within = &lent[1..=reserves.len()];
        let run =
            |side: &Side, b: &mut [Lent], _: &mut [u64; 5]| side.format(b[0].get_mut(), g, s, keeper, key, within);
        let says = || format!("logs {g}, slots {s}, keeper {keeper}, key {}, reserves {reserves:?}", hex(key));
        let answer = self.case(FORMAT, &[table], run, says)?;
        reports(FORMAT, answer, 0)
    }

    fn check(&mut self, table: &[u8]) -> Checked<Answer> {
        let run = |side: &Side, b: &mut [Lent], _: &mut [u64; 5]| alone(side.check(b[0].get()));
        self.case(CHECK, &[table], run, String::new)
    }

    fn free(&mut self, table: &[u8]) -> Checked<Answer> {
        let run = |side: &Side, b: &mut [Lent], r: &mut [u64; 5]| alone(side.free(b[0].get(), &mut r[0]));
        self.case(FREE, &[table], run, String::new)
    }

    /// The status screen shows this number, or with none refuses.
    fn shows(&mut self, table: &[u8], number: Option<u64>) -> Checked<()> {
        let answer = self.free(table)?;
        match number {
            Some(n) if answer.number == 0 && answer.results[0] == n => Ok(()),
            None if answer.number == 1 => Ok(()),
            _ => Err(format!("free: {}, {}, not {number:?}", answer.number, answer.results[0])),
        }
    }

    fn carry(&mut self, old: &[u8], table_bytes: usize) -> Checked<Answer> {
        let table = self.random.bytes(table_bytes);
        let run = |side: &Side, b: &mut [Lent], _: &mut [u64; 5]| {
            let (table, old) = b.split_at_mut(1);
            side.carry(old[0].get(), table[0].get_mut())
        };
        let answer = self.case(CARRY, &[&table, old], run, || "table, old table".to_string())?;
        if answer.lent[1] != old {
            return Err("carry: the old table is not as it was".to_string());
        }
        reports(CARRY, answer, 0)
    }

    /// A carry answers this number, and where that is 0 leaves this copy.
    fn carried(&mut self, old: &[u8], number: u64, copy: &[u8]) -> Checked<()> {
        let answer = self.carry(old, copy.len())?;
        if answer.number != number {
            return Err(format!("carry: {}, not {number}, for the old table {}", answer.number, hex(old)));
        }
        if number == 0 && answer.lent[0] != copy {
            return Err(format!("carry: the copy is {}, not {}", hex(&answer.lent[0]), hex(copy)));
        }
        Ok(())
    }

    fn append(&mut self, table: &[u8], log: u64, value: &[u8]) -> Checked<Answer> {
        let run = |side: &Side, b: &mut [Lent], r: &mut [u64; 5]| {
            let (low, high) = r.split_at_mut(1);
            side.append(b[0].get_mut(), log, value, &mut low[0], &mut high[0])
        };
        let answer = self.case(APPEND, &[table], run, || format!("log {log}, value {}", hex(value)))?;
        reports_if_done(APPEND, answer, 2)
    }

    fn advance(&mut self, table: &[u8], log: u64, n: u64, digest: &[u8], value: &[u8]) -> Checked<Answer> {
        let run = |side: &Side, b: &mut [Lent], r: &mut [u64; 5]| {
            let (low, high) = r.split_at_mut(1);
            side.advance(b[0].get_mut(), log, n, digest, value, &mut low[0], &mut high[0])
        };
        let says = || format!("log {log}, position {n}, digest {}, value {}", hex(digest), hex(value));
        let answer = self.case(ADVANCE, &[table], run, says)?;
        reports_if_done(ADVANCE, answer, 2)
    }

    fn truncate(&mut self, table: &[u8], log: u64, n: u64) -> Checked<Answer> {
        let run = |side: &Side, b: &mut [Lent], r: &mut [u64; 5]| {
            let (low, high) = r.split_at_mut(1);
            side.truncate(b[0].get_mut(), log, n, &mut low[0], &mut high[0])
        };
        let answer = self.case(TRUNCATE, &[table], run, || format!("log {log}, position {n}"))?;
        reports(TRUNCATE, answer, 0)
    }

    fn lookup(&mut self, table: &[u8], log: u64, n: u64, nonce: &[u8], receipt_bytes: usize) -> Checked<Answer> {
        let receipt = self.random.bytes(receipt_bytes);
        let run = |side: &Side, b: &mut [Lent], r: &mut [u64; 5]| {
            let (receipt, table) = b.split_at_mut(1);
            side.lookup(table[0].get(), log, n, nonce, receipt[0].get_mut(), &mut r[0])
        };
        let says = || format!("receipt, table; log {log}, position {n}, nonce {}", hex(nonce));
        let answer = self.case(LOOKUP, &[&receipt, table], run, says)?;
        if answer.number == 0 {
            self.kinds[answer.lent[0][6] as usize] += 1;
        }
        reports_if_done(LOOKUP, answer, 6)
    }

    fn end(&mut self, table: &[u8], log: u64, nonce: &[u8], receipt_bytes: usize) -> Checked<Answer> {
        let receipt = self.random.bytes(receipt_bytes);
        let run = |side: &Side, b: &mut [Lent], _: &mut [u64; 5]| {
            let (receipt, table) = b.split_at_mut(1);
            side.end(table[0].get(), log, nonce, receipt[0].get_mut())
        };
        let says = || format!("receipt, table; log {log}, nonce {}", hex(nonce));
        let answer = self.case(END, &[&receipt, table], run, says)?;
        if answer.number == 0 {
            self.ends[answer.lent[0][6] as usize] += 1;
        }
        reports_if_done(END, answer, 6)
    }

    fn pack(&mut self, at: (u64, u64)) -> Checked<Answer> {
        let run = |side: &Side, _: &mut [Lent], r: &mut [u64; 5]| alone(side.pack(at.0, at.1, &mut r[0]));
        let answer = self.case(PACK, &[], run, || format!("survey and reading {at:?}"))?;
        let due = packed(at);
        if answer.number != if due.is_some() { 0 } else { 18 } || due.is_some_and(|n| answer.results[0] != n) {
            return Err(format!("pack: {at:?} gives {}, {}", answer.number, answer.results[0]));
        }
        Ok(answer)
    }

    fn split(&mut self, n: u64) -> Checked<Answer> {
        let run = |side: &Side, _: &mut [Lent], r: &mut [u64; 5]| {
            let (survey, reading) = r.split_at_mut(1);
            alone(side.split(n, &mut survey[0], &mut reading[0]))
        };
        let answer = self.case(SPLIT, &[], run, || format!("position {n}"))?;
        if answer.number != 0 || packed((answer.results[0], answer.results[1])) != Some(n) {
            return Err(format!("split: {n} gives {:?}", answer.results));
        }
        Ok(answer)
    }

    fn survey_advance(&mut self, table: &[u8], log: u64, at: (u64, u64), digest: &[u8], value: &[u8]) -> Checked<Answer> {
        let run = |side: &Side, b: &mut [Lent], r: &mut [u64; 5]| {
            let (low, high) = r.split_at_mut(1);
            side.survey_advance(b[0].get_mut(), log, at, digest, value, &mut low[0], &mut high[0])
        };
        let says = || format!("log {log}, survey and reading {at:?}, digest {}, value {}", hex(digest), hex(value));
        let answer = self.case(SURVEY_ADVANCE, &[table], run, says)?;
        if let Some(n) = packed(at) {
            let plain = self.advance(table, log, n, digest, value)?;
            same_answer(SURVEY_ADVANCE, &answer, &plain)?;
        }
        let lengths = digest.len() == 32 && value.len() == 32;
        reports_if_done(SURVEY_ADVANCE, turned_away(SURVEY_ADVANCE, lengths, at, answer)?, 2)
    }

    fn survey_lookup(
        &mut self, table: &[u8], log: u64, at: (u64, u64), nonce: &[u8], receipt_bytes: usize,
    ) -> Checked<Answer> {
        let receipt = self.random.bytes(receipt_bytes);
        let run = |side: &Side, b: &mut [Lent], r: &mut [u64; 5]| {
            let (receipt, table) = b.split_at_mut(1);
            side.survey_lookup(table[0].get(), log, at, nonce, receipt[0].get_mut(), &mut r[0])
        };
        let says = || format!("receipt, table; log {log}, survey and reading {at:?}, nonce {}", hex(nonce));
        let answer = self.case(SURVEY_LOOKUP, &[&receipt, table], run, says)?;
        if let Some(n) = packed(at) {
            let plain = self.lookup(table, log, n, nonce, receipt_bytes)?;
            if answer.number != 0 {
                // Each call had bytes of its own in the buffer, and left them.
                same_number(SURVEY_LOOKUP, &answer, &plain)?;
            } else {
                same_answer(SURVEY_LOOKUP, &answer, &plain)?;
            }
        }
        let lengths = nonce.len() == 32 && receipt_bytes == 160;
        reports_if_done(SURVEY_LOOKUP, turned_away(SURVEY_LOOKUP, lengths, at, answer)?, 6)
    }

    fn survey_close(&mut self, table: &[u8], log: u64, survey: u64, value: &[u8]) -> Checked<Answer> {
        let run = |side: &Side, b: &mut [Lent], r: &mut [u64; 5]| {
            let (low, high) = r.split_at_mut(1);
            side.survey_close(b[0].get_mut(), log, survey, value, &mut low[0], &mut high[0])
        };
        let answer = self.case(SURVEY_CLOSE, &[table], run, || format!("log {log}, survey {survey}, value {}", hex(value)))?;
        if survey < 1 << 24 {
            let plain = self.advance(table, log, (survey + 1 << 40).wrapping_sub(1), &[0; 32], value)?;
            same_answer(SURVEY_CLOSE, &answer, &plain)?;
        }
        reports_if_done(SURVEY_CLOSE, turned_away(SURVEY_CLOSE, value.len() == 32, (survey, 0), answer)?, 2)
    }

    fn verify(
        &mut self, key: &[u8], receipt: &[u8], nonce: &[u8], keeper: u64, log: u64, position: Option<u64>,
    ) -> Checked<Answer> {
        let run = |side: &Side, b: &mut [Lent], r: &mut [u64; 5]| {
            let mut v = Verdict { keeper: r[0], log: r[1], position: r[2], kind: r[3], reference: r[4] };
            let returned = side.verify(b[0].get(), b[1].get(), b[2].get(), keeper, log, position, &mut v);
            *r = [v.keeper, v.log, v.position, v.kind, v.reference];
            returned
        };
        let call = if position.is_some() { VERIFY } else { VERIFY_END };
        let says = || format!("key, receipt, nonce; keeper {keeper}, log {log}, position {position:?}");
        let answer = self.case(call, &[key, receipt, nonce], run, says)?;
        let due = if [0, 10, 11].contains(&answer.number) { 6 } else { 0 };
        reports(call, answer, due)
    }

    fn certify(
        &mut self, profile: (u64, u64), roster: &[u8], nonce: &[u8], log: u64, n: u64, certificate: &[u8],
    ) -> Checked<Answer> {
        let run = |side: &Side, b: &mut [Lent], r: &mut [u64; 5]| {
            let mut mask = r[1] as u32;
            let returned = side.certify(profile, b[0].get(), b[1].get(), log, n, b[2].get(), &mut r[0], &mut mask);
            r[1] = r[1] >> 32 << 32 | mask as u64;
            returned
        };
        let says = || format!("roster, nonce, certificate; profile {profile:?}, log {log}, position {n}");
        self.case(CERTIFY, &[roster, nonce, certificate], run, says)
    }

    fn contradiction(&mut self, profile: (u64, u64), roster: &[u8], receipts: &[u8]) -> Checked<Answer> {
        let run = |side: &Side, b: &mut [Lent], r: &mut [u64; 5]| {
            let [mut first, mut second, found, ..] = *r;
            let mut seen = found as u8;
            let returned = side.contradiction(profile, b[0].get(), b[1].get(), &mut seen, &mut first, &mut second);
            (r[0], r[1], r[2]) = (first, second, found >> 8 << 8 | seen as u64);
            returned
        };
        let says = || format!("roster, receipts; profile {profile:?}");
        let answer = self.case(CONTRADICTION, &[roster, receipts], run, says)?;
        if answer.number == 0 {
            let found = answer.results[2] as u8;
            if found > 1 || found == 0 && answer.results[..2] != [UNTOUCHED; 2] {
                return Err(format!("contradiction: found {found}, places {:?}", &answer.results[..2]));
            }
            self.piles[found as usize] += 1;
        }
        Ok(answer)
    }

    /// The answer of the driver's own reading: the first pair and the blocks of a pile, unless there is a refusal. A certificate
    /// of the same receipts counts the same blocks, whatever it is asked for.
    fn pooled(&mut self, profile: (u64, u64), roster: &[u8], pile: &[Made]) -> Checked<()> {
        let receipts = pile_bytes(pile);
        let answer = self.contradiction(profile, roster, &receipts)?;
        let number = refusal(profile, roster, receipts.len());
        let found = (answer.number == 0 && answer.results[2] as u8 == 1).then(|| (answer.results[0], answer.results[1]));
        let due = if number == 0 { first_pair(pile) } else { None };
        if answer.number != number || found != due {
            return Err(format!("contradiction: {} and {found:?}, not {number} and {due:?}", answer.number));
        }
        let hashed = if number == 0 { 6 * pile.iter().filter(|made| made.hashed).count() } else { 0 };
        reports(CONTRADICTION, answer, hashed as u64)?;
        let (nonce, log) = (self.random.bytes(32), self.random.below(2));
        let certified = self.certify(profile, roster, &nonce, log, 1, &receipts)?;
        reports(CERTIFY, certified, hashed as u64)?;
        Ok(())
    }

    fn receipt_sentence(&mut self, number: u8, v: &Verdict, bytes: usize) -> Checked<Answer> {
        let sentence = self.random.bytes(bytes);
        let run = |side: &Side, b: &mut [Lent], _: &mut [u64; 5]| {
            let own = *v;
            let returned = side.receipt_sentence(number, &own, b[0].get_mut());
            assert_eq!(own, *v, "{}: wrote the verdict", side.name);
            alone(returned)
        };
        let answer = self.case(RECEIPT_SENTENCE, &[&sentence], run, || format!("number {number}, {v:?}"))?;
        sentence_fits(answer)
    }

    fn certificate_sentence(&mut self, number: u8, place: u64, mask: u32, bytes: usize) -> Checked<Answer> {
        let sentence = self.random.bytes(bytes);
        let run = |side: &Side, b: &mut [Lent], _: &mut [u64; 5]| {
            alone(side.certificate_sentence(number, place, mask, b[0].get_mut()))
        };
        let says = || format!("number {number}, place {place}, mask {mask:#x}");
        let answer = self.case(CERTIFICATE_SENTENCE, &[&sentence], run, says)?;
        sentence_fits(answer)
    }

    fn compare(&mut self, run1: &Run, run2: &Run, collision_bytes: usize) -> Checked<Answer> {
        let collision = self.random.bytes(collision_bytes);
        let run = |side: &Side, b: &mut [Lent], r: &mut [u64; 5]| {
            let mut verdict = r[0] as u8;
            let returned = side.compare(run1, run2, b[0].get_mut(), &mut verdict);
            r[0] = r[0] >> 8 << 8 | verdict as u64;
            returned
        };
        let says = || {
            let one = |r: &Run| format!("start {}, first {}, values {}", hex(&r.start), r.first, hex(&r.values));
            format!("run 1: {}\n  run 2: {}", one(run1), one(run2))
        };
        let answer = self.case(COMPARE, &[&collision], run, says)?;
        if answer.number == 0 {
            let verdict = answer.results[0] as u8 as usize;
            self.verdicts[verdict] += 1;
            if verdict != 2 && answer.lent[0] != collision {
                return Err("compare: another verdict than collision wrote the buffer".to_string());
            }
        }
        reports_if_done(COMPARE, answer, 2 * ((run1.values.len() + run2.values.len()) / 32) as u64)
    }

    // ---- inputs ----

    /// Mostly the right length.
    fn length(&mut self, right: usize) -> usize {
        if self.random.once_in(24) {
            self.random.pick(&[0, 1, right - 1, right + 1, right * 2, right + 32, right / 2])
        } else {
            right
        }
    }

    fn value(&mut self) -> Vec<u8> {
        let n = self.length(32);
        if self.random.once_in(8) {
            vec![0; n]
        } else {
            self.random.bytes(n)
        }
    }

    /// Mostly a log that the table has.
    fn log(&mut self, g: u64) -> u64 {
        if self.random.once_in(20) {
            let log = self.random.below(g);
            self.random.pick(&[g, g + 1, 15, 16, 255, 256 + log, (1 << 16) + log, (1 << 32) + log, u64::MAX])
        } else {
            self.random.below(g)
        }
    }

    /// A position around the log's own ones.
    fn position(&mut self, t: &[u8], log: u64) -> u64 {
        let (low, high) = if log < logs(t) { bounds(t, log) } else { (1, 0) };
        match self.random.below(10) {
            0 => self.random.pick(&[0, 1, 2, u64::MAX, u64::MAX - 1, 1 << 63, 1 << 32]),
            1 => low.wrapping_add(self.random.below(3)).wrapping_sub(1),
            2 => high.wrapping_add(self.random.below(4)).wrapping_sub(1),
            3 => self.random.next(),
            4..=6 if log < logs(t) => {
                let held = positions(t, log);
                if held.is_empty() {
                    return self.random.below(3);
                }
                self.random.pick(&held).wrapping_add(self.random.below(3)).wrapping_sub(1)
            }
            _ if high > low => low + self.random.below((high - low).saturating_add(1)),
            _ => high.saturating_add(1),
        }
    }

    /// A survey and a reading: those of a position, or a number too wide for its part.
    fn pair(&mut self, n: u64) -> (u64, u64) {
        let (survey, reading) = (n >> 40, n % (1 << 40));
        match self.random.below(12) {
            0 => (self.random.pick(&[1 << 24, (1 << 24) + survey, 1 << 32, (1 << 32) + survey, u64::MAX]), reading),
            1 => (survey, self.random.pick(&[1 << 40, (1 << 40) + reading, 1 << 63, u64::MAX])),
            2 => (self.random.pick(&[0, 1, survey + 1, (1 << 24) - 1, 1 << 24]), self.random.pick(&[0, 1, (1 << 40) - 1, 1 << 40])),
            _ => (survey, reading),
        }
    }

    /// Reserves that the slots allow: none, some, or all slots promised.
    fn reserves(&mut self, g: u64, s: u64) -> Vec<u64> {
        let mut reserves = vec![0; g as usize];
        let mut left = match self.random.below(4) {
            0 => 0,
            1 => s,
            _ => self.random.below(s + 1),
        };
        while left > 0 {
            let part = 1 + self.random.below(left);
            reserves[self.random.below(g) as usize] += part;
            left -= part;
        }
        reserves
    }

    /// Another number of reserves, or such that the slots do not allow.
    fn no_reserves(&mut self, g: u64, s: u64) -> Vec<u64> {
        let mut reserves = self.reserves(g, s);
        let (count, together) = (reserves.len(), reserves.iter().sum::<u64>());
        let (one, other) = (self.random.below(g) as usize, self.random.below(g) as usize);
        match self.random.below(5) {
            0 | 1 => {
                let n = self.random.pick(&[0, count - 1, count + 1, 2 * count, 16, 17]);
                reserves.resize(n, 0);
            }
            2 => reserves[one] += s - together + 1,
            3 => {
                let n = self.random.next();
                reserves[one] = self.random.pick(&[s + 1, 801, 65535, 65536, 65537, 1 << 32, 1 << 63, u64::MAX, n]);
            }
            _ => {
                // Two that are nothing together where sums are cut to 64 bits, or to 16.
                let n = self.random.pick(&[1, 1 << 63, 65535, 65536]);
                reserves.fill(0);
                reserves[one] = n;
                reserves[other] = if n == 65535 { 1 } else { n.wrapping_neg() };
            }
        }
        reserves
    }

    fn hashes(&mut self, times: u64) -> Checked<()> {
        for (message, digest) in [
            (&b""[..], "e3b0c44298fc1c149afbf4c8996fb92427ae41e4649b934ca495991b7852b855"),
            (b"abc", "ba7816bf8f01cfea414140de5dae2223b00361a396177a9cb410ff61f20015ad"),
            (
                b"abcdbcdecdefdefgefghfghighijhijkijkljklmklmnlmnomnopnopq",
                "248d6a61d20638b8e5c026930c3e6039a33ce45964ff2167f6ecedd419db06c1",
            ),
        ] {
            known(&self.hash(message, 32)?, digest)?;
        }
        for (n, blocks) in [(0, 1), (55, 1), (56, 2), (64, 2), (119, 2), (120, 3), (1_000_000, 15626)] {
            let answer = self.hash(&vec![0; n], 32)?;
            reports(HASH, answer, blocks)?;
        }
        for n in 0..=300 {
            let message = self.random.bytes(n);
            self.hash(&message, 32)?;
            if n % 10 == 0 {
                let wrong = self.random.pick(&[0, 1, 31, 33, 64]);
                self.hash(&message, wrong)?;
            }
        }
        for i in 0..60 * times {
            let most = if i % 20 == 0 { 1 << 20 } else { 1 << 13 };
            let n = self.random.below(most) as usize;
            let message = self.random.bytes(n);
            self.hash(&message, 32)?;
        }
        Ok(())
    }

    fn tags(&mut self, times: u64) -> Checked<()> {
        // RFC 4231, cases 1, 2, 4, 6 and 7.
        let counted: Vec<u8> = (1..=25).collect();
        let long: &[u8] = b"This is a test using a larger than block-size key and a larger than block-size data. \
            The key needs to be hashed before being used by the HMAC algorithm.";
        for (key, text, tag) in [
            (&[0x0b; 20][..], &b"Hi There"[..], "b0344c61d8db38535ca8afceaf0bf12b881dc200c9833da726e9376c2e32cff7"),
            (
                b"Jefe",
                b"what do ya want for nothing?",
                "5bdcc146bf60754e6a042426089575c75a003f089d2739839dec58b964ec3843",
            ),
            (&counted, &[0xcd; 50], "82558a389a443c0ea4cc819899f2083a85f0faa3e578f8077a2e3ff46729665b"),
            (
                &[0xaa; 131],
                b"Test Using Larger Than Block-Size Key - Hash Key First",
                "60e431591ee0b67f0d8a26aacbf5b77f8e0bc6213728c5140546040f0ee37f54",
            ),
            (&[0xaa; 131], long, "9b09ffa71b942fcb27635fbcd5b0e944bfdc63644f0713938a7f51535c3a35e2"),
        ] {
            known(&self.tag(key, text, 32)?, tag)?;
        }
        for (k, n, blocks) in [(0, 0, 4), (32, 128, 6), (64, 128, 6), (65, 128, 8), (131, 54, 7), (131, 152, 9)] {
            let answer = self.tag(&vec![0; k], &vec![0; n], 32)?;
            reports(TAG, answer, blocks)?;
        }
        for n in 0..=200 {
            let key = self.random.bytes(n);
            for _ in 0..times.min(20) + 2 {
                let most = self.random.pick(&[1, 65, 130, 300, 5000]);
                let (n, tag) = (self.random.below(most) as usize, self.length(32));
                let text = self.random.bytes(n);
                self.tag(&key, &text, tag)?;
            }
        }
        Ok(())
    }

    fn formats(&mut self, times: u64) -> Checked<()> {
        for _ in 0..100 * times {
            let (g, s) = if self.random.once_in(2) {
                (1 + self.random.below(16), self.random.pick(&[1, 2, 7, 40, 799, 800]))
            } else {
                (
                    self.random.pick(&[0, 1, 2, 3, 15, 16, 17, 255, 256, 257, 1 << 32, u64::MAX]),
                    self.random.pick(&[0, 1, 2, 7, 40, 799, 800, 801, 65535, 65536, 65537, 1 << 32, u64::MAX]),
                )
            };
            let fits = (1..=16).contains(&g) && (1..=800).contains(&s);
            let mut n = if fits { table_bytes(g, s) } else { self.random.below(200) as usize };
            if self.random.once_in(4) {
                n = self.random.pick(&[0, n.saturating_sub(2), n.saturating_sub(1), n + 1, n + 76, 51, 52, 53, 54, 55]);
            }
            let (table, keeper, key) = (self.random.bytes(n), self.random.next(), self.length(32));
            let key = self.random.bytes(key);
            let (most, room) = (g.clamp(1, 17), s.min(800));
            let reserves = if self.random.once_in(3) { self.no_reserves(most, room) } else { self.reserves(most, room) };
            let answer = self.format(&table, g, s, keeper, &key, &reserves)?;
            let together: u128 = reserves.iter().map(|n| *n as u128).sum();
            let due = if !fits {
                8
            } else if n != table_bytes(g, s) || key.len() != 32 || reserves.len() as u64 != g {
                7
            } else if together > s as u128 {
                8
            } else {
                0
            };
            if answer.number != due {
                return Err(format!("format: {} and not {due} for logs {g}, slots {s}, {reserves:?}", answer.number));
            }
            if answer.number == 0 {
                if self.check(&answer.lent[0])?.number != 0 {
                    return Err(format!("format: the table with the reserves {reserves:?} is torn"));
                }
                self.stocked(&answer.lent[0])?;
                if (0..g).any(|log| get(&answer.lent[0], reserve_at(log), 2) != reserves[log as usize]) {
                    return Err(format!("format: the rows have other reserves than {reserves:?}"));
                }
                if !free_chain(&answer.lent[0]).into_iter().eq(1..=s) {
                    return Err("format: the free slots are not 1 to S in rising order".to_string());
                }
            }
        }
        Ok(())
    }

    /// A call at random; gives the table after it, and what a verifier needs if a receipt was written.
    fn step(&mut self, t: &[u8]) -> Checked<(Vec<u8>, Option<(Vec<u8>, Vec<u8>)>)> {
        let log = self.log(logs(t));
        let after = match self.random.below(15) {
            0..=3 => {
                let value = self.value();
                let answer = self.append(t, log, &value)?;
                room(t, log, answer)?.lent.swap_remove(0)
            }
            4 | 5 => {
                let high = if log < logs(t) { bounds(t, log).1 } else { 0 };
                let n = match self.random.below(60) {
                    0 => u64::MAX,
                    1..=40 => high.saturating_add(1 + self.random.below(5)),
                    41..=44 => high.saturating_add(self.random.next() >> 8),
                    _ => self.position(t, log),
                };
                let (digest, value) = (self.value(), self.value());
                let answer = self.advance(t, log, n, &digest, &value)?;
                room(t, log, answer)?.lent.swap_remove(0)
            }
            6 | 7 => {
                let n = self.position(t, log);
                self.truncate(t, log, n)?.lent.swap_remove(0)
            }
            8..=10 => {
                let (n, nonce, receipt) = (self.position(t, log), self.value(), self.length(160));
                let answer = self.lookup(t, log, n, &nonce, receipt)?;
                if answer.number == 0 {
                    return Ok((t.to_vec(), Some((answer.lent[0].clone(), nonce))));
                }
                t.to_vec()
            }
            11 => {
                let high = if log < logs(t) { bounds(t, log).1 } else { 0 };
                let n = if self.random.once_in(4) { self.position(t, log) } else { high.saturating_add(1 + self.random.below(5)) };
                let (at, digest, value) = (self.pair(n), self.value(), self.value());
                let answer = self.survey_advance(t, log, at, &digest, &value)?;
                room(t, log, answer)?.lent.swap_remove(0)
            }
            12 => {
                let high = if log < logs(t) { bounds(t, log).1 } else { 0 };
                let (at, value) = (self.pair(high), self.value());
                let survey = if self.random.once_in(12) { at.0 } else { (high >> 40) + self.random.below(2) };
                let answer = self.survey_close(t, log, survey, &value)?;
                room(t, log, answer)?.lent.swap_remove(0)
            }
            13 => {
                let n = self.position(t, log);
                let (at, nonce, receipt) = (self.pair(n), self.value(), self.length(160));
                let answer = self.survey_lookup(t, log, at, &nonce, receipt)?;
                if answer.number == 0 {
                    return Ok((t.to_vec(), Some((answer.lent[0].clone(), nonce))));
                }
                t.to_vec()
            }
            _ => {
                let (nonce, receipt) = (self.value(), self.length(160));
                let answer = self.end(t, log, &nonce, receipt)?;
                if answer.number == 0 {
                    return Ok((t.to_vec(), Some((answer.lent[0].clone(), nonce))));
                }
                t.to_vec()
            }
        };
        Ok((after, None))
    }

    /// Edits a table so that it may be torn.
    fn damage(&mut self, t: &mut Vec<u8>) {
        let (g, s) = (logs(t), slots(t));
        let slot = |check: &mut Check| slot_at(t, 1 + check.random.below(s));
        let at = slot(self);
        let other = slot(self);
        let row = row_at(self.random.below(g));
        match self.random.below(29) {
            0..=2 => {
                let at = self.random.below(t.len() as u64) as usize;
                t[at] ^= 1 << self.random.below(8);
            }
            3 => t[at] = self.random.pick(&[0, 1, g as u8, g as u8 + 1, 16, 17, 255]),
            4 => t[at + 1] = self.random.pick(&[1, 128]),
            5 | 6 => {
                let next = self.random.pick(&[0, 1, s, s + 1, 800, 801, 65535, 1 + s / 2]);
                put(t, at + 2, 2, next);
            }
            7 => {
                let n = get(t, at + 4, 8);
                let n = self.random.pick(&[0, n.wrapping_add(1), n.wrapping_sub(1), u64::MAX, n ^ 1 << 56]);
                put(t, at + 4, 8, n);
            }
            8 => t[at + 4 + self.random.below(72) as usize] ^= 1 << self.random.below(8),
            9 => {
                let n = get(t, row, 8);
                let n = self.random.pick(&[0, 1, n.wrapping_add(1), n.wrapping_sub(1), u64::MAX]);
                put(t, row, 8, n);
            }
            10 => {
                let n = get(t, row + 8, 8);
                let n = self.random.pick(&[0, 1, n.wrapping_add(1), n.wrapping_sub(1), u64::MAX]);
                put(t, row + 8, 8, n);
            }
            11 => {
                let at = row + self.random.pick(&[16, 18]);
                let n = self.random.pick(&[0, 1, s, s + 1, 65535, 1 + s / 2]);
                put(t, at, 2, n);
            }
            12 => {
                let n = self.random.pick(&[0, 1, s, s + 1, 65535, 1 + s / 2]);
                put(t, 16, 2, n);
            }
            13 => t[4] = self.random.pick(&[0, 1, g as u8 - 1, g as u8 + 1, 16, 17]),
            14 => {
                let n = self.random.pick(&[0, 1, s - 1, s + 1, 800, 801, s + 256]);
                put(t, 6, 2, n);
            }
            15 => {
                let at = self.random.pick(&[0, 1, 2, 3, 5, 18, 19, 52, 53]);
                t[at] ^= 1 << self.random.below(8);
            }
            16 => {
                let n = t.len();
                let around = [n - 2, n - 1, n + 1, n + 2, n - 76, n - 22, n - 20, n + 76, n + 22, n + 20];
                let header = [0, 1, 4, 19, 20, 51, 52, 53, 54, 55];
                let n = if self.random.once_in(2) { self.random.pick(&around) } else { self.random.pick(&header) };
                t.resize(n, 0);
            }
            17 => t[at..at + SLOT].fill(0),
            18 => {
                let (x, y) = (get(t, at + 2, 2), get(t, other + 2, 2));
                put(t, at + 2, 2, y);
                put(t, other + 2, 2, x);
            }
            19 => {
                let kept = t[at..at + SLOT].to_vec();
                t.copy_within(other..other + SLOT, at);
                t[other..other + SLOT].copy_from_slice(&kept);
            }
            20 => {
                // Another number of free slots.
                let n = named_free(t);
                let n = self.random.pick(&[0, n.wrapping_sub(1), n + 1, s, s - n.min(s), 65535, n ^ 1 << 8]);
                put(t, 18, 2, n & 0xffff);
            }
            21 => {
                // The free chain cut, or led past a slot, and number and last true of what is left.
                let chain = free_chain(t);
                if !chain.is_empty() {
                    let kept = self.random.below(chain.len() as u64) as usize;
                    let on = if self.random.once_in(2) { 0 } else { chain.get(kept + 1).copied().unwrap_or(0) };
                    let at = if kept == 0 { 16 } else { slot_at(t, chain[kept - 1]) + 2 };
                    put(t, at, 2, on);
                    name_free(t);
                }
            }
            22 => t[..4].copy_from_slice(OLD_MARK),
            23 => {
                // A fresh row where the log holds entries, or the other way round.
                put(t, row, 8, 1);
                put(t, row + 8, 8, self.random.pick(&[0, 1]));
                if self.random.once_in(2) {
                    put(t, row + 16, 4, 0);
                }
            }
            24 => {
                // Another last free slot.
                let (n, first) = (named_last(t), get(t, 16, 2));
                let any = 1 + self.random.below(s);
                let n = self.random.pick(&[0, first, any, any, s, s + 1, 65535, n ^ 1 << 8, n << 8 | n >> 8]);
                put(t, 52, 2, n & 0xffff);
            }
            25 => {
                // The first free slot behind the last: a whole table stays whole if its header follows.
                let chain = free_chain(t);
                if chain.len() > 1 {
                    let (first, last) = (chain[0], chain[chain.len() - 1]);
                    put(t, 16, 2, chain[1]);
                    for (slot, next) in [(last, first), (first, 0)] {
                        let at = slot_at(t, slot) + 2;
                        put(t, at, 2, next);
                    }
                    if self.random.once_in(2) {
                        put(t, 52, 2, first);
                    }
                }
            }
            26 | 27 => {
                // Another reserve.
                let n = get(t, row + 20, 2);
                let free = named_free(t);
                let n = self.random.pick(&[0, 1, n + 1, n.wrapping_sub(1), free, n + free, s, s + 1, 65535, n ^ 1 << 8]);
                put(t, row + 20, 2, n & 0xffff);
            }
            _ => {
                let n = t.len();
                let from = self.random.below(n as u64) as usize;
                let garbage = self.random.bytes(n);
                t[from..].copy_from_slice(&garbage[from..]);
            }
        }
    }

    /// Every table call on a table that may be torn.
    fn all_calls(&mut self, t: &[u8], g: u64, near: &[u8]) -> Checked<()> {
        let (log, nonce) = (self.log(g), self.value());
        let n = self.position(near, log);
        let (digest, value, receipt) = (self.value(), self.value(), self.length(160));
        self.check(t)?;
        self.free(t)?;
        self.append(t, log, &value)?;
        self.advance(t, log, n, &digest, &value)?;
        self.truncate(t, log, n)?;
        self.lookup(t, log, n, &nonce, receipt)?;
        self.end(t, log, &nonce, receipt)?;
        let at = self.pair(n);
        self.survey_advance(t, log, at, &digest, &value)?;
        self.survey_lookup(t, log, at, &nonce, receipt)?;
        self.survey_close(t, log, at.0, &value)?;
        Ok(())
    }

    /// Every table call refuses with 1.
    fn torn(&mut self, t: &[u8]) -> Checked<()> {
        let zeros = [0; 32];
        let numbers = [
            self.check(t)?.number,
            self.append(t, 0, &zeros)?.number,
            self.advance(t, 0, u64::MAX, &zeros, &zeros)?.number,
            self.truncate(t, 0, 1)?.number,
            self.lookup(t, 0, 1, &zeros, 160)?.number,
            self.end(t, 0, &zeros, 160)?.number,
            self.survey_advance(t, 0, (1, 0), &zeros, &zeros)?.number,
            self.survey_lookup(t, 0, (1, 0), &zeros, 160)?.number,
            self.survey_close(t, 0, 0, &zeros)?.number,
        ];
        if numbers == [1; 9] { Ok(()) } else { Err(format!("check: a torn table is taken, {numbers:?}")) }
    }

    /// What a table's header says of the free slots is true of its free chain: the number, which the screen shows, and the
    /// last.
    fn stocked(&mut self, t: &[u8]) -> Checked<()> {
        let chain = free_chain(t);
        if named_last(t) != chain.last().copied().unwrap_or(0) {
            return Err(format!("the header names {} the last of the free slots {chain:?}", named_last(t)));
        }
        self.shows(t, Some(chain.len() as u64))
    }

    /// The table has these free slots in this order, and is torn where the header names another of them the last.
    fn queued(&mut self, t: &[u8], slots: &[u64]) -> Checked<()> {
        if self.check(t)?.number != 0 || free_chain(t) != slots {
            return Err(format!("the free slots are {:?}, not {slots:?}", free_chain(t)));
        }
        self.stocked(t)?;
        let last = named_last(t);
        for other in (0..6).filter(|n| *n != last) {
            let mut changed = t.to_vec();
            put(&mut changed, 52, 2, other);
            self.torn(&changed)?;
            self.shows(&changed, Some(slots.len() as u64))?;
        }
        Ok(())
    }

    /// Request [4]: the first free slot is taken, freed ones join the end by rising position.
    fn queue(&mut self) -> Checked<()> {
        enum Step {
            Append,
            Advance(u64),
            Truncate(u64),
        }
        use Step::*;
        let (key, digest, value) = (self.random.bytes(32), self.random.bytes(32), self.random.bytes(32));
        let mut t = self.format(&vec![0; table_bytes(1, 4)], 1, 4, 7, &key, &[0])?.lent.swap_remove(0);
        self.queued(&t, &[1, 2, 3, 4])?;
        let steps: [(Step, &[u64]); 13] = [
            (Append, &[2, 3, 4]),
            (Append, &[3, 4]),
            (Append, &[4]),
            (Truncate(3), &[4, 1, 2]),
            (Append, &[1, 2]),
            (Append, &[2]),
            (Advance(9), &[]),
            // Positions 3, 4, 5 and 9 are now in slots 3, 4, 1 and 2. Slots join an empty queue.
            (Truncate(6), &[3, 4, 1]),
            // In the gap under 9: no slot is freed.
            (Truncate(8), &[3, 4, 1]),
            (Append, &[4, 1]),
            (Append, &[1]),
            (Truncate(11), &[1, 2, 3]),
            (Append, &[2, 3]),
        ];
        for (step, slots) in steps {
            let mut answer = match step {
                Append => self.append(&t, 0, &value)?,
                Advance(n) => self.advance(&t, 0, n, &digest, &value)?,
                Truncate(n) => self.truncate(&t, 0, n)?,
            };
            if answer.number != 0 {
                return Err(format!("a call before the free slots {slots:?} is refused with {}", answer.number));
            }
            t = answer.lent.swap_remove(0);
            self.queued(&t, slots)?;
        }
        Ok(())
    }

    /// Request [5]: reserves as format takes them, and what they promise, with the answers written beside.
    fn promises(&mut self) -> Checked<()> {
        let (key, digest, value) = (self.random.bytes(32), self.random.bytes(32), self.random.bytes(32));
        let expect = |answer: Answer, number: u64, what: &str| -> Checked<Vec<u8>> {
            if answer.number == number {
                return Ok(answer.lent[0].clone());
            }
            Err(format!("{what}: {}, not {number}", answer.number))
        };
        let bytes = vec![0; table_bytes(2, 3)];
        let formats: [(&[u64], usize, u64); 17] = [
            (&[], 32, 7),
            (&[1], 32, 7),
            (&[4], 32, 7),
            (&[0, 0, 0], 32, 7),
            (&[0, 0], 32, 0),
            (&[1, 2], 32, 0),
            (&[3, 0], 32, 0),
            (&[2, 2], 32, 8),
            (&[2, 2], 31, 7),
            (&[0, 4], 32, 8),
            (&[65536, 0], 32, 8),
            (&[0, 65536], 32, 8),
            (&[65535, 1], 32, 8),
            (&[u64::MAX, 0], 32, 8),
            (&[u64::MAX, 1], 32, 8),
            (&[1, u64::MAX], 32, 8),
            (&[1 << 63, 1 << 63], 32, 8),
        ];
        for (reserves, n, number) in formats {
            let answer = self.format(&bytes, 2, 3, 7, &key[..n], reserves)?;
            expect(answer, number, &format!("format with {reserves:?} and a key of {n}"))?;
        }
        for (g, s, number) in [(0, 3, 8), (17, 3, 8), (2, 0, 8), (2, 801, 8)] {
            let answer = self.format(&bytes, g, s, 7, &key, &vec![900; g as usize + 1])?;
            expect(answer, number, "format with counts out of range")?;
        }

        /// Log, position where there is one, and the number due.
        enum Step {
            Append(u64, u64),
            Advance(u64, u64, u64),
            Truncate(u64, u64, u64),
        }
        use Step::*;
        let lists: [(&[u64], &[Step]); 5] = [
            // Log 0 is promised one of the three slots.
            (
                &[1, 0],
                &[
                    Append(1, 0), Append(1, 0), Append(1, 16), Advance(1, 9, 16), Append(0, 0), Append(0, 5), Append(1, 5),
                    Truncate(1, 2, 0), Append(0, 0), Append(1, 5),
                ],
            ),
            // Log 0 is promised all of them: log 1 gets none, also of those that log 0 frees.
            (
                &[3, 0],
                &[
                    Append(1, 16), Append(0, 0), Advance(0, 7, 0), Advance(1, 3, 16), Append(0, 0), Append(1, 5),
                    Append(0, 5), Truncate(0, 8, 0), Append(1, 16), Append(0, 0), Append(0, 0), Append(0, 5),
                ],
            ),
            // What log 0 holds above its reserve does not make up for what log 1 lacks.
            (
                &[1, 1],
                &[
                    Append(0, 0), Append(0, 0), Append(0, 16), Advance(0, 9, 16), Append(1, 0), Append(1, 5),
                    Truncate(0, 2, 0), Append(1, 0), Append(1, 5),
                ],
            ),
            // 3 and 4 come before 16, and before 5.
            (
                &[1, 1],
                &[
                    Append(0, 0), Advance(0, u64::MAX, 0), Append(0, 4), Advance(0, 4, 3), Advance(0, u64::MAX, 3),
                    Append(1, 0), Append(0, 4), Advance(0, 4, 3), Append(1, 5),
                ],
            ),
            (&[0, 0], &[Append(0, 0), Append(0, 0), Append(0, 0), Append(1, 5)]),
        ];
        for (reserves, steps) in lists {
            let answer = self.format(&bytes, 2, 3, 7, &key, reserves)?;
            let mut t = expect(answer, 0, "format")?;
            for (i, step) in steps.iter().enumerate() {
                let (answer, number) = match *step {
                    Append(log, number) => (self.append(&t, log, &value)?, number),
                    Advance(log, n, number) => (self.advance(&t, log, n, &digest, &value)?, number),
                    Truncate(log, n, number) => (self.truncate(&t, log, n)?, number),
                };
                t = expect(answer, number, &format!("reserves {reserves:?}, call {i}"))?;
                self.repromised(&t)?;
            }
        }

        // With all of three slots free a reserve may be 3 and not 4.
        let answer = self.format(&bytes, 2, 3, 7, &key, &[0, 0])?;
        let mut t = expect(answer, 0, "format")?;
        for log in 0..2 {
            for (reserve, torn) in [(3, false), (4, true), (256, true), (65535, true), (0, false)] {
                put(&mut t, reserve_at(log), 2, reserve);
                if torn {
                    self.torn(&t)?;
                } else {
                    expect(self.check(&t)?, 0, "a table whose reserves the free slots make up for")?;
                }
                self.shows(&t, Some(3))?;
            }
        }
        Ok(())
    }

    /// Another reserve of one log of a whole table: it stays whole exactly where the free slots make up for what its logs
    /// lack, and the puts go by it.
    fn repromised(&mut self, t: &[u8]) -> Checked<()> {
        let log = self.random.below(logs(t));
        let (free, held) = (free_chain(t).len() as u64, positions(t, log).len() as u64);
        let most = held + free - lacks(t, log).1;
        let any = self.random.below(most + 1);
        for reserve in [0, held, any, most, most + 1, most + 256, 65535] {
            let mut changed = t.to_vec();
            put(&mut changed, reserve_at(log), 2, reserve);
            if reserve > most {
                self.torn(&changed)?;
                continue;
            }
            if self.check(&changed)?.number != 0 {
                return Err(format!("check: log {log} holds {held}, {free} slots are free, torn by the reserve {reserve}"));
            }
            let value = self.random.bytes(32);
            for putting in [log, self.random.below(logs(t))] {
                let answer = self.append(&changed, putting, &value)?;
                room(&changed, putting, answer)?;
                let above = bounds(t, putting).1.saturating_add(2);
                let answer = self.advance(&changed, putting, above, &value, &value)?;
                room(&changed, putting, answer)?;
            }
        }
        Ok(())
    }

    /// Requests [1] and [4]: the calls want the stored number and last free slot true, and the screen shows the number as it
    /// stands.
    fn screens(&mut self) -> Checked<()> {
        for (g, s, held) in [(1, 1, 0), (1, 1, 1), (2, 3, 0), (2, 3, 2), (16, 800, 0), (16, 800, 333), (16, 800, 800)] {
            let t = filled(g, s, held, &mut self.random);
            let n = s - held;
            if self.check(&t)?.number != 0 {
                return Err("check: a filled table is torn".to_string());
            }
            self.shows(&t, Some(n))?;
            for other in [0, 1, 2, 3, 4, n.saturating_sub(1), n + 1, held, s, s + 1, n ^ 256, n ^ 1 << 15, 65535] {
                if other != n {
                    let mut changed = t.clone();
                    put(&mut changed, 18, 2, other);
                    self.torn(&changed)?;
                    self.shows(&changed, Some(other))?;
                }
            }
            let last = named_last(&t);
            for other in [0, 1, 2, 3, held, held + 1, s - 1, s, s + 1, last ^ 256, last ^ 1 << 15, 65535] {
                if other != last {
                    let mut changed = t.clone();
                    put(&mut changed, 52, 2, other);
                    self.torn(&changed)?;
                    self.shows(&changed, Some(n))?;
                }
            }
            for length in 0..HEADER {
                self.shows(&t[..length], None)?;
            }
            let mut longer = t.clone();
            longer.push(0);
            // With a header of 52 bytes, as it was before request [4].
            let short = [&t[..52], &t[HEADER..]].concat();
            // With rows of 20 bytes, as they were before request [5].
            let (rows, slots) = t[HEADER..].split_at(ROW * g as usize);
            let rows: Vec<u8> = rows.chunks(ROW).flat_map(|row| &row[..20]).copied().collect();
            let narrow = [&t[..HEADER], &rows, slots].concat();
            for other in [&t[..HEADER], &t[..HEADER + 1], &t[..t.len() - 1], &longer, &short, &narrow] {
                self.torn(other)?;
                self.shows(other, Some(n))?;
            }
            // Document 01's own mark, with the number and with the zero bytes that it had in its place.
            for mut old in [t, short] {
                old[..4].copy_from_slice(OLD_MARK);
                for number in [n, 0] {
                    put(&mut old, 18, 2, number);
                    self.torn(&old)?;
                    self.shows(&old, None)?;
                }
            }
        }
        Ok(())
    }

    /// Request [8]: two old tables and their copies, with the bytes written beside, and calls on the copies.
    fn carry_cases(&mut self) -> Checked<()> {
        let zeros = vec![0; 32];
        let entry = |slot: u64, position: u64, value: u64| {
            let mut pair = vec![0; 64];
            put(&mut pair, 24, 8, value);
            Entry { slot, position, pair }
        };
        let expect = |good: bool, what: &str| if good { Ok(()) } else { Err(format!("a carry's case: {what}")) };
        // Of two logs over four slots: 42 at 2 and 43 at 5, after 41 at 1 was forgotten and its slot joined slot 4.
        let log = Log { low: 2, high: 5, entries: vec![entry(2, 2, 42), entry(3, 5, 43)] };
        let fresh = Log { low: 1, high: 0, entries: Vec::new() };
        let said = Said { keeper: 7, key: zeros.clone(), logs: vec![log, fresh], free: vec![4, 1] };
        let mut old = said.old();
        let answer = self.carry(&old, 402)?;
        let copy = &answer.lent[0];
        expect(old.len() == 396 && answer.number == 0, "the lengths 396 and 402")?;
        expect(copy[..20] == *b"A2MU\x02\0\0\x04\0\0\0\0\0\0\0\x07\0\x04\0\x02", "the header")?;
        expect(copy[52..54] == [0, 1] && copy[70..76] == [0, 2, 0, 3, 0, 0], "the last free slot, and the row of log 0")?;
        let receipt = self.lookup(copy, 0, 3, &zeros, 160)?.lent.swap_remove(0);
        expect(receipt[6] == 2 && get(&receipt, 24, 8) == 5 && get(&receipt, 88, 8) == 43, "a lookup in the gap")?;
        let receipt = self.end(copy, 1, &zeros, 160)?.lent.swap_remove(0);
        expect(receipt[6] == 0 && receipt[16..32] == [0; 16], "the end of the fresh log")?;
        // Another length, and a torn table first.
        expect(self.carry(&old, 5)?.number == 7, "a buffer of 5")?;
        put(&mut old, 18, 2, 2);
        expect(self.carry(&old, 402)?.number == 1, "an old table with the number of its free slots")?;
        expect(self.carry(&old, 5)?.number == 1, "that, and a buffer of 5")?;
        expect(self.carry(copy, 402)?.number == 1, "a present table as the old one")?;
        // A full one of two slots.
        let log = Log { low: 1, high: 5, entries: vec![entry(1, 1, 41), entry(2, 5, 42)] };
        let said = Said { keeper: 7, key: zeros.clone(), logs: vec![log], free: Vec::new() };
        let (old, answer) = (said.old(), self.carry(&said.old(), 228)?);
        let copy = &answer.lent[0];
        expect(old.len() == 224 && answer.number == 0, "the lengths 224 and 228")?;
        expect(copy[16..20] == [0; 4] && copy[52..54] == [0; 2], "no free slot")?;
        expect(self.append(copy, 0, &zeros)?.number == 5, "an append to the full one")
    }

    /// What a carry makes of an old table that says this, and what it makes of one number of it changed. Gives the copy.
    fn carries_one(&mut self, said: &Said) -> Checked<Vec<u8>> {
        let (old, copy) = (said.old(), said.copy());
        self.carried(&old, 0, &copy)?;
        if self.check(&copy)?.number != 0 || free_chain(&copy) != said.free {
            return Err("carry: the copy is torn, or its free slots are others".to_string());
        }
        self.stocked(&copy)?;
        let (n, any) = (copy.len(), self.random.below(2 * copy.len() as u64) as usize);
        for wrong in [0, 1, 54, n - 76, n - 22, n - 1, n + 1, n + 2, n + 76, old.len(), any] {
            if wrong != n && self.carry(&old, wrong)?.number != 7 {
                return Err(format!("carry: a buffer of {wrong} bytes and not {n} is taken"));
            }
        }
        // Every other call takes the copy alone, and a carry the old one alone.
        self.torn(&old)?;
        self.shows(&old, None)?;
        self.carried(&copy, 1, &copy)?;
        let mut renamed = copy.clone();
        renamed[..4].copy_from_slice(OLD_MARK);
        self.carried(&renamed, 1, &copy)?;
        let mut renamed = old.clone();
        renamed[..4].copy_from_slice(&copy[..4]);
        self.carried(&renamed, 1, &copy)?;
        // Other lengths.
        let n = old.len();
        for other in [0, 1, 19, 20, 51, 52, 53, 54, n - 76, n - 20, n - 1, n + 1, n + 20, n + 76, copy.len()] {
            let mut cut = old.clone();
            cut.resize(other, 0);
            if other != n {
                self.carried(&cut, 1, &copy)?;
            }
        }
        Ok(copy)
    }

    /// One field of the old table with another number: as document 01 has it, it is torn, or whole with that number.
    fn changed(&mut self, old: &[u8], copy: &[u8], field: &Field, number: u64) -> Checked<()> {
        if get(old, field.at, field.width) == number {
            return Ok(());
        }
        let (mut old, mut copy) = (old.to_vec(), copy.to_vec());
        put(&mut old, field.at, field.width, number);
        if (field.from..=field.to).contains(&number) {
            put(&mut copy, field.in_copy, field.width, number);
            return self.carried(&old, 0, &copy);
        }
        self.carried(&old, 1, &copy)?;
        if self.random.once_in(16) {
            let wrong = self.random.below(copy.len() as u64) as usize;
            self.carried(&old, 1, &copy[..wrong])?;
        }
        Ok(())
    }

    fn carries(&mut self, times: u64) -> Checked<()> {
        self.carry_cases()?;
        // Every field of small tables, every value of each of its bytes.
        for (g, s, held) in [(1, 1, 0), (1, 1, 1), (1, 3, 2), (2, 4, 3), (3, 5, 5)] {
            let said = Said::random(g, s, held, &mut self.random);
            let (old, copy) = (said.old(), self.carries_one(&said)?);
            for field in said.fields() {
                let now = get(&old, field.at, field.width);
                for byte in 0..field.width as u32 {
                    for x in 0..=255 {
                        let number = now & !(255 << (8 * byte)) | x << (8 * byte);
                        self.changed(&old, &copy, &field, number)?;
                    }
                }
            }
        }
        for i in 0..20 * times {
            let g = self.random.pick(&[1, 1, 2, 2, 3, 5, 16]);
            let s = match i % 20 {
                0 => 1 + self.random.below(800),
                1 => 800,
                _ => 1 + self.random.below(14),
            };
            let some = self.random.below(s + 1);
            let held = self.random.pick(&[0, some, some, some, s]);
            let said = Said::random(g, s, held, &mut self.random);
            let (old, mut copy) = (said.old(), self.carries_one(&said)?);
            let fields = said.fields();
            for _ in 0..120 {
                let field = &fields[self.random.below(fields.len() as u64) as usize];
                let (now, any) = (get(&old, field.at, field.width), self.random.next());
                let near = [now.wrapping_add(1), now.wrapping_sub(1), field.from.wrapping_sub(1), field.to.wrapping_add(1)];
                let near = self.random.pick(&near);
                let slot = 1 + self.random.below(s);
                let number = self.random.pick(&[0, 1, near, near, field.from, field.to, slot, s + 1, 800, 801, any]);
                let bits = 8 * field.width as u32;
                self.changed(&old, &copy, field, number & u64::MAX >> (64 - bits))?;
            }
            // Every later list of calls.
            for _ in 0..40 {
                let (after, receipt) = self.step(&copy)?;
                copy = after;
                self.stocked(&copy)?;
                if let Some((receipt, nonce)) = receipt {
                    self.receipt(&receipt, &nonce, said.keeper, &said.key)?;
                }
            }
            if self.check(&copy)?.number != 0 {
                return Err("check: a copy is torn after calls alone".to_string());
            }
        }
        Ok(())
    }

    /// The answer to a carry of what a whole table says, written in document 01's layout: that table without reserves.
    fn carried_back(&mut self, t: &[u8]) -> Checked<()> {
        let mut copy = t.to_vec();
        for log in 0..logs(t) {
            put(&mut copy, reserve_at(log), 2, 0);
        }
        self.carried(&old_of(t), 0, &copy)
    }

    fn tables(&mut self, times: u64) -> Checked<()> {
        self.example()?;
        self.queue()?;
        self.promises()?;
        self.screens()?;
        for i in 0..60 * times {
            let g = self.random.pick(&[1, 1, 2, 2, 3, 5, 16]);
            let s = match i % 40 {
                0 => 1 + self.random.below(800),
                1 => 800,
                _ => 1 + self.random.below(14),
            };
            let (keeper, key) = (self.random.next(), self.random.bytes(32));
            let (before, reserves) = (self.random.bytes(table_bytes(g, s)), self.reserves(g, s));
            let mut t = self.format(&before, g, s, keeper, &key, &reserves)?.lent.swap_remove(0);
            for _ in 0..40 + 2 * s.min(100) {
                let (after, receipt) = self.step(&t)?;
                t = after;
                self.stocked(&t)?;
                if let Some((receipt, nonce)) = receipt {
                    self.receipt(&receipt, &nonce, keeper, &key)?;
                }
                if self.random.once_in(50) {
                    shuffle(&mut t, &mut self.random);
                    self.check(&t)?;
                }
                if self.random.once_in(10) {
                    self.repromised(&t)?;
                    self.carried_back(&t)?;
                    self.carried(&t, 1, &t)?;
                }
                if self.random.once_in(5) {
                    let mut torn = t.clone();
                    for _ in 0..self.random.pick(&[1, 1, 1, 2, 3]) {
                        if torn.len() == t.len() && logs(&torn) == g && slots(&torn) == s {
                            self.damage(&mut torn);
                        }
                    }
                    self.all_calls(&torn, g, &t)?;
                    self.carry(&torn, t.len())?;
                    if torn.len() == t.len() && logs(&torn) == g {
                        self.carry(&old_of(&torn), t.len())?;
                    }
                }
            }
            if self.check(&t)?.number != 0 {
                return Err("check: a table made by calls alone is torn".to_string());
            }
        }
        Ok(())
    }

    /// Document 01's script, as calls, with an end of a fresh log; what line 6 and that end show is document 02's.
    fn example(&mut self) -> Checked<()> {
        let number = |n: u64| {
            let mut v = vec![0; 32];
            put(&mut v, 24, 8, n);
            v
        };
        let zeros = vec![0; 32];
        let mut t = vec![0; table_bytes(2, 3)];
        let expect = |answer: Answer, number: u64, results: &[u64], receipt: &[u64]| -> Checked<Answer> {
            let mut good = answer.number == number && (number != 0 || answer.results[..results.len()] == *results);
            if let [kind, position, reference, value] = receipt {
                let c = &answer.lent[0];
                good &= c[6] as u64 == *kind && get(c, 16, 8) == *position && get(c, 24, 8) == *reference;
                good &= get(c, 88, 8) == *value;
            }
            if good { Ok(answer) } else { Err("document 01's example is answered otherwise".to_string()) }
        };
        t = expect(self.format(&t, 2, 3, 7, &zeros, &[0, 0])?, 0, &[], &[])?.lent.swap_remove(0);
        self.shows(&t, Some(3))?;
        expect(self.end(&t, 1, &zeros, 160)?, 0, &[], &[0, 0, 0, 0])?;
        t = expect(self.append(&t, 0, &number(41))?, 0, &[1, 1], &[])?.lent.swap_remove(0);
        self.shows(&t, Some(2))?;
        t = expect(self.append(&t, 0, &number(42))?, 0, &[1, 2], &[])?.lent.swap_remove(0);
        t = expect(self.advance(&t, 0, 5, &zeros, &number(43))?, 0, &[1, 5], &[])?.lent.swap_remove(0);
        self.shows(&t, Some(0))?;
        expect(self.append(&t, 1, &number(9))?, 5, &[], &[])?;
        expect(self.lookup(&t, 0, 3, &zeros, 160)?, 0, &[3], &[2, 3, 5, 43])?;
        t = expect(self.truncate(&t, 0, 5)?, 0, &[5, 5], &[])?.lent.swap_remove(0);
        self.shows(&t, Some(2))?;
        t = expect(self.append(&t, 1, &number(9))?, 0, &[1, 1], &[])?.lent.swap_remove(0);
        expect(self.lookup(&t, 0, 2, &zeros, 160)?, 0, &[0], &[3, 2, 5, 0])?;
        expect(self.lookup(&t, 0, 6, &zeros, 160)?, 0, &[0], &[0, 6, 5, 0])?;
        expect(self.end(&t, 1, &zeros, 160)?, 0, &[], &[1, 1, 1, 9])?;
        expect(self.end(&t, 0, &zeros, 160)?, 0, &[], &[1, 5, 5, 43])?;
        // Its "others".
        expect(self.truncate(&t, 0, 5)?, 3, &[], &[])?;
        t = expect(self.advance(&t, 0, u64::MAX, &zeros, &number(1))?, 0, &[5, u64::MAX], &[])?.lent.swap_remove(0);
        expect(self.append(&t, 0, &zeros)?, 4, &[], &[])?;
        expect(self.truncate(&t, 0, u64::MAX)?, 0, &[u64::MAX, u64::MAX], &[])?;
        Ok(())
    }

    /// The verifier on a receipt that a table call wrote, as it is and changed.
    fn receipt(&mut self, receipt: &[u8], nonce: &[u8], keeper: u64, key: &[u8]) -> Checked<()> {
        let (log, position) = (receipt[7] as u64, get(receipt, 16, 8));
        let asked = if receipt[0] == b'L' { Some(position) } else { None };
        if self.verify(key, receipt, nonce, keeper, log, asked)?.number != 0 {
            return Err("verify: a receipt that a call wrote is refused".to_string());
        }
        // A changed receipt; with its tag made anew the other tests are reached.
        let mut changed = receipt.to_vec();
        match self.random.below(9) {
            0 | 1 => changed[self.random.below(160) as usize] ^= 1 << self.random.below(8),
            2 => changed[6] = self.random.below(6) as u8,
            3 => changed[7] = self.random.pick(&[0, 1, 14, 15, 16, 17, 255]),
            4 => put(&mut changed, 16, 8, self.random.pick(&[0, 1, position.wrapping_add(1), u64::MAX])),
            5 => put(&mut changed, 24, 8, self.random.pick(&[0, 1, position.wrapping_sub(1), position, u64::MAX])),
            6 => {
                let name = self.random.pick(&[b"LOOKUP", b"END\0\0\0", b"END\0\0P", b"ENDKUP", b"lookup", b"\0OOKUP"]);
                changed[..6].copy_from_slice(name);
            }
            7 => {
                let kind = self.random.below(4);
                changed[6] = kind as u8;
                let around = [position, position.wrapping_sub(1), position.wrapping_add(1), position.wrapping_add(1)];
                put(&mut changed, 24, 8, self.random.pick(&[around[1], around[0], around[2]]));
                if self.random.once_in(2) {
                    changed[64..128].fill(0);
                }
            }
            _ => changed[64 + self.random.below(64) as usize] ^= 1 << self.random.below(8),
        }
        if !self.random.once_in(3) {
            retag(&mut changed, key);
        }
        self.verify(key, &changed, nonce, keeper, log, asked)?;
        // Another question.
        let (mut k, mut g, mut q, mut v) = (keeper, log, asked, nonce.to_vec());
        match self.random.below(7) {
            0 => k = self.random.pick(&[0, keeper ^ 1, keeper ^ 1 << 63]),
            1 => g = self.random.pick(&[log ^ 1, log + 256, log + (1 << 32), 16, u64::MAX]),
            2 => q = Some(self.random.pick(&[0, position ^ 1, position.wrapping_add(1), position ^ 1 << 63])),
            3 => q = if asked.is_some() { None } else { Some(position) },
            4 => v[self.random.below(32) as usize] ^= 1,
            5 => v = self.random.bytes(32),
            _ => {}
        }
        self.verify(key, receipt, &v, k, g, q)?;
        // Other lengths, of good receipts and bad ones.
        if self.random.once_in(3) {
            let key = if self.random.once_in(2) { key.to_vec() } else { self.value() };
            let v = if self.random.once_in(2) { nonce.to_vec() } else { self.value() };
            let mut c = if self.random.once_in(2) { receipt.to_vec() } else { changed };
            if self.random.once_in(2) {
                let n = self.random.pick(&[0, 1, 6, 128, 159, 161, 320]);
                c.resize(n, 0);
            }
            self.verify(&key, &c, &v, keeper, log, asked)?;
        }
        Ok(())
    }

    /// Of a station of three: a good receipt, a member's that is no possible entry, a stranger's, a member's of an end, and
    /// one of the end of a fresh log. The first and the last two are hashed.
    fn mixed(&mut self) -> Checked<()> {
        let (keys, nonce, pair) = (self.random.bytes(96), self.random.bytes(32), self.random.bytes(64));
        let key = |m: usize| &keys[32 * m..32 * (m + 1)];
        let (mut roster, mut certificate) = (Vec::new(), Vec::new());
        for m in 0..3 {
            roster.extend_from_slice(&(m as u64 + 5).to_be_bytes());
            roster.extend_from_slice(key(m));
        }
        let good = |keeper: u64| Receipt::assigned(keeper, 0, 9, &nonce, &pair);
        let impossible = Receipt { reference: 8, ..good(6) };
        let end = Receipt { name: *b"END\0\0\0", ..good(7) };
        let fresh = Receipt::fresh_end(6, 0, &nonce);
        for (receipt, m) in [(good(5), 0), (impossible, 1), (good(8), 1), (end, 2), (fresh, 1)] {
            certificate.extend(receipt.write(key(m)));
        }
        let answer = self.certify((3, 2), &roster, &nonce, 0, 9, &certificate)?;
        if answer.number != 13 {
            return Err(format!("certify: one good receipt of three members gives {}", answer.number));
        }
        reports(CERTIFY, answer, 18)?;
        Ok(())
    }

    fn certificates(&mut self, times: u64) -> Checked<()> {
        self.mixed()?;
        for _ in 0..120 * times {
            let members = match self.random.below(8) {
                0 => self.random.below(34),
                1 => 32,
                _ => 1 + self.random.below(11),
            };
            // Mostly a profile that is permitted: a majority, or any number above half.
            let profile = match self.random.below(24) {
                0 => (members, members / 2),
                1 => (members, members + 1),
                2 => (self.random.below(34), self.random.below(34)),
                3 => (members, members / 2 + 1 + (1 << 63)),
                4 => (members + (1 << 32), members / 2 + 1),
                5..=14 => (members, members / 2 + 1 + self.random.below((members - members / 2).max(1))),
                _ => (members, members / 2 + 1),
            };
            let members = members as usize;
            let mut roster: Vec<(u64, Vec<u8>)> = Vec::new();
            for _ in 0..members {
                let number = if self.random.once_in(2) { self.random.next() } else { self.random.below(4000) };
                roster.push((number, self.random.bytes(32)));
            }
            if members > 1 && self.random.once_in(12) {
                let (from, to) = (self.random.below(members as u64), self.random.below(members as u64));
                roster[to as usize].0 = roster[from as usize].0;
            }
            let mut nonce = self.random.bytes(32);
            let log = self.random.below(16) as u8;
            let position = self.random.pick(&[1, 2, 77, 1 << 40, u64::MAX]);
            let pairs: Vec<Vec<u8>> = (0..3).map(|_| self.random.bytes(64)).collect();
            let receipts = match self.random.below(6) {
                0 => self.random.below(34) as usize,
                1 => 32,
                _ => (members + self.random.below(3) as usize).min(32),
            };
            // How often a receipt is a stray one; with none as many as are needed agree.
            let stray = self.random.pick(&[1000, 8, 3]);
            let two_stories = self.random.once_in(3);
            let mut certificate = Vec::new();
            for p in 0..receipts {
                let m = if members == 0 { 0 } else if p < members && !self.random.once_in(6) {
                    p
                } else {
                    self.random.below(members as u64) as usize
                };
                let (number, key) = roster.get(m).cloned().unwrap_or((9, vec![9; 32]));
                let which = if two_stories { self.random.below(2) } else { self.random.once_in(12) as u64 };
                let mut c = Receipt::assigned(number, log, position, &nonce, &pairs[which as usize]);
                let mut bytes = c.write(&key);
                if self.random.once_in(stray) {
                    match self.random.below(8) {
                        0 => c.keeper ^= 1 << 40,
                        1 => c.log ^= 1,
                        2 => c.nonce[3] ^= 1,
                        3 => {
                            c.position ^= 2;
                            c.reference ^= 2;
                        }
                        4 => c.name = *b"END\0\0\0",
                        5 => {
                            c.kind = self.random.pick(&[0, 2, 3]);
                            c.reference = if c.kind == 0 { position - 1 } else { position.wrapping_add(1) };
                            if c.kind != 2 || self.random.once_in(2) {
                                c.pair = vec![0; 64];
                            }
                        }
                        6 => c.pair[self.random.below(64) as usize] ^= 1,
                        _ => {}
                    }
                    bytes = c.write(&key);
                    if self.random.once_in(4) {
                        bytes[self.random.below(160) as usize] ^= 1 << self.random.below(8);
                    }
                }
                certificate.extend_from_slice(&bytes);
            }
            let mut list = Vec::new();
            for (number, key) in &roster {
                list.extend_from_slice(&number.to_be_bytes());
                list.extend_from_slice(key);
            }
            if self.random.once_in(20) {
                let n = self.random.pick(&[0, list.len() + 1, list.len().saturating_sub(1), list.len() + 8]);
                list.resize(n, 0);
            }
            if self.random.once_in(20) {
                let n = certificate.len();
                let n = self.random.pick(&[n + 1, n.saturating_sub(1), n + 80, 33 * 160]);
                certificate.resize(n, 0);
            }
            if self.random.once_in(20) {
                // Several faults at once: the first in order counts.
                let wrong = self.random.pick(&[0, 31, 33, 64]);
                nonce = self.random.bytes(wrong);
            }
            let (log, position) = match self.random.below(30) {
                0 => (log as u64 + 256, position),
                1 => (log as u64, 0),
                2 => (log as u64, position ^ 1),
                _ => (log as u64, position),
            };
            self.certify(profile, &list, &nonce, log, position, &certificate)?;
        }
        Ok(())
    }

    /// Packing and splitting, and a list of calls whose answers stand in request [10]: a survey closed, and closed again.
    /// Piles of a station of three, keepers 7, 8 and 9, each with its first pair and its blocks.
    fn known_piles(&mut self) -> Checked<()> {
        let station = Station((7..10).map(|number| (number, self.random.bytes(32))).collect());
        let (nonce, other_nonce) = (self.random.bytes(32), self.random.bytes(32));
        let story = |value: u8, digest: u8| [[value; 32], [digest; 32]].concat();
        let assigned = |n: u64, value: u8| Receipt::assigned(7, 0, n, &nonce, &story(value, 9));
        let skipped = |shown: Vec<u8>| Receipt { kind: 2, reference: 5, pair: shown, ..assigned(3, 0) };
        let other = |kind: u8, reference: u64| Receipt { kind, reference, pair: vec![0; 64], ..assigned(3, 0) };
        let made = |letter: char| {
            let key = |m: usize| &station.0[m].1[..];
            let good = |fields: Receipt| Made::good(fields, key(0));
            match letter {
                'a' => good(assigned(3, 41)),
                'A' => good(assigned(3, 42)),
                'd' => good(Receipt { pair: story(41, 8), ..assigned(3, 41) }),
                'e' => good(Receipt { name: *b"END\0\0\0", nonce: other_nonce.clone(), pair: story(41, 8), ..assigned(3, 41) }),
                'l' => good(Receipt { log: 1, ..assigned(3, 42) }),
                'b' => Made::good(Receipt { keeper: 8, ..assigned(3, 42) }, key(1)),
                'c' => good(assigned(4, 41)),
                'C' => good(assigned(4, 42)),
                's' => good(skipped(story(43, 7))),
                'S' => good(skipped(vec![0; 64])),
                'u' => good(other(0, 2)),
                'f' => good(other(3, 4)),
                'n' => good(Receipt::fresh_end(7, 0, &nonce)),
                'x' => Made::forged(assigned(3, 42), key(1)),
                'i' => Made::passed_over(Receipt { kind: 4, ..assigned(3, 42) }, key(0)),
                _ => Made::passed_over(Receipt { keeper: 10, ..assigned(3, 42) }, key(0)),
            }
        };
        for (pile, due, blocks) in [
            ("", None, 0), ("a", None, 6), ("aa", None, 12), ("ab", None, 12), ("al", None, 12), ("ac", None, 12),
            ("aA", Some((0, 1)), 12), ("ad", Some((0, 1)), 12), ("ae", Some((0, 1)), 12), ("sa", Some((0, 1)), 12),
            ("aS", Some((0, 1)), 12), ("sS", None, 12), ("aufn", None, 24), ("su", None, 12), ("bsAa", Some((1, 2)), 24),
            ("uaxA", Some((1, 3)), 24), ("acCA", Some((0, 3)), 24), ("cACa", Some((0, 2)), 24), ("taiA", Some((1, 3)), 12),
            ("tA", None, 6), ("xx", None, 12), ("xa", None, 12), ("ititx", None, 6), ("aaaaaaA", Some((0, 6)), 42),
        ] {
            let made: Vec<Made> = pile.chars().map(made).collect();
            let answer = self.contradiction((3, 2), &station.roster(), &pile_bytes(&made))?;
            let found = (answer.results[2] as u8 == 1).then(|| (answer.results[0], answer.results[1]));
            if answer.number != 0 || found != due {
                return Err(format!("contradiction: of {pile:?} {} and {found:?}, not {due:?}", answer.number));
            }
            reports(CONTRADICTION, answer, blocks)?;
            self.pooled((3, 2), &station.roster(), &made)?;
        }
        // The refusals in their order.
        let zeros = vec![0; 33 * 160];
        for (profile, bytes, number) in [
            ((3, 2), 159, 9), ((3, 3), 161, 9), ((3, 2), 33 * 160, 9), ((3, 2), 32 * 160, 0), ((3, 1), 160, 17),
            ((3, 4), 160, 17), ((4, 3), 159, 12), ((2, 2), 160, 12), ((0, 0), 159, 17), ((33, 17), 0, 17),
        ] {
            let answer = self.contradiction(profile, &station.roster(), &zeros[..bytes])?;
            if (answer.number, answer.blocks) != (number, 0) {
                return Err(format!("contradiction: {profile:?} with {bytes} bytes gives {}, not {number}", answer.number));
            }
        }
        Ok(())
    }

    /// What one list of calls wrote is never a pair. The table is then put back to what it was, and called on: the two lists
    /// together may have pairs.
    fn listed_piles(&mut self) -> Checked<()> {
        let station = Station::random(1, &mut self.random);
        let (number, key) = station.0[0].clone();
        let (g, s) = (1 + self.random.below(3), 1 + self.random.below(8));
        let nothing = vec![0; table_bytes(g, s)];
        let mut t = self.format(&nothing, g, s, number, &key, &vec![0; g as usize])?.lent.swap_remove(0);
        let (mut before, mut lists) = (t.clone(), [Vec::new(), Vec::new()]);
        for (i, list) in lists.iter_mut().enumerate() {
            for turn in 0..80 {
                if i == 0 && turn == 20 {
                    before = t.clone();
                }
                let (after, receipt) = self.step(&t)?;
                t = after;
                list.extend(receipt.map(|(bytes, _)| bytes));
            }
            t = before.clone();
        }
        for of in [&lists[..1], &lists[1..], &lists[..]] {
            let all: Vec<&[u8]> = of.iter().flatten().map(Vec::as_slice).collect();
            for _ in 0..4 {
                let count = if all.is_empty() { 0 } else { self.random.below(33) };
                let pile: Vec<Made> = (0..count).map(|_| Made::written(self.random.pick(&all))).collect();
                if of.len() == 1 && first_pair(&pile).is_some() {
                    return Err("contradiction: one list of calls has written a pair".to_string());
                }
                self.pooled((1, 1), &station.roster(), &pile)?;
            }
        }
        Ok(())
    }

    fn contradictions(&mut self, times: u64) -> Checked<()> {
        self.known_piles()?;
        for _ in 0..8 * times {
            self.listed_piles()?;
        }
        for _ in 0..200 * times {
            let members = self.random.pick(&[1, 2, 3, 3, 4, 7, 31, 32]);
            let station = Station::random(members, &mut self.random);
            let half = members / 2 + 1;
            let any = half + self.random.below(members - half + 1);
            let (lies, strays) = (self.random.pick(&[2, 4, 12, 1 << 40]), self.random.pick(&[2, 5, 20, 1 << 40]));
            let count = match self.random.below(6) {
                0 => self.random.below(34),
                1 => 32,
                2 => self.random.below(3),
                _ => self.random.below(12),
            };
            let mut pile: Vec<Made> =
                (0..count).map(|_| station.receipt(lies, strays, &mut self.random)).collect();
            let mut roster = station.roster();
            let profile = match self.random.below(32) {
                0 => (members, members / 2),
                1 => (members, members + 1),
                2 => (self.random.below(35), self.random.below(35)),
                3 => (members, half + (1 << 63)),
                4 => (members + (1 << 32), half),
                _ => (members, any),
            };
            match self.random.below(16) {
                0 if profile.0 == members => {
                    let n = self.random.pick(&[0, roster.len() + 1, roster.len() - 1, roster.len() - 40, roster.len() + 40]);
                    roster.resize(n, 0);
                }
                1 if members > 1 => {
                    // Two members with one number: no roster.
                    let (from, to) = (self.random.below(members), self.random.below(members));
                    let number = roster[40 * from as usize..][..8].to_vec();
                    roster[40 * to as usize..][..8].copy_from_slice(&number);
                }
                _ => {}
            }
            if self.random.once_in(16) {
                // A receipt that lost bytes on the way, or got some.
                if let Some(last) = pile.last_mut() {
                    let n = self.random.pick(&[0, 1, 80, 159, 161, 240]);
                    last.bytes.resize(n, 0);
                    if n == 0 {
                        pile.pop();
                    }
                }
            }
            self.pooled(profile, &roster, &pile)?;
            // A bit turned somewhere: the sides are held against each other alone.
            let mut receipts = pile_bytes(&pile);
            if !receipts.is_empty() {
                let at = self.random.below(receipts.len() as u64) as usize;
                receipts[at] ^= 1 << self.random.below(8);
                self.contradiction(profile, &roster, &receipts)?;
            }
        }
        Ok(())
    }

    fn surveys(&mut self, times: u64) -> Checked<()> {
        let (last, end) = ((1 << 40) - 1, u64::MAX);
        for n in [0, 1, last, last + 1, last + 2, end - 1, end, 1 << 39, 1 << 41, 1 << 63] {
            self.split(n)?;
            self.pack((n >> 40, n & last))?;
        }
        for at in [((1 << 24) - 1, last), (1 << 24, 0), (0, 1 << 40), (1 << 24, 1 << 40), (end, end), (1 << 32, 5), (5, 1 << 63)] {
            self.pack(at)?;
        }
        for _ in 0..50 * times {
            let (n, at) = (self.any_number(), (self.any_number(), self.any_number()));
            self.split(n)?;
            self.pack(at)?;
            let at = self.pair(n);
            self.pack(at)?;
        }
        let (key, x) = (self.random.bytes(32), [7; 32]);
        let nothing = vec![0; table_bytes(2, 3)];
        let mut t = self.format(&nothing, 2, 3, 7, &key, &[0, 0])?.lent.swap_remove(0);
        let reached = |answer: Answer, number: u64, high: u64| {
            if answer.number != number || number == 0 && answer.results[1] != high {
                return Err(format!("a survey's call: {}, H {}, not {number}, {high}", answer.number, answer.results[1]));
            }
            Ok(answer.lent.into_iter().next().unwrap())
        };
        t = reached(self.survey_advance(&t, 0, (1, 5), &[0; 32], &x)?, 0, 1099511627781)?;
        t = reached(self.survey_close(&t, 0, 1, &x)?, 0, 2199023255551)?;
        t = reached(self.survey_close(&t, 0, 1, &x)?, 3, 0)?;
        t = reached(self.survey_advance(&t, 0, (1, last), &x, &x)?, 3, 0)?;
        t = reached(self.survey_close(&t, 0, 0, &x)?, 3, 0)?;
        t = reached(self.append(&t, 0, &x)?, 0, 2199023255552)?;
        reached(self.survey_close(&t, 0, 1 << 24, &x)?, 18, 0)?;
        reached(self.survey_close(&[], 9, 1 << 24, &x)?, 18, 0)?;
        reached(self.survey_close(&t, 0, 1 << 24, &x[1..])?, 7, 0)?;
        reached(self.survey_advance(&t, 0, (0, 0), &x, &x)?, 3, 0)?;
        reached(self.survey_lookup(&t, 0, (0, 0), &x, 160)?, 3, 0)?;
        let mut t = self.format(&nothing, 2, 3, 7, &key, &[0, 0])?.lent.swap_remove(0);
        t = reached(self.survey_close(&t, 1, (1 << 24) - 1, &x)?, 0, end)?;
        reached(self.append(&t, 1, &x)?, 4, 0)?;
        Ok(())
    }

    /// Narrow and wide, and the least and most of some widths.
    fn any_number(&mut self) -> u64 {
        match self.random.below(4) {
            0 => self.random.below(20),
            1 => self.random.pick(&[0, 9, 10, 99, 100, 1 << 32, 9_999_999_999_999_999_999, u64::MAX - 1, u64::MAX]),
            _ => {
                let shift = self.random.below(64);
                self.random.next() >> shift
            }
        }
    }

    /// What a call answered: mostly 0, else a refusal, or what no call answers.
    fn any_answer(&mut self) -> u8 {
        match self.random.below(8) {
            0..=4 => 0,
            5 | 6 => 1 + self.random.below(20) as u8,
            _ => self.random.next() as u8,
        }
    }

    /// Some of the wording's own lines, every number of a refusal, and verdicts at random.
    fn sentences(&mut self, times: u64) -> Checked<()> {
        let verdict = Verdict { keeper: 7, log: 0, position: 3, kind: 2, reference: 5 };
        for (number, text) in [
            (0, "The receipt is accepted (0): keeper 7 says of log 0 that position 3 is skipped (kind 2), reference 5."),
            (10, "The receipt is refused (10): its tag is wrong."),
            (6, "The receipt is refused (6): unknown."),
        ] {
            let answer = self.receipt_sentence(number, &verdict, 200)?;
            says_exactly(&answer, text)?;
        }
        for (number, mask, text) in [
            (0, 0b10011, "The certificate stands (0) on receipt 2, agreed by members 0, 1, 4."),
            (0, 0b10000, "The certificate stands (0) on receipt 2, agreed by member 4."),
            (13, 0b10011, "The certificate is refused (13): too few members agree."),
        ] {
            let answer = self.certificate_sentence(number, 2, mask, 200)?;
            says_exactly(&answer, text)?;
        }
        for number in 0..=255 {
            self.receipt_sentence(number, &verdict, 200)?;
            self.certificate_sentence(number, 2, 0b10011, 200)?;
        }
        for bytes in (0..=201).chain([255, 256, 400]) {
            self.receipt_sentence(0, &verdict, bytes)?;
            self.certificate_sentence(13, 2, 0, bytes)?;
        }
        let widest = Verdict { keeper: u64::MAX, log: u64::MAX, position: u64::MAX, kind: u64::MAX, reference: u64::MAX };
        self.receipt_sentence(0, &widest, 200)?;
        self.certificate_sentence(0, u64::MAX, u32::MAX, 200)?;
        for i in 0..32 {
            self.certificate_sentence(0, 31, 1 << i, 200)?;
            self.certificate_sentence(0, 31, u32::MAX >> i, 200)?;
        }
        for _ in 0..200 * times {
            let (number, bytes) = (self.any_answer(), self.length(200));
            let kind = if self.random.once_in(8) { self.any_number() } else { self.random.below(4) };
            let v = Verdict {
                keeper: self.any_number(),
                log: if self.random.once_in(4) { self.any_number() } else { self.random.below(16) },
                position: self.any_number(),
                kind,
                reference: self.any_number(),
            };
            self.receipt_sentence(number, &v, bytes)?;
            let (number, place, bytes) = (self.any_answer(), self.any_number(), self.length(200));
            let mask = match self.random.below(4) {
                0 => 1 << self.random.below(32),
                1 => (self.random.next() & self.random.next() & self.random.next()) as u32,
                2 => (self.random.next() | self.random.next()) as u32,
                _ => self.random.next() as u32,
            };
            self.certificate_sentence(number, place, mask, bytes)?;
        }
        Ok(())
    }

    fn runs(&mut self, times: u64) -> Checked<()> {
        for i in 0..120 * times {
            let most = if i % 100 == 0 { 1500 } else { 12 };
            let count = 1 + self.random.below(most);
            let first = match self.random.below(6) {
                0 => 1,
                1 => u64::MAX - count + 1,
                2 => u64::MAX - self.random.below(count + 2),
                3 => self.random.below(3),
                _ => self.random.next() >> 1,
            };
            let run1 = Run { start: self.random.bytes(32), first, values: self.random.bytes(32 * count as usize) };
            // A suffix of it, with the digest before it or another one.
            let skip = if self.random.once_in(3) { 0 } else { self.random.below(count) };
            let mut start = run1.start.clone();
            for j in 0..skip {
                let mut block = first.wrapping_add(j).to_be_bytes().to_vec();
                block.extend_from_slice(&run1.values[32 * j as usize..32 * (j as usize + 1)]);
                block.extend_from_slice(&start);
                PLAIN.hash(&block, &mut start);
            }
            let values = run1.values[32 * skip as usize..].to_vec();
            let mut run2 = Run { start, first: first.wrapping_add(skip), values };
            match self.random.below(12) {
                0 => run2.first = self.random.pick(&[0, 1, run2.first.wrapping_add(1), run2.first ^ 1 << 60]),
                1 => run2.start[self.random.below(32) as usize] ^= 1,
                2 => {
                    let at = self.random.below(run2.values.len() as u64) as usize;
                    run2.values[at] ^= 1 << self.random.below(8);
                }
                3 => {
                    let n = run2.values.len();
                    let n = self.random.pick(&[0, 1, 31, n - 1, n + 1, n - 32, n + 32, n + 16]);
                    run2.values.resize(n, 0);
                }
                4 => {
                    let n = self.length(32);
                    run2.start.resize(n, 0);
                }
                5 => run2 = Run { start: self.random.bytes(32), first: 5, values: self.random.bytes(96) },
                _ => {}
            }
            let collision = self.length(144);
            if self.random.once_in(2) {
                self.compare(&run1, &run2, collision)?;
            } else {
                self.compare(&run2, &run1, collision)?;
            }
        }
        Ok(())
    }

    /// Every value of every byte of small tables, and of a receipt with its tag made anew.
    fn every_byte(&mut self) -> Checked<()> {
        for (g, s, steps) in [(1, 1, 0), (1, 2, 3), (2, 3, 6), (2, 4, 30)] {
            let key = self.random.bytes(32);
            let (before, reserves) = (vec![0; table_bytes(g, s)], self.reserves(g, s));
            let mut t = self.format(&before, g, s, 7, &key, &reserves)?.lent.swap_remove(0);
            for _ in 0..steps {
                t = self.step(&t)?.0;
            }
            for at in 0..t.len() {
                for x in 0..=255 {
                    let mut edited = t.clone();
                    edited[at] = x;
                    self.check(&edited)?;
                    self.free(&edited)?;
                }
            }
        }
        let (key, nonce, pair) = (self.random.bytes(32), self.random.bytes(32), self.random.bytes(64));
        let mut written = vec![Receipt::fresh_end(7, 3, &nonce)];
        for (kind, reference, shows) in [(0, 4, false), (1, 5, true), (2, 6, true), (2, 6, false), (3, 9, false)] {
            let mut fields = Receipt::assigned(7, 3, 5, &nonce, &pair);
            fields.kind = kind;
            fields.reference = reference;
            if !shows {
                fields.pair.fill(0);
            }
            written.push(fields);
        }
        for fields in written {
            let receipt = fields.write(&key);
            for at in (0..32).chain([32, 63, 64, 95, 96, 127]) {
                for x in 0..=255 {
                    let mut edited = receipt.clone();
                    edited[at] = x;
                    retag(&mut edited, &key);
                    self.verify(&key, &edited, &nonce, 7, 3, Some(5))?;
                    self.verify(&key, &edited, &nonce, 7, 3, None)?;
                }
            }
        }
        Ok(())
    }

    /// Every way to link three slots of one log or none, with positions at random, the number of free slots that the owners
    /// leave and the last that the links lead to; where the table is whole, every other number and every other last too, and
    /// every reserve, of which three slots make up for 3.
    fn every_link(&mut self) -> Checked<()> {
        let nothing = vec![0; table_bytes(1, 3)];
        let key = self.random.bytes(32);
        let fresh = self.format(&nothing, 1, 3, 7, &key, &[0])?.lent.swap_remove(0);
        for links in 0..4u64.pow(6) {
            let link = |i: u32| links / 4u64.pow(i) % 4;
            for held in 0..8u64 {
                let mut t = fresh.clone();
                put(&mut t, 16, 2, link(0));
                let free = 3 - held.count_ones() as u64;
                put(&mut t, 18, 2, free);
                let row = row_at(0);
                put(&mut t, row, 8, 1 + self.random.once_in(4) as u64);
                put(&mut t, row + 16, 2, link(1));
                put(&mut t, row + 18, 2, link(2));
                for i in 0..3 {
                    let at = slot_at(&t, i + 1);
                    put(&mut t, at + 2, 2, link(3 + i as u32));
                    if held >> i & 1 == 1 {
                        t[at] = 1;
                        put(&mut t, at + 4, 8, 1 + self.random.below(4));
                    }
                }
                let last_free = free_chain(&t).last().copied().unwrap_or(0);
                put(&mut t, 52, 2, last_free);
                let last = if link(2) == 0 { 0 } else { get(&t, slot_at(&t, link(2)) + 4, 8) };
                put(&mut t, row + 8, 8, last);
                if held == 0 && link(1) == 0 {
                    t[row..row + 20].copy_from_slice(&fresh[row..row + 20]);
                    put(&mut t, row + 18, 2, link(2));
                }
                // Document 01 asks the same of the chains.
                let number = self.check(&t)?.number;
                self.carried(&old_of(&t), number, &t)?;
                if number == 0 {
                    for _ in 0..10 {
                        self.all_calls(&t, 1, &t)?;
                    }
                    for (at, right) in [(18, free), (52, last_free)] {
                        for other in (0..5).filter(|n| *n != right) {
                            put(&mut t, at, 2, other);
                            self.torn(&t)?;
                        }
                        put(&mut t, at, 2, right);
                    }
                    for reserve in 0..6 {
                        put(&mut t, reserve_at(0), 2, reserve);
                        if (self.check(&t)?.number == 0) != (reserve <= 3) {
                            return Err(format!("check: of three slots a reserve of {reserve} is taken otherwise"));
                        }
                    }
                }
            }
        }
        Ok(())
    }

    /// All of it; more times, more inputs.
    pub fn all(&mut self, times: u64) -> Checked<()> {
        self.hashes(times)?;
        self.tags(times)?;
        self.formats(times)?;
        self.surveys(times)?;
        self.carries(times)?;
        self.tables(times)?;
        self.certificates(times)?;
        self.contradictions(times)?;
        self.sentences(times)?;
        self.runs(times)?;
        self.every_byte()?;
        self.every_link()
    }
}

/// The answer, if a put on a whole table that got to ask for a slot was answered by request [5]'s sentence.
fn room(t: &[u8], log: u64, answer: Answer) -> Checked<Answer> {
    if ![0, 5, 16].contains(&answer.number) {
        return Ok(answer);
    }
    let (free, others) = (free_chain(t).len() as u64, lacks(t, log).1);
    let (held, reserve) = (positions(t, log).len() as u64, get(t, reserve_at(log), 2));
    let due = if free == 0 {
        5
    } else if held < reserve || free > others {
        0
    } else {
        16
    };
    if answer.number == due {
        return Ok(answer);
    }
    let number = answer.number;
    Err(format!("a put is answered {number} and not {due}: {held} of {reserve} held, {free} free, others lack {others}"))
}

fn known(answer: &Answer, digest: &str) -> Checked<()> {
    if hex(&answer.lent[0]) == digest {
        Ok(())
    } else {
        Err(format!("a published digest is {digest}, not {}", hex(&answer.lent[0])))
    }
}

/// The position of a survey and a reading, if neither is too wide.
fn packed(at: (u64, u64)) -> Option<u64> {
    (at.0 < 1 << 24 && at.1 < 1 << 40).then(|| at.0 * (1 << 40) + at.1)
}

/// The answer, if it is 7 for a wrong length, then 18 for a number too wide for its part, and 18 for nothing else.
fn turned_away(call: usize, lengths: bool, at: (u64, u64), answer: Answer) -> Checked<Answer> {
    let due = if !lengths { Some(7) } else if packed(at).is_none() { Some(18) } else { None };
    match due {
        Some(n) if answer.number != n => Err(format!("{}: {} and not {n} for {at:?}", CALLS[call], answer.number)),
        None if answer.number == 18 => Err(format!("{}: 18 for {at:?}", CALLS[call])),
        _ => Ok(answer),
    }
}

/// A call by survey and reading answers as the call by position that it makes.
fn same_number(call: usize, one: &Answer, other: &Answer) -> Checked<()> {
    if (one.number, one.blocks, one.results) == (other.number, other.blocks, other.results) {
        return Ok(());
    }
    Err(format!("{}: {} and {:?}, by position {} and {:?}", CALLS[call], one.number, one.results, other.number, other.results))
}

fn same_answer(call: usize, one: &Answer, other: &Answer) -> Checked<()> {
    same_number(call, one, other)?;
    if one.lent == other.lent { Ok(()) } else { Err(format!("{}: other bytes than by position", CALLS[call])) }
}

/// The answer, if an accepted one left a sentence that ends with a full stop, and zero bytes after it.
fn sentence_fits(answer: Answer) -> Checked<Answer> {
    let text = &answer.lent[0];
    let end = text.iter().position(|b| *b == 0).unwrap_or(text.len());
    let whole = end > 0 && text[end - 1] == b'.' && text.is_ascii() && text[end..].iter().all(|b| *b == 0);
    if answer.number == 0 && !whole {
        return Err(format!("no sentence and zero bytes: {}", hex(text)));
    }
    Ok(answer)
}

fn says_exactly(answer: &Answer, text: &str) -> Checked<()> {
    if answer.number == 0 && answer.lent[0].starts_with(text.as_bytes()) && answer.lent[0][text.len()..].iter().all(|b| *b == 0) {
        Ok(())
    } else {
        Err(format!("the sentence is {}, not {text}", String::from_utf8_lossy(&answer.lent[0])))
    }
}

/// Runs the check and prints what it covered. False if a difference was found or some number never came up.
pub fn run(seed: u64, times: u64) -> bool {
    let mut check = Check::new(seed, None);
    println!("Differential check: keeper and plain C on the same inputs, seed {seed}, times {times}");
    if let Err(text) = check.all(times) {
        println!("DIFFERENCE at case {} (seed {seed}, times {times})", check.cases() + 1);
        println!("{text}");
        return false;
    }
    print!("  {:<21}{:>9}", "answers", 0);
    for number in &NUMBERS[1..] {
        print!("{number:>7}");
    }
    println!();
    for (call, counts) in CALLS.iter().zip(&check.counts) {
        print!("  {call:<21}{:>9}", counts[0]);
        for number in &NUMBERS[1..] {
            match counts[*number] {
                0 => print!("{:>7}", "-"),
                count => print!("{count:>7}"),
            }
        }
        println!();
    }
    let (k, e) = (check.kinds, check.ends);
    println!("  lookups: {} unassigned, {} assigned, {} skipped, {} forgotten", k[0], k[1], k[2], k[3]);
    println!("  ends: {} of fresh logs, {} of others", e[0], e[1]);
    println!("  piles: {} with a contradiction, {} without", check.piles[1], check.piles[0]);
    println!(
        "  comparisons: {} differ, {} agree, {} collisions (one would need a collision of SHA-256)",
        check.verdicts[0], check.verdicts[1], check.verdicts[2]
    );
    println!("  longest message hashed: {} bytes", check.longest);
    let mut full = true;
    for number in 0..19 {
        let came = check.counts.iter().any(|c| c[number] != 0);
        if number == 6 && came {
            println!("  number 6 came up, which no call answers any more");
            full = false;
        }
        if NUMBERS.contains(&number) && !came {
            println!("  number {number} never came up: the check is too weak");
            full = false;
        }
    }
    let some_never = check.kinds.contains(&0) || check.ends.contains(&0) || check.piles.contains(&0);
    if some_never || check.verdicts[0] == 0 || check.verdicts[1] == 0 {
        println!("  some kind or verdict never came up: the check is too weak");
        full = false;
    }
    if full {
        println!("  {} cases, no difference", check.cases());
    }
    full
}

/// Spoils one answer of plain C at a time: each must be found.
pub fn self_test(seed: u64) -> bool {
    let mut found = 0;
    for call in 0..CALLS.len() {
        for part in Part::ALL.into_iter().filter(|part| part.is_of(call)) {
            let mut check = Check::new(seed, Some((call, part)));
            let finding = match part {
                Part::Number | Part::Promise => "the numbers differ",
                Part::Blocks => "the blocks differ",
                Part::Result => "the results differ",
                Part::Byte => "the bytes of buffer 0 differ",
                Part::BehindTheBuffer => "plain C: wrote outside a buffer",
                Part::Reserve => "the bytes of buffer 0 differ, first at 75",
                Part::Old => "the bytes of buffer 1 differ",
            };
            match check.all(1) {
                Err(text) if text.starts_with(&format!("{}: {finding}", CALLS[call])) => found += 1,
                other => {
                    println!("Self-test: {part:?} spoiled in an answer of {}, but: {other:?}", CALLS[call]);
                    return false;
                }
            }
        }
    }
    println!("Self-test: {found} spoiled answers of plain C, each found");
    true
}
