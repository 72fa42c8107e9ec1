//! The table of ratios. Both sides are timed in turn, batch by batch, so that a slow spell of the machine meets both.
use crate::count::{self, Counts};
use crate::growth::Growth;
use crate::old::old_of;
use crate::sides::{KeeperResult, Random, Run, Side, Verdict, KEEPER, PLAIN};
use crate::tables::*;
use std::cell::Cell;
use std::hint::black_box;
use std::os::raw::c_char;
use std::process::Command;

extern "C" {
    fn clock_gettime(clock: i32, time: *mut [i64; 2]) -> i32;
    fn openssl_sha256(message: *const u8, bytes: usize, digest: *mut u8);
    fn openssl_version() -> *const c_char;
    /// plain.c's hash with the standard's own formulas.
    fn book_hash(message: *const u8, bytes: usize, digest: *mut u8, digest_bytes: usize) -> KeeperResult;
    /// The number of free slots with nothing tested.
    fn plain_two_bytes(table: *const u8) -> u64;
}

/// Columns of a row's label.
const WIDTH: usize = 56;

/// Ratios of times this little above an aim are taken for noise. Those of instructions have none.
const NOISE: f64 = 0.03;

fn median(mut times: Vec<f64>) -> f64 {
    times.sort_by(f64::total_cmp);
    times[times.len() / 2]
}

/// The thread's processor time in ns, which stands still while another process has the processor.
fn now() -> f64 {
    const CLOCK_THREAD_CPUTIME_ID: i32 = 3;
    let mut time = [0; 2];
    assert_eq!(unsafe { clock_gettime(CLOCK_THREAD_CPUTIME_ID, &mut time) }, 0);
    time[0] as f64 * 1e9 + time[1] as f64
}

/// Not inlined, so that two calls of one type are timed by the same code.
#[inline(never)]
fn batch(n: u64, call: &mut impl FnMut()) -> f64 {
    let start = now();
    for _ in 0..n {
        call();
    }
    now() - start
}

/// What is done with the two calls of a row.
#[derive(Clone, Copy, PartialEq)]
pub enum Work {
    Time,
    /// The child's, in callgrind.
    Count,
    /// Only the counts are shown.
    Nothing,
}

pub struct Timer {
    quick: bool,
    work: Work,
    pairs: Cell<usize>,
}

#[derive(Clone, Copy, Default)]
pub struct Times {
    one: f64,
    two: f64,
    ratio: f64,
    /// Of the two sides' shortest batches.
    pub least: (f64, f64),
}

impl Times {
    fn best(&self) -> f64 {
        self.least.0 / self.least.1
    }
}

fn least(times: &[f64]) -> f64 {
    times.iter().copied().fold(f64::INFINITY, f64::min)
}

impl Timer {
    fn new(quick: bool, work: Work) -> Timer {
        Timer { quick, work, pairs: Cell::new(0) }
    }

    /// The calls' times in ns (medians over batches), the median of the ratios of neighbouring batches, and the two sides'
    /// shortest batches, which what else runs on the machine moves least.
    pub fn pair(&self, mut one: impl FnMut(), mut two: impl FnMut()) -> Times {
        if self.work != Work::Time {
            one();
            two();
            if self.work == Work::Count {
                count::pair(self.pairs.replace(self.pairs.get() + 1), &mut one, &mut two);
            }
            return Times::default();
        }
        // Short batches: one that another process cuts into is then one of many, and the median passes it over.
        let aim = if self.quick { 2e5 } else { 4e5 };
        let mut n = 1;
        loop {
            let took = batch(n, &mut one).min(batch(n, &mut two));
            if took >= aim || n >= 1 << 24 {
                break;
            }
            n = if took * 8.0 < aim { n * 8 } else { n * 2 };
        }
        let long = batch(1, &mut one) > 1e7;
        let batches = match (self.quick, long) {
            (true, true) => 5,
            (true, false) => 31,
            (false, true) => 15,
            (false, false) => 201,
        };
        let (mut ones, mut twos, mut ratios) = (Vec::new(), Vec::new(), Vec::new());
        for _ in 0..batches {
            let (x, y) = (batch(n, &mut one), batch(n, &mut two));
            ones.push(x / n as f64);
            twos.push(y / n as f64);
            ratios.push(x / y);
        }
        let least = (least(&ones), least(&twos));
        Times { one: median(ones), two: median(twos), ratio: median(ratios), least }
    }
}

fn shown(ns: f64) -> String {
    if ns < 1e5 {
        format!("{ns:.1} ns")
    } else if ns < 1e7 {
        format!("{:.1} us", ns / 1e3)
    } else {
        format!("{:.2} ms", ns / 1e6)
    }
}

pub struct Table {
    pub timer: Timer,
    counts: Counts,
    title: String,
    /// Rows are kept for bench/plots instead of shown.
    pub growth: Option<Growth>,
    over_in_time: Vec<String>,
    over_in_instructions: Vec<String>,
    rows: u64,
}

impl Table {
    pub fn new(quick: bool, work: Work, counts: Counts, growth: Option<Growth>) -> Table {
        let (timer, title) = (Timer::new(quick, work), String::new());
        Table { timer, counts, title, growth, over_in_time: Vec::new(), over_in_instructions: Vec::new(), rows: 0 }
    }

    pub fn head(&mut self, title: &str, other: &str) {
        self.title = title.to_string();
        match self.timer.work {
            _ if self.growth.is_some() => {}
            Work::Time => println!(
                "\n{title:<WIDTH$}{:>12}{other:>14}{:>8}{:>6}{:>7}{:>6}", "keeper", "ratio", "best", "instr", "aim"
            ),
            Work::Count => {}
            Work::Nothing => println!("\n{title:<WIDTH$}{:>14}{other:>16}{:>8}{:>6}", "keeper", "instr", "aim"),
        }
    }

    pub fn row(&mut self, label: &str, times: &Times, aim: Option<f64>, note: &str) {
        let key = format!("{}: {label}", self.title);
        if self.timer.work == Work::Count {
            return println!("{key}");
        }
        let count = self.counts.get(&key).copied();
        if let Some(growth) = &mut self.growth {
            return growth.add(&self.title, label, times, count);
        }
        let (ratio, best, counted) = (times.ratio, times.best(), count.map(|(one, two)| one as f64 / two as f64));
        let late = aim.filter(|aim| ratio > aim + NOISE && best > aim + NOISE);
        let long = aim.zip(counted).filter(|(aim, counted)| counted > aim);
        let mark = match (late.is_some(), long.is_some()) {
            (false, false) => "",
            (true, false) => "  over in time",
            (false, true) => "  over in instructions",
            (true, true) => "  over in both",
        };
        let shown_aim = aim.map_or(String::new(), |aim| format!("{aim:.2}"));
        let instr = counted.map_or(String::new(), |counted| format!("{counted:.3}"));
        if self.timer.work == Work::Time {
            let (one, two) = (shown(times.one), shown(times.two));
            println!("{label:<WIDTH$}{one:>12}{two:>14}{ratio:>8.2}{best:>6.2}{instr:>7}{shown_aim:>6}{mark}{note}");
        } else if let Some((one, two)) = count {
            println!("{label:<WIDTH$}{one:>14}{two:>16}{instr:>8}{shown_aim:>6}{mark}{note}");
        }
        if late.is_some() {
            self.over_in_time.push(format!("{key}: {ratio:.2}, at best {best:.2}, aim {shown_aim}"));
        }
        if long.is_some() {
            self.over_in_instructions.push(format!("{key}: {instr}, aim {shown_aim}"));
        }
        self.rows += 1;
    }

    fn hashes(&mut self) {
        self.head("SHA-256, against plain C", "plain C");
        for (bytes, label) in SIZES {
            let message = Random(1).bytes(bytes);
            let (mut d1, mut d2) = ([0; 32], [0; 32]);
            let times = self.timer.pair(
                || { KEEPER.hash(black_box(&message), &mut d1); },
                || { PLAIN.hash(black_box(&message), &mut d2); },
            );
            assert_eq!(d1, d2);
            self.row(label, &times, Some(1.0), "");
        }
        self.head("SHA-256, against plain C with the standard's formulas", "plain C");
        for (bytes, label) in SIZES {
            let message = Random(1).bytes(bytes);
            let (mut d1, mut d2) = ([0u8; 32], [0u8; 32]);
            let times = self.timer.pair(
                || { KEEPER.hash(black_box(&message), &mut d1); },
                || unsafe { black_box(book_hash(black_box(&message).as_ptr(), bytes, d2.as_mut_ptr(), 32)); },
            );
            assert_eq!(d1, d2);
            self.row(label, &times, Some(1.0), "");
        }
        self.head("HMAC", "plain C");
        let key = Random(2).bytes(32);
        let text = Random(3).bytes(128);
        let (mut t1, mut t2) = ([0; 32], [0; 32]);
        let times = self.timer.pair(
            || { KEEPER.tag(black_box(&key), &text, &mut t1); },
            || { PLAIN.tag(black_box(&key), &text, &mut t2); },
        );
        self.row("HMAC of 128 bytes, key of 32", &times, None, "");
    }

    /// OpenSSL chooses its code when it is loaded, by the processor's features as the environment leaves them: hence a
    /// process for each choice.
    fn openssl(&mut self) -> bool {
        if self.timer.work != Work::Time {
            return true;
        }
        let mut speeds = Vec::new();
        for (label, mask) in MASKS {
            let mut child = Command::new(std::env::current_exe().unwrap());
            child.args(["hashes", if self.timer.quick { "quick" } else { "full" }, label]);
            child.env_remove("OPENSSL_ia32cap");
            if !mask.is_empty() {
                child.env("OPENSSL_ia32cap", mask);
            }
            let out = child.output().expect("the driver starts itself");
            let text = String::from_utf8_lossy(&out.stdout);
            self.head(&format!("SHA-256, against OpenSSL {label}"), "OpenSSL");
            for (line, (bytes, size)) in text.lines().zip(SIZES) {
                let n: Vec<f64> = line.split(' ').map(|x| x.parse().unwrap()).collect();
                self.row(size, &Times { one: n[0], two: n[1], ratio: n[2], least: (n[3], n[4]) }, None, "");
                if bytes == 1 << 16 {
                    speeds.push(bytes as f64 * 1e3 / n[1]);
                }
            }
        }
        if speeds.len() != MASKS.len() {
            println!("OpenSSL was not timed");
            return false;
        }
        let parted = speeds[0] > 1.3 * speeds[1] && speeds[1] > 1.03 * speeds[2];
        println!(
            "OpenSSL at 64 KB: {:.0}, {:.0} and {:.0} MB/s: the masks {}",
            speeds[0],
            speeds[1],
            speeds[2],
            if parted { "took effect" } else { "MADE NO CLEAR DIFFERENCE (or the processor lacks the features)" }
        );
        true
    }

    /// A call that may change the table: the bytes that it changes are put back after each call, on both sides alike.
    pub fn call(
        &mut self, label: &str, aim: Option<f64>, prepared: &[u8],
        one: &mut dyn FnMut(&mut [u8]) -> u64, two: &mut dyn FnMut(&mut [u8]) -> u64,
    ) {
        let (mut t1, mut t2) = (prepared.to_vec(), prepared.to_vec());
        let (number, other) = (one(&mut t1), two(&mut t2));
        assert!(number == other && t1 == t2, "{label}: the sides differ");
        let changed = spans(prepared, &t1);
        // Both sides work on one buffer, so that they meet the same alignment.
        let shared = std::cell::RefCell::new(prepared.to_vec());
        let restore = |t: &mut [u8]| {
            for (from, to) in &changed {
                t[*from..*to].copy_from_slice(&prepared[*from..*to]);
            }
        };
        let times = self.timer.pair(
            || {
                let t = &mut *shared.borrow_mut();
                black_box(one(t));
                restore(t);
            },
            || {
                let t = &mut *shared.borrow_mut();
                black_box(two(t));
                restore(t);
            },
        );
        let mut note = if number == 0 { String::new() } else { format!("  refused {number}") };
        if !changed.is_empty() && self.timer.work == Work::Time {
            let t = &mut *shared.borrow_mut();
            let mut undo = || restore(black_box(t));
            let ns = median((0..9).map(|_| batch(2000, &mut undo) / 2000.0).collect());
            note += &format!("  putting back {ns:.1} ns");
        }
        let aim = if number != 0 && slots(prepared) == 1 { Some(1.5) } else { aim };
        self.row(label, &times, aim, &note);
    }

    fn calls(&mut self, prepared: &[u8], how: &str) {
        let (g, s) = (logs(prepared), slots(prepared));
        // A refused call on one slot has an aim of its own.
        let large = s == 800;
        let aim = if large { Some(1.0) } else { None };
        let label = |call: &str| format!("{call} ({g},{s}) {how}");
        let mut random = Random(5);
        let (value, digest, nonce) = (random.bytes(32), random.bytes(32), random.bytes(32));
        let (low, high) = bounds(prepared, 0);
        let middle = if high == 0 { 1 } else { low + (high - low) / 2 };
        let cut = low + positions(prepared, 0).len() as u64 / 2;
        let (mut l, mut h, mut receipt) = (0, 0, [0; 160]);
        let (mut l2, mut h2, mut receipt2) = (0, 0, [0; 160]);
        self.call(&label("check"), aim, prepared, &mut |t| KEEPER.check(t) as u64, &mut |t| PLAIN.check(t) as u64);
        self.call(
            &label("append"), Some(if large { 1.0 } else { 1.1 }), prepared,
            &mut |t| KEEPER.append(t, 0, &value, &mut l, &mut h).number,
            &mut |t| PLAIN.append(t, 0, &value, &mut l2, &mut h2).number,
        );
        self.call(
            &label("advance"), Some(1.1), prepared,
            &mut |t| KEEPER.advance(t, 0, high + 3, &digest, &value, &mut l, &mut h).number,
            &mut |t| PLAIN.advance(t, 0, high + 3, &digest, &value, &mut l2, &mut h2).number,
        );
        self.call(
            &label("truncate"), aim, prepared,
            &mut |t| KEEPER.truncate(t, 0, cut, &mut l, &mut h).number,
            &mut |t| PLAIN.truncate(t, 0, cut, &mut l2, &mut h2).number,
        );
        self.call(
            &label("lookup"), aim, prepared,
            &mut |t| KEEPER.lookup(t, 0, middle, &nonce, &mut receipt, &mut l).number,
            &mut |t| PLAIN.lookup(t, 0, middle, &nonce, &mut receipt2, &mut l2).number,
        );
        self.call(
            &label("end"), aim, prepared,
            &mut |t| KEEPER.end(t, 0, &nonce, &mut receipt).number,
            &mut |t| PLAIN.end(t, 0, &nonce, &mut receipt2).number,
        );
    }

    fn tables(&mut self) {
        for (g, s) in [(1, 1), (4, 32), (16, 800)] {
            self.head(&format!("Table calls, {g} logs, {s} slots"), "plain C");
            let mut random = Random(4);
            for (how, entries) in [("empty", 0), ("half", s / 2), ("full", s)] {
                if entries == 0 && how == "half" {
                    continue;
                }
                self.calls(&filled(g, s, entries, &mut random), how);
            }
            if s == 800 {
                for (how, entries) in [("half, shuffled", s / 2), ("full, shuffled", s)] {
                    let mut t = filled(g, s, entries, &mut random);
                    shuffle(&mut t, &mut random);
                    self.calls(&t, how);
                }
                // Every log holds 25 of the 50 slots promised to it, and the free slots are just what the logs lack.
                self.calls(&filled_with(&[50; 16], s, s / 2, &mut random), "half, reserves");
                self.promised();
            }
        }
    }

    /// Log 0 is promised nothing, and the free slots, 400, are just what the others lack: 775 less 375 that they hold.
    fn promised(&mut self) {
        let mut random = Random(10);
        let reserves = [0, 52, 52, 52, 52, 52, 52, 52, 52, 52, 52, 51, 51, 51, 51, 51];
        let t = filled_with(&reserves, 800, 400, &mut random);
        let value = random.bytes(32);
        let (mut l, mut h, mut l2, mut h2) = (0, 0, 0, 0);
        self.call(
            "append (16,800) half, promised", Some(1.0), &t,
            &mut |t| KEEPER.append(t, 0, &value, &mut l, &mut h).number,
            &mut |t| PLAIN.append(t, 0, &value, &mut l2, &mut h2).number,
        );
    }

    /// Its time is that of a few bytes, whatever the table.
    fn screens(&mut self) {
        let mut random = Random(9);
        let (small, large) = (filled(1, 1, 0, &mut random), filled(16, 800, 400, &mut random));
        let tables = [("free slots (1,1) empty", &small, 1), ("free slots (16,800) half", &large, 400)];
        let (mut n1, mut n2) = (0, 0);
        self.head("The status screen's read", "plain C");
        for (label, t, n) in tables {
            let times = self.timer.pair(
                || assert_eq!((KEEPER.free(black_box(t), &mut n1), n1), (0, n)),
                || assert_eq!((PLAIN.free(black_box(t), &mut n2), n2), (0, n)),
            );
            self.row(label, &times, None, "");
        }
        self.head("The status screen's read, against two bytes alone", "two bytes");
        for (label, t, n) in tables {
            let times = self.timer.pair(
                || assert_eq!((KEEPER.free(black_box(t), &mut n1), n1), (0, n)),
                || assert_eq!(unsafe { plain_two_bytes(black_box(t).as_ptr()) }, n),
            );
            self.row(label, &times, None, "");
        }
        self.head("The status screen's read, by size of table", "keeper (1,1)");
        fn read(t: &[u8], n: u64) -> impl FnMut() + '_ {
            let mut found = 0;
            move || assert_eq!((KEEPER.free(black_box(t), &mut found), found), (0, n))
        }
        let times = self.timer.pair(read(&large, 400), read(&small, 1));
        self.row("free slots (16,800) half / (1,1) empty", &times, Some(1.0), "");
    }

    /// An old table carried into one buffer by both sides in turn. It is written whole each time, so nothing is put back.
    fn carries(&mut self) {
        self.head("The carry of an old table", "plain C");
        let mut random = Random(11);
        for (g, s, held, how) in [
            (1, 1, 0, "empty"), (4, 32, 16, "half"), (16, 800, 0, "empty"), (16, 800, 400, "half"), (16, 800, 800, "full"),
            (16, 800, 400, "half, shuffled"), (16, 800, 800, "full, shuffled"),
        ] {
            let mut t = filled(g, s, held, &mut random);
            if how.ends_with("shuffled") {
                shuffle(&mut t, &mut random);
            }
            let old = old_of(&t);
            let shared = std::cell::RefCell::new(vec![0; t.len()]);
            let carried = |side: &Side| assert_eq!(side.carry(black_box(&old), &mut shared.borrow_mut()).number, 0);
            for side in [&KEEPER, &PLAIN] {
                carried(side);
                assert!(*shared.borrow() == t, "carry: the copy is not what the old table says");
                shared.borrow_mut().fill(0);
            }
            let times = self.timer.pair(|| carried(&KEEPER), || carried(&PLAIN));
            self.row(&format!("carry ({g},{s}) {how}"), &times, if s == 800 { Some(1.5) } else { None }, "");
        }
    }

    /// The calls by survey and reading, which are calls by position with a packing before them.
    fn surveys(&mut self) {
        self.head("Calls by survey and reading, 4 logs, 32 slots", "plain C");
        let mut random = Random(12);
        let t = filled(4, 32, 16, &mut random);
        let (value, digest, nonce) = (random.bytes(32), random.bytes(32), random.bytes(32));
        let (mut l, mut h, mut receipt) = (0, 0, [0; 160]);
        let (mut l2, mut h2, mut receipt2) = (0, 0, [0; 160]);
        self.call(
            "advance by survey (4,32) half", None, &t,
            &mut |t| KEEPER.survey_advance(t, 0, (1, 3), &digest, &value, &mut l, &mut h).number,
            &mut |t| PLAIN.survey_advance(t, 0, (1, 3), &digest, &value, &mut l2, &mut h2).number,
        );
        self.call(
            "lookup by survey (4,32) half", None, &t,
            &mut |t| KEEPER.survey_lookup(t, 0, (0, 2), &nonce, &mut receipt, &mut l).number,
            &mut |t| PLAIN.survey_lookup(t, 0, (0, 2), &nonce, &mut receipt2, &mut l2).number,
        );
        self.call(
            "close (4,32) half", None, &t,
            &mut |t| KEEPER.survey_close(t, 0, 1, &value, &mut l, &mut h).number,
            &mut |t| PLAIN.survey_close(t, 0, 1, &value, &mut l2, &mut h2).number,
        );
    }

    fn verifiers(&mut self) {
        self.head("The verifier", "plain C");
        let mut random = Random(6);
        let (key, nonce, pair) = (random.bytes(32), random.bytes(32), random.bytes(64));
        let mut c = Receipt::assigned(7, 3, 99, &nonce, &pair);
        let lookup = c.write(&key);
        c.name = *b"END\0\0\0";
        let end = c.write(&key);
        let mut forged = lookup.clone();
        forged[159] ^= 1;
        let mut impossible = lookup.clone();
        impossible[6] = 0;
        let (mut v1, mut v2) = (Verdict::default(), Verdict::default());
        for (label, receipt, position, number) in [
            ("verify a lookup, accepted", &lookup, Some(99), 0),
            ("verify an end, accepted", &end, None, 0),
            ("verify a lookup, tag wrong", &forged, Some(99), 10),
            ("verify a lookup, no possible entry", &impossible, Some(99), 9),
        ] {
            let times = self.timer.pair(
                || assert_eq!(KEEPER.verify(&key, black_box(receipt), &nonce, 7, 3, position, &mut v1).number, number),
                || assert_eq!(PLAIN.verify(&key, black_box(receipt), &nonce, 7, 3, position, &mut v2).number, number),
            );
            self.row(label, &times, None, "");
        }
        // 375 bytes and their padding are six blocks.
        let six = random.bytes(375);
        let mut digest = [0; 32];
        self.head("The verifier, against six compressions", "keeper's hash");
        let times = self.timer.pair(
            || assert_eq!(KEEPER.verify(&key, black_box(&lookup), &nonce, 7, 3, Some(99), &mut v1).number, 0),
            || { KEEPER.hash(black_box(&six), &mut digest); },
        );
        self.row("verify a lookup / hash of 375 bytes", &times, Some(1.05), "");
    }

    fn certificates(&mut self) {
        self.head("Certificates", "plain C");
        let mut random = Random(7);
        let (nonce, pair) = (random.bytes(32), random.bytes(64));
        for (members, receipts) in [(1, 1), (31, 16), (31, 31)] {
            let profile = (members, (members + 1) / 2);
            let (mut roster, mut pile) = (Vec::new(), Vec::new());
            for m in 0..members {
                let key = random.bytes(32);
                roster.extend_from_slice(&(m as u64 + 100).to_be_bytes());
                roster.extend_from_slice(&key);
                if m < receipts {
                    pile.extend(Receipt::assigned(m as u64 + 100, 3, 99, &nonce, &pair).write(&key));
                }
            }
            let (mut p1, mut p2, mut m1, mut m2) = (0, 0, 0, 0);
            let times = self.timer.pair(
                || {
                    let answer = KEEPER.certify(profile, &roster, &nonce, 3, 99, black_box(&pile), &mut p1, &mut m1);
                    assert_eq!(answer.number, 0)
                },
                || {
                    let answer = PLAIN.certify(profile, &roster, &nonce, 3, 99, black_box(&pile), &mut p2, &mut m2);
                    assert_eq!(answer.number, 0)
                },
            );
            self.row(&format!("{receipts} receipts, roster of {members}"), &times, Some(1.05), "");
        }
    }

    /// Piles of three keepers' receipts on one position, in turn. Keeper 100's are on another where the last two contradict
    /// each other: every other pair is looked at first.
    fn contradictions(&mut self) {
        self.head("Contradictions", "plain C");
        let mut random = Random(12);
        let keys = random.bytes(96);
        let key = |m: u64| &keys[32 * m as usize..32 * (m as usize + 1)];
        let roster: Vec<u8> = (0..3u64).flat_map(|m| [&(m + 100).to_be_bytes()[..], key(m)].concat()).collect();
        let (pair, other) = (random.bytes(64), random.bytes(64));
        for (receipts, last) in [(2, true), (16, true), (32, true), (2, false), (16, false), (32, false)] {
            let mut pile = Vec::new();
            for p in 0..receipts {
                let nonce = random.bytes(32);
                let receipt = if last && p + 2 >= receipts {
                    let told = if p + 1 == receipts { &other } else { &pair };
                    Receipt::assigned(100, 3, 98, &nonce, told).write(key(0))
                } else {
                    Receipt::assigned(p % 3 + 100, 3, 99, &nonce, &pair).write(key(p % 3))
                };
                pile.extend(receipt);
            }
            let due = if last { (1, receipts - 2, receipts - 1) } else { (0, 0, 0) };
            let find = |side: &Side| {
                let (mut found, mut first, mut second) = (9, 0, 0);
                let answer = side.contradiction((3, 2), &roster, black_box(&pile), &mut found, &mut first, &mut second);
                assert_eq!((answer.number, (found as u64, first, second)), (0, due));
            };
            let times = self.timer.pair(|| find(&KEEPER), || find(&PLAIN));
            let what = if last { "the last two contradict" } else { "none" };
            self.row(&format!("{receipts} receipts of three keepers, {what}"), &times, None, "");
        }
    }

    /// An accepted verdict of short numbers and one of long ones, and the least and most members.
    fn sentences(&mut self) {
        self.head("Verdicts in words", "plain C");
        let short = Verdict { keeper: 7, log: 0, position: 3, kind: 2, reference: 5 };
        let long = Verdict { keeper: u64::MAX, log: 15, position: u64::MAX - 1, kind: 2, reference: u64::MAX };
        let (mut s1, mut s2) = ([0; 200], [0; 200]);
        for (label, number, verdict) in
            [("receipt accepted, short numbers", 0, &short), ("receipt accepted, long ones", 0, &long), ("receipt refused", 10, &short)]
        {
            let times = self.timer.pair(
                || assert_eq!(KEEPER.receipt_sentence(number, black_box(verdict), &mut s1), 0),
                || assert_eq!(PLAIN.receipt_sentence(number, black_box(verdict), &mut s2), 0),
            );
            assert_eq!(s1, s2);
            self.row(label, &times, None, "");
        }
        for (label, number, mask) in
            [("certificate, 1 member", 0, 16), ("certificate, 32 members", 0, u32::MAX), ("certificate refused", 13, 0)]
        {
            let times = self.timer.pair(
                || assert_eq!(KEEPER.certificate_sentence(number, 2, black_box(mask), &mut s1), 0),
                || assert_eq!(PLAIN.certificate_sentence(number, 2, black_box(mask), &mut s2), 0),
            );
            assert_eq!(s1, s2);
            self.row(label, &times, None, "");
        }
    }

    fn runs(&mut self) {
        self.head("Comparison of two equal runs", "plain C");
        let mut random = Random(8);
        for (count, label) in [(10, "10 values each"), (1000, "1,000 values each"), (100_000, "100,000 values each")] {
            let run = Run { start: random.bytes(32), first: 1, values: random.bytes(32 * count) };
            let (mut b1, mut b2, mut v1, mut v2) = ([0; 144], [0; 144], 0, 0);
            let other = run.clone();
            let times = self.timer.pair(
                || assert_eq!(KEEPER.compare(&run, black_box(&other), &mut b1, &mut v1).number, 0),
                || assert_eq!(PLAIN.compare(&run, black_box(&other), &mut b2, &mut v2).number, 0),
            );
            assert!(v1 == 1 && v2 == 1);
            self.row(label, &times, Some(1.1), "");
        }
    }
}

const SIZES: [(usize, &str); 4] = [
    (64, "SHA-256 of 64 B"),
    (1 << 10, "SHA-256 of 1 KB"),
    (1 << 16, "SHA-256 of 64 KB"),
    (1 << 24, "SHA-256 of 16 MB"),
];

/// Bits of OPENSSL_ia32cap: of the second word SHA is bit 29, AVX2, BMI1 and BMI2 are bits 5, 3 and 8; of the first AVX
/// and SSSE3 are bits 60 and 41.
const MASKS: [(&str, &str); 3] = [
    ("with SHA extensions", ""),
    ("by AVX2, no SHA extensions", ":~0x20000000"),
    ("scalar (no SHA, AVX, SSSE3)", "~0x1000020000000000:~0x20000128"),
];

/// The child's part: the keeper's hash and OpenSSL's in turn, a line for each size.
pub fn hashes(quick: bool, _label: &str) -> bool {
    let timer = Timer::new(quick, Work::Time);
    for (bytes, _) in SIZES {
        let message = Random(1).bytes(bytes);
        let (mut d1, mut d2) = ([0u8; 32], [0u8; 32]);
        let times = timer.pair(
            || { KEEPER.hash(black_box(&message), &mut d1); },
            || unsafe { openssl_sha256(black_box(&message).as_ptr(), bytes, d2.as_mut_ptr()) },
        );
        assert_eq!(d1, d2);
        println!("{} {} {} {} {}", times.one, times.two, times.ratio, times.least.0, times.least.1);
    }
    true
}

/// All rows. The times, beside them the counts of instructions; or the counts alone; or, in callgrind, what they are made of.
pub fn run(quick: bool, work: Work) -> bool {
    let mut counts = Counts::new();
    if work == Work::Time {
        let version = unsafe { std::ffi::CStr::from_ptr(openssl_version()) };
        println!("libcrypto:  {}", version.to_string_lossy());
    }
    if work != Work::Count {
        match count::rows(&["count", "table", if quick { "quick" } else { "full" }]) {
            Ok(found) => counts = found,
            Err(why) if work == Work::Time => println!("Instructions are not counted: {why}"),
            Err(why) => {
                println!("Instructions are not counted: {why}");
                return false;
            }
        }
        println!("{}", if work == Work::Time { ABOUT_TIMES } else { ABOUT_COUNTS });
        println!("{ABOUT_ROWS}");
        println!("Over in time: ratio and best are above the aim by more than {NOISE}; in instructions: instr is above it.");
    }
    let mut table = Table::new(quick, work, counts, None);
    table.hashes();
    let good = table.openssl();
    table.tables();
    table.screens();
    table.carries();
    table.surveys();
    table.verifiers();
    table.certificates();
    table.contradictions();
    table.sentences();
    table.runs();
    if work == Work::Count {
        return good;
    }
    println!("\n{} rows", table.rows);
    let (timed, counted) = (work == Work::Time, !table.counts.is_empty());
    for (how, done, rows) in
        [("time", timed, &table.over_in_time), ("instructions", counted, &table.over_in_instructions)]
    {
        if done {
            println!("over their aim in {how}: {}", rows.len());
            rows.iter().for_each(|row| println!("  {row}"));
        }
    }
    good
}

const ABOUT_TIMES: &str = "\
Times are processor times of one call: the median over batches, keeper and other side in turn. The ratio is
keeper / other (below 1: the keeper is faster), the median over neighbouring batches; best is the ratio of the
two sides' shortest batches, which what else runs on the machine moves least; instr is the ratio of the
instructions of one call, by valgrind's callgrind. Where a call changes the table, the bytes that it changed are
put back after each call within the timed part, by the same code on both sides; what that takes by itself stands
in the row and is not taken off. The place of the code in memory alone moves a ratio of times by some percent.";

const ABOUT_COUNTS: &str = "\
Instructions of one call, by valgrind's callgrind, and their ratio.";

const ABOUT_ROWS: &str = "\
Half of (1,1) is empty. Lookup asks for the middle of log 0, truncate frees half of its entries. Shuffled: the same
chains over slots at random. Reserves: each log is promised 50 slots and holds 25; promised: the free slots are
promised to the other logs.";

/// The parts of a table that a call changed; parts with less than 16 equal bytes between them are joined.
fn spans(before: &[u8], after: &[u8]) -> Vec<(usize, usize)> {
    let mut found: Vec<(usize, usize)> = Vec::new();
    for i in (0..before.len()).filter(|i| before[*i] != after[*i]) {
        match found.last_mut() {
            Some((_, to)) if i < *to + 16 => *to = i + 1,
            _ => found.push((i, i + 1)),
        }
    }
    found
}
