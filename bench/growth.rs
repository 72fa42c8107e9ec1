//! The rows of bench/plots: how time and instructions grow with a table's slots, a certificate's receipts and a run's values.
//! Each goes out as a line of columns: plot, size, least times in ns and instructions, the keeper's before plain C's; 0 where
//! instructions are not counted.
use crate::count::{self, Counts};
use crate::sides::{Random, Run, KEEPER, PLAIN};
use crate::table::{Table, Times, Work};
use crate::tables::{bounds, filled, Receipt};
use std::hint::black_box;

const SLOTS: [u64; 12] = [1, 25, 50, 100, 150, 200, 300, 400, 500, 600, 700, 800];
const RECEIPTS: [u64; 9] = [1, 4, 8, 12, 16, 20, 24, 28, 32];
const VALUES: [usize; 9] = [10, 30, 100, 300, 1000, 3000, 10_000, 30_000, 100_000];

struct Point {
    plot: String,
    size: String,
    /// In ns.
    least: (f64, f64),
    count: Option<(u64, u64)>,
}

#[derive(Default)]
pub struct Growth(Vec<Point>);

impl Growth {
    /// Of a point that is there the least times are kept.
    pub fn add(&mut self, plot: &str, size: &str, times: &Times, count: Option<(u64, u64)>) {
        let least = times.least;
        match self.0.iter_mut().find(|point| point.plot == plot && point.size == size) {
            Some(point) => point.least = (point.least.0.min(least.0), point.least.1.min(least.1)),
            None => self.0.push(Point { plot: plot.to_string(), size: size.to_string(), least, count }),
        }
    }

    fn print(&self) {
        println!("plot\tsize\tkeeper ns\tplain C ns\tkeeper instructions\tplain C instructions");
        for Point { plot, size, least: (one, two), count } in &self.0 {
            let (a, b) = count.unwrap_or_default();
            println!("{plot}\t{size}\t{one:.1}\t{two:.1}\t{a}\t{b}");
        }
    }
}

/// Few batches of each size, but all sizes again and again, so that a slow spell of the machine meets none of them each time.
pub fn run(quick: bool, work: Work) -> bool {
    let mut counts = Counts::new();
    let mut rounds = 1;
    if work == Work::Time {
        match count::rows(&["count", "growth", if quick { "quick" } else { "full" }]) {
            Ok(found) => counts = found,
            Err(why) => eprintln!("Instructions are not counted: {why}"),
        }
        rounds = if quick { 4 } else { 8 };
    }
    let mut table = Table::new(true, work, counts, Some(Growth::default()));
    for _ in 0..rounds {
        tables(&mut table);
        certificates(&mut table);
        runs(&mut table);
    }
    if let (Work::Time, Some(growth)) = (work, &table.growth) {
        growth.print();
    }
    true
}

/// 16 logs, half of the slots filled, one entry to each log in turn.
fn tables(table: &mut Table) {
    let mut random = Random(21);
    let (value, nonce) = (random.bytes(32), random.bytes(32));
    let tables: Vec<_> = SLOTS.iter().map(|s| (s.to_string(), filled(16, *s, s / 2, &mut random))).collect();
    let (mut l, mut h, mut receipt) = (0, 0, [0; 160]);
    let (mut l2, mut h2, mut receipt2) = (0, 0, [0; 160]);
    table.head("check", "");
    for (s, t) in &tables {
        table.call(s, None, t, &mut |t| KEEPER.check(t) as u64, &mut |t| PLAIN.check(t) as u64);
    }
    table.head("append", "");
    for (s, t) in &tables {
        table.call(
            s, None, t,
            &mut |t| KEEPER.append(t, 0, &value, &mut l, &mut h).number,
            &mut |t| PLAIN.append(t, 0, &value, &mut l2, &mut h2).number,
        );
    }
    // The middle of log 0; position 1 where it is fresh.
    table.head("lookup", "");
    for (s, t) in &tables {
        let middle = (bounds(t, 0).1 / 2).max(1);
        table.call(
            s, None, t,
            &mut |t| KEEPER.lookup(t, 0, middle, &nonce, &mut receipt, &mut l).number,
            &mut |t| PLAIN.lookup(t, 0, middle, &nonce, &mut receipt2, &mut l2).number,
        );
    }
}

/// A roster of 32, of whom 17 must agree: fewer receipts are verified too and then refused.
fn certificates(table: &mut Table) {
    table.head("certificate", "");
    let mut random = Random(22);
    let (nonce, pair) = (random.bytes(32), random.bytes(64));
    let (mut roster, mut pile) = (Vec::new(), Vec::new());
    for m in 100..132u64 {
        let key = random.bytes(32);
        roster.extend_from_slice(&m.to_be_bytes());
        roster.extend_from_slice(&key);
        pile.extend(Receipt::assigned(m, 3, 99, &nonce, &pair).write(&key));
    }
    let (mut p1, mut p2, mut m1, mut m2) = (0, 0, 0, 0);
    for receipts in RECEIPTS {
        let pile = &pile[..160 * receipts as usize];
        let number = if receipts < 17 { 13 } else { 0 };
        let times = table.timer.pair(
            || {
                let answer = KEEPER.certify((32, 17), &roster, &nonce, 3, 99, black_box(pile), &mut p1, &mut m1);
                assert_eq!((answer.number, answer.blocks), (number, 6 * receipts))
            },
            || {
                let answer = PLAIN.certify((32, 17), &roster, &nonce, 3, 99, black_box(pile), &mut p2, &mut m2);
                assert_eq!((answer.number, answer.blocks), (number, 6 * receipts))
            },
        );
        table.row(&receipts.to_string(), &times, None, "");
    }
}

/// Two equal runs of so many values each.
fn runs(table: &mut Table) {
    table.head("runs", "");
    let mut random = Random(23);
    for count in VALUES {
        let run = Run { start: random.bytes(32), first: 1, values: random.bytes(32 * count) };
        let (mut b1, mut b2, mut v1, mut v2) = ([0; 144], [0; 144], 0, 0);
        let other = run.clone();
        let times = table.timer.pair(
            || assert_eq!(KEEPER.compare(&run, black_box(&other), &mut b1, &mut v1).number, 0),
            || assert_eq!(PLAIN.compare(&run, black_box(&other), &mut b2, &mut v2).number, 0),
        );
        assert_eq!((v1, v2), (1, 1));
        table.row(&count.to_string(), &times, None, "");
    }
}
